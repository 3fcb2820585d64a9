"""Rows of six columns for the tool that measures queries: a generator by a seed, as messages, as tuples and as lines of a plain program.

country is a text of 16 values, user a text of so many as are asked for, ok a truth, clicks an INT below 100, spent a LONG below
100,000 and ts a moment. country and ok are indexed.
"""
import random

COUNTRIES = ("fr", "de", "it", "es", "pt", "nl", "be", "lu", "at", "ch", "pl", "cz", "se", "no", "dk", "fi")
START = 1_700_000_000_000
SCHEMA = ('schema {"schemaName":"t","dimensionFieldSpecs":[{"name":"country","dataType":"STRING"},{"name":"user","dataType":"STRING"},'
          '{"name":"ok","dataType":"BOOLEAN"}],"metricFieldSpecs":[{"name":"clicks","dataType":"INT"},{"name":"spent","dataType":"LONG"}],'
          '"dateTimeFieldSpecs":[{"name":"ts","dataType":"TIMESTAMP"}]}')
COLUMNS = "country TEXT, user TEXT, ok INTEGER, clicks INTEGER, spent INTEGER, ts INTEGER"


def header(partitions, rows):
    """The header of a cluster of two servers with so many partitions, and segments of so many rows."""
    return [SCHEMA,
            'table {"tableName":"t","tableType":"REALTIME","segmentsConfig":{"replication":"2"},"tableIndexConfig":{"invertedIndexColumns":'
            f'["country","ok"],"streamConfigs":{{"realtime.segment.flush.threshold.rows":"{rows}","realtime.segment.flush.threshold.time":"1h"}}}}}}',
            f"cluster servers=2 controllers=1 partitions={partitions} start={START} grace=0"]


def rows(seed, count, users):
    """So many rows, whose users are drawn from so many; where there are as many users as rows each row has its own."""
    drawn = random.Random(seed)
    for number in range(count):
        user = number if users == count else drawn.randrange(users)
        yield (drawn.choice(COUNTRIES), f"u{user}", drawn.randrange(2), drawn.randrange(100), drawn.randrange(100_000), START + number * 250)


def message(row):
    """A row as a message."""
    country, user, ok, clicks, spent, ts = row
    return f'{{"country":"{country}","user":"{user}","ok":{"true" if ok else "false"},"clicks":{clicks},"spent":{spent},"ts":{ts}}}'

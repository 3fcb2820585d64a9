"""What a run by the program's words gives: a script's, or a generated run's."""
import re

import header
import limits
import world as worlds

USAGE = "usage: rtplay [gen SEED PARTITIONS ROWS]"
MULTIPLIER, INCREMENT = 6_364_136_223_846_793_005, 1_442_695_040_888_963_407
MOST_INPUT, MOST_ROWS, MOST_ROUNDS = 67_108_864, 1_000_000, 1_000_000
SCHEMA = 'schema {"schemaName":"t","dimensionFieldSpecs":[{"name":"k","dataType":"STRING"}],"metricFieldSpecs":[{"name":"v","dataType":"LONG"}]}'
TABLE = ('table {"tableName":"t","tableType":"REALTIME","segmentsConfig":{"replication":"2"},"tableIndexConfig":{"invertedIndexColumns":["k"],'
         '"streamConfigs":{"realtime.segment.flush.threshold.rows":"1000","realtime.segment.flush.threshold.time":"1h"}}}')
CLUSTER = "cluster servers=3 controllers=2 partitions={} start=1700000000000 grace=0"
QUERY = "query SELECT k, COUNT(*), SUM(v) FROM t GROUP BY k LIMIT 16"


def rows_of(seed, count):
    """The messages of a seed, in order."""
    x = seed
    for _ in range(count):
        x = (x * MULTIPLIER + INCREMENT) % 2**64
        top = x // 2**33
        yield f'{{"k":"k{top % 16}","v":{top // 16 % 1000}}}'


def generate(seed, partitions, rows):
    """The report of a generated run, and what ended it, or none."""
    if not 1 <= partitions <= header.MOST_PARTITIONS:
        return [], "limit: partitions"
    if rows > MOST_ROWS:
        return [], "limit: rows"
    world = worlds.World(worlds.setup_of([SCHEMA, TABLE, CLUSTER.format(partitions)]))
    try:
        for place, row in enumerate(rows_of(seed, rows)):
            world.run(f"produce {place % partitions} {row}")
        world.run(f"settle {MOST_ROUNDS}")
        report = [f"end {partition} {world.end(partition)}" for partition in range(partitions)]
        return [*report, world.run(QUERY)], None
    except limits.Passed as passed:
        return [], f"limit: {passed}"


def play(words, text):
    """The report and what is said on standard error, or none, of a run with these words and this input."""
    if not words:
        if len(text.encode(errors="surrogateescape")) > MOST_INPUT:
            return [], "limit: input"
        report, _, said = worlds.play(text)
        return report, said
    numbers = [int(word) for word in words[1:] if re.fullmatch(r"[0-9]{1,20}", word)]
    if words[0] != "gen" or len(words) != 4 or len(numbers) != 3 or any(number >= 2**64 for number in numbers):
        return [], USAGE
    return generate(*numbers)

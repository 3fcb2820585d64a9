"""Random inputs of a running cluster that end, however their nodes take turns."""
import json
import random

SCHEMA = {"schemaName": "t", "dimensionFieldSpecs": [{"name": "k", "dataType": "STRING"}], "metricFieldSpecs": [{"name": "v", "dataType": "LONG"}]}
QUERIES = ("SELECT COUNT(*), SUM(v), MAX(v) FROM t", "SELECT k, COUNT(*) FROM t GROUP BY k LIMIT 100", "SELECT k, MIN(v) FROM t WHERE v > 3 GROUP BY k ORDER BY MIN(v) DESC, k",
           "SELECT SUM(v) FROM t WHERE NOT k IN ('a', 'b') OR v BETWEEN 2 AND 7", "SELECT COUNT(*) FROM t WHERE k = 'a' AND v <> 4 LIMIT 0")
UNDECODABLE = ("oops", "", '{"k":1}', '{"v":"1"}', "[]")


def dumped(found):
    return json.dumps(found, separators=(",", ":"))


def table(replication, rows, time):
    return dumped({"tableName": "t", "tableType": "REALTIME", "segmentsConfig": {"replication": str(replication)},
                   "tableIndexConfig": {"invertedIndexColumns": ["k"], "streamConfigs": {"realtime.segment.flush.threshold.rows": str(rows),
                                                                                         "realtime.segment.flush.threshold.time": time}}})


def chaos_line(random, servers, controllers, replication):
    """Where a controller hears one replica alone, few messages are lost: else the replies to it may be the lost ones for long."""
    drop = random.choice((0, 0, 3, 4, 7, 10) if replication > 1 else (0, 7, 10))
    crash = f"s{random.randrange(servers)}@{random.choice((0, 1, 5, 20, 50, 120, 400))}" if random.random() < 0.6 else "-"
    return f"chaos drop={drop} repeat={random.choice((0, 0, 1, 2, 5, 10))} crash={crash} leaders={random.choice((1, controllers, controllers))}"


def message(random):
    if random.random() < 0.1:
        return random.choice(UNDECODABLE)
    return dumped({"k": random.choice("abcde"), "v": random.randint(-3, 12)})


def text_of(seed):
    """One input."""
    chosen = random.Random(seed)
    servers, controllers, partitions = chosen.randint(1, 5), chosen.choice((1, 2, 2, 3)), chosen.choice((1, 1, 1, 2, 2, 3, 5))
    replication = chosen.choice((1, 2, 2, 3))
    servers = max(servers, replication)
    lines = [f"schema {dumped(SCHEMA)}", f"table {table(replication, chosen.choice((1, 3, 7, 25, 1000)), chosen.choice(('1h', '40', '10', '0')))}",
             f"cluster servers={servers} controllers={controllers} partitions={partitions} start=1700000000000 grace={chosen.choice((0, 1000, 300000))}"]
    if chosen.random() < 0.85:
        lines.append(chaos_line(chosen, servers, controllers, replication))
    rows = [f"row {chosen.randrange(partitions)} {message(chosen)}" for _ in range(chosen.choice((0, 5, 20, 60, 120)))]
    for query in chosen.sample(QUERIES, chosen.randint(0, 3)):
        rows.insert(chosen.randint(0, len(rows)), f"query {query}")
    return "".join(f"{line}\n" for line in lines + rows)

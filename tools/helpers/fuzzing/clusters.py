"""Headers of small clusters, and what is drawn of messages and queries over their columns."""
import json

import header
import random_queries
import schedules

NAMES = ["k", "v", "i", "b", "ts", "_x1", "a b", "order", "é", "w"]
TIMES = ["1h", "5000", "1d2h", "1s", "0", "6h", 3_600_000]
STARTS = [1_700_000_000_000, 1_700_000_000_000, 0, 1, 253_402_300_799_999, 253_402_300_000_000]
# How many different texts of queries and of messages a cluster has at a time.
DRAWN = 12


class Headers:
    """The setups of headers that were taken, by their three lines."""
    MOST = 2_000

    def __init__(self):
        self.taken = {}

    def read(self, text):
        """As `header.read`."""
        kept = header.kept_lines(text)
        three = tuple(line for _, line in kept[:3])
        setup = self.taken.get(three)
        if setup is not None:
            return setup, kept[3:]
        read = header.read(text)
        if len(self.taken) == self.MOST:
            self.taken.clear()
        self.taken[three] = read[0]
        return read


def schema_of(draws, columns):
    """A schema's text, often with keys that upserts need."""
    schema = {key: value for key, value in json.loads(random_queries.schema_text(columns)).items() if value}
    if draws.often(0.4):
        schema["primaryKeyColumns"] = [column.name for column in columns if draws.often(0.6)] or [columns[0].name]
    return json.dumps(schema, ensure_ascii=draws.often(0.5), separators=(",", ":"))


def segments_of(draws, columns, servers):
    count = draws.randint(1, min(servers, 3))
    segments = {draws.choice(["replication", "replicasPerPartition"]): draws.choice([count, str(count)])}
    times = [column.name for column in columns if column.kind in ("LONG", "TIMESTAMP", "INT")]
    if times and draws.often(0.6):
        segments["timeColumnName"] = draws.choice(times)
    return segments


def table_of(draws, columns, servers):
    """The text of a table's settings."""
    rows, time = draws.choice([1, 2, 3, 3, 5, 100]), draws.choice(TIMES)
    stream = {"realtime.segment.flush.threshold.rows": draws.choice([rows, str(rows)]), "realtime.segment.flush.threshold.time": time}
    stream = {key: value for key, value in stream.items() if draws.often(0.7)}
    index = {"invertedIndexColumns": [column.name for column in columns if draws.often(0.4)], "streamConfigs": stream}
    table = {"tableName": draws.choice(["t", "t", "t_REALTIME"]), "tableType": "REALTIME", "segmentsConfig": segments_of(draws, columns, servers),
             "tableIndexConfig": index}
    if draws.often(0.4):
        table["upsertConfig"] = {"mode": draws.choice(["FULL", "FULL", "FULL", "NONE"])}
        if draws.often(0.5):
            table["upsertConfig"]["comparisonColumn"] = draws.choice(columns).name
    return json.dumps(table, ensure_ascii=draws.often(0.5), separators=(",", ":"))


def cluster_of(draws, servers):
    partitions = draws.choice([1, 1, 1, 1, 2, 2, 3, draws.choice([2, 4, 4, 64])])
    line = f"servers={servers} controllers={draws.choice([1, 2, 2, 3])} partitions={partitions} start={draws.choice(STARTS)}"
    line += f" grace={draws.choice([0, 0, 0, 1000, 6001, 2**64 - 1])}"
    line += draws.choice(["", "", f" retention={draws.choice([0, 1, 2, 1000])}"])
    return line + draws.choice(["", "", " format=1", " format=2"])


def plain_columns():
    return [random_queries.Column("k", "STRING", "dimensionFieldSpecs"), random_queries.Column("v", "LONG", "metricFieldSpecs")]


def three_lines(draws):
    """A header's lines, most often of settings that are taken."""
    columns = plain_columns() if draws.often(0.5) else random_queries.columns_of(draws, draws.sample(NAMES, draws.randint(1, 4)))
    servers = draws.choice([1, 2, 2, 3, 3, 4, draws.choice([2, 5, 8, 16])])
    return [f"schema {schema_of(draws, columns)}", f"table {table_of(draws, columns, servers)}", f"cluster {cluster_of(draws, servers)}"]


class Cluster:
    """A header that is taken, as walks over it need it: the settings of a schedule, and texts over its columns."""
    further = True

    def __init__(self, draws, lines, setup):
        self.lines_of_header, self.setup = lines, setup
        self.front = "".join(f"{line}\n" for line in lines).encode(errors="surrogateescape")
        self.partitions, self.retention = setup.partitions, setup.retention
        pools = {column.name: [draws.choice(random_queries.POOLS[column.kind]) for _ in range(3)] for column in setup.columns}
        self.messages = ['{"k":"a","v":1}', '{"k":"b","v":2}', "oops", ""]
        self.messages += [random_queries.message(draws, setup.columns, pools)[0] for _ in range(DRAWN)]
        self.queries = [schedules.QUERY, "SELECT COUNT(*) FROM t"]
        self.queries += [random_queries.Query(draws, setup.columns, pools).text(draws) for _ in range(DRAWN)]

    def header(self):
        return self.lines_of_header


def drawn(draws):
    """A cluster whose header is taken."""
    while True:
        lines = three_lines(draws)
        try:
            setup, _ = header.read("\n".join(lines))
        except header.Stopped:
            continue
        return Cluster(draws, lines, setup)

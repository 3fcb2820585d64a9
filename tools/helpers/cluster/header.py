"""The header of a script: three lines, read in two steps, and the setup of the cluster."""
import dataclasses
import json
import re

import rows
import settings
import upsert_settings

NUMBER = r"(0|[1-9][0-9]{0,19})"
KEYS = ("servers", "controllers", "partitions", "start", "grace")
CLUSTER = re.compile(" ".join(f"{key}={NUMBER}" for key in KEYS) + rf"(?: retention={NUMBER})?(?: format=([12]))?")
LAST_NUMBER, LAST_MOMENT = 2**64 - 1, 253_402_300_799_999
MOST_SERVERS, MOST_CONTROLLERS, MOST_PARTITIONS, MOST_REPLICAS = 16, 4, 64, 8


class Stopped(Exception):
    """Why a header isn't taken, as standard error tells it; `faults` say it at length."""

    def __init__(self, said, line=None, faults=()):
        super().__init__(said)
        self.line, self.faults = line, list(faults)


@dataclasses.dataclass
class Setup:
    servers: int
    controllers: int
    partitions: int
    start: int
    grace: int
    retention: int | None
    version: int
    replication: int
    rows: int
    millis: int
    indexed: list
    name: str
    schema_text: str
    table_text: str
    columns: list
    # The numbers by which texts of queries are refused, as far as they were read; none of one that is taken.
    numbers: dict = dataclasses.field(default_factory=dict, compare=False, repr=False)

    def row_of(self, message):
        return rows.row_of(self.columns, message)

    def replicas(self, partition):
        return [(partition * self.replication + k) % self.servers for k in range(self.replication)]


def kept_lines(text):
    """The lines that aren't skipped, with their numbers and without their endings."""
    found = [(number, line.removesuffix("\r")) for number, line in enumerate(text.split("\n"), 1)]
    return [(number, line) for number, line in found if line and not line.startswith("#")]


def behind_last(text):
    """The number of the line after the last one."""
    return text.count("\n") + 1 + (not text.endswith("\n") and text != "")


def bad_line(number, why):
    return Stopped(f"line {number}: BadLine", number, [settings.Fault(0, "", why)])


def text_behind(word, line, number):
    """What follows a header's first word."""
    if not line.startswith(word + " "):
        raise bad_line(number, f"here stands the line of the {word}, which begins with `{word} `")
    if any("\ud800" <= letter <= "\udfff" for letter in line):
        raise bad_line(number, "the text isn't UTF-8")
    return line[len(word) + 1:]


def refused(kind, number, found):
    return Stopped(f"line {number}: {kind} {found.number}", number, found.faults)


def read(text):
    """The setup of a script, and its lines behind the header."""
    return read_with(text, read_upserts)


def read_without_upserts(text):
    """The same of an input whose settings of upserts aren't read."""
    return read_with(text, lambda *_: None)


def read_with(text, further):
    kept = kept_lines(text)
    absent = (behind_last(text), "")
    (at_schema, schema), (at_table, table), (at_cluster, cluster) = (*kept, absent, absent, absent)[:3]
    schema = text_behind("schema", schema, at_schema)
    try:
        columns = settings.read_schema(schema)
    except settings.Refused as found:
        raise refused("schema", at_schema, found) from None
    table = text_behind("table", table, at_table)
    try:
        read_table = settings.read_table(table, columns)
    except settings.Refused as found:
        raise refused("table", at_table, found) from None
    further(schema, table, columns, at_table)
    return setup_of(text_behind("cluster", cluster, at_cluster), at_cluster, schema, table, columns, read_table), kept[3:]


def read_upserts(schema, table, columns, number):
    try:
        upsert_settings.read_texts(json.loads(schema), json.loads(table), columns)
    except upsert_settings.Refused as found:
        fault = settings.Fault(int(str(found)), "upsertConfig", upsert_settings.WHY[str(found)])
        raise Stopped(f"line {number}: upsert {found}", number, [fault]) from None


def setup_of(line, number, schema, table, columns, read_table):
    """The setup of a cluster line, by the first limit that it passes."""
    found = CLUSTER.fullmatch(line)
    numbers = [None if part is None else int(part) for part in found.groups()] if found else []
    if not found or any(part is not None and part > LAST_NUMBER for part in numbers):
        raise bad_line(number, "a cluster's line is `cluster servers=N controllers=N partitions=N start=N grace=N`, then perhaps ` retention=N` and ` format=1` or 2")
    servers, controllers, partitions, start, grace, retention, version = numbers
    passed = {"servers": not 1 <= servers <= MOST_SERVERS, "controllers": not 1 <= controllers <= MOST_CONTROLLERS,
              "partitions": not 1 <= partitions <= MOST_PARTITIONS, "replication": read_table.replication > min(MOST_REPLICAS, servers),
              "moment": start > LAST_MOMENT}
    for name, is_passed in passed.items():
        if is_passed:
            raise Stopped(f"limit: {name}", number, [settings.Fault(0, name, LIMITS[name])])
    return Setup(servers, controllers, partitions, start, grace, retention, version or 2, read_table.replication, read_table.rows,
                 read_table.millis, read_table.indexed, read_table.name, schema, table, columns)


LIMITS = {"servers": f"a cluster has 1 to {MOST_SERVERS} servers", "controllers": f"a cluster has 1 to {MOST_CONTROLLERS} controllers",
          "partitions": f"a cluster has 1 to {MOST_PARTITIONS} partitions", "moment": "no moment lies behind the year 9999",
          "replication": f"a segment has at most {MOST_REPLICAS} replicas, and at most one on each server"}

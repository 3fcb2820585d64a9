"""The schema and the table settings of two texts, each with every fault that is found in it and the refusal of the first kind."""
import dataclasses
import json
import re

import random_queries
import rows

NOT_JSON, MISSING, UNKNOWN_TYPE, DUPLICATE, LIMIT = 1, 2, 3, 4, 5
ROWS_KEY, TIME_KEY = "realtime.segment.flush.threshold.rows", "realtime.segment.flush.threshold.time"
MOST_COLUMNS, LONGEST_NAME, MOST_ROWS = 256, 128, 1_000_000
MOST_REPLICAS, USUAL_MILLIS = 4_294_967_295, 21_600_000
NAME = re.compile(r"[A-Za-z0-9_-]{1,128}")
PARTS = re.compile(r"(?=.)" + "".join(rf"(?:([0-9]{{1,9}}){unit})?" for unit in "dhms"))
UNITS = (86_400_000, 3_600_000, 60_000, 1_000)


@dataclasses.dataclass
class Fault:
    """Why a text is refused, at which of its keys."""
    number: int
    where: str
    why: str


class Refused(Exception):
    """The number of the first refusal that applies, over the whole text, and each fault that was found."""

    def __init__(self, faults):
        self.faults = sorted(faults, key=lambda fault: fault.number)
        super().__init__(str(self.faults[0].number))

    @property
    def number(self):
        return self.faults[0].number


@dataclasses.dataclass
class Table:
    name: str
    replication: int
    indexed: list
    rows: int
    millis: int


class Reader:
    """Reads the keys of an object and notes what is wrong with them."""

    def __init__(self):
        self.faults = []

    def note(self, number, where, why):
        self.faults.append(Fault(number, where, why))

    def get(self, found, key, kind, where, required=False):
        """A key's value, or none where it is absent, null or of another kind; the latter two are noted where they are faults."""
        value = found.get(key)
        if value is None:
            if required:
                self.note(MISSING, where + key, "it is required, and isn't there")
            return None
        if not isinstance(value, kind):
            self.note(MISSING, where + key, f"it has to be {KINDS[kind]}")
            return None
        return value

    def number_of(self, found, key, where):
        """A whole number, or a text of 1 to 18 digits."""
        value = found.get(key)
        if value is None:
            return None
        if isinstance(value, str) and re.fullmatch(r"[0-9]{1,18}", value):
            return int(value)
        if type(value) is int and 0 <= value < 2**64:
            return value
        self.note(MISSING, where + key, "it has to be a whole number, or a text of 1 to 18 digits")
        return None


KINDS = {str: "a text", list: "an array", dict: "an object"}


def object_in(text):
    found = rows.object_of(text)
    if found is None:
        raise Refused([Fault(NOT_JSON, "", "the text isn't one JSON object")])
    return found


def read_schema(text):
    """The columns of a schema, in order."""
    reader, found, columns, names = Reader(), object_in(text), [], []
    reader.get(found, "schemaName", str, "", required=True)
    for role in random_queries.ROLES:
        for place, spec in enumerate(reader.get(found, role, list, "") or []):
            read_column(reader, columns, names, role, spec, f"{role}[{place}]")
    if not names and not any(fault.number == MISSING for fault in reader.faults):
        reader.note(MISSING, "", "there is no column")
    if len(names) > MOST_COLUMNS:
        reader.note(LIMIT, "", f"there are more than {MOST_COLUMNS} columns")
    if reader.faults:
        raise Refused(reader.faults)
    return columns


def read_column(reader, columns, names, role, spec, where):
    if not isinstance(spec, dict):
        reader.note(MISSING, where, "it has to be an object")
        return
    name, kind = reader.get(spec, "name", str, where + ".", required=True), reader.get(spec, "dataType", str, where + ".", required=True)
    if kind is not None and kind not in random_queries.ROLES[role]:
        known = any(kind in kinds for kinds in random_queries.ROLES.values())
        reader.note(UNKNOWN_TYPE, f"{where}.dataType", f"{kind} is no type of " + ("such a column" if known else "those that are taken"))
    for key in ("defaultNullValue", "transformFunction"):
        if spec.get(key) is not None:
            reader.note(UNKNOWN_TYPE, f"{where}.{key}", "it isn't taken")
    if spec.get("singleValueField") is False:
        reader.note(UNKNOWN_TYPE, f"{where}.singleValueField", "columns of many values aren't taken")
    if name is None:
        return
    if name in names:
        reader.note(DUPLICATE, f"{where}.name", f"two columns are named {name}")
    if not 1 <= len(name.encode()) <= LONGEST_NAME:
        reader.note(LIMIT, f"{where}.name", f"a name has 1 to {LONGEST_NAME} bytes")
    names.append(name)
    if kind in random_queries.ROLES[role]:
        columns.append(random_queries.Column(name, kind, role))


def read_table(text, columns):
    """The settings of a table over a schema's columns."""
    reader, found = Reader(), object_in(text)
    name = reader.get(found, "tableName", str, "", required=True)
    kind = reader.get(found, "tableType", str, "", required=True)
    if kind not in (None, "REALTIME"):
        reader.note(UNKNOWN_TYPE, "tableType", f"{kind} tables aren't taken")
    short = None if name is None else name.removesuffix("_REALTIME")
    if short is not None and not NAME.fullmatch(short):
        reader.note(LIMIT, "tableName", "a name has 1 to 128 letters, digits, _ or -")
    replication = read_replication(reader, found)
    index = reader.get(found, "tableIndexConfig", dict, "") or {}
    indexed = read_indexed(reader, index, columns)
    stream = reader.get(index, "streamConfigs", dict, "tableIndexConfig.") or {}
    limit = reader.number_of(stream, ROWS_KEY, "tableIndexConfig.streamConfigs.")
    millis = read_time(reader, stream)
    if reader.faults:
        raise Refused(reader.faults)
    return Table(short, replication, indexed, min(limit or MOST_ROWS, MOST_ROWS), millis)


def read_replication(reader, found):
    segments = reader.get(found, "segmentsConfig", dict, "", required=True)
    if segments is None:
        return None
    key = "replication" if segments.get("replicasPerPartition") is None else "replicasPerPartition"
    if segments.get(key) is None:
        reader.note(MISSING, "segmentsConfig.replicasPerPartition", "it is required, or replication, and neither is there")
    count = reader.number_of(segments, key, "segmentsConfig.")
    if count == 0:
        reader.note(LIMIT, f"segmentsConfig.{key}", "a segment has at least one replica")
    return None if count is None else min(count, MOST_REPLICAS)


def read_indexed(reader, index, columns):
    listed, where = reader.get(index, "invertedIndexColumns", list, "tableIndexConfig.") or [], "tableIndexConfig.invertedIndexColumns"
    names = [column.name for column in columns]
    for place, name in enumerate(listed):
        if name not in names:
            reader.note(MISSING, f"{where}[{place}]", "it has to be the name of a column")
    return [name for name in names if name in listed]


def read_time(reader, stream):
    """The time limit: digits are milliseconds, or parts as 1h30m."""
    value, where = stream.get(TIME_KEY), "tableIndexConfig.streamConfigs."
    if value is None:
        return USUAL_MILLIS
    found = PARTS.fullmatch(value) if isinstance(value, str) and re.fullmatch(r"[0-9a-z]+", value) else None
    if found:
        return sum(int(count) * unit for count, unit in zip(found.groups(), UNITS) if count is not None)
    if isinstance(value, str) and not re.fullmatch(r"[0-9]{1,18}", value):
        reader.note(MISSING, where + TIME_KEY, "a time is milliseconds, or parts as 1h30m with 1 to 9 digits each, in the order d, h, m, s")
        return None
    return reader.number_of(stream, TIME_KEY, where)


def known_keys():
    """Which keys the readers look at, by their paths; a place in an array is []."""
    columns = [f"{role}[].{key}" for role in random_queries.ROLES for key in ("name", "dataType", "defaultNullValue", "transformFunction", "singleValueField")]
    schema = ["schemaName", "primaryKeyColumns", *columns]
    table = ["tableName", "tableType", "segmentsConfig.replicasPerPartition", "segmentsConfig.replication", "segmentsConfig.timeColumnName",
             "tableIndexConfig.invertedIndexColumns", f"tableIndexConfig.streamConfigs.{ROWS_KEY}", f"tableIndexConfig.streamConfigs.{TIME_KEY}",
             "upsertConfig.mode", "upsertConfig.comparisonColumns", "upsertConfig.comparisonColumn"]
    return schema, table


def text_of(value):
    """A JSON text without spaces, as a script's header has it."""
    return json.dumps(value, separators=(",", ":"), ensure_ascii=False)

"""The settings of a table and a schema as Pinot's files have them: which are kept, which are not read, which are refused, and why."""
import dataclasses
import re

import random_queries
import settings

KEPT, NOT_READ, REFUSED, CHANGED = "kept", "not read", "refused", "changed"
THRESHOLDS = (settings.ROWS_KEY, settings.TIME_KEY)
UNITS = {"DAYS": 86_400_000, "HOURS": 3_600_000, "MINUTES": 60_000, "SECONDS": 1_000, "MILLISECONDS": 1}
# Why a setting that is common in Pinot isn't read, by the front of its path; the longest front counts.
WHY = {
    "tenants": "there are no tenants: a cluster is one set of servers",
    "ingestionConfig.streamIngestionConfig": "messages come by the script's `produce` lines, and thresholds are read in tableIndexConfig.streamConfigs",
    "ingestionConfig.transformConfigs": "values aren't transformed", "ingestionConfig.filterConfig": "messages aren't filtered",
    "ingestionConfig.complexTypeConfig": "nested values aren't unfolded", "ingestionConfig": "it isn't read",
    "tableIndexConfig.streamConfigs": "messages come by the script's `produce` lines; only the row and time thresholds are read",
    "tableIndexConfig.sortedColumn": "rows keep the order of their offsets", "tableIndexConfig.noDictionaryColumns": "each column has a dictionary",
    "tableIndexConfig.rangeIndexColumns": "only inverted indexes are built", "tableIndexConfig.bloomFilterColumns": "only inverted indexes are built",
    "tableIndexConfig.jsonIndexColumns": "only inverted indexes are built", "tableIndexConfig.starTreeIndexConfigs": "only inverted indexes are built",
    "tableIndexConfig.nullHandlingEnabled": "a missing value is the column's default, and no null is kept", "tableIndexConfig.loadMode": "segments stand in memory",
    "tableIndexConfig.aggregateMetrics": "rows aren't joined as they are consumed", "fieldConfigList": "only inverted indexes are built, by invertedIndexColumns",
    "segmentsConfig.schemaName": "the schema is the script's own line", "segmentsConfig.timeType": "a time column is milliseconds",
    "segmentsConfig.completionConfig": "a replica that is level keeps its rows, and one that isn't catches up or downloads",
    "segmentsConfig.peerSegmentDownloadScheme": "servers download from the deep store; a peer is asked by the `peer` line",
    "segmentsConfig.segmentPushType": "offline rows come by the `offline` line", "segmentsConfig.segmentAssignmentStrategy": "replicas stand by one placement formula",
    "segmentsConfig.replicaGroupStrategyConfig": "replicas stand by one placement formula", "routing": "a query asks each assigned server in order",
    "query": "there is no timeout of queries", "quota": "there are no quotas", "task": "there are no minion tasks", "metadata": "it has no effect",
    "upsertConfig.partialUpsertStrategies": "an upsert replaces the whole row", "upsertConfig.deleteRecordColumn": "a row isn't deleted by a message",
    "upsertConfig": "the mode, the comparison column and the keys alone are read", "dedupConfig": "rows aren't dropped as repeated",
    "instanceAssignmentConfigMap": "replicas stand by one placement formula", "tierConfigs": "there are no tiers",
    "enableColumnBasedNullHandling": "a missing value is the column's default, and no null is kept", "dateTimeFieldSpecs[].format": "values are taken as they are, with no conversion",
    "dateTimeFieldSpecs[].granularity": "values are taken as they are, with no conversion",
}


@dataclasses.dataclass
class Setting:
    path: str
    what: str
    value: str
    why: str = ""


def leaves(value, path=""):
    """Each value of a JSON object by its path; an array of plain values is one."""
    if isinstance(value, dict) and value:
        for key, inner in value.items():
            yield from leaves(inner, f"{path}.{key}" if path else key)
    elif isinstance(value, list) and any(isinstance(inner, dict) for inner in value):
        for place, inner in enumerate(value):
            yield from leaves(inner, f"{path}[{place}]")
    else:
        yield path, value


def without_places(path):
    return re.sub(r"\[\d+\]", "[]", path)


def why_not_read(path):
    fronts = [front for front in WHY if (without_places(path) + ".").startswith(front + ".") or without_places(path).startswith(front + "[")]
    return WHY[max(fronts, key=len)] if fronts else "it is unknown here, and passed over"


def shown(value):
    text = settings.text_of(value)
    return text if len(text) <= 60 else text[:57] + "..."


def realtime_of(table):
    """The settings of the realtime table, also where they stand below the word REALTIME, as a controller answers them."""
    inner = table.get("REALTIME")
    return inner if isinstance(inner, dict) else table


def pruned(value, known, path=""):
    """The parts of a value whose paths are known."""
    if isinstance(value, dict):
        inner = {key: pruned(each, known, f"{path}.{key}" if path else key) for key, each in value.items()}
        return {key: each for key, each in inner.items() if each is not None} or None
    if isinstance(value, list) and any(isinstance(each, dict) for each in value):
        inner = [pruned(each, known, path + "[]") or {} for each in value]
        return inner if any(inner) else None
    return value if path in known or any(front.startswith(path + ".") or front.startswith(path + "[") for front in known) else None


class Files:
    """Two files and what becomes of each of their settings."""

    def __init__(self, table, schema):
        self.table, self.schema, self.told = realtime_of(table), schema, []
        self.known_schema, self.known_table = settings.known_keys()

    def tell(self, path, what, value, why=""):
        self.told.append(Setting(path, what, shown(value), why))

    def drop_columns(self):
        """Takes out the columns that are refused, also where they are named as indexed."""
        dropped = []
        for role in random_queries.ROLES:
            kept = []
            for spec in self.schema.get(role) or []:
                reader, names, columns = settings.Reader(), [], []
                settings.read_column(reader, columns, names, role, spec, role)
                if reader.faults:
                    dropped.append(spec.get("name") if isinstance(spec, dict) else None)
                    self.tell(f"{role}.{dropped[-1]}", CHANGED, spec, f"left out: {reader.faults[0].why}")
                else:
                    kept.append(spec)
            if role in self.schema:
                self.schema[role] = kept
        index = self.table.get("tableIndexConfig")
        if isinstance(index, dict) and isinstance(index.get("invertedIndexColumns"), list):
            index["invertedIndexColumns"] = [name for name in index["invertedIndexColumns"] if name not in dropped]

    def move_thresholds(self):
        """Thresholds below ingestionConfig go where they are read."""
        ingestion = self.table.get("ingestionConfig") or {}
        maps = (ingestion.get("streamIngestionConfig") or {}).get("streamConfigMaps") or []
        for key in THRESHOLDS:
            found = maps[0].get(key) if maps and isinstance(maps[0], dict) else None
            index = self.table.setdefault("tableIndexConfig", {})
            stream = index.setdefault("streamConfigs", {})
            if found is not None and stream.get(key) is None:
                stream[key] = found
                where = f"ingestionConfig.streamIngestionConfig.streamConfigMaps[0].{key}"
                self.tell(where, CHANGED, found, "written into tableIndexConfig.streamConfigs, where it is read")

    def retention(self):
        """The retention of the cluster's line, in milliseconds, or none."""
        segments = self.table.get("segmentsConfig") or {}
        unit, value = segments.get("retentionTimeUnit"), segments.get("retentionTimeValue")
        if not isinstance(unit, str) or unit.upper() not in UNITS or not str(value).isdigit():
            return None
        why = "written as the cluster's retention, which counts from a segment's commit and not from its rows' time"
        for key in ("retentionTimeUnit", "retentionTimeValue"):
            self.tell(f"segmentsConfig.{key}", CHANGED, segments[key], why)
        return int(value) * UNITS[unit.upper()]

    def faults(self):
        """The refusals of both texts, over all kinds."""
        found, columns = [], []
        try:
            columns = settings.read_schema(settings.text_of(self.schema))
        except settings.Refused as refused:
            found += refused.faults
        try:
            settings.read_table(settings.text_of(self.table), columns)
        except settings.Refused as refused:
            # Without the columns nothing is said of the names of indexed ones.
            found += [fault for fault in refused.faults if columns or "invertedIndexColumns" not in fault.where]
        return found

    def classify(self):
        """Tells of each setting what becomes of it."""
        faults, told = self.faults(), {setting.path for setting in self.told}
        for fault in faults:
            self.tell(fault.where or "(the whole)", REFUSED, "", f"{fault.why} (number {fault.number})")
        refused = {fault.where for fault in faults}
        for text, known in ((self.schema, self.known_schema), (self.table, self.known_table)):
            for path, value in leaves(text):
                if path in refused or path in told or any(path.startswith(front + ".") for front in refused if front):
                    continue
                is_kept = without_places(path) in known
                self.tell(path, KEPT if is_kept else NOT_READ, value, "" if is_kept else why_not_read(path))
        return bool(faults)

    def header(self):
        """The two header lines with what is read alone."""
        schema, table = pruned(self.schema, set(self.known_schema)), pruned(self.table, set(self.known_table))
        return [f"schema {settings.text_of(schema)}", f"table {settings.text_of(table)}"]

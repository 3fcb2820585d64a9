"""The upsert settings of a schema's and a table's texts."""
import json


class Refused(Exception):
    """The number of the first refusal that applies."""


WHY = {"1": "upsertConfig has to be an object", "2": "the mode has to be FULL or NONE",
       "3": "the schema's primaryKeyColumns has to be an array of at least one text", "4": "there is at most one comparison column, a text",
       "5": "each key and the comparison column has to be a column, and one has to be named", "6": "a comparison column is INT, LONG or TIMESTAMP"}


def strings(value):
    return isinstance(value, list) and all(isinstance(each, str) for each in value)


def compare_of(config, segments):
    """The name of the comparison column, by the three places in their order; none where no string names one."""
    listed, single = config.get("comparisonColumns"), config.get("comparisonColumn")
    if listed is not None and (not strings(listed) or len(listed) > 1):
        raise Refused(4)
    if listed:
        return listed[0]
    if single is not None and not isinstance(single, str):
        raise Refused(4)
    name = segments.get("timeColumnName") if single is None else single
    return name if isinstance(name, str) else None


def read(setup):
    """The places of the keys and of the comparison column, or none without a config."""
    return read_texts(json.loads(setup.schema_text), json.loads(setup.table_text), setup.columns)


def read_texts(schema, table, columns):
    config = table.get("upsertConfig")
    if config is None:
        return None
    if not isinstance(config, dict):
        raise Refused(1)
    if config.get("mode") == "NONE":
        return None
    if config.get("mode") != "FULL":
        raise Refused(2)
    keys = schema.get("primaryKeyColumns")
    if not strings(keys) or not keys:
        raise Refused(3)
    compare = compare_of(config, table["segmentsConfig"])
    places = {column.name: place for place, column in enumerate(columns)}
    if any(name not in places for name in [*keys, compare]):
        raise Refused(5)
    if columns[places[compare]].kind not in ("INT", "LONG", "TIMESTAMP"):
        raise Refused(6)
    return [places[name] for name in keys], places[compare]

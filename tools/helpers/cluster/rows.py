"""Columns of a schema's text, and the rows that messages have."""
import json
import re

import random_queries

# How deep arrays and objects may stand in each other in a text that serde_json reads.
DEEPEST = 127
TEXT = re.compile(r'"(?:[^"\\]|\\.)*"', re.DOTALL)


class NoRow(Exception):
    """A message is undecodable."""


def columns_of(schema_text):
    schema = json.loads(schema_text)
    return [random_queries.Column(spec["name"], spec["dataType"], role) for role in random_queries.ROLES for spec in schema.get(role) or []]


def whole(text):
    """A whole number as it stands; one that is none here has another type."""
    found = fraction(text)
    return found if text == "-0" else int(text)


def fraction(text):
    """A number that isn't whole; serde_json reads none that is out of its range."""
    if abs(float(text)) == float("inf"):
        raise NoRow
    return float(text)


def refused(text):
    raise NoRow


def is_too_deep(message):
    """Whether arrays and objects stand deeper in each other than serde_json reads."""
    if message.count("[") + message.count("{") <= DEEPEST:
        return False
    depth = deepest = 0
    for letter in TEXT.sub("", message):
        depth += (letter in "[{") - (letter in "]}")
        deepest = max(deepest, depth)
    return deepest > DEEPEST


def with_texts(pairs):
    """An object of its keys and values; serde_json reads no lone surrogate, also where the same key comes again."""
    json.dumps(pairs, ensure_ascii=False).encode()
    return dict(pairs)


def value_of(text):
    """What a text is as serde_json reads it, or none."""
    if is_too_deep(text):
        return None
    try:
        text.encode()
        return json.loads(text, parse_int=whole, parse_float=fraction, parse_constant=refused, object_pairs_hook=with_texts)
    except (ValueError, NoRow, RecursionError):
        return None


def object_of(message):
    """The object that a message is, or none."""
    value = value_of(message)
    return value if isinstance(value, dict) else None


def row_of(columns, message):
    """The values of a message's columns, or none where it is undecodable."""
    found = object_of(message)
    return None if found is None else row_in(columns, found)


def row_in(columns, found):
    """The values that an object gives columns, or none where one isn't of its kind."""
    row = []
    for column in columns:
        value = found.get(column.name)
        if value is not None and not random_queries.is_of(column.kind, value):
            return None
        row.append(column.missing if value is None else value)
    return row

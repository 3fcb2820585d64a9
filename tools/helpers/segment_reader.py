"""Segment files in Python: what a file says or the first fault in it, and the one file of some rows.

It follows docs/rules/segments.md alone and shares no code with the crates.
"""
import hashlib
import json
import struct

INT, LONG, STRING, BOOLEAN, TIMESTAMP = 1, 2, 3, 4, 5
MAGICS = {b"PNRTSEG1": 1, b"PNRTSEG2": 2}
MOST_ROWS, MOST_COLUMNS, LONGEST_NAME, LONGEST_TEXT = 1_000_000, 256, 128, 65_536


class Fault(Exception):
    """The answer of a file that is refused."""


def breach(place):
    return Fault(f"notcanonical {place}")


def width(count):
    return max(count - 1, 0).bit_length()


class Cursor:
    """Bytes that are read from the front on."""

    def __init__(self, data):
        self.data, self.at = data, 0

    def take(self, count):
        if len(self.data) - self.at < count:
            raise Fault("truncated")
        self.at += count
        return self.data[self.at - count:self.at]

    def number(self, count):
        return int.from_bytes(self.take(count), "big")


def text_at(cursor, length_bytes, longest):
    """A text behind its length, which is a breach at that length where it is no UTF-8."""
    place = cursor.at
    length = cursor.number(length_bytes)
    if length > longest:
        raise Fault("limit")
    try:
        return cursor.take(length).decode()
    except UnicodeDecodeError:
        raise breach(place) from None


def value_at(cursor, kind):
    if kind == STRING:
        return text_at(cursor, 4, LONGEST_TEXT)
    if kind == BOOLEAN:
        place = cursor.at
        number = cursor.number(1)
        if number > 1:
            raise breach(place)
        return number
    return int.from_bytes(cursor.take(4 if kind == INT else 8), "big", signed=True)


def rank(kind, value):
    return value.encode() if kind == STRING else value


class Column:
    """A column's name, kind and flag, and the value of each row."""

    def __init__(self, name, kind, indexed, values):
        self.name, self.kind, self.indexed, self.values = name, kind, indexed, values

    def keys(self):
        return sorted(set(self.values), key=lambda value: rank(self.kind, value))


def read_name(cursor, columns):
    place = cursor.at
    name = text_at(cursor, 2, LONGEST_NAME)
    if not name or name in {column.name for column in columns}:
        raise breach(place)
    return name


def read_byte(cursor, allowed):
    place = cursor.at
    number = cursor.number(1)
    if number not in allowed:
        raise breach(place)
    return number


def read_dictionary(cursor, kind, count):
    """The values and the places at which they begin."""
    values, places = [], []
    for _ in range(count):
        places.append(cursor.at)
        value = value_at(cursor, kind)
        if values and rank(kind, value) <= rank(kind, values[-1]):
            raise breach(places[-1])
        values.append(value)
    return values, places


def read_edge(cursor, kind, wanted):
    place = cursor.at
    if value_at(cursor, kind) != wanted:
        raise breach(place)


def read_ids(cursor, count, rows):
    start, bits = cursor.at, width(count)
    data = cursor.take((rows * bits + 7) // 8)
    held = int.from_bytes(data, "big")
    spare = len(data) * 8 - rows * bits
    ids = [held >> (spare + (rows - 1 - row) * bits) & ((1 << bits) - 1) for row in range(rows)]
    for row, number in enumerate(ids):
        if number >= count:
            raise breach(start + row * bits // 8)
    if held & ((1 << spare) - 1):
        raise breach(cursor.at - 1)
    return ids


def read_postings(cursor, ids, count):
    rows = [[] for _ in range(count)]
    for row, number in enumerate(ids):
        rows[number].append(row)
    for listed in rows:
        for wanted in [len(listed), *listed]:
            place = cursor.at
            if cursor.number(4) != wanted:
                raise breach(place)


def read_column(cursor, version, rows, columns):
    name = read_name(cursor, columns)
    kind, indexed = read_byte(cursor, range(1, 6)), read_byte(cursor, range(2))
    place = cursor.at
    count = cursor.number(4)
    if count == 0 and rows > 0:
        raise breach(place)
    values, places = read_dictionary(cursor, kind, count)
    if version == 2 and rows > 0:
        read_edge(cursor, kind, values[0])
        read_edge(cursor, kind, values[-1])
    ids = read_ids(cursor, count, rows)
    used = set(ids)
    for number in range(count):
        if number not in used:
            raise breach(places[number])
    if indexed:
        read_postings(cursor, ids, count)
    return Column(name, kind, indexed, [values[number] for number in ids])


class File:
    """What a file says."""

    def __init__(self, version, numbers, rows, columns):
        self.version, self.numbers, self.rows, self.columns = version, numbers, rows, columns

    def answer(self):
        return " ".join(str(part) for part in ["ok", self.version, *self.numbers, self.rows])

    def rows_text(self):
        rows = [" ".join(value_text(c.kind, c.values[row]) for c in self.columns) for row in range(self.rows)]
        return "; ".join(rows) or "-"


def value_text(kind, value):
    return json.dumps(value, ensure_ascii=False) if kind == STRING else str(value)


def read_header(cursor):
    magic = bytes(cursor.take(8))
    if magic not in MAGICS:
        raise Fault("magic")
    partition, sequence, start = cursor.number(4), cursor.number(4), cursor.number(8)
    place = cursor.at
    end = cursor.number(8)
    if start >= end:
        raise breach(place)
    place = cursor.at
    rows = cursor.number(4)
    if rows > MOST_ROWS:
        raise Fault("limit")
    if rows > end - start:
        raise breach(place)
    return MAGICS[magic], [partition, sequence, start, end], rows


def read(data, cursor=None):
    """What a file says; a cursor over it may be given, which sees what is read."""
    cursor = cursor or Cursor(data)
    version, numbers, rows = read_header(cursor)
    place = cursor.at
    count = cursor.number(2)
    if count > MOST_COLUMNS:
        raise Fault("limit")
    if count == 0:
        raise breach(place)
    columns = []
    for _ in range(count):
        columns.append(read_column(cursor, version, rows, columns))
    body = data[:cursor.at]
    if cursor.take(32) != hashlib.sha256(body).digest():
        raise Fault("digest")
    if cursor.at < len(data):
        raise breach(cursor.at)
    return File(version, numbers, rows, columns)


def value_bytes(kind, value):
    if kind == STRING:
        return struct.pack(">I", len(value.encode())) + value.encode()
    return struct.pack({INT: ">i", BOOLEAN: ">B"}.get(kind, ">q"), value)


def column_bytes(column, version, rows):
    keys = column.keys()
    out = struct.pack(">H", len(column.name.encode())) + column.name.encode() + bytes([column.kind, column.indexed])
    out += struct.pack(">I", len(keys))
    out += b"".join(value_bytes(column.kind, key) for key in keys + ([keys[0], keys[-1]] if version == 2 and rows else []))
    places = {key: place for place, key in enumerate(keys)}
    ids, bits = [places[value] for value in column.values], width(len(keys))
    length = (rows * bits + 7) // 8
    held = 0
    for number in ids:
        held = held << bits | number
    out += (held << (length * 8 - rows * bits)).to_bytes(length, "big")
    if column.indexed:
        for number in range(len(keys)):
            listed = [row for row, its in enumerate(ids) if its == number]
            out += struct.pack(f">{len(listed) + 1}I", len(listed), *listed)
    return out


def with_digest(body):
    return body + hashlib.sha256(body).digest()


def write(file, version):
    """The file in a format."""
    magic = next(magic for magic, its in MAGICS.items() if its == version)
    body = magic + struct.pack(">IIQQIH", *file.numbers, file.rows, len(file.columns))
    return with_digest(body + b"".join(column_bytes(column, version, file.rows) for column in file.columns))


def answer(data):
    """What reading the bytes has to answer."""
    try:
        return read(data).answer()
    except Fault as fault:
        return fault.args[0]

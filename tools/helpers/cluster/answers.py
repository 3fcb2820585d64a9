"""Plans, answers, and what a query makes of rows."""
import functools
import json

import query_reader
import random_queries
import storage

def plan(nodes):
    """The pieces of a metadata list: sequence, start and end."""
    pieces = []
    for sequence, _, meta in nodes:
        if meta.status == storage.DONE:
            pieces.append((sequence, meta.start, meta.end))
        elif meta.status == storage.IN_PROGRESS:
            return [*pieces, (sequence, meta.start, None)]
    return pieces


def number_of(text, setup):
    """The number by which a text is refused, or none."""
    if text not in setup.numbers:
        said = query_reader.answer(setup.columns, setup.name, text.encode())
        setup.numbers[text] = None if said.startswith("ok") else 1 if said.startswith("syntax") else int(said)
    return setup.numbers[text]


@functools.lru_cache
def read(text):
    """The query of a text that is taken."""
    return query_reader.Reader(text.encode()).query()


def rank(value):
    return value.encode() if isinstance(value, str) else value


class Aggregate:
    """A query's text over rows of columns."""

    def __init__(self, text, columns):
        self.query = read(text)
        self.places = {column.name.encode(): place for place, column in enumerate(columns)}
        self.groups = [name for _, name in self.query["groups"]]

    def passes(self, predicate, row):
        if predicate is None:
            return True
        form, *rest = predicate
        if form in ("AND", "OR", "NOT"):
            found = [self.passes(part, row) for part in rest[0]]
            return all(found) if form == "AND" else any(found) if form == "OR" else not found[0]
        name, literals = rest
        value, low = rank(row[self.places[name]]), literals[0]
        if form == "B":
            return low <= value <= literals[1]
        if form in "IN":
            return (value in literals) == (form == "I")
        return {"=": value == low, "!": value != low, "<": value < low, "l": value <= low, ">": value > low, "g": value >= low}[form]

    def cell(self, item, key, rows):
        word, name = item
        if word is None:
            return key[self.groups.index(name)]
        values = [row[self.places[name]] for row in rows] if name else rows
        if word in ("COUNT", "SUM"):
            return len(values) if word == "COUNT" else sum(values)
        return (min if word == "MIN" else max)(values) if values else None

    def result(self, rows):
        """The result rows."""
        found = {} if self.groups else {(): []}
        for row in rows:
            if self.passes(self.query["filter"], row):
                found.setdefault(tuple(row[self.places[name]] for name in self.groups), []).append(row)
        keys = sorted(found, key=lambda key: [rank(value) for value in key])
        for _, item, down in reversed(self.query["order"]):
            keys.sort(key=lambda key: ordered(self.cell(item, key, found[key])), reverse=down)
        items = [item for _, item in self.query["items"]]
        return [[self.cell(item, key, found[key]) for item in items] for key in keys[:self.query["limit"]]]


def ordered(value):
    return (value is not None, rank(value) if value is not None else 0)


def merged(ranges):
    """The maximal ranges of one partition's served ones."""
    found = []
    for start, end in sorted(ranges):
        if start == end:
            continue
        if found and found[-1][1] == start:
            found[-1][1] = end
        else:
            found.append([start, end])
    return found


def answer(ranges, missing, rows):
    shown = ["[" + ",".join(map(random_queries.cell_text, row)) + "]" for row in rows]
    ranges, missing = (json.dumps(listed, separators=(",", ":")) for listed in (ranges, missing))
    return f'{{"ranges":{ranges},"missing":{missing},"rows":[{",".join(shown)}]}}'


class Query:
    """A query under way: what was routed, asked and served."""

    def __init__(self, text):
        self.text, self.plans, self.asked, self.served = text, {}, {}, {}

    def piece(self, partition, sequence):
        plan = self.plans.get(partition) or []
        return next((piece for piece in plan if piece[0] == sequence), None)

    def due(self, setup, partition, sequence, server):
        segment = partition, sequence
        return (self.piece(partition, sequence) is not None and segment not in self.served
                and server in setup.replicas(partition) and server not in self.asked.get(segment, []))

    def ended(self, setup):
        pieces = [(p, piece[0]) for p, found in self.plans.items() for piece in found or []]
        return len(self.plans) == setup.partitions and all(
            at in self.served or set(self.asked.get(at, [])) >= set(setup.replicas(at[0])) for at in pieces)

    def answer(self, setup, log):
        ranges, missing, rows = [], [], []
        for partition in sorted(self.plans):
            if self.plans[partition] is None:
                missing.append([partition, None])
                continue
            pieces = [(partition, piece[0]) for piece in self.plans[partition]]
            missing += [[*at] for at in pieces if at not in self.served]
            for start, end in merged([self.served[at] for at in pieces if at in self.served]):
                ranges.append([partition, start, end])
                rows += [row for row in map(setup.row_of, log[partition][start:end]) if row is not None]
        return answer(ranges, missing, Aggregate(self.text, setup.columns).result(rows))

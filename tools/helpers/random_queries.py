"""Random rows and queries with their answers, by the rules of docs/rules alone: no code of the crates is used."""
import itertools
import json
import re

WORDS = set("SELECT FROM WHERE GROUP BY ORDER LIMIT COUNT SUM MIN MAX ASC DESC AND OR NOT BETWEEN IN TRUE FALSE".split())
NAMES = ["k", "K", "v", "i", "b", "ts", "_x1", "a b", "order", "sum", "null", "é", "w"]
INT = (-2 ** 31, 2 ** 31 - 1)
LONG = (-2 ** 63, 2 ** 63 - 1)
POOLS = {
    "INT": [*INT, -7, -1, 0, 1, 2, 3, 10, 11],
    "LONG": [*LONG, -2 ** 31 - 1, 2 ** 31, 2 ** 53 + 1, -1, 0, 1, 2, 5],
    "STRING": ["", "a", "b", "ab", "A", "null", "it's", '"q"', "back\\slash", "tab\tline\nend", "\x01", "é", "\uffff", "\U0001f600"],
    "BOOLEAN": [False, True],
    "TIMESTAMP": [*LONG, -5, 0, 1, 999, 1000, 1700000000000],
}
# The kinds of each role, and what a column has where its message says nothing of it.
ROLES = {
    "dimensionFieldSpecs": {"INT": INT[0], "LONG": LONG[0], "STRING": "null", "BOOLEAN": False, "TIMESTAMP": 0},
    "metricFieldSpecs": {"INT": 0, "LONG": 0},
    "dateTimeFieldSpecs": {"INT": INT[0], "LONG": LONG[0], "STRING": "null", "TIMESTAMP": 0},
}
INTEGERS = ("INT", "LONG", "TIMESTAMP")
COMPARISONS = {
    "=": lambda a, b: a == b,
    "<>": lambda a, b: a != b,
    "!=": lambda a, b: a != b,
    "<": lambda a, b: a < b,
    "<=": lambda a, b: a <= b,
    ">": lambda a, b: a > b,
    ">=": lambda a, b: a >= b,
}


class Column:
    def __init__(self, name, kind, role):
        self.name, self.kind, self.role = name, kind, role
        self.missing = ROLES[role][kind]

    def same(self, other):
        return self.name == other.name and self.kind == other.kind


def columns_of(random, names):
    """Columns in the order of a schema: dimensions, metrics, date-times."""
    columns = []
    for name in names:
        kind = random.choice(list(POOLS))
        columns.append(Column(name, kind, random.choice([role for role in ROLES if kind in ROLES[role]])))
    return in_order(columns)


def in_order(columns):
    return [column for role in ROLES for column in columns if column.role == role]


def schema_text(columns):
    schema = {"schemaName": "t"}
    for role in ROLES:
        schema[role] = [{"name": c.name, "dataType": c.kind} for c in columns if c.role == role]
    return json.dumps(schema)


def is_of(kind, value):
    if kind == "STRING":
        return isinstance(value, str)
    if kind == "BOOLEAN":
        return isinstance(value, bool)
    low, high = INT if kind == "INT" else LONG
    return isinstance(value, int) and not isinstance(value, bool) and low <= value <= high


def undecodable(random):
    return random.choice(["oops", "[]", "7", "null", "{", '{"k":}']), None


def message(random, columns, pools):
    """A message, and its row by column names; none where it is undecodable."""
    if random.random() < 0.05:
        return undecodable(random)
    found, row = {}, {}
    for column in columns:
        row[column.name] = column.missing
        chance = random.random()
        if chance < 0.08:
            continue
        if chance < 0.12:
            found[column.name] = None
            continue
        value = random.choice(pools[column.name])
        found[column.name] = row[column.name] = value
    if random.random() < 0.06:
        column = random.choice(columns)
        value = random.choice([1.5, [], {}, "x", True, 2 ** 31, 2 ** 63, 1.0])
        found[column.name] = value
        row[column.name] = value
        if not is_of(column.kind, value):
            row = None
    if random.random() < 0.2:
        found["no column"] = random.choice([1, "a", None])
    return json.dumps(found, ensure_ascii=random.random() < 0.5), row


def spelled(random, name):
    if re.fullmatch(r"[A-Za-z_][A-Za-z0-9_]*", name) and name.upper() not in WORDS and random.random() < 0.8:
        return name
    return '"' + name + '"'


def cased(random, word):
    return random.choice([word, word, word.lower(), word.capitalize()])


def literal_near(random, column, pools):
    if column.kind == "BOOLEAN":
        return random.random() < 0.5
    values = [value for value in pools.get(column.name, []) if is_of(column.kind, value)] or [column.missing]
    if random.random() < 0.2:
        values = POOLS[column.kind]
    value = random.choice(random.choice([values, values, [min(values), max(values)]]))
    if column.kind == "STRING":
        value = value if "\n" not in value else "a"
        return value + random.choice(["", "", "", "a", "'"])
    value += random.choice([0, 0, 0, -1, 1])
    return max(LONG[0], min(LONG[1], random.choice([value, value, value, value, 2 ** 40, -2 ** 40])))


def spelled_literal(random, value):
    if isinstance(value, bool):
        return cased(random, "TRUE" if value else "FALSE")
    if isinstance(value, str):
        return "'" + value.replace("'", "''") + "'"
    sign = random.choice(["-", "- "]) if value < 0 else ""
    return sign + random.choice(["", "", "", "00"]) + str(abs(value))


class Compare:
    def __init__(self, random, column, pools):
        forms = ["=", "<>", "!="] if column.kind == "BOOLEAN" else list(COMPARISONS)
        self.column, self.form, self.literal = column, random.choice(forms), literal_near(random, column, pools)

    def text(self, random):
        space = random.choice(["", " "])
        return spelled(random, self.column.name) + space + self.form + space + spelled_literal(random, self.literal)

    def holds(self, row):
        return COMPARISONS[self.form](row[self.column.name], self.literal)

    def can_hold(self, edges):
        if self.column.name not in edges:
            return True
        least, greatest = edges[self.column.name]
        if self.form == "=":
            return least <= self.literal <= greatest
        if self.form in ("<>", "!="):
            return not least == greatest == self.literal
        return COMPARISONS[self.form](least if "<" in self.form else greatest, self.literal)


class Between:
    def __init__(self, random, column, pools):
        self.column, self.low, self.high = column, literal_near(random, column, pools), literal_near(random, column, pools)
        if self.low > self.high and random.random() < 0.7:
            self.low, self.high = self.high, self.low

    def text(self, random):
        return " ".join([spelled(random, self.column.name), cased(random, "BETWEEN"), spelled_literal(random, self.low),
                         cased(random, "AND"), spelled_literal(random, self.high)])

    def holds(self, row):
        return self.low <= row[self.column.name] <= self.high

    def can_hold(self, edges):
        if self.column.name not in edges:
            return True
        least, greatest = edges[self.column.name]
        return max(least, self.low) <= min(greatest, self.high)


class In:
    def __init__(self, random, column, pools):
        self.column, self.negated = column, random.random() < 0.4
        self.literals = [literal_near(random, column, pools) for _ in range(random.randint(1, 4))]

    def text(self, random):
        listed = random.choice([",", ", "]).join(spelled_literal(random, l) for l in self.literals)
        word = cased(random, "NOT") + " " + cased(random, "IN") if self.negated else cased(random, "IN")
        return spelled(random, self.column.name) + " " + word + random.choice(["", " "]) + "(" + listed + ")"

    def holds(self, row):
        return (row[self.column.name] in self.literals) != self.negated

    def can_hold(self, edges):
        if self.negated or self.column.name not in edges:
            return True
        least, greatest = edges[self.column.name]
        return any(least <= l <= greatest for l in self.literals)


class Not:
    def __init__(self, part):
        self.part = part

    def text(self, random):
        inner = self.part.text(random)
        if isinstance(self.part, Joined) or random.random() < 0.3:
            inner = "(" + inner + ")"
        return cased(random, "NOT") + " " + inner

    def holds(self, row):
        return not self.part.holds(row)

    def can_hold(self, edges):
        return True


class Joined:
    def __init__(self, word, parts):
        self.word, self.parts = word, parts

    def text(self, random):
        texts = []
        for part in self.parts:
            text = part.text(random)
            needed = isinstance(part, Joined) and (self.word == "AND" or part.word == "OR")
            texts.append("(" + text + ")" if needed or random.random() < 0.1 else text)
        return (" " + cased(random, self.word) + " ").join(texts)

    def holds(self, row):
        return (all if self.word == "AND" else any)(part.holds(row) for part in self.parts)

    def can_hold(self, edges):
        return (all if self.word == "AND" else any)(part.can_hold(edges) for part in self.parts)


def predicate(random, columns, pools, depth=3):
    chance = random.random()
    if depth and chance < 0.15:
        return Not(predicate(random, columns, pools, depth - 1))
    if depth and chance < 0.5:
        parts = [predicate(random, columns, pools, depth - 1) for _ in range(random.randint(2, 3))]
        return Joined(random.choice(["AND", "OR"]), parts)
    column = random.choice(columns)
    forms = [Compare, Compare, In] if column.kind == "BOOLEAN" else [Compare, Compare, Between, In]
    return random.choice(forms)(random, column, pools)


def aggregates(columns):
    found = [("COUNT", None)]
    for column in columns:
        if column.kind in INTEGERS:
            found += [("MIN", column), ("MAX", column)]
        if column.kind in ("INT", "LONG"):
            found.append(("SUM", column))
    return found


class Query:
    """A query as data; an item is the name of an aggregate and its column, or nothing and a column of the groups."""

    def __init__(self, random, columns, pools):
        self.filter = predicate(random, columns, pools) if random.random() < 0.85 else None
        count = random.choice([0, 0, 1, 1, 2, 3])
        self.groups = random.sample(columns, min(count, len(columns)))
        self.choose(random, columns)

    def choose(self, random, columns):
        """Chooses what is shown of the groups, in which order, and how many."""
        self.items = [(None, column) for column in self.groups if random.random() < 0.8]
        self.items += random.choices(aggregates(columns), k=random.randint(1, 4))
        random.shuffle(self.items)
        keys = list(self.items) + [(None, column) for column in self.groups]
        self.order = [(key, random.random() < 0.5) for key in random.choices(keys, k=random.choice([0, 1, 1, 2, 3]))]
        self.limit = random.choice([None, None, 0, 1, 2, 5, 1000, 1000000])

    def item_text(self, random, item):
        name, column = item
        if name is None:
            return spelled(random, column.name)
        return cased(random, name) + "(" + ("*" if column is None else spelled(random, column.name)) + ")"

    def text(self, random):
        words = [cased(random, "SELECT"), random.choice([",", ", "]).join(self.item_text(random, i) for i in self.items),
                 cased(random, "FROM"), random.choice(["t", "t_REALTIME", '"t"'])]
        if self.filter:
            words += [cased(random, "WHERE"), self.filter.text(random)]
        if self.groups:
            words += [cased(random, "GROUP"), cased(random, "BY"), ", ".join(spelled(random, c.name) for c in self.groups)]
        if self.order:
            keys = []
            for item, descending in self.order:
                word = " " + cased(random, "DESC") if descending else random.choice(["", " " + cased(random, "ASC")])
                keys.append(self.item_text(random, item) + word)
            words += [cased(random, "ORDER"), cased(random, "BY"), ", ".join(keys)]
        if self.limit is not None:
            words += [cased(random, "LIMIT"), str(self.limit)]
        return random.choice([" ", " ", "  "]).join(words) + random.choice(["", ";", " ;"])

    def cell(self, item, rows):
        name, column = item
        if name == "COUNT":
            return len(rows)
        values = [row[column.name] for row in rows]
        if name == "SUM":
            return sum(values)
        if not values:
            return None
        return {"MIN": min, "MAX": max, None: lambda values: values[0]}[name](values)

    def answer(self, rows):
        """The text of the result rows of these rows."""
        rows = [row for row in rows if self.filter is None or self.filter.holds(row)]
        key_of = lambda row: tuple(row[column.name] for column in self.groups)
        groups = [list(group) for _, group in itertools.groupby(sorted(rows, key=key_of), key=key_of)]
        if not self.groups:
            groups = [rows]
        for item, descending in reversed(self.order):
            if all(self.cell(item, group) is not None for group in groups):
                groups.sort(key=lambda group: self.cell(item, group), reverse=descending)
        kept = groups[:10 if self.limit is None else self.limit]
        texts = ["[" + ",".join(cell_text(self.cell(item, group)) for item in self.items) + "]" for group in kept]
        return '{"ranges":[],"missing":[],"rows":[' + ",".join(texts) + "]}"


ESCAPES = {'"': '\\"', "\\": "\\\\", "\x08": "\\b", "\t": "\\t", "\n": "\\n", "\x0c": "\\f", "\r": "\\r"}


def cell_text(cell):
    if cell is None:
        return "null"
    if isinstance(cell, bool):
        return "true" if cell else "false"
    if isinstance(cell, int):
        return str(cell)
    return '"' + "".join(ESCAPES.get(c, c if ord(c) >= 32 else "\\u%04x" % ord(c)) for c in cell) + '"'


def edges_of(columns, rows):
    """The least and the greatest value of each column."""
    return {c.name: (min(row[c.name] for row in rows), max(row[c.name] for row in rows)) for c in columns} if rows else {}


def is_skipped(query, edges, rows):
    """Whether a segment of format 2 with these rows is skipped."""
    return not rows or (query.filter is not None and not query.filter.can_hold(edges))

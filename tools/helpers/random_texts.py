"""Random texts of queries, most of them with faults."""
import random_queries

NAMES = [*random_queries.NAMES, "_", "SELECT", "count", "not", "true", "1a", "x-y", "it's", "''", "tab\there", "日本",
         "A" * 128, "é" * 64, "x;", "COUNT(*)", "*", "selected", "b_y", "IN_", "t", " "]
# No query can name these columns.
UNNAMEABLE = ['q"q', "line\nend", '"', "\n", "x" * 129, "é" * 65]
TABLES = ["t", "T", "orders", "from", "a-b", "9", "my_table", "t_REALTIME", "_", "LIMIT", "x" * 119, "x" * 120,
          "x-" * 64]
MARKS = [*"(),*;=<>-!.'", '"', "<>", "!=", "<=", ">=", "''", '""', "<=>", "=="]
OTHER_TOKENS = ["k", '"k"', "7", "'a'", "nope", "x" * 130, '"' + "x" * 129 + '"']
CHARACTERS = [*"\0\n\r\v\f\t \"\"'';-!@`#/\\<>=(),*_0aZ{|}~[\x7f", *"\u00a0\u3000\ufeff\u212aé日😀ſ"]
TEXTS = [*random_queries.POOLS["STRING"], "OR", "''", "' AND k='", "x" * 200]
WHOLES = [0, 1, 2, 5, 10, 11, 2 ** 31 - 1, 2 ** 31, 2 ** 32, 2 ** 63 - 1]
BEYOND = [2 ** 63, 2 ** 63 + 1, 2 ** 64 - 1, 2 ** 64, 2 ** 64 + 5, 2 ** 127, 2 ** 128, 10 ** 19, 10 ** 40]
LIMITS = [0, 1, 7, 10, 999999, 1000000]
LIMITS_BEYOND = [1000001, 2 ** 32, 2 ** 32 + 1, 2 ** 64 + 1, 10 ** 30]
COUNT = ["COUNT", "(", "*", ")"]
# Of each kind of text: how often a choice is wrong, how often a further rule of syntax is broken, and at most how many
# changes of tokens and of characters there are.
MODES = {
    "valid": (0, 0, 0, 0), "few faults": (0.02, 0, 0, 0), "faults": (0.15, 0, 0, 0),
    "further rules": (0, 0.1, 0, 0), "faults and further rules": (0.1, 0.1, 0, 0),
    "a token": (0.05, 0, 1, 0), "tokens": (0.05, 0.02, 5, 0), "a character": (0.05, 0, 0, 1),
    "characters": (0.05, 0.02, 0, 5), "tokens and characters": (0, 0, 1, 1),
    "deep": (0.02, 0.03, 0, 0), "deep, changed": (0.02, 0, 1, 1),
}


def columns_of(random):
    """Columns of a schema. Some of them may have names that no query has."""
    names = random.sample(NAMES, random.choice([1, 2, 3, 5, 8, 12]))
    if random.random() < 0.1:
        names[random.randrange(len(names))] = random.choice(UNNAMEABLE[:4])
    return random_queries.columns_of(random, names)


class Maker:
    """Makes the tokens of a text; `fault` is how often a choice is wrong, `slip` how often a further rule is broken."""

    def __init__(self, random, columns, table, fault, slip):
        self.random, self.columns, self.table, self.fault, self.slip = random, columns, table, fault, slip
        self.kinds = {column.name: column.kind for column in columns}

    def chance(self, share):
        return self.random.random() < share

    def wrong(self):
        return self.chance(self.fault)

    def slips(self):
        return self.chance(self.slip)

    def word(self, word):
        mixed = "".join(self.random.choice([c.lower(), c.upper()]) for c in word)
        return self.random.choice([word, word, word.lower(), word.capitalize(), mixed])

    def listed(self, parts):
        found = list(parts[0])
        for part in parts[1:]:
            found += [",", *part]
        return found

    def name(self, name):
        return name if self.chance(self.slip / 3) else random_queries.spelled(self.random, name)

    def column(self, kinds=None):
        if self.wrong():
            return self.random.choice([*NAMES, "nope", "Nope"])
        if self.chance(self.slip / 3):
            return self.random.choice(UNNAMEABLE)
        fitting = [name for name, kind in self.kinds.items() if kinds is None or kind in kinds]
        return self.random.choice(fitting or list(self.kinds))

    def whole(self):
        number = self.random.choice(BEYOND if self.chance(self.fault / 2) else WHOLES)
        zeros = self.random.choice(["", "", "", "", "0", "000", "0" * 30])
        if self.chance(0.3):
            return ["-", zeros + str(number + self.random.choice([0, 0, 1]))]
        return [zeros + str(number)]

    def literal(self, kind):
        if self.wrong() or kind is None:
            kind = self.random.choice(list(random_queries.POOLS))
        if kind == "STRING":
            return ["'" + self.random.choice(TEXTS).replace("'", "''") + "'"]
        if kind == "BOOLEAN":
            return [self.word(self.random.choice(["true", "false"]))]
        return self.whole()

    def test(self):
        column = self.column()
        kind = self.kinds.get(column)
        ordered = kind != "BOOLEAN" or self.wrong()
        form = self.random.randrange(6)
        if form == 0 and ordered:
            return [self.name(column), self.word("BETWEEN"), *self.literal(kind), self.word("AND"), *self.literal(kind)]
        if form <= 2:
            return self.one_of(column, kind)
        marks = list(random_queries.COMPARISONS)
        return [self.name(column), self.random.choice(marks if ordered else marks[:3]), *self.literal(kind)]

    def one_of(self, column, kind):
        words = [self.word("NOT"), self.word("IN")] if self.chance(0.5) else [self.word("IN")]
        literals = [self.literal(kind) for _ in range(self.random.choice([1, 1, 2, 3, 6]))]
        return [self.name(column), *words, "(", *self.listed(literals), ")"]

    def predicate(self, size):
        form = self.random.randrange(5)
        if size <= 1:
            return self.test()
        if form <= 1:
            return self.wrapped(self.predicate(size - 1), 1, form)
        left = self.random.randrange(1, size)
        return [*self.predicate(left), self.word(self.random.choice(["AND", "OR"])), *self.predicate(size - left)]

    def wrapped(self, inner, count, share):
        """In parentheses and behind NOTs, as many as that together."""
        for _ in range(count):
            inner = ["(", *inner, ")"] if self.chance(share) else [self.word("NOT"), *inner]
        return inner

    def deep(self):
        """About as deep as may be, at one place or at several."""
        count = self.random.choice([62, 63, 64, 64, 64, 65, 65, 66, 70, 129])
        outer = self.random.choice([0, 0, 1, count // 2, count - 1])
        share = self.random.choice([0, 0.5, 0.9, 1])
        found = self.predicate(self.random.randint(1, 3))
        for _ in range(self.random.randint(1, 3)):
            part = self.wrapped(self.test(), count - outer - self.random.choice([0, 0, 1]), share)
            word = self.word(self.random.choice(["AND", "OR"]))
            found = [*found, word, *part] if self.chance(0.5) else [*part, word, *found]
        return self.wrapped(found, outer, share)

    def count(self):
        return [self.word(COUNT[0]), *COUNT[1:]]

    def item(self, groups):
        word = self.random.choice(["COUNT", "SUM", "MIN", "MAX", None])
        if word is None:
            return [self.name(self.random.choice(groups) if groups and not self.slips() else self.column())]
        kinds = random_queries.INTEGERS[:2] if word == "SUM" else random_queries.INTEGERS
        if word == "COUNT" or not (set(kinds) & set(self.kinds.values()) or self.wrong()):
            return self.count()
        return [self.word(word), "(", self.name(self.column(kinds)), ")"]

    def items(self, groups):
        items = [self.item(groups) for _ in range(self.random.choice([1, 1, 2, 3, 5]))]
        if not groups and not self.slips():
            items = [item for item in items if len(item) > 1]
        if not items or not any(len(item) > 1 for item in items) and not self.slips():
            items.insert(self.random.randint(0, len(items)), self.count())
        return items

    def groups(self):
        names = [column.name for column in self.columns]
        groups = self.random.sample(names, min(len(names), self.random.choice([0, 0, 1, 2, 3])))
        if groups and self.slips():
            groups.insert(self.random.randint(0, len(groups)), self.random.choice([*groups, *NAMES]))
        return list(dict.fromkeys([*groups, self.column()])) if self.wrong() else groups

    def key(self, items, groups):
        if self.slips():
            key = self.item(groups)
        elif groups and self.chance(0.4):
            key = [self.name(self.random.choice(groups))]
        else:
            key = self.random.choice(items)
            key = [self.word(key[0].upper()), *key[1:]] if len(key) > 1 else key
        return [*key, *self.random.choice([[], [self.word("ASC")], [self.word("DESC")]])]

    def from_table(self):
        others = [*TABLES, "t_realtime", "t_REALTIME_REALTIME", "other", self.table.upper()]
        if self.wrong():
            return self.name(self.random.choice(others))
        return self.name(self.table + self.random.choice(["", "", "_REALTIME"]))

    def limit(self):
        number = self.random.choice(LIMITS_BEYOND if self.wrong() else LIMITS)
        sign = ["-"] if self.chance(self.slip / 3) else []
        return [self.word("LIMIT"), *sign, self.random.choice(["", "", "00"]) + str(number)]

    def query(self, condition):
        groups = self.groups()
        items = self.items(groups)
        found = [self.word("SELECT"), *self.listed(items), self.word("FROM"), self.from_table()]
        if condition:
            found += [self.word("WHERE"), *condition]
        if groups:
            found += [self.word("GROUP"), self.word("BY"), *self.listed([[self.name(name)] for name in groups])]
        if self.chance(0.5):
            keys = [self.key(items, groups) for _ in range(self.random.choice([1, 1, 2, 3]))]
            found += [self.word("ORDER"), self.word("BY"), *self.listed(keys)]
        found += self.limit() if self.chance(0.5) else []
        return found + ([";"] if self.chance(0.2) else [])


def may_touch(left, right):
    """Whether two tokens need no blank between them."""
    inner = all(c.isalnum() or c == "_" for c in (left[-1:], right[:1]))
    return not inner or left.isdigit() and not right[:1].isdigit()


def spaced(random, tokens):
    """The tokens with blanks between them, some where none is needed."""
    share = random.choice([0.05, 0.5, 0.95])
    blank = random.choice([" ", " ", " ", "\t", "  ", " \t "])
    text = "".join(tokens[:1])
    for left, right in zip(tokens, tokens[1:]):
        text += (blank if random.random() < share or not may_touch(left, right) else "") + right
    return random.choice(["", "", "", " ", "\t"]) + text + random.choice(["", "", "", " ", "\t \t"])


def other_token(random):
    return random.choice(random.choice([sorted(random_queries.WORDS), MARKS, OTHER_TOKENS]))


def changed(random, whole, other):
    """A list or a text with one change at a random place, for which `other` may be used."""
    place, end = sorted(random.choices(range(len(whole) + 1), k=2))
    before, rest = whole[:place], whole[place:]
    return random.choice([
        before + rest[1:],
        before + rest[:1] + rest,
        before + rest[1:2] + rest[:1] + rest[2:],
        before + other + rest[1:],
        before + other + rest,
        before,
        rest,
        whole[:end] + rest,
        before + whole[end:],
    ])


def text_of(random, columns, table):
    """A text, and which kind it is of."""
    mode = random.choice(list(MODES))
    fault, slip, token_changes, character_changes = MODES[mode]
    maker = Maker(random, columns, table, fault, slip)
    condition = maker.deep() if mode.startswith("deep") else maker.predicate(random.choice([1, 2, 3, 5, 8]))
    tokens = maker.query(condition if random.random() < 0.85 else None)
    for _ in range(random.randint(min(1, token_changes), token_changes)):
        tokens = changed(random, tokens, [other_token(random)])
    text = spaced(random, tokens)
    for _ in range(random.randint(min(1, character_changes), character_changes)):
        text = changed(random, text, random.choice(CHARACTERS))
    return mode, text


def stuffing(random, name):
    """What stands for itself in front of a condition, and grows with a number."""
    return random.choice([
        lambda count: [name, "=", "1", "OR"] * (count // 8),
        lambda count: [name, "IN", "(", "7", *[",", "7"] * (count // 4), ")", "OR"],
        lambda count: [name, "=", "0" * count + "9", "OR"],
        lambda count: [name, "=", "'" + "x" * count + "'", "OR"],
        lambda count: ["x" * count, "=", "1", "OR"],
        lambda count: [],
    ])


def long_text(random, columns, table):
    """A text about as long as may be, by a long list, chain, name or literal, and by blanks."""
    maker = Maker(random, columns, table, random.choice([0, 0.1]), 0)
    head, tail = [*COUNT, "FROM", maker.from_table(), "WHERE"], maker.predicate(2)
    stuff = stuffing(random, maker.name(maker.column()))
    count = wanted = random.choice([65535, 65536, 65536, 65537, 65537, 65538, 70000])
    joined = lambda: " ".join(["SELECT", *head, *stuff(count), *tail])
    while len(joined().encode()) > wanted:
        count -= 300
    text = joined() if random.random() < 0.7 else changed(random, joined(), random.choice(CHARACTERS))
    blanks = " " * (wanted - len(text.encode()))
    return "long", text.replace(" ", " " + blanks, 1) if random.random() < 0.5 else text + blanks

"""Reads the texts of queries by docs/rules alone: no code of the crates is used."""
import re

import random_queries

COMPARISONS = {"=": "=", "<>": "!", "!=": "!", "<": "<", "<=": "l", ">": ">", ">=": "g"}
TOKEN = re.compile(rb"""[ \t]*(?:
    (?P<digits>[0-9]+)
  | (?P<plain>[A-Za-z_][A-Za-z0-9_]*)
  | "(?P<quoted>[^"\n]{1,128})"
  | '(?P<text>(?:[^']|'')*)'(?!')
  | (?P<mark><>|!=|<=|>=|[<>=,()*;-])
  | (?P<end>\Z)
)""", re.VERBOSE)


class Syntax(Exception):
    """A text is no query, at a byte."""


class Refused(Exception):
    """A query is refused, by a number."""


class Token:
    def __init__(self, kind, value, byte):
        self.kind, self.value, self.byte = kind, value, byte


def token_of(found):
    kind = found.lastgroup
    value, byte = found.group(kind), found.start(kind)
    if kind == "plain":
        word = value.decode().upper()
        return Token("word", word, byte) if word in random_queries.WORDS else Token("name", value, byte)
    if kind == "quoted":
        return Token("name", value, byte - 1)
    if kind == "text":
        return Token(kind, value.replace(b"''", b"'"), byte - 1)
    return Token(kind, value.decode(), byte)


def tokens(text):
    """Its tokens, up to the end or to what is none."""
    place = 0
    while found := TOKEN.match(text, place):
        yield token_of(found)
        place = found.end()
    yield Token("none", None, re.compile(rb"[ \t]*").match(text, place).end())


class Reader:
    """A query as the grammar has it. Columns are names; items, names of groups and keys have their bytes first."""

    def __init__(self, text):
        self.left = tokens(text)
        self.depth = 0
        self.advance()

    def advance(self):
        self.token = next(self.left)

    def sees(self, *values):
        return self.token.kind in ("word", "mark") and self.token.value in values

    def takes(self, *values):
        if not self.sees(*values):
            return None
        value = self.token.value
        self.advance()
        return value

    def fail(self):
        raise Syntax(self.token.byte)

    def needs(self, *values):
        return self.takes(*values) or self.fail()

    def needs_kind(self, kind):
        if self.token.kind != kind:
            self.fail()
        value = self.token.value
        self.advance()
        return value

    def listed(self, part):
        parts = [part()]
        while self.takes(","):
            parts.append(part())
        return parts

    def item(self):
        byte = self.token.byte
        word = self.takes("COUNT", "SUM", "MIN", "MAX")
        if word is None:
            return byte, (None, self.needs_kind("name"))
        self.needs("(")
        name = self.needs_kind("name") if word != "COUNT" else self.needs("*") and None
        self.needs(")")
        return byte, (word, name)

    def key(self):
        byte, item = self.item()
        return byte, item, self.takes("ASC", "DESC") == "DESC"

    def group(self):
        return self.token.byte, self.needs_kind("name")

    def joined(self, word, part):
        parts = [part()]
        while self.takes(word):
            parts.append(part())
        return parts[0] if len(parts) == 1 else (word, parts)

    def predicate(self):
        return self.joined("OR", lambda: self.joined("AND", self.term))

    def term(self):
        if self.sees("NOT"):
            return self.deeper(self.negated)
        if self.sees("("):
            return self.deeper(self.in_parentheses)
        return self.test(self.needs_kind("name"))

    def deeper(self, part):
        self.depth += 1
        if self.depth > 64:
            raise Refused(5)
        self.advance()
        found = part()
        self.depth -= 1
        return found

    def in_parentheses(self):
        found = self.predicate()
        self.needs(")")
        return found

    def negated(self):
        return "NOT", [self.term()]

    def test(self, name):
        word = self.needs("BETWEEN", "NOT", "IN", *COMPARISONS)
        if word == "BETWEEN":
            low = self.literal()
            self.needs("AND")
            return "B", name, [low, self.literal()]
        if word == "NOT":
            self.needs("IN")
        if word in ("NOT", "IN"):
            self.needs("(")
            literals = self.listed(self.literal)
            self.needs(")")
            return word[0], name, literals
        return COMPARISONS[word], name, [self.literal()]

    def literal(self):
        if self.takes("-"):
            return -int(self.needs_kind("digits"))
        if self.token.kind == "digits":
            return int(self.needs_kind("digits"))
        if self.token.kind == "text":
            return self.needs_kind("text")
        return self.needs("TRUE", "FALSE") == "TRUE"

    def behind(self, word, part):
        if not self.takes(word):
            return []
        self.needs("BY")
        return self.listed(part)

    def query(self):
        self.needs("SELECT")
        query = {"items": self.listed(self.item)}
        self.needs("FROM")
        query["table"] = self.needs_kind("name")
        query["filter"] = self.predicate() if self.takes("WHERE") else None
        query["groups"] = self.behind("GROUP", self.group)
        query["order"] = self.behind("ORDER", self.key)
        query["limit"] = int(self.needs_kind("digits")) if self.takes("LIMIT") else 10
        self.takes(";")
        self.needs_kind("end")
        return query


def breaches(query):
    """The bytes where a query that the grammar reads breaks a further rule of syntax."""
    items = [item for _, item in query["items"]]
    groups = [name for _, name in query["groups"]]
    if not any(word for word, _ in items):
        yield query["items"][0][0]
    for byte, (word, name) in query["items"]:
        if word is None and name not in groups:
            yield byte
    for byte, (word, name), _ in query["order"]:
        if (word, name) not in items and (word or name not in groups):
            yield byte
    for place, (byte, name) in enumerate(query["groups"]):
        if name in groups[:place]:
            yield byte


def tests(predicate):
    if predicate is None:
        return
    if predicate[0] not in ("NOT", "AND", "OR"):
        yield predicate
        return
    for part in predicate[1]:
        yield from tests(part)


def fits_item(word, kind):
    return word in (None, "COUNT") or kind in ("INT", "LONG") or (kind == "TIMESTAMP" and word != "SUM")


def fits_test(form, kind, literals):
    wanted = {"STRING": bytes, "BOOLEAN": bool}.get(kind, int)
    return all(type(literal) is wanted for literal in literals) and not (kind == "BOOLEAN" and form in "B<l>g")


def refuse(query, kinds, table):
    """Ends with the first refusal of a query without a breach."""
    if query["table"] not in (table, table + b"_REALTIME"):
        raise Refused(2)
    items = [item for _, item in query["items"]] + [item for _, item, _ in query["order"]]
    found = list(tests(query["filter"]))
    names = [name for word, name in items if word != "COUNT"] + [name for _, name in query["groups"]]
    if any(name not in kinds for name in names + [name for _, name, _ in found]):
        raise Refused(3)
    if not all(fits_item(word, kinds.get(name)) for word, name in items):
        raise Refused(4)
    if not all(fits_test(form, kinds[name], literals) for form, name, literals in found):
        raise Refused(4)
    numbers = [literal for _, _, literals in found for literal in literals if type(literal) is int]
    low, high = random_queries.LONG
    if query["limit"] > 1000000 or not all(low <= number <= high for number in numbers):
        raise Refused(5)


class Printer:
    """Queries in one form: columns by place and name, the name in hexadecimal."""

    def __init__(self, columns):
        self.places = {column.name.encode(): place for place, column in enumerate(columns)}

    def column(self, name):
        return " %d.%s" % (self.places[name], name.hex())

    def item(self, item):
        word, name = item
        return " " + (word or "column") + ("" if name is None else self.column(name))

    def literal(self, literal):
        if isinstance(literal, bytes):
            return " text " + (literal.hex() or "-")
        return " " + str(literal).lower()

    def predicate(self, predicate):
        if predicate[0] in ("NOT", "AND", "OR"):
            return " (" + predicate[0] + "".join(map(self.predicate, predicate[1])) + ")"
        form, name, literals = predicate
        return " (" + form + self.column(name) + "".join(map(self.literal, literals)) + ")"

    def query(self, query):
        parts = ["ok", *(self.item(item) for _, item in query["items"]), " where"]
        parts += [self.predicate(query["filter"])] if query["filter"] else []
        parts += [" by", *(self.column(name) for _, name in query["groups"]), " order"]
        parts += [self.item(item) + (" down" if down else " up") for _, item, down in query["order"]]
        return "".join(parts) + " limit %d" % query["limit"]


def answer(columns, table, text):
    """`ok` and the query, `syntax BYTE`, or the refusal's number."""
    if len(text) > 65536:
        return "5"
    try:
        query = Reader(text).query()
        least = min(breaches(query), default=None)
        if least is not None:
            raise Syntax(least)
        refuse(query, {column.name.encode(): column.kind for column in columns}, table.encode())
    except Syntax as fault:
        return "syntax %d" % fault.args
    except Refused as fault:
        return "%d" % fault.args
    return Printer(columns).query(query)

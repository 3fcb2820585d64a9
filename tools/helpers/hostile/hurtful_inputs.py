"""The largest and the worst inputs: each ends with its own refusal or its report, within a bound of time and of memory.

The bounds are a part that stands for a run at all and one for each byte of the input, or for each row that a few bytes make. The table
tells what each run took. Behind these come small inputs that are made to hurt, which have to end as the model says (hurtful_texts).
"""
import dataclasses
import itertools
import pathlib
import tempfile

import hurtful_texts
import running
import worlds_of

MOST = 67_108_864
MOST_MESSAGE, MOST_QUERY = 65_536, 65_536
ROWS = 1_000_000
HEADER = worlds_of.HEADER
# What a run may take at all, in seconds and bytes of memory.
SECONDS, MEMORY = 1.0, 16 * 2**20
LONGEST = 600


@dataclasses.dataclass
class Input:
    """An input, how it has to end, and what it may take: nanoseconds and bytes of memory for each of its units, which are bytes or rows."""
    name: str
    script: bytes
    status: int
    said: str
    nanoseconds: float
    memory: float
    rows: int = 0
    # The last line of the report, or a front of it.
    last: bytes = b""

    def units(self):
        return self.rows or len(self.script)


def filled(front, piece, back, size):
    """A text of just this size: a front, as many pieces as there is room for, and a back behind spaces."""
    count = (size - len(front) - len(back)) // len(piece)
    whole = front + piece * count
    return whole + b" " * (size - len(whole) - len(back)) + back


def whole_lines(front, line, size):
    return front + line * ((size - len(front)) // len(line))


def inputs_without_header(size):
    yield Input("one line", b"x" * size, 3, "line 1: BadLine", 10, 3)
    yield Input("empty lines", b"\n" * size, 3, f"line {size + 1}: BadLine", 20, 3)
    yield Input("lines of one carriage return", b"\r\n" * (size // 2), 3, f"line {size // 2 + 1}: BadLine", 20, 3)
    yield Input("carriage returns alone", b"\r" * size, 3, "line 1: BadLine", 10, 3)
    yield Input("comments", b"#\n" * (size // 2), 3, f"line {size // 2 + 1}: BadLine", 20, 3)
    yield Input("one comment", b"#" * size, 3, "line 2: BadLine", 10, 3)
    yield Input("zero bytes", bytes(size), 3, "line 1: BadLine", 10, 3)
    yield Input("a schema that is one open bracket after the other", filled(b"schema ", b"[", b"", size), 3, "line 1: schema 1", 20, 6)
    yield Input("a schema of one text", filled(b'schema {"x":"', b"a", b'"}', size), 3, "line 1: schema 2", 40, 6)
    yield Input("a schema of one number", filled(b'schema {"x":', b"1", b"}", size), 3, "line 1: schema 1", 60, 6)
    yield Input("a schema of one array", filled(b'schema {"x":[0', b",0", b"]}", size), 3, "line 1: schema 2", 100, 60)
    yield Input("a schema of one key many times", filled(b'schema {"x":0', b',"x":0', b"}", size), 3, "line 1: schema 2", 100, 10)
    yield Input("a schema of many keys", many_keys(size), 3, "line 1: schema 2", 900, 60)


def many_keys(size):
    front, back = b'schema {"x":0', b"}"
    count = (size - len(front) - len(back)) // len(b',"00000000":0')
    return front + b"".join(b',"%08d":0' % number for number in range(count)) + back


def inputs_with_header(size):
    yield Input("a header and one line", filled(HEADER, b"x", b"", size), 3, "line 4: BadLine", 10, 3)
    yield Input("a row of nearly all the input", filled(HEADER + b'produce 0 {"k":"', b"a", b'"}', size), 7, "limit: message", 10, 3)
    yield Input("a key of 1 MB", filled(HEADER + b'produce 0 {"', b"k", b'":1}', len(HEADER) + 1_000_000), 7, "limit: message", 10, 3)
    yield Input("a query of nearly all the input", filled(HEADER + b"query ", b"x", b"", size), 0, "", 10, 3, last=b"noquery 5")
    message = b"produce 0 " + b"x" * MOST_MESSAGE + b"\n"
    yield Input("messages of 65,536 bytes", whole_lines(HEADER, message, size), 0, "", 10, 6, last=b"produced 0@")
    yield Input("ticks", whole_lines(HEADER, b"tick 1\n", size), 7, "limit: events", 100, 6, last=b"now ")
    yield Input("messages of two bytes", whole_lines(HEADER, b"produce 0 {}\n", size), 7, "limit: events", 100, 12, last=b"produced 0@")
    yield Input("queries that are none", whole_lines(HEADER, b"ask x\n", size), 7, "limit: events", 300, 6, last=b"noquery 1")


def inputs_with_rows(rows):
    """A few bytes that make many rows, or many groups."""
    filling = HEADER + b"fill 0 %d\nconsume s0 0/0 %d\n" % (rows, rows)
    grouped = b"query SELECT v, COUNT(*), SUM(v), MIN(v), MAX(v) FROM t GROUP BY v ORDER BY SUM(v) DESC LIMIT 1000000\n"
    yield Input("groups of numbers", filling + grouped, 0, "", 12_000, 3000, rows, b"answer ")
    texts = HEADER + b"".join(b'produce 0 {"k":"k%07d"}\n' % number for number in range(rows)) + b"consume s0 0/0 %d\n" % rows
    grouped = b"query SELECT k, COUNT(*) FROM t GROUP BY k ORDER BY k DESC LIMIT 1000000\n"
    yield Input("groups of texts", texts + grouped, 0, "", 20_000, 3000, rows, b"answer ")
    few = rows // 1000
    filling = HEADER + b"fill 0 %d\nconsume s0 0/0 %d\n"
    listed = filled(b"query SELECT COUNT(*) FROM t WHERE v IN (0", b",1", b")", MOST_QUERY + 6) + b"\n"
    yield Input("a list of 32,000 numbers over rows", filling % (10 * few, 10 * few) + listed, 0, "", 300_000, 2000, 10 * few, b"answer ")
    keys = filled(b"query SELECT v, COUNT(*) FROM t GROUP BY v ORDER BY COUNT(*)", b",COUNT(*)", b" LIMIT 1", MOST_QUERY + 6) + b"\n"
    yield Input("7,000 level keys of an order over groups", filling % (few, few) + keys, 0, "", 5_000_000, 1_200_000, few, b"answer ")
    terms = filled(b"query SELECT COUNT(*) FROM t WHERE v=-1", b" OR v=-1", b"", MOST_QUERY + 6) + b"\n"
    yield Input("8,000 comparisons over rows", filling % (few, few) + terms, 0, "", 1_000_000, 2000, few, b"answer ")


def inputs_of_settings(size):
    """Settings whose lists are long: of indexed columns, and of keys of an upsert table."""
    schema, table, cluster = HEADER.rstrip(b"\n").split(b"\n")
    listed = filled(b'"invertedIndexColumns":["k"', b',"k"', b"]", size - len(HEADER))
    indexed = table.replace(b'"invertedIndexColumns":["k"]', listed)
    yield Input("one indexed column many times", b"\n".join([schema, indexed, cluster, b""]), 0, "", 300, 60)
    keys = filled(b'"primaryKeyColumns":["k"', b',"k"', b"]", size // 2)
    upserts = table.replace(b'"tableName":"t"', b'"tableName":"t","upsertConfig":{"mode":"FULL","comparisonColumn":"v"}')
    keyed = schema.replace(b'"schemaName":"t"', b'"schemaName":"t",' + keys)
    yield Input("one primary key many times", b"\n".join([keyed, upserts, cluster, b""]), 0, "", 300, 60)


def inputs_of_clusters(commits):
    """Few bytes that make many commits of segments of one row, on eight servers: the ideal states of the history grow with their square."""
    schema, table, _ = HEADER.rstrip(b"\n").split(b"\n")
    table = table.replace(b'"replication":"1"', b'"replication":"8"').replace(b'rows":"1000000"', b'rows":"1"')
    cluster = b"cluster servers=8 controllers=1 partitions=1 start=1700000000000 grace=0"
    script = b"\n".join([schema, table, cluster, b"fill 0 %d" % commits, b"settle 1000000", b""])
    yield Input("segments of one row on eight servers", script, 0, "", 20_000_000, 500_000, commits, b"settled\n")


QUERIES = [
    ("items", b"SELECT COUNT(*)", b",COUNT(*)", b" FROM t"), ("names", b"SELECT COUNT(*)", b",k", b" FROM t GROUP BY k"),
    ("sums", b"SELECT SUM(v)", b",SUM(v)", b" FROM t"), ("keys", b"SELECT COUNT(*) FROM t ORDER BY COUNT(*)", b",COUNT(*) DESC", b""),
    ("one group many times", b"SELECT COUNT(*) FROM t GROUP BY k", b",k", b""), ("OR", b"SELECT COUNT(*) FROM t WHERE v=0", b" OR v=1", b""),
    ("AND", b"SELECT COUNT(*) FROM t WHERE v<>0", b" AND v>1", b""), ("IN", b"SELECT COUNT(*) FROM t WHERE v IN (0", b",1", b")"),
    ("NOT IN of texts", b"SELECT COUNT(*) FROM t WHERE k NOT IN ('a'", b",'b'", b")"),
    ("BETWEEN", b"SELECT COUNT(*) FROM t WHERE v BETWEEN 0 AND 1", b" OR v BETWEEN 0 AND 1", b""),
    ("open parentheses", b"SELECT COUNT(*) FROM t WHERE ", b"(", b""), ("NOT", b"SELECT COUNT(*) FROM t WHERE v=1 OR", b" NOT", b" v=1"),
    ("pairs of parentheses", b"SELECT COUNT(*) FROM t WHERE (v=1)", b" OR (v=1)", b""),
    ("one text", b"SELECT COUNT(*) FROM t WHERE k='", b"a", b"'"), ("a text of quotes", b"SELECT COUNT(*) FROM t WHERE k='", b"''", b"'"),
    ("a text without its end", b"SELECT COUNT(*) FROM t WHERE k='", b"a", b""),
    ("a name in quotes", b'SELECT COUNT(*) FROM t WHERE "', b"a", b'"=1'),
    ("a plain name", b"SELECT COUNT(*) FROM t WHERE ", b"a", b"=1"), ("digits", b"SELECT COUNT(*) FROM t WHERE v=", b"9", b""),
    ("a minus", b"SELECT COUNT(*) FROM t WHERE v=", b"-", b"1"), ("a limit", b"SELECT COUNT(*) FROM t LIMIT ", b"9", b""),
    ("a limit of zeros", b"SELECT COUNT(*) FROM t LIMIT ", b"0", b"1"), ("tabs", b"SELECT COUNT(*)", b"\t", b"FROM t"),
    ("semicolons", b"SELECT COUNT(*) FROM t", b";", b""), ("wide letters", b"SELECT ", "é".encode(), b"(*) FROM t"),
    ("wide texts", b"SELECT COUNT(*) FROM t WHERE k='", "日".encode(), b"'"), ("words", b"SELECT", b" SELECT", b""),
]
ROWS_OF_QUERIES = 20


def inputs_of_queries():
    """A query of 65,536 bytes, and one of a byte more, of each construct. How they end the model says."""
    lines = HEADER + b"fill 0 %d\nconsume s0 0/0 %d\nquery " % (ROWS_OF_QUERIES, ROWS_OF_QUERIES)
    for (name, *parts), size in itertools.product(QUERIES, (MOST_QUERY, MOST_QUERY + 1)):
        script = lines + filled(*parts, size) + b"\n"
        report, said = worlds_of.played(script)
        last = report.rstrip(b"\n").split(b"\n")[-1] + b"\n"
        yield Input(f"a query of {size:,} bytes: {name}", script, worlds_of.status_of(said), said, 10_000, 400, last=last)


def schema_of(columns, name=b"c%d"):
    listed = b",".join(b'{"name":"' + (name % number if b"%" in name else name) + b'","dataType":"LONG"}' for number in range(columns))
    return b'schema {"schemaName":"t","metricFieldSpecs":[' + listed + b"]}\n"


def inputs_of_columns(many):
    """Schemas at the greatest number of columns and past it, up to so many, with rows and a query over all."""
    table, cluster = b'table {"tableName":"t","tableType":"REALTIME","segmentsConfig":{"replication":"1"}}\n', HEADER.split(b"\n")[2] + b"\n"
    row = b"produce 0 {" + b",".join(b'"c%d":%d' % (number, number) for number in range(256)) + b"}\n"
    query = b"query SELECT " + b",".join(b"SUM(c%d)" % number for number in range(256)) + b" FROM t\n"
    last = b'answer {"ranges":[[0,0,1000]],"missing":[],"rows":[[' + b",".join(b"%d" % (1000 * number) for number in range(256)) + b"]]}\n"
    yield Input("256 columns", schema_of(256) + table + cluster + row * 1000 + b"consume s0 0/0 1000\n" + query, 0, "", 200, 20, last=last)
    yield Input("257 columns", schema_of(257) + table + cluster, 3, "line 1: schema 5", 1000, 100)
    yield Input(f"{many:,} columns", schema_of(many), 3, "line 1: schema 5", 200, 60)
    yield Input("256 columns of one name", schema_of(256, b"c") + table, 3, "line 1: schema 4", 1000, 100)
    yield Input(f"{many:,} columns of one name", schema_of(many, b"c"), 3, "line 1: schema 4", 200, 60)
    yield Input("a column's name of 1 MB", schema_of(1, b"c" * 1_000_000), 3, "line 1: schema 5", 1000, 20)


def wrong(wanted, ended):
    """What is wrong with how an input ended, or none."""
    said = f"{wanted.said}\n".encode() if wanted.said else b""
    if (ended.status, ended.said) != (wanted.status, said):
        return ended.shown()
    last = ended.wrote[ended.wrote.rstrip(b"\n").rfind(b"\n") + 1:]
    if not is_right(wanted.last, last):
        return f"another report, whose last line begins {last[:60]!r}"
    seconds, memory = SECONDS + wanted.nanoseconds * wanted.units() / 1e9, MEMORY + wanted.memory * wanted.units()
    if ended.seconds > seconds:
        return f"{ended.seconds:.2f} s, and {seconds:.2f} are allowed"
    return None if ended.memory <= memory else f"{ended.memory:,} bytes of memory, and {memory:,.0f} are allowed"


def is_right(wanted, last):
    """Whether a report's last line is the one that is wanted, or begins so where that has no end; nothing is no report."""
    return last == wanted if wanted.endswith(b"\n") or not wanted else last.startswith(wanted)


def tries(given, count, each, path, least):
    path.write_bytes(each.script)
    ended = running.measured(given.program, path, seconds=LONGEST)
    count.case(each.name, wrong(each, ended))
    unit = "row" if each.rows else "byte"
    nanoseconds = max(0.0, ended.seconds - least.seconds) * 1e9 / each.units()
    memory = max(0, ended.memory - least.memory) / each.units()
    print(f"  {each.name}: {each.units():,} {unit}s, {ended.seconds:.2f} s, {ended.memory / 2**20:.0f} MiB; "
          f"{nanoseconds:.1f} ns and {memory:.1f} bytes a {unit}", flush=True)


def run(given):
    """All of them; in a quick run those that are large are of a hundredth of the size."""
    count, size, rows = running.Count("inputs"), MOST // 100 if given.quick else MOST, ROWS // 100 if given.quick else ROWS
    listed = [inputs_without_header(size), itertools.islice(inputs_with_header(size), 5 if given.quick else None), inputs_of_queries(),
              inputs_of_columns(rows), inputs_of_settings(size), inputs_with_rows(rows), inputs_of_clusters(rows // 1000)]
    with tempfile.TemporaryDirectory() as folder:
        path = pathlib.Path(folder, "input")
        path.write_bytes(b"")
        least = running.measured(given.program, path)
        if not given.quick:
            tries(given, count, Input("one byte too many", b"x" * (MOST + 1), 7, "limit: input", 10, 3), path, least)
        for each in itertools.chain(*listed):
            tries(given, count, each, path, least)
    hurtful_texts.run(given, count)
    return count.tell()

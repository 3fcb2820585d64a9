"""Peers and deep stores that lie of a committed segment's file, against the built rt_calls.

Of random files of both formats a fetch asks a deep store and some peers, each of which has the file, nothing, another file that looks
like it, or a fault; and a server downloads what stands at the path of the commit. What is taken must be the file of the commit, from
the first that has it, and what is refused must be refused for what was found: both by the second reader of helpers/segment_reader.py.
"""
import dataclasses
import json
import random

import calls
import damaged_files
import running
import segment_reader

# How many cases one run has.
AT_ONCE = 200
PATH = "path/of-the.commit"
TYPES = {segment_reader.INT: "INT", segment_reader.LONG: "LONG", segment_reader.STRING: "STRING", segment_reader.BOOLEAN: "BOOLEAN",
         segment_reader.TIMESTAMP: "TIMESTAMP"}


@dataclasses.dataclass(frozen=True)
class Header:
    """What the metadata of a commit names of its file."""
    partition: int
    sequence: int
    start: int
    end: int
    digest: bytes
    rows: int

    def text(self):
        return f"{self.partition}/{self.sequence} {self.start} {self.end} {self.digest.hex()} {self.rows}"

    def line(self, path):
        """The words of a line, with the path of the commit."""
        return f"{self.partition}/{self.sequence} {self.start} {self.end} {path} {self.digest.hex()} {self.rows}"


def header_of(data):
    """The header of a file, or none where the bytes are none."""
    try:
        file = segment_reader.read(data)
    except segment_reader.Fault:
        return None
    return Header(*file.numbers, data[-32:], file.rows)


# ---- lies: each is made of the right file, and none of them is that file

def with_other(file, **parts):
    """A file with some of its parts changed."""
    return segment_reader.File(parts.get("version", file.version), parts.get("numbers", file.numbers), parts.get("rows", file.rows),
                               parts.get("columns", file.columns))


def written(file):
    return segment_reader.write(file, file.version)


def with_values(file, place, values):
    columns = list(file.columns)
    old = columns[place]
    columns[place] = segment_reader.Column(old.name, old.kind, old.indexed, values)
    return with_other(file, columns=columns)


def other_value(kind, value):
    if kind == segment_reader.STRING:
        return value + "!"
    return 1 - value if kind == segment_reader.BOOLEAN else value - 1 if value > 0 else value + 1


def wrong_rows(chance, file, whole):
    """One value of one row is another, and the header and the digest fit."""
    place, row = chance.randrange(len(file.columns)), chance.randrange(file.rows)
    column = file.columns[place]
    values = list(column.values)
    values[row] = other_value(column.kind, values[row])
    return written(with_values(file, place, values))


def exchanged_rows(chance, file, whole):
    """The rows in the opposite order; with one more of the first where that is the same."""
    turned = [segment_reader.Column(c.name, c.kind, c.indexed, c.values[::-1]) for c in file.columns]
    made = written(with_other(file, columns=turned))
    return wrong_rows(chance, file, whole) if made == whole else made


def wrong_digest(chance, file, whole):
    place = len(whole) - 1 - chance.randrange(32)
    return whole[:place] + bytes([whole[place] ^ 1 << chance.randrange(8)]) + whole[place + 1:]


def renumbered(chance, file, places):
    """Another partition or sequence, or another range."""
    numbers = list(file.numbers)
    place = chance.choice(places)
    numbers[place] = numbers[place] + 1 if place == 3 or place < 2 and numbers[place] == 0 else numbers[place] - 1
    return written(with_other(file, numbers=numbers))


def another_segment(chance, file, whole):
    return renumbered(chance, file, [0, 1])


def another_range(chance, file, whole):
    return renumbered(chance, file, [2, 3] if file.numbers[2] else [3])


def fewer_rows(chance, file, whole):
    """The last row is left out, and the range isn't."""
    cut = [segment_reader.Column(c.name, c.kind, c.indexed, c.values[:-1]) for c in file.columns]
    return written(with_other(file, rows=file.rows - 1, columns=cut))


def another_format(chance, file, whole):
    return segment_reader.write(file, 3 - file.version)


def unknown_format(chance, file, whole):
    return segment_reader.with_digest(whole[:7] + chance.choice([b"0", b"3", b"\0"]) + whole[8:-32])


def other_columns(chance, file, whole):
    """A column of another name, or with posting lists where it has none."""
    columns, place = list(file.columns), chance.randrange(len(file.columns))
    old = columns[place]
    name, indexed = chance.choice([(old.name + "_", old.indexed), (old.name, 1 - old.indexed)])
    columns[place] = segment_reader.Column(name, old.kind, indexed, old.values)
    return written(with_other(file, columns=columns))


def cut(chance, file, whole):
    return whole[:chance.choice([0, 8, len(whole) - 32, len(whole) - 1, chance.randrange(len(whole))])]


def continued(chance, file, whole):
    return whole + chance.choice([b"\0", whole, whole[-32:]])


def damaged(chance, file, whole):
    """Any damage; where it is none, the digest is another."""
    made = damaged_files.Damages(chance, whole).one(whole[-32:])
    return made if made != whole else wrong_digest(chance, file, whole)


LIES = [wrong_rows, exchanged_rows, wrong_digest, another_segment, another_range, fewer_rows, another_format, unknown_format, other_columns,
        cut, continued, damaged]


# ---- what must come

def fetched(wanted, deep, peers):
    """What a fetch answers, by what each place answers: bytes, none, or a fault, which is False."""
    failed = False
    for place, answer in enumerate([deep, *peers]):
        if answer is False:
            failed = True
        elif answer is not None and header_of(answer) == wanted:
            return ("deep" if place == 0 else f"peer {place - 1}") + f" {answer.hex()}"
    return "faulted" if failed else "nowhere"


def downloaded(wanted, answer, fits):
    """What a download, the file behind it and whether it is wanted still are answered, by what the deep store answers."""
    found = None if answer is None or answer is False else header_of(answer)
    if found == wanted and fits:
        told, held = f"ok {wanted.rows}", answer.hex()
    else:
        told = "failed" if answer is False else f"badfile {wanted.text()}, {found.text() if found else '-'}"
        held = "none"
    state = "DISCARDED" if held == "none" else "COMMITTED"
    return f"{told} -> {state}; {held} -> {state}; {'true' if held == 'none' else 'false'} -> {state}"


def peer_word(answer):
    return "failed" if answer is False else "none" if answer is None else "holds " + calls.as_hex(answer)


def deep_lines(deep):
    """The lines that make the deep store answer so at the path of the commit."""
    lines = [("deep make", "ok")]
    if deep is False:
        return [*lines, ("deep fault lost", "ok")]
    return lines if deep is None else [*lines, (f"deep put {PATH} {calls.as_hex(deep)}", "ok")]


def fetch_line(wanted, peers):
    return f"fetch {wanted.line(PATH)}\t{'; '.join(map(peer_word, peers)) or '-'}"


def entry_line(wanted):
    return f"entry {wanted.line(PATH)}\tdownload; file; wants"


def schema_line(columns):
    fields = [{"name": column.name, "dataType": TYPES[column.kind]} for column in columns]
    return "schema " + json.dumps({"schemaName": "t", "dimensionFieldSpecs": fields}), f"ok {len(columns)}"


# ---- random cases

def answer_of(chance, file, whole, chances):
    """What a place answers: the file, a lie, nothing or a fault, as often as these numbers say."""
    kind = chance.choices(["right", "lie", "none", "fault"], chances)[0]
    if kind == "lie":
        return chance.choice(LIES)(chance, file, whole)
    return {"right": whole, "none": None, "fault": False}[kind]


def case(chance):
    """The lines of a case, and their answers."""
    file = damaged_files.file_of(chance)
    whole = written(file)
    wanted = header_of(whole)
    deep = answer_of(chance, file, whole, [1, 6, 2, 2])
    peers = [answer_of(chance, file, whole, [1, 4, 1, 1]) for _ in range(chance.choice([0, 1, 2, 3, 8]))]
    columns, fits = file.columns, chance.random() < 0.7
    if not fits:
        columns = segment_reader.read(other_names(file)).columns
    lines = [schema_line(columns), *deep_lines(deep), (fetch_line(wanted, peers), fetched(wanted, deep, peers)), *deep_lines(deep)]
    return [*lines, (entry_line(wanted), downloaded(wanted, deep, fits))]


def other_names(file):
    """The file over columns of other names."""
    return written(with_other(file, columns=[segment_reader.Column(c.name + "x", c.kind, c.indexed, c.values) for c in file.columns]))


def compare(given, count, cases):
    """Runs cases at once; each answer must be as said."""
    found = damaged_files.answers(given.calls, [line for lines in cases for line, _ in lines])
    if found is None or len(found) != sum(map(len, cases)):
        count.case("a run", f"rt_calls doesn't answer each line of {len(cases)} cases")
        return
    rest = iter(found)
    for lines in cases:
        got = [next(rest) for _ in lines]
        for (line, want), have in zip(lines, got):
            if line.startswith(("fetch ", "entry ")):
                count.case(line[:80], None if want == have else f"{have[:80]}, wanted {want[:80]}")
            elif want != have:
                count.case(line[:80], f"{have[:80]}, wanted {want[:80]}")


def run(given):
    chance, count = random.Random(given.seed), running.Count("peers")
    for first in range(0, given.lies, AT_ONCE):
        compare(given, count, [case(chance) for _ in range(min(AT_ONCE, given.lies - first))])
    return count.tell(f", of {given.lies} files")

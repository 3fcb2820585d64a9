"""Segment files that are cut, turned and damaged, read by the built rt_calls and by the second reader of helpers/segment_reader.py.

The vectors of both formats are cut at each length, and each of their bits is turned: none is read. Of larger files random damages
are read, half of them with a digest that fits them: what is read must be what the second reader reads, with the same rows, and must
be written again as the same bytes, so that no file says anything but what it spells.
"""
import random
import subprocess

import calls
import running
import segment_reader

VECTOR = segment_reader.File(1, [0, 0, 0, 3], 2, [segment_reader.Column("k", segment_reader.STRING, 1, ["a", "b"]),
                                                  segment_reader.Column("v", segment_reader.LONG, 0, [5, 5])])
# How many damaged files are drawn from each file, and how many files one run reads.
OF_EACH, AT_ONCE = 500, 500
SECONDS = 600
ROWS = [50, 100, 200, 400, 1000]
TEXTS = ["", "a", "b", "ab", "é", "日本", "\"\\\n\x01", "x" * 300]


def values(chance, kind, rows):
    """Values of few or of many kinds."""
    if kind == segment_reader.STRING:
        pool = [text + str(number) for text in TEXTS for number in range(chance.choice([1, 30]))]
    elif kind == segment_reader.BOOLEAN:
        pool = [0, 1]
    else:
        bits = 31 if kind == segment_reader.INT else 63
        pool = [chance.randrange(-2**bits, 2**bits) for _ in range(chance.choice([1, 2, 17, 300]))]
    return [chance.choice(pool) for _ in range(rows)]


def file_of(chance):
    """A larger file: up to some ten thousand bytes."""
    rows, start = chance.choice(ROWS), chance.choice([0, 1_000_000, 2**63])
    kinds = [chance.choice([segment_reader.INT, segment_reader.LONG, segment_reader.STRING, segment_reader.BOOLEAN,
                            segment_reader.TIMESTAMP]) for _ in range(chance.randint(1, 5))]
    columns = [segment_reader.Column(f"c{place}", kind, chance.randint(0, 1), values(chance, kind, rows)) for place,
               kind in enumerate(kinds)]
    return segment_reader.File(chance.choice([1, 2]), [chance.randrange(64), chance.randrange(2**32), start,
                                                       start + rows + chance.choice([0, 7])], rows, columns)


class Noting(segment_reader.Cursor):
    """Notes where lengths and counts stand."""

    def __init__(self, data):
        super().__init__(data)
        self.noted = []

    def number(self, count):
        if count in (2, 4):
            self.noted.append((self.at, count))
        return super().number(count)


def numbers_in(data):
    cursor = Noting(data)
    segment_reader.read(data, cursor)
    return cursor.noted


class Damages:
    """Random damages of a file: its bytes without the digest, and where its lengths and counts are."""

    def __init__(self, chance, data):
        self.chance, self.body, self.noted = chance, data[:-32], numbers_in(data)

    def piece(self):
        start = self.chance.randrange(len(self.body))
        return start, self.body[start:start + self.chance.choice([1, 2, 4, 5, 8, 40])]

    def changed(self):
        place, body = self.chance.randrange(len(self.body)), bytearray(self.body)
        body[place] ^= self.chance.randrange(1, 256)
        return bytes(body)

    def turned(self):
        place, body = self.chance.randrange(len(self.body)), bytearray(self.body)
        body[place] ^= 1 << self.chance.randrange(8)
        return bytes(body)

    def moved(self):
        start, piece = self.piece()
        rest = self.body[:start] + self.body[start + len(piece):]
        to = self.chance.randrange(len(rest) + 1)
        return rest[:to] + piece + rest[to:]

    def doubled(self):
        start, piece = self.piece()
        return self.body[:start] + piece + self.body[start:]

    def overwritten(self):
        _, piece = self.piece()
        to = self.chance.randrange(len(self.body))
        return self.body[:to] + piece + self.body[to + len(piece):]

    def exchanged(self):
        (first, one), (second, other) = sorted([self.piece(), self.piece()])
        size = min(len(one), len(other), second - first)
        one, other, body = self.body[first:first + size], self.body[second:second + size], self.body
        return body[:first] + other + body[first + size:second] + one + body[second + size:]

    def cut(self):
        return self.body[:self.chance.randrange(len(self.body))]

    def recounted(self):
        """Another length or count."""
        place, size = self.chance.choice(self.noted)
        number = int.from_bytes(self.body[place:place + size], "big")
        other = self.chance.choice([number + 1, number - 1, 0, 1, 256**size - 1, number * 2, number ^ 1 << self.chance.randrange(8 * size),
                                    self.chance.randrange(256**size)])
        return self.body[:place] + (other % 256**size).to_bytes(size, "big") + self.body[place + size:]

    KINDS = [changed, turned, moved, doubled, overwritten, exchanged, cut, recounted, recounted, recounted]

    def one(self, digest):
        """A damaged file, with a digest that fits it or with the one that it had."""
        body = self.chance.choice(self.KINDS)(self)
        return segment_reader.with_digest(body) if self.chance.randrange(2) else body + digest


def of_vectors():
    """Each cut of both vectors, and each of their bits turned, with the old digest."""
    for version in (1, 2):
        whole = segment_reader.write(VECTOR, version)
        yield from (whole[:size] for size in range(len(whole)))
        yield from (whole[:bit // 8] + bytes([whole[bit // 8] ^ 1 << bit % 8]) + whole[bit // 8 + 1:] for bit in range(8 * len(whole)))


def of_larger(seed, count):
    """So many damaged files, of one larger file after the other."""
    chance = random.Random(seed)
    for number in range(count):
        if number % OF_EACH == 0:
            file = file_of(chance)
            whole = segment_reader.write(file, file.version)
            damages = Damages(chance, whole)
        yield damages.one(whole[-32:])


def lines_of(data):
    """The lines of a file and their answers; the first tells whether it is read."""
    try:
        file = segment_reader.read(data)
    except segment_reader.Fault as fault:
        return [("segment " + calls.as_hex(data), fault.args[0])]
    return [("segment " + calls.as_hex(data), file.answer()), ("sealed rows", file.rows_text()), ("sealed encode", data.hex())]


def answers(program, lines):
    """The answers of a run; none where it doesn't end well."""
    text = "".join(f"{line}\n" for line in lines).encode()
    try:
        ran = subprocess.run([program], input=text, capture_output=True, timeout=SECONDS, check=False)
    except subprocess.TimeoutExpired:
        return None
    return ran.stdout.decode(errors="replace").split("\n")[:-1] if ran.returncode == 0 else None


def compare(given, count, listed, none_is_read):
    """Reads files, and counts those that are read."""
    told = [lines_of(data) for data in listed]
    found, read = answers(given.calls, [line for lines in told for line, _ in lines]), 0
    if found is None or len(found) != sum(map(len, told)):
        count.case("a run", f"rt_calls doesn't answer each line of {len(told)} files")
        return 0
    rest = iter(found)
    for lines in told:
        got = [next(rest) for _ in lines]
        wrong = next((f"{have[:80]}, wanted {want[:80]}: {line[:200]}" for (line, want), have in zip(lines, got) if want != have), None)
        is_read = got[0].startswith("ok")
        read += is_read
        count.case(f"a file of {len(lines[0][0]) // 2} bytes", wrong or ("it is read" if is_read and none_is_read else None))
    return read


def batches(listed):
    """Lists of so many as one run reads."""
    batch = []
    for each in listed:
        batch.append(each)
        if len(batch) == AT_ONCE:
            yield batch
            batch = []
    if batch:
        yield batch


def run(given):
    count = running.Count("files")
    for batch in batches(of_vectors()):
        compare(given, count, batch, True)
    vectors = count.passed + count.failed
    read = sum(compare(given, count, batch, False) for batch in batches(of_larger(given.seed, given.damages)))
    return count.tell(f", {vectors} of the vectors and {given.damages} of larger files, {read} of which are files still")

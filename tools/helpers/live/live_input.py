"""The input of a running cluster: what its lines say, or the first that is refused."""
import dataclasses
import itertools
import math
import re

import answers
import forms
import header
import limits

MOST_INPUT = 67_108_864
# So many messages an inbox holds; what doesn't fit is lost.
CAPACITY = 1_024
CHAOS = re.compile(rf"chaos drop={header.NUMBER} repeat={header.NUMBER} crash=(?:-|s{header.NUMBER}@{header.NUMBER}) leaders={header.NUMBER}")
ROW = re.compile(rf"row {header.NUMBER} (.*)", re.DOTALL)


@dataclasses.dataclass
class Chaos:
    """Each multiple of `drop` isn't posted, each of `repeat` twice; server `crashes` at its turn `at`, or none."""
    drop: int = 0
    repeat: int = 0
    crashes: int | None = None
    at: int | None = None
    leaders: int = 1

    def copies(self, number):
        """How often a node's message of a number, from 1 on, is posted."""
        if self.drop and number % self.drop == 0:
            return 0
        return 2 if self.repeat and number % self.repeat == 0 else 1

    def posted(self, messages):
        """How many copies of a node's first messages are posted, of so many."""
        lost, twice, both = (messages // number if number else 0 for number in (self.drop, self.repeat, math.lcm(self.drop, self.repeat)))
        return messages - lost + twice - both

    def least(self, copies):
        """The least number of messages of which at least so many copies are posted."""
        return next(messages for messages in itertools.count() if self.posted(messages) >= copies)


@dataclasses.dataclass
class Input:
    setup: header.Setup
    chaos: Chaos
    # The rows in the order of the input, each as its partition and its message.
    rows: list
    queries: list

    def log(self):
        """The messages of each partition."""
        found = [[] for _ in range(self.setup.partitions)]
        for partition, message in self.rows:
            found[partition].append(message)
        return found


def number_of(text, most=2**64 - 1):
    """A number of a line, or none where it is too great."""
    return int(text) if int(text) <= most else None


def refused(number, reason):
    return header.Stopped(f"line {number}: {reason}", number)


def read(text):
    """What an input says; ends with `header.Stopped` at what is refused."""
    if limits.size_of(text) > MOST_INPUT:
        raise header.Stopped("limit: input")
    setup, kept = header.read_without_upserts(text)
    chaos = Chaos()
    if kept and kept[0][1].split(" ")[0] == "chaos":
        chaos, kept = chaos_of(setup, *kept[0]), kept[1:]
    found = Input(setup, chaos, [], [])
    for number, line in kept:
        read_line(found, number, line)
    return found


def chaos_of(setup, number, line):
    parts = CHAOS.fullmatch(line)
    if parts is None:
        raise refused(number, "BadLine")
    drop, repeat, crashes, at, leaders = (None if part is None else number_of(part) for part in parts.groups())
    told = [part is not None for part in (drop, repeat, leaders)] + [parts[3] is None or (crashes is not None and crashes <= forms.GREATEST["K"] and at is not None)]
    if not all(told) or drop == 1 or not 1 <= leaders <= setup.controllers:
        raise refused(number, "BadLine")
    if crashes is not None and crashes >= setup.servers:
        raise refused(number, "NoSuchNode")
    return Chaos(drop, repeat, crashes, at, leaders)


def read_line(found, number, line):
    word, space, rest = line.partition(" ")
    if word == "query" and space and forms.is_utf8(rest):
        refusal = answers.number_of(rest, found.setup)
        if refusal is not None:
            raise refused(number, f"query {refusal}")
        found.queries.append(rest)
        return
    row = ROW.fullmatch(line)
    if row is None or int(row[1]) > forms.GREATEST["P"]:
        raise refused(number, "BadLine")
    if int(row[1]) >= found.setup.partitions:
        raise refused(number, "NoSuchNode")
    if limits.size_of(row[2]) > limits.LONGEST_MESSAGE:
        raise header.Stopped("limit: message", number)
    found.rows.append((int(row[1]), row[2]))


def output(told):
    """What a running cluster writes of an input: its answers over all rows, and its ends."""
    log = told.log()
    rows = [row for messages in log for row in map(told.setup.row_of, messages) if row is not None]
    ranges = [[partition, 0, len(messages)] for partition, messages in enumerate(log) if messages]
    lines = ["answer " + answers.answer(ranges, [], answers.Aggregate(query, told.setup.columns).result(rows)) for query in told.queries]
    return lines + [f"end {partition} {len(messages)}" for partition, messages in enumerate(log)]


USAGE = "usage: rtlive [--journal]"


def run(words, text):
    """The output of a run with these words and this input, what is said on standard error, and the status."""
    if words not in ([], ["--journal"]):
        return [], USAGE, 2
    try:
        return output(read(text)), None, 0
    except header.Stopped as stopped:
        return [], str(stopped), 7 if str(stopped).startswith("limit: ") else 3

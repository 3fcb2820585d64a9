"""The lines of a journal, read one by one in the order in which they stand."""
import dataclasses
import re

NUMBER = r"(0|[1-9][0-9]{0,19})"
WRITE = re.compile(rf"write {NUMBER} (meta/{NUMBER}/{NUMBER}|ideal|boot/{NUMBER}) {NUMBER} (.+)")
HEARD = re.compile(rf"heard c{NUMBER} {NUMBER} (.+) -> (.+)")
QUEUE = re.compile(rf"queue ([sc]{NUMBER}) ([sc]{NUMBER}) accepted={NUMBER} taken={NUMBER}")
REQUEST = re.compile(rf"(consumed) {NUMBER} (rowLimit|timeLimit|force)|(commitStart) {NUMBER}|(upload|commitEnd) {NUMBER} (\S+)|(stopped) {NUMBER}|(extend) {NUMBER} {NUMBER}")
PATH = re.compile(rf"(.+__{NUMBER}__{NUMBER}__[0-9]{{8}}T[0-9]{{4}}Z)\.{NUMBER}\.{NUMBER}\.{NUMBER}")
STATES = "PARTIAL_CONSUMING|HOLDING|COMMITTER_DECIDED|COMMITTER_NOTIFIED|COMMITTER_UPLOADING|COMMITTING|COMMITTED|ABORTED"
STATUS = re.compile(rf"HOLD|CATCH_UP {NUMBER}|KEEP|DISCARD|COMMIT {NUMBER}|NOT_LEADER|COMMIT_CONTINUE|UPLOAD_SUCCESS|COMMIT_SUCCESS|PROCESSED|none"
                    rf"|FAILED (?:1 (?:{STATES})|2 asked={NUMBER} kept={NUMBER}|3 committer=s{NUMBER}|5 expected={NUMBER} found={NUMBER}|[46789])")


class Fault(Exception):
    """What is wrong, and with which line of the journal, from 1."""

    def __init__(self, line, why):
        super().__init__(f"line {line}: {why}")
        self.line, self.why = line, why


@dataclasses.dataclass
class Write:
    line: int
    key: tuple
    version: int
    text: str


@dataclasses.dataclass
class Path:
    """The path of an upload: its segment's name, and the number of its request."""
    text: str
    name: str
    segment: tuple
    instance: int
    incarnation: int
    count: int


@dataclasses.dataclass
class Heard:
    line: int
    kind: str
    offset: int
    reason: str
    path: Path | None
    status: str


@dataclasses.dataclass
class Queue:
    line: int
    sender: str
    receiver: str
    accepted: int
    taken: int


@dataclasses.dataclass
class Journal:
    answers: list
    ends: list
    writes: list
    # What each controller heard.
    heard: list
    queues: list
    mids: list


def path_of(text):
    found = PATH.fullmatch(text)
    if found is None:
        return None
    partition, sequence, instance, incarnation, count = map(int, found.groups()[1:])
    return Path(text, found[1], (partition, sequence), instance, incarnation, count)


class Lines:
    """What is left of a journal."""

    def __init__(self, text):
        self.all = text.split("\n")
        if self.all[-1] != "":
            raise Fault(len(self.all), "the last line has no end")
        self.all.pop()
        self.place = 0

    def takes(self, word):
        """The number and the text of the next line, where it begins with a word."""
        if self.place == len(self.all) or self.all[self.place].split(" ")[0] != word:
            return None
        self.place += 1
        return self.place, self.all[self.place - 1]

    def while_(self, word):
        while (found := self.takes(word)) is not None:
            yield found

    def needs(self, word, why):
        found = self.takes(word)
        if found is None:
            raise Fault(self.place + 1, why)
        return found


def write_of(number, line, place):
    found = WRITE.fullmatch(line)
    if found is None:
        raise Fault(number, "no line of a write has this form")
    if int(found[1]) != place:
        raise Fault(number, f"this is write {place}, not {found[1]}")
    key = ("meta", int(found[3]), int(found[4])) if found[3] else ("boot", int(found[5])) if found[5] else ("ideal",)
    return Write(number, key, int(found[6]), found[7])


def heard_of(number, line, controller, place):
    found = HEARD.fullmatch(line)
    if found is None:
        raise Fault(number, "no line of what was heard has this form")
    if int(found[1]) != controller or int(found[2]) != place:
        raise Fault(number, f"c{found[1]} {found[2]} stands where c{controller} {place} is due")
    request = REQUEST.fullmatch(found[3])
    if request is None:
        raise Fault(number, f"{found[3]!r} is no request")
    if STATUS.fullmatch(found[4]) is None:
        raise Fault(number, f"{found[4]!r} is no answer")
    words = found[3].split(" ")
    path = path_of(words[2]) if words[0] in ("upload", "commitEnd") else None
    if words[0] in ("upload", "commitEnd") and path is None:
        raise Fault(number, f"{words[2]!r} is no path of an upload")
    return Heard(number, words[0], int(words[1]), words[2] if words[0] == "consumed" else "", path, found[4])


def queue_of(number, line):
    found = QUEUE.fullmatch(line)
    if found is None:
        raise Fault(number, "no line of a queue has this form")
    return Queue(number, found[1], found[3], int(found[5]), int(found[6]))


def controller_in(line):
    found = HEARD.fullmatch(line)
    return int(found[1]) if found else None


def read_heard(lines, count):
    """What each controller heard: all of the first, then all of the next."""
    heard = [[] for _ in range(count)]
    controller = 0
    for number, line in lines.while_("heard"):
        told = controller_in(line)
        if told is not None and controller < told < count:
            controller = told
        heard[controller].append(heard_of(number, line, controller, len(heard[controller])))
    return heard


def read(text, told):
    """A journal with as many answers, ends and first answers as its input asks for."""
    lines = Lines(text)
    ended = [lines.needs("answer", "an answer is missing") for _ in told.queries]
    ends = [lines.needs("end", "the end of a partition is missing") for _ in range(told.setup.partitions)]
    writes = [write_of(number, line, place) for place, (number, line) in enumerate(lines.while_("write"))]
    heard = read_heard(lines, told.setup.controllers)
    queues = [queue_of(number, line) for number, line in lines.while_("queue")]
    mids = [lines.needs("mid", "a first answer is missing") for _ in told.queries]
    if lines.place < len(lines.all):
        raise Fault(lines.place + 1, "no line is due here")
    return Journal(ended, ends, writes, heard, queues, mids)

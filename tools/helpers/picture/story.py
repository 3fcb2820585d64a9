"""What a script and its report tell, line by line: states of replicas, ranges of segments, messages on their way."""
import dataclasses
import json
import re

DOWN, UNTOLD = "down", "not told"


@dataclasses.dataclass
class Line:
    """An event's line: its number in the script, its text and what is reported of it."""
    number: int
    text: str
    report: str


@dataclasses.dataclass
class Span:
    """A state from a line on, up to another one or to the end."""
    state: str
    start: int
    end: int | None = None
    cur: int | None = None


@dataclasses.dataclass
class Segment:
    """A segment's node: where it begins and ends in the stream, and the lines at which that became so."""
    start: int
    created: int
    end: int | None = None
    done: int | None = None
    abandoned: int | None = None
    removed: int | None = None
    deleted: int | None = None
    # How far any replica has come, by lines.
    reached: list = dataclasses.field(default_factory=list)


@dataclasses.dataclass
class Message:
    """A request or a reply: who sent it at which line, and where and when it came."""
    text: str
    sent: int
    server: int
    controller: int | None = None
    segment: tuple = ()
    came: list = dataclasses.field(default_factory=list)


def header_of(lines):
    table = json.loads(lines[1].split(" ", 1)[1])["segmentsConfig"]
    numbers = dict(part.split("=") for part in lines[2].split(" ")[1:])
    replication = int(table.get("replicasPerPartition") or table.get("replication"))
    return replication, int(numbers["servers"]), int(numbers["controllers"]), int(numbers["partitions"])


def segment_of(text):
    partition, sequence = text.split("/")
    return int(partition), int(sequence)


class Story:
    def __init__(self, script, report):
        kept = [(number, line) for number, line in enumerate(script.split("\n"), 1) if line.strip("\r") and not line.startswith("#")]
        self.replication, self.servers, self.controllers, self.partitions = header_of([line for _, line in kept[:3]])
        self.lines = [Line(number, line, said) for (number, line), said in zip(kept[3:], report.splitlines())]
        self.replicas, self.down, self.leads = {}, {}, {0: [Span("leads", -1)]}
        self.segments = {(partition, 0): Segment(0, -1) for partition in range(self.partitions)}
        self.lengths = {partition: [(-1, 0)] for partition in range(self.partitions)}
        self.messages, self.jobs, self.marks, self.answers = {}, {}, [], []
        for partition in range(self.partitions):
            for k in range(self.replication):
                self.stands((partition * self.replication + k) % self.servers, (partition, 0), "INITIAL_CONSUMING", -1, 0)
        for at, line in enumerate(self.lines):
            self.tell(at, line, line.report.split(" "))

    def stands(self, server, segment, state, at, cur=None):
        """A replica's state from a line on."""
        spans = self.replicas.setdefault((server, segment), [])
        if spans and spans[-1].end is None:
            if spans[-1].state == state and cur in (None, spans[-1].cur):
                return
            spans[-1].end = at
            cur = spans[-1].cur if cur is None else cur
        spans.append(Span(state, at, None, cur))
        if cur is not None and segment in self.segments:
            self.segments[segment].reached.append((at, cur))

    def ends(self, server, at):
        for (owner, _), spans in self.replicas.items():
            if owner == server and spans[-1].end is None:
                spans[-1].end = at

    def commits(self, segment, end, at):
        node = self.segments.get(segment)
        if node is not None and node.done is None and node.abandoned is None:
            node.end, node.done = end, at
            self.creates((segment[0], segment[1] + 1), end, at)

    def creates(self, segment, start, at):
        self.segments.setdefault(segment, Segment(start, at))

    def tell(self, at, line, words):
        name = "told_" + words[0]
        if hasattr(self, name):
            getattr(self, name)(at, line.text.split(" "), words[1:])

    def told_produced(self, at, line, words):
        partition, offset = words[0].split("@")
        self.lengths[int(partition)].append((at, int(offset) + 1))

    def told_filled(self, at, line, words):
        self.lengths[int(words[0])].append((at, int(words[1])))

    def told_consumed(self, at, line, words):
        self.stands(int(words[0][1:]), segment_of(words[1]), words[4], at, int(words[2].split("=")[1]))

    def told_forced(self, at, line, words):
        self.stands(int(words[0][1:]), segment_of(words[1]), words[-1], at)

    told_stopped = told_built = told_forced

    def told_moved(self, at, line, words):
        server, segment = int(words[0][1:]), segment_of(words[1])
        begins = self.segments[segment].start if words[-1] == "INITIAL_CONSUMING" and segment in self.segments else None
        self.stands(server, segment, words[-1], at, begins)

    def told_loaded(self, at, line, words):
        self.stands(int(words[0][1:]), segment_of(words[1]), "ONLINE", at)

    def told_took(self, at, line, words):
        self.stands(int(words[1][1:]), segment_of(words[2]), words[3], at)
        self.arrives(words[0], at)

    def told_ignored(self, at, line, words):
        self.arrives(words[0], at)

    def arrives(self, name, at, controller=None):
        message = self.messages.get(int(name[1:]))
        if message is not None:
            message.came.append((at, controller))

    def told_sent(self, at, line, words):
        server, segment = int(line[1][1:]), segment_of(line[2])
        self.messages[int(words[0][1:])] = Message(" ".join(words[1:]), at, server, None, segment)

    def told_reply(self, at, line, words):
        controller = int(line[2][1:])
        self.arrives(line[1], at, controller)
        self.replies(words[0], " ".join(words[1:]), at, controller, self.messages.get(int(line[1][1:])))

    def replies(self, name, status, at, controller, request):
        if request is not None:
            self.messages[int(name[1:])] = Message(status, at, request.server, controller, request.segment)

    def told_job(self, at, line, words):
        self.arrives(line[1], at, int(words[0][1:]))
        self.jobs[tuple(words[:2])] = self.messages.get(int(line[1][1:]))

    def told_step(self, at, line, words):
        request = self.jobs.get(tuple(words[:2]))
        step, outcome = words[2], words[3]
        self.marks.append((at, int(words[0][1:]), f"{step} {outcome}"))
        if request is not None and (step, outcome) == ("done", "ok"):
            self.commits(request.segment, int(request.text.split(" ")[1]), at)
        if "reply" in words:
            place = words.index("reply") + 1
            self.replies(words[place], " ".join(words[place + 1:]), at, int(words[0][1:]), request)

    def told_exchanged(self, at, line, words):
        server, segment = int(line[1][1:]), segment_of(line[2])
        status = " ".join(words[2:-1])
        self.stands(server, segment, words[-1], at)
        spans = self.replicas[server, segment]
        if status == "COMMIT_SUCCESS":
            self.commits(segment, self.reached_end(segment) if spans[-1].cur is None else spans[-1].cur, at)
        self.messages[int(words[0][1:])] = Message(status, at, server, None, segment, [(at, int(line[3][1:]))])

    def reached_end(self, segment):
        """How far any replica was told to have come: the end of a commit whose replica's offset wasn't told since."""
        node = self.segments.get(segment)
        return max((cur for _, cur in node.reached), default=node.start) if node else None

    def told_repair(self, at, line, words):
        controller, what = int(words[0][1:]), " ".join(words[2:])
        self.marks.append((at, controller, f"repair {what}"))
        if words[2] == "abandoned":
            self.segments[segment_of(words[3])].abandoned = at
        if words[2] == "created":
            partition, sequence = segment_of(words[3])
            before = self.segments.get((partition, sequence - 1))
            start = 0
            if before is not None:
                if before.done is None and before.abandoned is None:
                    before.done, before.end = at, self.asked_end((partition, sequence - 1))
                start = before.start if before.abandoned is not None else before.end
            self.creates((partition, sequence), start, at)

    def asked_end(self, segment):
        """The offset of the last commitEnd of a segment: its end, where a write was kept whose answer was lost."""
        ends = [message.text.split(" ")[1] for message in self.messages.values() if message.segment == segment and message.text.startswith("commitEnd")]
        return int(ends[-1]) if ends else self.segments[segment].reached[-1][1]

    def told_retain(self, at, line, words):
        self.marks.append((at, int(words[0][1:]), "retain " + " ".join(words[2:])))
        if words[2] == "removed":
            self.segments[segment_of(words[3])].removed = at
        if words[2] == "deleted":
            self.segments[segment_of(words[3])].deleted = at

    def told_lead(self, at, line, words):
        controller, spans = int(words[0][1:]), self.leads.setdefault(int(words[0][1:]), [])
        if words[1] == "on" and not (spans and spans[-1].end is None):
            spans.append(Span("leads", at))
        if words[1] == "off":
            self.falls(controller, at)

    def falls(self, controller, at):
        spans = self.leads.get(controller, [])
        if spans and spans[-1].end is None:
            spans[-1].end = at

    def told_down(self, at, line, words):
        self.down.setdefault(words[0], []).append(Span(DOWN, at))
        if words[0][0] == "s":
            self.ends(int(words[0][1:]), at)
        else:
            self.falls(int(words[0][1:]), at)

    def told_up(self, at, line, words):
        self.down[words[0]][-1].end = at

    def told_settled(self, at, line, words):
        """What a settled cluster's replicas are isn't told."""
        for (server, segment), spans in self.replicas.items():
            if spans[-1].end is None:
                self.stands(server, segment, UNTOLD, at)

    told_unsettled = told_settled

    def told_answer(self, at, line, words):
        found = re.search(r'"ranges":(\[.*?\]),"missing":(\[.*?\]),"rows"', " ".join(words))
        self.answers.append((at, json.loads(found[1]), json.loads(found[2])))

"""What a controller heard, replayed by the completion table.

A line names neither its segment nor its sender, unless it has a path, and no line names its moment. So all that a controller may be is
followed at once, as a set of possibilities: in each, each segment has a machine or none, and it is known which replica was told to commit
and to go on. A line must be possible in one of them, with one of the segments, senders and moments that there are; what isn't possible
with it goes out of the set. Where the set grows past its bound, or so much was followed that a longer replay would take minutes, segments are
followed one by one from then on: a line must then be possible for one of them.
"""
import collections
import dataclasses
import functools
import typing

import completion
import header
import journal

# So many possibilities are followed together, and so many of one segment alone; and so many segments, of which a line can be.
MOST_TOGETHER, MOST_ALONE, MOST_SEGMENTS = 2_000, 300, 12
# So many are followed together over all lines, some 20 seconds; and so many of one segment alone, where more than twice that was followed in all.
MOST_FOLLOWED, MOST_AT_LAST = 3_000_000, 20
JOB_REPLIES = ("COMMIT_SUCCESS", "FAILED 5", "FAILED 8", "none")
KINDS = {"consumed": completion.CONSUMED, "commitStart": completion.COMMIT_START, "commitEnd": completion.COMMIT_END}
# What a segment's state says beside a machine.
NONE, ENDED = "no machine", "known to be Done"


class Machine(typing.NamedTuple):
    """A completion machine, with the earliest and the latest moment of its making and of its pick."""
    state: str
    notes: tuple
    winner: int | None
    offset: int | None
    made: tuple
    picked: tuple | None


class Segment(typing.NamedTuple):
    """What a controller has of a segment, and whom it told to commit, or to go on, at which offset."""
    has: typing.Any = NONE
    told: frozenset = frozenset()


FRESH = Segment()


@dataclasses.dataclass
class Bounds:
    """The earliest and the latest moment of a line."""
    low: int
    high: int


class Hearing:
    """The replay of one controller's lines."""

    def __init__(self, told, rows, history, number, heard):
        self.told, self.setup, self.rows, self.history = told, told.setup, rows, history
        self.number, self.heard = number, heard
        # How many lines were judged by all possibilities together, and how many possibilities were followed.
        self.together = self.followed = 0
        self.uploads, self.answered, self.reported = collections.Counter(), collections.Counter(), set()
        # The number and the path of each server's latest upload.
        self.latest = {}
        self.own_done = self.jobs_of()
        self.bounds = self.moments()

    def fault(self, line, why):
        raise journal.Fault(line.line, why)

    def is_job(self, line):
        return line.kind == "commitEnd" and line.status.startswith(JOB_REPLIES)

    def jobs_of(self):
        """The place of the line whose job made a segment Done, by the segments."""
        found, pending, self.last_job = {}, False, None
        for place, line in enumerate(self.heard):
            if line.status == "none" and line.kind != "commitEnd":
                self.fault(line, "only a commitEnd starts a job")
            if line.kind == "commitEnd" and self.is_job(line):
                self.check_job(line, pending)
                pending = pending or line.status == "none"
                self.last_job = line if line.status != "none" else self.last_job
                if line.path.text in self.history.paths:
                    if line.path.segment in found:
                        self.fault(line, f"the job of {line.path.text} has been done before")
                    found[line.path.segment] = place
        return found

    def check_job(self, line, pending):
        """That a job's reply is what the writes say of its commit."""
        if pending and line.status != "none":
            self.fault(line, "an older job hasn't ended, and jobs go on in their order")
        segment = line.path.segment
        is_own, meta = line.path.text in self.history.paths, self.history.nodes.get(segment)
        if is_own and line.offset != meta.end:
            self.fault(line, f"the segment that this commit made Done ends at {meta.end}")
        if line.status in ("COMMIT_SUCCESS", "FAILED 8") and not is_own:
            self.fault(line, "no write made the segment Done by this path")
        if line.status == "COMMIT_SUCCESS":
            self.check_success(line, segment)
        if line.status.startswith("FAILED 5"):
            if is_own or segment not in self.history.done_at:
                self.fault(line, "no other commit has made the segment Done")
            if line.status != "FAILED 5 expected=0 found=1":
                self.fault(line, "a segment has version 0 in progress and 1 from its commit on")

    def check_success(self, line, segment):
        partition, sequence = segment
        if (partition, sequence + 1) not in self.history.nodes:
            self.fault(line, f"{partition}/{sequence + 1} was never created")
        if segment not in self.history.online_at:
            self.fault(line, f"no ideal state has {partition}/{sequence} ONLINE")

    def moments(self):
        """The bounds of each line's moment, by the moments in the Done writes of its jobs."""
        found, low = [], self.setup.start
        written = {place: self.history.nodes[segment].written for segment, place in self.own_done.items() if self.heard[place].status != "none"}
        for place, _ in enumerate(self.heard):
            found.append(Bounds(low, header.LAST_MOMENT))
            # What comes behind the last of these may have been taken before that job had its steps.
            if place in written and place < max(written):
                low = max(low, written[place])
        for segment, place in self.own_done.items():
            found[place].high = self.history.nodes[segment].written
        for place in range(len(found) - 2, -1, -1):
            found[place].high = min(found[place].high, found[place + 1].high)
        return found

    def check(self):
        """Replays all lines."""
        self.possible, self.alone = {frozenset()}, None
        for place, line in enumerate(self.heard):
            self.check_alone(line)
            self.keep(line, self.cases(place, line))
            self.together += self.alone is None
        return self

    def check_alone(self, line):
        """What of a line needs no replay."""
        if line.kind in ("stopped", "extend"):
            self.fault(line, "no node of a running cluster stops a replica or asks for more time")
        if (line.status == "NOT_LEADER") != (self.number >= self.told.chaos.leaders):
            self.fault(line, "NOT_LEADER is the answer of those that don't believe that they lead, and no other")
        self.check_offset(line)
        if line.path is not None:
            self.check_path(line)
        if line.kind == "upload":
            self.check_upload(line)
        if line.kind == "commitEnd" and line.status != "NOT_LEADER" and line.path.text not in self.uploads:
            self.fault(line, "nothing was uploaded to this path before")

    def check_upload(self, line):
        if line.status not in ("UPLOAD_SUCCESS", "NOT_LEADER"):
            self.fault(line, "an upload is put where no store fails")
        self.check_number(line)
        self.uploads[line.path.text] += 1
        if self.uploads[line.path.text] > 1 + (self.told.chaos.repeat > 0):
            self.fault(line, "each upload has a path of its own, and comes twice at most where messages are repeated")

    def check_offset(self, line):
        """An answer's offset is the request's, or one past it that was reported before."""
        word, *rest = line.status.split(" ")
        if word == "COMMIT" and int(rest[0]) != line.offset:
            self.fault(line, "a replica is told to commit at the offset that it reports")
        if word == "CATCH_UP" and not (int(rest[0]) > line.offset and int(rest[0]) in self.reported):
            self.fault(line, f"no replica has reported {rest[0]}, past this one")
        if line.kind == "consumed":
            self.reported.add(line.offset)
        if line.kind == "commitStart" and not self.answered["COMMIT", line.offset]:
            self.fault(line, f"no replica was told to commit at {line.offset}")
        if line.kind == "upload" and not self.answered["COMMIT_CONTINUE", line.offset]:
            self.fault(line, f"no replica was told to go on at {line.offset}")
        self.answered[word, line.offset] += 1
        if self.answered["COMMIT_CONTINUE", line.offset] > self.answered["COMMIT", line.offset]:
            self.fault(line, f"more are told to go on at {line.offset} than were told to commit there")

    def check_path(self, line):
        path = line.path
        meta = self.history.nodes.get(path.segment)
        if meta is None or meta.name != path.name:
            self.fault(line, f"no segment has the name {path.name}")
        if path.instance not in self.senders(path.segment[0]):
            self.fault(line, f"s{path.instance} has no replica of this segment, or asks another controller")
        if path.incarnation > self.history.versions[("boot", path.instance)]:
            self.fault(line, f"s{path.instance} never restarted so often")
        if not meta.start < line.offset <= self.rows.farthest(path.segment[0], meta.start):
            self.fault(line, f"no replica of this segment comes to {line.offset}")

    def check_number(self, line):
        """What a server posts to a controller comes in its order, and each request has a number of its own."""
        number, before = (line.path.incarnation, line.path.count), self.latest.get(line.path.instance)
        if before is not None and number <= before[0] and line.path.text != before[1]:
            self.fault(line, f"s{line.path.instance} had uploaded under this number or a later one")
        self.latest[line.path.instance] = number, line.path.text

    def senders(self, partition):
        """The replicas of a partition that ask this controller."""
        return [instance for instance in self.setup.replicas(partition) if instance % self.told.chaos.leaders == self.number]

    def segments(self, line):
        """The segments of which a line can be, each with the replicas that can have sent it."""
        if line.path is not None:
            return [(line.path.segment, [line.path.instance])]
        return [(segment, self.senders(segment[0])) for segment, meta in sorted(self.history.nodes.items()) if self.comes(line, segment[0], meta.start)]

    def comes(self, line, partition, start):
        """Whether a replica of a segment from this start can report the line's offset for its reason."""
        farthest = self.rows.farthest(partition, start)
        if not start < line.offset <= farthest:
            return False
        if line.reason == "rowLimit":
            return line.offset == farthest and self.rows.is_full(partition, start, line.offset)
        return line.reason != "force" or line.offset == self.rows.length(partition)

    def cases(self, place, line):
        """What each segment of which the line can be becomes by it: a function of its state."""
        if line.status == "NOT_LEADER":
            return [(None, lambda state: {state})]
        if line.kind == "upload":
            return [(line.path.segment, functools.partial(self.uploaded, line))]
        return [(segment, functools.partial(self.heard_by, place, line, segment, tuple(senders))) for segment, senders in self.segments(line) if senders]

    def uploaded(self, line, state):
        """An upload is of a replica that was told to go on at its offset."""
        return {state} if (line.path.instance, line.offset, "goes on") in state.told else set()

    def heard_by(self, place, line, segment, senders, state):
        """All states of a segment after a line that is of it."""
        found = set()
        for sender in senders:
            if line.kind == "commitStart" and (sender, line.offset, "commits") not in state.told:
                continue
            if line.kind == "commitEnd" and (sender, line.offset, "goes on") not in state.told:
                continue
            found |= self.answers(place, line, segment, sender, state)
        return found

    def answers(self, place, line, segment, sender, state):
        found = set()
        if state.has == ENDED or (state.has == NONE and self.may_be_done(place, segment)):
            wanted = "KEEP" if line.offset == self.history.nodes[segment].end else "DISCARD"
            if line.status == wanted:
                found.add(state._replace(has=ENDED))
        if state.has != ENDED:
            found |= self.reactions(place, line, segment, sender, state)
        return found

    def may_be_done(self, place, segment):
        """Whether a segment without a machine may read Done: by this controller's own job it does from there on, by another's at any time."""
        return segment in self.history.done_at and self.own_done.get(segment, -1) < place

    def reactions(self, place, line, segment, sender, state):
        """By the table: with the machine that there is, or a new one."""
        bounds = self.bounds[place]
        machine = state.has if state.has != NONE else Machine(completion.HOLDING, (), None, None, (bounds.low, bounds.high), None)
        found = set()
        for now in [False] if state.has == NONE else self.times(machine, bounds):
            after, reaction = react(machine, tuple(self.setup.replicas(segment[0])), self.history.nodes[segment].start, sender,
                                    completion.Ask(KINDS[line.kind], line.offset, line.reason), now, bounds)
            if reaction == completion.COMMIT_JOB:
                found |= self.started(line, state)
            elif reaction == line.status:
                found.add(Segment(after, state.told | told_by(sender, line)))
        return found

    def started(self, line, state):
        """After a line that started a job: it ends before the next line; the last one perhaps behind all lines; or it doesn't end."""
        if not self.is_job(line):
            return set()
        committing, ended = state._replace(has=state.has._replace(state=completion.COMMITTING)), state._replace(has=ENDED)
        if line.status == "none":
            return {committing}
        return {committing, ended} if line is self.last_job else {ended}

    def times(self, machine, bounds):
        """Whether the hold window, or the deadline, can be over at a line: each of `False` and `True` that can be."""
        if machine.state == completion.HOLDING:
            since, window = machine.made, completion.HOLD_WINDOW
        elif machine.picked is not None and machine.state != completion.COMMITTING:
            since, window = machine.picked, completion.COMMIT_WINDOW
        else:
            return [False]
        found = [False] if bounds.low <= since[1] + window else []
        return found + ([True] if bounds.high > since[0] + window else [])

    def keep(self, line, cases):
        """Leaves those possibilities with which one of the cases is possible, each as the line changes it."""
        cases = [(segment, functools.cache(becomes)) for segment, becomes in cases]
        after = None if self.alone is not None else self.after(cases)
        if after is None:
            self.keep_alone(line, cases)
        elif not after:
            self.fault(line, self.why_not(line))
        else:
            self.possible = after

    def after(self, cases):
        """All possibilities after a line; none where they are too many, and segments are followed alone."""
        found = set()
        for held in self.possible:
            states = dict(held)
            for segment, becomes in cases:
                found.update(held if segment is None else with_state(held, states, segment, state) for state in becomes(states.get(segment, FRESH)))
            self.followed += len(cases)
            if len(found) > MOST_TOGETHER or self.followed > MOST_FOLLOWED:
                self.part()
                return None
        return found

    def part(self):
        """From here on each segment is followed alone."""
        self.alone = {}
        for held in self.possible:
            states = dict(held)
            for segment in self.history.nodes:
                self.alone.setdefault(segment, set()).add(states.get(segment, FRESH))
        self.possible = None

    def keep_alone(self, line, cases):
        """Keeps, of each segment of which the line can be, what it then may be; one with too many states may be anything from then on."""
        segments = [segment for segment, _ in cases if segment is not None]
        if len(segments) > MOST_SEGMENTS:
            self.alone.update(dict.fromkeys(segments))
        self.followed += sum(len(self.alone[segment] or ()) for segment in segments)
        most = MOST_ALONE if self.followed <= 2 * MOST_FOLLOWED else MOST_AT_LAST
        found = {segment: self.alone[segment] and set().union(*map(becomes, self.alone[segment])) for segment, becomes in cases if segment is not None}
        able = [segment for segment, states in found.items() if states is None or states]
        if not able and len(segments) == len(cases):
            self.fault(line, self.why_not(line))
        for segment in able:
            if found[segment] is not None:
                states = found[segment] if len(able) == 1 else self.alone[segment] | found[segment]
                self.alone[segment] = states if len(states) <= most else None

    def why_not(self, line):
        if not self.segments(line):
            return f"no replica of a segment that asks this controller comes to {line.offset}" + (f" by {line.reason}" if line.reason else "")
        return f"by what this controller had heard, {line.kind} at {line.offset} can't be answered {line.status}"


def with_state(held, states, segment, state):
    rest = held - {(segment, states[segment])} if segment in states else held
    return rest if state == FRESH else rest | {(segment, state)}


def told_by(sender, line):
    """What the sender knows from the answer."""
    if line.kind == "consumed" and line.status.startswith("COMMIT "):
        return {(sender, line.offset, "commits")}
    return {(sender, line.offset, "goes on")} if line.status == "COMMIT_CONTINUE" else set()


class Begun(typing.NamedTuple):
    """What a machine needs of its segment."""
    start: int


def react(machine, replicas, start, sender, ask, is_over, bounds):
    """The machine after a message, or that there is none, and the reaction; it is known whether its window or its deadline is over."""
    asked = completion.Machine(0, Begun(start), replicas, machine.state, 0)
    asked.notes, asked.winner, asked.offset = dict(machine.notes), machine.winner, machine.offset
    if machine.state == completion.HOLDING:
        now = completion.HOLD_WINDOW + 1 if is_over else 0
    else:
        asked.deadline, now = 0, int(is_over)
    reaction, _ = asked.on(sender, ask, now)
    if asked.state == completion.ABORTED:
        return NONE, reaction
    picked = machine.picked if machine.winner is not None or asked.winner is None else (bounds.low, bounds.high)
    notes = tuple(sorted(asked.notes.items())) if asked.state == completion.HOLDING else ()
    return Machine(asked.state, notes, asked.winner, asked.offset, machine.made, picked), reaction

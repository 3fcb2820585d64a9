"""A cluster that runs the lines of a script: `World.run` gives a line's report, or ends with its refusal."""
import collections
import dataclasses

import completion
import controllers
import forms
import further
import header
import limits
import lines
import replica_reader as reader
import servers
import storage

@dataclasses.dataclass
class Request:
    number: tuple
    instance: int
    partition: int
    sequence: int
    ask: completion.Ask
    path: str = ""
    data: bytes = b""


@dataclasses.dataclass
class Reply:
    number: tuple
    partition: int
    sequence: int
    status: str
    # What the status tells beside its text: a path, or an end.
    more: str


class World(further.Further):
    new_store = storage.Store

    def __init__(self, setup):
        self.setup, self.now, self.cells = setup, setup.start, collections.Counter()
        self.log = [[] for _ in range(setup.partitions)]
        self.store, self.deep = self.new_store(), storage.DeepStore()
        self.controllers = [controllers.Controller(number) for number in range(setup.controllers)]
        self.servers = [servers.Server(number) for number in range(setup.servers)]
        self.messages, self.queries, self.walks = [], [], {}
        self.start_limits()
        self.start_further()
        for number in range(setup.servers):
            self.store.put(("boot", number), "-")
        segments = [(partition, 0) for partition in range(setup.partitions)]
        for segment in segments:
            self.store.put(("meta", *segment), storage.first(setup.name, *segment, 0, setup.start))
        entries = {at: dict.fromkeys(setup.replicas(at[0]), storage.CONSUMING) for at in segments}
        self.store.put(storage.IDEAL, storage.IdealState(entries))
        for each in self.servers:
            each.see(self.ideal())
            for segment in each.targets:
                each.table[segment] = servers.Replica(self, each, segment, self.meta(segment))

    def ideal(self):
        return self.store.values[storage.IDEAL]

    def meta(self, segment):
        return self.store.values.get(("meta", *segment))

    def last(self, partition):
        """The present node of a partition with the greatest sequence."""
        return self.store.present(partition)[-1]

    def end(self, partition):
        """The end of the last Done node, or 0."""
        ends = [meta.end for _, _, meta in self.store.present(partition) if meta.status == storage.DONE]
        return ends[-1] if ends else 0

    def leader(self):
        """The controller that a settled round asks."""
        up = [each for each in self.controllers if each.up]
        return next((each for each in up if each.leads), up[0] if up else None)

    def run(self, line):
        """The report of a line; a line that is no event is not read here."""
        word, _, rest = line.partition(" ")
        text = getattr(self, "on_" + word)(rest)
        self.cells["line", word] += 1
        return text

    def send(self, message):
        self.messages.append(message)
        return len(self.messages) - 1

    def sends(self, server, replica, kind, millis=0):
        """Draws a replica's request, and what is reported of it."""
        self.spend(sent=len(replica.file()) if kind == "request" and replica.asked() == "upload" else 0)
        text = replica.extend(millis) if kind == "extend" else replica.request()
        word, offset, *more = text.split(" ")
        kinds = {"consumed": completion.CONSUMED, "commitStart": completion.COMMIT_START, "commitEnd": completion.COMMIT_END,
                 "stopped": completion.STOPPED, "extend": completion.EXTEND, "upload": "Upload"}
        ask = completion.Ask(kinds[word], int(offset), more[0] if word == "consumed" else "", millis)
        request = Request(replica.last, server.number, *replica.segment, ask)
        if word in ("upload", "commitEnd"):
            request.path = more[0]
        if word == "upload":
            request.data = replica.file()
        return self.send(request), text

    def answered(self, request, status):
        """Sends the reply to a request; a success tells its path, a KEEP or a commit its end."""
        more = request.path if status == "UPLOAD_SUCCESS" else ""
        if status in ("KEEP", "COMMIT_SUCCESS"):
            more = str(request.ask.offset)
        return self.send(Reply(request.number, request.partition, request.sequence, status, more))

    def takes(self, reply):
        """Whether a replica takes a reply, and its state then."""
        server = self.servers[reply.number[0]]
        replica = server.replica((reply.partition, reply.sequence))
        if replica is None:
            self.cells["reply", "none", "no replica", "ignored"] += 1
            return None
        before, waited = (replica.state, replica.stage), replica.waited
        word, _, rest = reply.status.partition(" ")
        if replica.reply_to(f"s{reply.number[0]}", *reply.number[1:], word, reply.more or rest.split(" ")[0] or None) == reader.IGNORED:
            self.cells["reply", "none", "another number", "ignored"] += 1
            return None
        shown = word if word != "FAILED" else reply.status[:8]
        after = replica.state + (f" {replica.stage}" if replica.stage else "")
        self.cells["reply", waited[1], shown, after + (" as before" if before == (replica.state, replica.stage) else "")] += 1
        return replica.state


def play(text, read=header.read):
    """The report of a script, the world behind it, and what ended it, as standard error tells it, or none; `read` reads its header."""
    try:
        setup, kept = read(text)
    except header.Stopped as stopped:
        return [], None, str(stopped)
    world, report = World(setup), []
    for number, line in kept:
        try:
            if not forms.is_line(line):
                raise lines.Refused("BadLine")
            report.append(world.run(line))
        except lines.Refused as refused:
            return report, world, f"line {number}: {refused}"
        except limits.Passed as passed:
            return report, world, f"limit: {passed}"
    return report, world, None


def setup_of(three):
    """The setup of three header lines that are taken."""
    return header.read("\n".join(three))[0]

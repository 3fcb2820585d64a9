"""The writes of the store: the starting contents, versions, lawful steps, chains, and the files that Done nodes name."""
import json
import re

import header
import journal
import segment_reader
import storage

ENTRY = re.compile(rf"{journal.NUMBER}/{journal.NUMBER}")


def starting(setup):
    """The starting contents, as keys and texts."""
    for number in range(setup.servers):
        yield ("boot", number), "-"
    segments = [(partition, 0) for partition in range(setup.partitions)]
    for segment in segments:
        yield ("meta", *segment), storage.first(setup.name, *segment, 0, setup.start).text()
    entries = {at: dict.fromkeys(setup.replicas(at[0]), storage.CONSUMING) for at in segments}
    yield storage.IDEAL, storage.IdealState(entries).text()


def segment_of(text):
    return tuple(int(part) for part in ENTRY.fullmatch(text).groups())


class History:
    """The nodes as the writes leave them, checked write by write."""

    def __init__(self, told, rows):
        self.told, self.setup, self.rows = told, told.setup, rows
        self.versions, self.nodes, self.ideal = {}, {}, None
        # The number of the write that made a segment Done, and of the first that has all its entries ONLINE.
        self.done_at, self.online_at, self.paths = {}, {}, {}

    def check(self, writes):
        first = list(starting(self.setup))
        for place, write in enumerate(writes):
            if write.version != self.versions.get(write.key, -1) + 1:
                raise journal.Fault(write.line, f"the next version of {storage.key_text(write.key)} is {self.versions.get(write.key, -1) + 1}")
            if place < len(first) and (write.key, write.text) != first[place]:
                raise journal.Fault(write.line, f"the starting contents have here {storage.key_text(first[place][0])} {first[place][1]}")
            self.take(write, place, place < len(first))
            self.versions[write.key] = write.version
        if len(writes) < len(first):
            raise journal.Fault(writes[-1].line + 1 if writes else 1, "a write of the starting contents is missing")
        return self

    def take(self, write, place, is_first):
        kind = write.key[0]
        if kind == "boot":
            if not is_first:
                self.boots(write)
        elif kind == "meta":
            meta = self.meta_of(write)
            if not is_first:
                self.created(write, meta) if write.version == 0 else self.changed(write, meta, place)
            self.nodes[write.key[1:]] = meta
        else:
            state = self.state_of(write)
            if not is_first:
                self.steps(write, state)
            self.ideal = state
            for segment, modes in state.entries.items():
                if all(mode == storage.ONLINE for mode in modes.values()):
                    self.online_at.setdefault(segment, place)

    def boots(self, write):
        if write.text != "-":
            raise journal.Fault(write.line, "a boot node has `-`")
        if write.key[1] != self.told.chaos.crashes or write.version != 1:
            raise journal.Fault(write.line, f"s{write.key[1]} doesn't restart here: the one server that crashes does so once")

    def meta_of(self, write):
        try:
            found = json.loads(write.text)
            meta = storage.Meta(**found)
            is_right = meta.text() == write.text and all(type(getattr(meta, name)) is kind for name, kind in KINDS.items())
        except (ValueError, TypeError):
            is_right = False
        if not is_right or meta.status not in (storage.IN_PROGRESS, storage.DONE, storage.ABANDONED):
            raise journal.Fault(write.line, "no metadata of a segment has this text")
        if not 0 <= meta.start < 2**64 or not self.setup.start <= meta.written <= header.LAST_MOMENT:
            raise journal.Fault(write.line, "an offset or a moment is out of its range")
        return meta

    def created(self, write, meta):
        _, partition, sequence = write.key
        if partition >= self.setup.partitions:
            raise journal.Fault(write.line, "there is no such partition")
        if meta.status != storage.IN_PROGRESS:
            raise journal.Fault(write.line, "a segment is created in progress")
        prior = self.nodes.get((partition, sequence - 1))
        if prior is None or prior.status != storage.DONE:
            raise journal.Fault(write.line, f"{partition}/{sequence} is created before {partition}/{sequence - 1} is Done")
        if meta.start != prior.end:
            raise journal.Fault(write.line, f"{partition}/{sequence} starts at {meta.start}, and {partition}/{sequence - 1} ends at {prior.end}")
        if meta.name != storage.first(self.setup.name, partition, sequence, meta.start, meta.written).name:
            raise journal.Fault(write.line, "the name isn't that of this segment and of the minute in which it was written")
        if meta.written < prior.written:
            raise journal.Fault(write.line, "it was written before the segment that it follows")

    def changed(self, write, meta, place):
        segment = write.key[1:]
        before = self.nodes[segment]
        if before.status != storage.IN_PROGRESS:
            raise journal.Fault(write.line, "a Done segment never changes")
        if meta.status != storage.DONE:
            raise journal.Fault(write.line, "a segment becomes Done: no node of a running cluster stops a replica, so none is abandoned")
        if (meta.name, meta.start) != (before.name, before.start):
            raise journal.Fault(write.line, "a segment keeps its name and its start")
        if meta.written < before.written:
            raise journal.Fault(write.line, "it was written before the segment was created")
        self.done(write, segment, meta)
        self.done_at[segment], self.paths[meta.path] = place, segment

    def done(self, write, segment, meta):
        partition = segment[0]
        if not meta.start < meta.end <= self.rows.length(partition):
            raise journal.Fault(write.line, f"the range from {meta.start} to {meta.end} isn't one of the partition's {self.rows.length(partition)} offsets")
        if meta.end > self.rows.farthest(partition, meta.start):
            raise journal.Fault(write.line, f"the row limit ends this segment at {self.rows.farthest(partition, meta.start)}")
        path = journal.path_of(meta.path)
        if path is None or path.name != meta.name or path.instance not in self.setup.replicas(partition):
            raise journal.Fault(write.line, "the path isn't one of an upload of this segment by one of its replicas")
        if path.incarnation > self.versions[("boot", path.instance)]:
            raise journal.Fault(write.line, f"s{path.instance} had not restarted so often")
        if meta.path in self.paths:
            raise journal.Fault(write.line, "another segment has this path")
        if meta.rows != self.rows.count(partition, meta.start, meta.end):
            raise journal.Fault(write.line, f"the range has {self.rows.count(partition, meta.start, meta.end)} rows, not {meta.rows}")
        if meta.digest != self.file_of(segment, meta)[-32:].hex():
            raise journal.Fault(write.line, "the digest isn't that of the file of this range")

    def file_of(self, segment, meta):
        """The file of the rows of a committed range."""
        rows, columns = self.rows.of(segment[0], meta.start, meta.end), []
        for place, column in enumerate(self.setup.columns):
            columns.append(segment_reader.Column(column.name, getattr(segment_reader, column.kind), column.name in self.setup.indexed, [row[place] for row in rows]))
        return segment_reader.write(segment_reader.File(self.setup.version, [*segment, meta.start, meta.end], len(rows), columns), self.setup.version)

    def state_of(self, write):
        try:
            found = json.loads(write.text)
            entries = {segment_of(at): {int(server[1:]): mode for server, mode in modes.items()} for at, modes in found.items()}
        except (ValueError, AttributeError):
            raise journal.Fault(write.line, "no ideal state has this text") from None
        state = storage.IdealState(entries)
        if state.text() != write.text:
            raise journal.Fault(write.line, "no ideal state has this text")
        return state

    def steps(self, write, state):
        """The one step by which the ideal state changes is that of a commit."""
        changed = [segment for segment in {*state.entries, *self.ideal.entries} if state.modes(segment) != self.ideal.modes(segment)]
        for partition, sequence in sorted(changed):
            step = self.ideal.commit(partition, sequence, self.setup.replicas(partition)) if partition < self.setup.partitions else self.ideal
            if step.same(state):
                self.may_commit(write, partition, sequence)
                return
        raise journal.Fault(write.line, "the ideal state before this one has no commit of one segment that gives it")

    def may_commit(self, write, partition, sequence):
        meta = self.nodes.get((partition, sequence))
        if meta is None or meta.status != storage.DONE:
            raise journal.Fault(write.line, f"{partition}/{sequence} goes ONLINE before it is Done")
        if (partition, sequence + 1) not in self.nodes:
            raise journal.Fault(write.line, f"{partition}/{sequence + 1} has entries before it is created")

    def chain(self, partition):
        """The nodes of a partition, by their sequences."""
        return [self.nodes[segment] for segment in sorted(self.nodes) if segment[0] == partition]

    def end(self, partition):
        return max((meta.end for meta in self.chain(partition) if meta.status == storage.DONE), default=0)


KINDS = {"name": str, "start": int, "status": str, "written": int, "end": int, "path": str, "digest": str, "rows": int}

"""A server: its table of entries by segment, its targets, and what it serves."""
import dataclasses
import hashlib

import replica_reader as reader
import segment_reader
import storage

DISCARDED = reader.DISCARDED
STOPPABLE = (reader.INITIAL, reader.CATCHING_UP, reader.HOLDING, reader.TO_ONLINE, reader.COMMITTING)
TOLD = (reader.INITIAL, reader.CATCHING_UP, reader.HOLDING, reader.COMMITTING)


@dataclasses.dataclass
class Held:
    """A committed segment with its file, or wanting it."""
    meta: storage.Meta
    wanted: bool


class Replica(reader.Replica):
    """The replica of replica_reader, numbered by its server, with its segment's name and the table's index."""

    def __init__(self, world, server, segment, meta):
        super().__init__(world.setup, world.log[segment[0]], segment, meta.start, server.number, server.incarnation, world.setup.version, world.now)
        self.server, self.name, self.told = server, meta.name, None

    def draw(self, asked):
        self.made = self.server.made
        self.server.made += 1
        return super().draw(asked)

    def row_of(self, message):
        return self.table.row_of(message)

    def columns(self):
        return [(column.name, getattr(segment_reader, column.kind), column.name in self.table.indexed) for column in self.table.columns]

    def force_due(self):
        return self.state == reader.INITIAL and self.cur > self.start

    def build_due(self):
        return self.state == reader.RETAINING or self.stage == reader.BUILDING

    def extend_due(self):
        return self.stage in (reader.BUILDING, reader.STARTING)

    def consume_due(self):
        return self.state in (reader.INITIAL, reader.CATCHING_UP, reader.TO_ONLINE)

    def committed(self):
        return self.state in (reader.RETAINED, reader.COMMITTED)


def has_file(entry):
    """Whether an entry is committed and sealed."""
    return entry is not None and (not entry.wanted if isinstance(entry, Held) else entry.committed())


class Server:
    def __init__(self, number):
        self.number, self.up, self.incarnation, self.made = number, True, 0, 0
        self.table, self.targets = {}, {}

    def see(self, state):
        self.targets = {segment: modes[self.number] for segment, modes in state.entries.items() if self.number in modes}

    def crash(self):
        self.up, self.table, self.targets = False, {}, {}

    def replica(self, segment):
        entry = self.table.get(segment)
        return entry if isinstance(entry, Replica) else None

    def wants(self, segment):
        entry = self.table.get(segment)
        return isinstance(entry, Held) and entry.wanted

    def transit_due(self, segment):
        entry, target = self.table.get(segment), self.targets.get(segment)
        if target == storage.CONSUMING:
            return entry is None
        if target == storage.ONLINE:
            return entry is None or (isinstance(entry, Replica) and entry.state in (*TOLD, DISCARDED))
        return entry is not None

    def due_transits(self):
        return [segment for segment in sorted({*self.table, *self.targets}) if self.transit_due(segment)]

    def wanted(self):
        return [segment for segment in sorted(self.table) if self.wants(segment)]

    def held(self):
        return [segment for segment in sorted(self.table) if self.replica(segment)]

    def transit(self, world, segment):
        """The state that is reported, and the case."""
        entry, target = self.table.get(segment), self.targets.get(segment)
        was = entry.state if isinstance(entry, Replica) else "no entry" if entry is None else "wanted" if entry.wanted else "file"
        if target is None:
            del self.table[segment]
            return DISCARDED, ("no target", was, "not read", "goes")
        try:
            _, meta = world.store.read(("meta", *segment))
        except storage.NoNode:
            meta = None
        state, then = self.moved(world, segment, target, meta)
        return state, (target, "an entry" if target == storage.OFFLINE else was, meta.status if meta else "no node", then)

    def moved(self, world, segment, target, meta):
        entry = self.table.get(segment)
        if target == storage.OFFLINE or meta is None or meta.status == storage.ABANDONED:
            self.table.pop(segment, None)
            return DISCARDED, "goes"
        if meta.status == storage.IN_PROGRESS:
            if entry is not None:
                return entry.state, "as before"
            self.table[segment] = Replica(world, self, segment, meta)
            return reader.INITIAL, "starts"
        if isinstance(entry, Replica) and entry.state in TOLD and entry.cur <= meta.end:
            entry.learn(meta.end)
            entry.told = meta
            return entry.state, entry.state
        self.table[segment] = Held(meta, True)
        return DISCARDED, "the file is wanted"

    def serves(self, segment, start, end):
        """The range that is served of a piece, or none."""
        entry = self.table.get(segment)
        if isinstance(entry, Held):
            held = None if entry.wanted else (entry.meta.start, entry.meta.end, True)
        elif isinstance(entry, Replica) and entry.state != DISCARDED:
            held = entry.start, entry.cur, entry.committed()
        else:
            held = None
        if held is None or held[0] != start:
            return None
        if end is None:
            return start, held[1]
        return (start, end) if held[1] == end or (not held[2] and held[1] >= end) else None


def rows_in(data):
    """The row count that a segment file's header names."""
    assert hashlib.sha256(data[:-32]).digest() == data[-32:]
    return int.from_bytes(data[32:36], "big")

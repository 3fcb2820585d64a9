"""The store with its versions, the deep store, and the values that they hold."""
import dataclasses
import datetime
import json

IN_PROGRESS, DONE, ABANDONED = "IN_PROGRESS", "DONE", "ABANDONED"
CONSUMING, ONLINE, OFFLINE = "CONSUMING", "ONLINE", "OFFLINE"
IDEAL = ("ideal",)


class Failed(Exception):
    """A planned fault was taken; a kept one carries a write out first."""

    def __init__(self, kept):
        super().__init__("failed, kept" if kept else "failed, lost")


class NoNode(Exception):
    """A key that isn't present."""


class Exists(Exception):
    """A key that is present."""


class Changed(Exception):
    """A version that differs: the expected one and the one found."""


@dataclasses.dataclass(frozen=True)
class Meta:
    name: str
    start: int
    status: str
    written: int
    end: int = 0
    path: str = ""
    digest: str = ""
    rows: int = 0

    def done(self, end, path, digest, rows, now):
        return dataclasses.replace(self, status=DONE, written=now, end=end, path=path, digest=digest, rows=rows)

    def abandoned(self, now):
        return dataclasses.replace(self, status=ABANDONED, written=now)

    def text(self):
        shown = {"name": self.name, "start": self.start, "status": self.status, "written": self.written}
        if self.status == DONE:
            shown.update(end=self.end, path=self.path, digest=self.digest, rows=self.rows)
        return json.dumps(shown, sort_keys=True, separators=(",", ":"))


def minute(millis):
    moment = datetime.datetime(1970, 1, 1) + datetime.timedelta(minutes=millis // 60_000)
    return moment.strftime("%Y%m%dT%H%MZ")


def first(table, partition, sequence, start, now):
    """The metadata of a segment that begins."""
    return Meta(f"{table}__{partition}__{sequence}__{minute(now)}", start, IN_PROGRESS, now)


def key_text(key):
    return "/".join(str(part) for part in key)


class Faults:
    """Planned faults: each later call takes one and fails; a kept one carries a valid write out first."""

    def __init__(self):
        self.planned = []

    def call(self, carry_out):
        if not self.planned:
            return carry_out()
        kept = self.planned.pop(0)
        if kept:
            try:
                carry_out()
            except (NoNode, Exists, Changed):
                pass
        raise Failed(kept)


class Store(Faults):
    """The present value and version of each key. A deletion counts as a write."""

    def __init__(self):
        super().__init__()
        # How many entries all ideal states have that were written.
        self.values, self.writes, self.entries = {}, {}, 0

    def put(self, key, node):
        if key == IDEAL:
            self.entries += node.count()
        self.writes[key] = self.writes.get(key, 0) + 1
        self.values[key] = node
        return self.writes[key] - 1

    def look(self, key):
        """The version and the value, without a call, or none."""
        return (self.writes[key] - 1, self.values[key]) if self.values.get(key) is not None else None

    def needs(self, key, version):
        seen = self.look(key)
        if seen is None:
            raise NoNode
        if seen[0] != version:
            raise Changed(version, seen[0])

    def present(self, partition):
        found = [key for key, value in self.values.items() if key[:2] == ("meta", partition) and value is not None]
        return [(key[2], *self.look(key)) for key in sorted(found)]

    def read(self, key):
        def carry_out():
            seen = self.look(key)
            if seen is None:
                raise NoNode
            return seen
        return self.call(carry_out)

    def list(self, partition):
        return self.call(lambda: self.present(partition))

    def set(self, key, version, node):
        def carry_out():
            self.needs(key, version)
            return self.put(key, node)
        return self.call(carry_out)

    def delete(self, key, version):
        def carry_out():
            self.needs(key, version)
            self.put(key, None)
        return self.call(carry_out)

    def create_after(self, key, node, prior, version):
        def carry_out():
            self.needs(prior, version)
            if self.look(key) is not None:
                raise Exists
            return self.put(key, node)
        return self.call(carry_out)

    def bump(self, instance):
        return self.call(lambda: self.put(("boot", instance), "-"))


class DeepStore(Faults):
    """Files by their paths, each written once."""

    def __init__(self):
        super().__init__()
        self.files = {}

    def put(self, path, data):
        def carry_out():
            assert self.files.setdefault(path, data) == data, "no two uploads share a path"
        return self.call(carry_out)

    def get(self, path):
        return self.call(lambda: self.files[path])


class IdealState:
    """Entries by segment: the mode of each instance. Steps give new states."""

    def __init__(self, entries):
        self.entries = entries

    def modes(self, segment):
        return self.entries.get(segment, {})

    def with_modes(self, segment, modes):
        return IdealState({**self.entries, segment: modes})

    def commit(self, partition, sequence, instances):
        if not self.modes((partition, sequence)):
            return self
        state = self.with_modes((partition, sequence), dict.fromkeys(self.modes((partition, sequence)), ONLINE))
        if not state.modes((partition, sequence + 1)):
            state = state.with_modes((partition, sequence + 1), dict.fromkeys(instances, CONSUMING))
        return state

    def add(self, partition, sequence, instances):
        before = self.modes((partition, sequence - 1)) if sequence else not any(p == partition for p, _ in self.entries)
        if self.modes((partition, sequence)) or not before:
            return self
        return self.with_modes((partition, sequence), dict.fromkeys(instances, CONSUMING))

    def offline(self, partition, sequence, instance):
        modes = self.modes((partition, sequence))
        if modes.get(instance) != CONSUMING:
            return self
        return self.with_modes((partition, sequence), {**modes, instance: OFFLINE})

    def without(self, segment):
        return IdealState({at: modes for at, modes in self.entries.items() if at != segment})

    def count(self):
        return sum(len(modes) for modes in self.entries.values())

    def same(self, other):
        return self.entries == other.entries

    def text(self):
        shown = {f"{p}/{q}": {f"s{k}": mode for k, mode in modes.items()} for (p, q), modes in self.entries.items()}
        return json.dumps(shown, sort_keys=True, separators=(",", ":"))

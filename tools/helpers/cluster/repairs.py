"""A repair and a retirement of a partition, step by step."""
import storage

LAST = 4_294_967_294


class Walk:
    """Three steps: the list, the ideal state, one write."""

    def __init__(self, partition):
        self.partition, self.nodes, self.seen, self.ended, self.setting = partition, None, None, False, None

    def step(self, world):
        before = "list" if self.nodes is None else "idealRead" if self.seen is None else "write"
        try:
            said, case = getattr(self, before)(world)
        except storage.Failed as failed:
            self.ended, said, case = True, "failed", f"{self.case}: {failed}" if before == "write" else f"{before}: failed"
        world.cells[self.name, *case.split(": ")] += 1
        return said

    def list(self, world):
        self.nodes = world.store.list(self.partition)
        return "listed", "listed"

    def idealRead(self, world):
        self.seen = world.store.read(storage.IDEAL)
        return "idealRead", "idealRead"

    def sets(self, world):
        """How many entries the next step would set."""
        self.setting = None
        if self.nodes is not None and self.seen is not None:
            self.decided(world)
        return self.setting.count() if self.setting else 0

    def write(self, world):
        self.ended = True
        self.case, write = self.decided(world)
        if write is None:
            return "nothing", f"nothing: {self.case}"
        try:
            said = write()
        except storage.Changed as found:
            return "changed {} {}".format(*found.args), f"{self.case}: changed"
        except storage.NoNode:
            return f"gone {self.partition}/{self.target}", f"{self.case}: gone"
        except storage.Exists:
            return f"exists {self.partition}/{self.target}", f"{self.case}: exists"
        return said, f"{self.case}: {said.split(' ')[0]}"

    def set_ideal(self, world, state):
        return world.store.set(storage.IDEAL, self.seen[0], state)


class Repair(Walk):
    name = "repair"

    def decided(self, world):
        sequence, version, meta = self.nodes[-1]
        self.target = sequence
        if sequence >= LAST:
            return "the last sequence", None
        if world.now < meta.written + world.setup.grace:
            return "the last node is young", None
        if meta.status != storage.IN_PROGRESS:
            start = meta.end if meta.status == storage.DONE else meta.start
            return f"Create behind a node that is {meta.status}", lambda: self.create(world, sequence, version, start)
        modes = self.seen[1].modes((self.partition, sequence))
        if not modes:
            return self.added(world, sequence)
        if all(mode == storage.OFFLINE for mode in modes.values()):
            return "Abandon", lambda: self.abandon(world, sequence, version, meta)
        return "the last node is consumed", None

    def create(self, world, sequence, version, start):
        node = storage.first(world.setup.name, self.partition, sequence + 1, start, world.now)
        before = ("meta", self.partition, sequence)
        try:
            world.store.create_after(("meta", self.partition, sequence + 1), node, before, version)
        except storage.Exists:
            self.target = sequence + 1
            raise
        return f"created {self.partition}/{sequence + 1}"

    def added(self, world, sequence):
        state, before = self.seen[1], [node for node in self.nodes if node[0] == sequence - 1]
        if before and before[0][2].status == storage.DONE:
            case, after = "AddToIdeal by a commit", state.commit(self.partition, sequence - 1, world.setup.replicas(self.partition))
        else:
            case, after = "AddToIdeal by consumers", state.add(self.partition, sequence, world.setup.replicas(self.partition))
        if after.same(state):
            return f"{case} that changes nothing", None
        self.setting = after
        return case, lambda: f"ideal {self.set_ideal(world, after)}"

    def abandon(self, world, sequence, version, meta):
        world.store.set(("meta", self.partition, sequence), version, meta.abandoned(world.now))
        return f"abandoned {self.partition}/{sequence}"


class Retirement(Walk):
    name = "retirement"

    def decided(self, world):
        sequence, version, meta = self.nodes[0]
        self.target = sequence
        if len(self.nodes) == 1:
            return "the lowest node is the last", None
        if meta.status == storage.IN_PROGRESS:
            return "the lowest node is in progress", None
        if world.now < meta.written + world.setup.retention:
            return "the lowest node is young", None
        state = self.seen[1]
        if not state.modes((self.partition, sequence)):
            return f"Delete of a node that is {meta.status}", lambda: self.delete(world, sequence, version)
        if not state.modes((self.partition, sequence + 1)):
            return "the next segment has no entries", None
        self.setting = state.without((self.partition, sequence))
        return f"Remove of a node that is {meta.status}", lambda: self.remove(world, sequence)

    def remove(self, world, sequence):
        version = self.set_ideal(world, self.setting)
        return f"removed {self.partition}/{sequence} {version}"

    def delete(self, world, sequence, version):
        world.store.delete(("meta", self.partition, sequence), version)
        return f"deleted {self.partition}/{sequence}"

"""A controller: the order in which it answers, its machines, and its jobs step by step."""
import completion
import servers
import storage

MOST_TRIES = 10
# The steps whose call writes.
WRITES = ("done", "next", "idealSet")


class Job:
    """A commit job, or an offline job of an instance."""

    def __init__(self, controller, request, commit=None, instance=None):
        self.controller, self.request, self.commit, self.instance = controller, request, commit, instance
        self.step = "check" if commit else "idealRead"
        self.seen, self.done_seen, self.changes = None, None, []

    def kind(self):
        return completion.COMMIT_JOB if self.commit else completion.OFFLINE_JOB

    def success(self):
        return "COMMIT_SUCCESS" if self.commit else "PROCESSED"

    def sets(self, world):
        """How many entries the next step would set."""
        return self.stepped(world, self.seen[1]).count() if self.step == "idealSet" else 0

    def works(self, world):
        """What the step came to, and the reply where it ended the job."""
        before = self.step
        try:
            outcome, reply = getattr(self, before)(world)
            case = outcome.split(" ")[0]
        except storage.Failed as failed:
            outcome, reply, case = "failed", "FAILED 6", str(failed) if before in WRITES else "failed"
        ended = "" if reply is None else f": {' '.join(reply.split(' ')[:2]) if 'FAILED' in reply else reply}"
        world.cells[self.kind(), before, case + ended] += 1
        return before, outcome, reply

    def check(self, world):
        _, path, _ = self.commit
        world.deep.get(path)
        self.step = "done"
        return "ok", None

    def done_meta(self, world):
        machine, path, offset = self.commit
        data = world.deep.files[path]
        return machine.meta.done(offset, path, data[-32:].hex(), servers.rows_in(data), world.now)

    def segment(self):
        return self.request.partition, self.request.sequence

    def done(self, world):
        machine = self.commit[0]
        meta = self.done_meta(world)
        try:
            version = world.store.set(("meta", *self.segment()), machine.version, meta)
        except storage.Changed as found:
            return "changed {} {}".format(*found.args), "FAILED 5 expected={} found={}".format(*found.args)
        except storage.NoNode:
            return "nonode", "FAILED 4"
        self.done_seen = version, meta
        self.step = "next"
        return "ok", None

    def next(self, world):
        partition, sequence = self.segment()
        version, meta = self.done_seen
        node = storage.first(world.setup.name, partition, sequence + 1, meta.end, world.now)
        self.step = "idealRead"
        try:
            world.store.create_after(("meta", partition, sequence + 1), node, ("meta", partition, sequence), version)
        except storage.Exists:
            return "exists", None
        except storage.NoNode:
            return "gone", self.success()
        return "ok", None

    def stepped(self, world, state):
        partition, sequence = self.segment()
        if self.commit:
            return state.commit(partition, sequence, world.setup.replicas(partition))
        return state.offline(partition, sequence, self.instance)

    def idealRead(self, world):
        self.seen = world.store.read(storage.IDEAL)
        if self.stepped(world, self.seen[1]).same(self.seen[1]):
            return "same", self.success()
        self.step = "idealSet"
        return "ok", None

    def idealSet(self, world):
        version, state = self.seen
        try:
            world.store.set(storage.IDEAL, version, self.stepped(world, state))
        except storage.Changed as found:
            self.changes.append(found.args[1])
            self.step = "idealRead"
            return "changed {} {}".format(*found.args), "FAILED 8" if len(self.changes) == MOST_TRIES else None
        return "ok", self.success()


class Controller:
    def __init__(self, number):
        self.number, self.up, self.leads = number, True, number == 0
        self.machines, self.jobs, self.started = {}, {}, 0

    def believe(self, leads):
        self.leads = leads
        if not leads:
            self.machines = {at: m for at, m in self.machines.items() if m.state == completion.COMMITTING}

    def crash(self):
        self.up = self.leads = False
        self.machines, self.jobs = {}, {}

    def start(self, job):
        self.jobs[self.started] = job
        self.started += 1
        return self.started - 1

    def handles(self, world, request):
        """A reply's status, or a job's number."""
        kind = request.ask.kind
        if not self.leads:
            world.cells["controller", kind, "NOT_LEADER"] += 1
            return "NOT_LEADER"
        if kind == "Upload":
            return self.uploads(world, request)
        segment = request.partition, request.sequence
        if segment not in self.machines:
            try:
                version, meta = world.store.read(("meta", *segment))
            except storage.Failed:
                world.cells["controller", kind, "a fault: FAILED 6"] += 1
                return "FAILED 6"
            except storage.NoNode:
                world.cells["controller", kind, "no node: FAILED 4"] += 1
                return "FAILED 4"
            if meta.status != storage.IN_PROGRESS:
                status, case = completion.without_machine(meta, request.ask)
                world.cells[("machine", *case)] += 1
                return status
            state = completion.PARTIAL if kind == completion.STOPPED else completion.HOLDING
            self.machines[segment] = completion.Machine(version, meta, world.setup.replicas(segment[0]), state, world.now)
            world.cells["controller", kind, "makes a machine"] += 1
        return self.asks(world, request, self.machines[segment])

    def asks(self, world, request, machine):
        reaction, case = machine.on(request.instance, request.ask, world.now)
        world.cells[("machine", *case)] += 1
        if machine.state == completion.ABORTED:
            del self.machines[request.partition, request.sequence]
        if reaction == completion.COMMIT_JOB:
            return self.start(Job(self, request, commit=(machine, request.path, request.ask.offset)))
        if reaction == completion.OFFLINE_JOB:
            return self.start(Job(self, request, instance=request.instance))
        return reaction

    def uploads(self, world, request):
        try:
            world.deep.put(request.path, request.data)
        except storage.Failed as failed:
            world.cells["controller", "Upload", f"{failed}: FAILED 6"] += 1
            return "FAILED 6"
        world.cells["controller", "Upload", "UPLOAD_SUCCESS"] += 1
        return "UPLOAD_SUCCESS"

    def works(self, world, number):
        """One step of a job: its name, its outcome and its reply, or none."""
        job = self.jobs[number]
        step, outcome, reply = job.works(world)
        if reply is not None:
            del self.jobs[number]
            if job.commit:
                self.machines.pop(job.segment(), None)
        return step, outcome, reply

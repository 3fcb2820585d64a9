"""What stands in a world, by owner and by name, as texts; and what differs between two of them."""
import datetime
import hashlib

import completion
import replica_reader
import servers
import storage

KINDS = {completion.CONSUMED: "consumed", completion.COMMIT_START: "commitStart", completion.COMMIT_END: "commitEnd",
         completion.STOPPED: "stopped", completion.EXTEND: "extend", "Upload": "upload"}


def moment_text(millis):
    """Milliseconds since 1970, and the civil time in UTC."""
    moment = datetime.datetime(1970, 1, 1) + datetime.timedelta(milliseconds=millis)
    return f"{millis} ({moment.strftime('%Y-%m-%d %H:%M:%S')}.{millis % 1000:03} UTC)"


def name_of(segment):
    return f"{segment[0]}/{segment[1]}"


def servers_text(numbers):
    return ", ".join(f"s{number}" for number in sorted(numbers)) or "none"


def faults_text(planned):
    return ", ".join("kept" if kept else "lost" for kept in planned)


def message_text(message):
    """A request or a reply, with whom it goes to."""
    if not hasattr(message, "ask"):
        return f"reply to s{message.number[0]}, {message.partition}/{message.sequence}: {message.status}"
    told = [KINDS[message.ask.kind], str(message.ask.offset)]
    told += [message.ask.reason] if message.ask.reason else []
    told += [message.path] if message.path else []
    told += [str(message.ask.millis)] if message.ask.kind == completion.EXTEND else []
    return f"request of s{message.instance}, {message.partition}/{message.sequence}: {' '.join(told)}"


def machine_text(machine):
    told = [machine.state]
    if machine.winner is not None:
        told.append(f"winner s{machine.winner} at {machine.offset}, until {machine.deadline}")
    if machine.notes:
        told.append("reported " + ", ".join(f"s{instance} {offset}" for instance, offset in sorted(machine.notes.items())))
    if machine.excluded:
        told.append("left out " + servers_text(machine.excluded))
    return "; ".join([*told, f"made at {machine.made}, read version {machine.version}"])


def job_text(job):
    """A job with its next step, and the versions of the ideal state that its sets found."""
    found = f"; found versions {', '.join(map(str, job.changes))}" if job.changes else ""
    return f"{job.kind()} of {name_of(job.segment())}, next step {job.step}{found}"


def replica_text(replica):
    told = [replica.state + (f" ({replica.stage})" if replica.stage else ""), f"offsets {replica.start} to {replica.cur}", f"{len(replica.rows)} rows"]
    if replica.target is not None:
        told.append(f"up to {replica.target}")
    if replica.waited is not None:
        told.append(f"waits for the answer to its {replica.waited[1]}")
    if replica.state == replica_reader.DISCARDED and replica.stopped:
        told.append("its stop isn't processed")
    return ", ".join(told)


def entry_text(entry):
    if isinstance(entry, servers.Replica):
        return replica_text(entry)
    return (f"wants the file {entry.meta.path}" if entry.wanted else f"ONLINE with the file of offsets {entry.meta.start} to {entry.meta.end}, {entry.meta.rows} rows")


def walk_text(walk):
    return "has listed and read the ideal state" if walk.seen is not None else "has listed" if walk.nodes is not None else "begins"


def query_text(query):
    if query is None:
        return "answered"
    plans = ["not routed" if plan is None else f"{partition}: {len(plan)} pieces" for partition, plan in sorted(query.plans.items())]
    served = [f"{name_of(segment)} {start} to {end}" for segment, (start, end) in sorted(query.served.items())]
    return f"{query.text}; routed {', '.join(plans) or 'nowhere'}; served {', '.join(served) or 'nothing'}"


def controller_of(world, each):
    """What stands in a controller."""
    name = f"c{each.number}"
    found = {"up": "up" if each.up else "down", "belief": "believes that it leads" if each.leads else "doesn't believe"}
    found.update({f"machine {name_of(segment)}": machine_text(machine) for segment, machine in sorted(each.machines.items())})
    found.update({f"job j{number}": job_text(job) for number, job in sorted(each.jobs.items())})
    found.update({f"{kind.name} of {partition}": walk_text(walk) for (kind, at, partition), walk in sorted(world.walks.items(), key=str) if at == name})
    return found


def server_of(each):
    found = {"up": f"up, incarnation {each.incarnation}, {each.made} requests made" if each.up else "down"}
    found.update({f"target {name_of(segment)}": mode for segment, mode in sorted(each.targets.items())})
    found.update({f"entry {name_of(segment)}": entry_text(entry) for segment, entry in sorted(each.table.items())})
    return found


def store_of(store):
    found = {storage.key_text(key): f"version {store.writes[key] - 1}: {node if isinstance(node, str) else node.text()}"
             for key, node in sorted(store.values.items(), key=lambda item: storage.key_text(item[0])) if node is not None}
    if store.planned:
        found["planned faults"] = faults_text(store.planned)
    return found


def deep_of(deep, kept):
    """The files, whose digests are kept by path since a file never changes."""
    for path, data in deep.files.items():
        if path not in kept:
            kept[path] = f"{len(data)} bytes, SHA-256 {hashlib.sha256(data).hexdigest()[:16]}.."
    found = {path: kept[path] for path in deep.files}
    if deep.planned:
        found["planned faults"] = faults_text(deep.planned)
    return found


def desk_of(world):
    """What lines beside the events left."""
    found = {f"force job f{number}": ", ".join(map(name_of, segments)) or "no segment" for number, segments in enumerate(world.forced)}
    if world.paused:
        found["pause"] = "the run is paused"
    if world.offline_rows:
        found["offline rows"] = f"{len(world.offline_rows)} rows, boundary {world.boundary}"
    if world.rehearsal is not None:
        found["rehearsal"] = f"at state {world.rehearsal.at} of {len(world.rehearsal.states) - 1}, {len(world.rehearsal.loaded)} loaded"
    return found


class Watch:
    """Looks at a world line by line. A message is on its way until it came once."""

    def __init__(self, world):
        self.world, self.digests, self.came, self.known = world, {}, set(), 0
        self.last = self.look()

    def look(self):
        world = self.world
        found = {"clock": {"now": moment_text(world.now)},
                 "stream": {f"partition {place}": f"{len(log)} messages" + (f", the last {log[-1][:120]!r}" if log else "") for place, log in enumerate(world.log)},
                 "store": store_of(world.store), "deep store": deep_of(world.deep, self.digests)}
        found.update({f"controller c{each.number}": controller_of(world, each) for each in world.controllers})
        found.update({f"server s{each.number}": server_of(each) for each in world.servers})
        found["messages"] = {f"m{number}": message_text(message) + ("" if number in self.came else " (on its way)") for number, message in enumerate(world.messages)}
        found["queries"] = {f"q{number}": query_text(query) for number, query in enumerate(world.queries)}
        found["beside the events"] = desk_of(world)
        return found

    def note(self, line):
        """Notes which messages came by a line: the one that it names, or all that a macro made."""
        words = line.split(" ")
        if words[0] in ("deliver", "reply"):
            self.came.add(int(words[1][1:]))
        if words[0] in ("exchange", "settle"):
            self.came |= set(range(self.known, len(self.world.messages)))
        self.known = len(self.world.messages)

    def changes(self, line):
        """What a line changed: the owner, the name, what stood there before and what stands there now."""
        self.note(line)
        before, self.last = self.last, self.look()
        return differences(before, self.last)


def differences(before, after):
    found = []
    for owner, named in after.items():
        was = before.get(owner, {})
        for name in [*named, *(name for name in was if name not in named)]:
            if was.get(name) != named.get(name):
                found.append((owner, name, was.get(name), named.get(name)))
    return found

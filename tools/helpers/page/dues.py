"""What can happen in a world: each event that is due, as the line that has it happen."""
import repairs
import servers
import states

# How many lines of one kind are named; the others are counted.
NAMED = 12


def replica_lines(server, segment, world):
    """What is due of a replica."""
    replica, at = server.replica(segment), f"s{server.number} {states.name_of(segment)}"
    if replica.consume_due():
        yield f"consume {at} N" + ("" if replica.ready(len(replica.log), world.now) == "true" else " (of no message)")
    if replica.force_due():
        yield f"force {at}"
    if replica.state in servers.STOPPABLE:
        yield f"stop {at}"
    if replica.build_due():
        yield f"build {at}"
    if replica.asked() is not None:
        yield f"report {at} (asks {replica.asked()})"
    if replica.extend_due():
        yield f"extend {at} N"


def server_lines(world):
    for server in world.servers:
        if not server.up:
            yield f"restart s{server.number}"
            continue
        yield f"see s{server.number}"
        yield from (f"transit s{server.number} {states.name_of(segment)}" for segment in server.due_transits())
        yield from (f"download s{server.number} {states.name_of(segment)}" for segment in server.wanted())
        for segment in server.held():
            yield from replica_lines(server, segment, world)
        yield f"crash s{server.number}"


def controller_lines(world):
    for each in world.controllers:
        name = f"c{each.number}"
        if not each.up:
            yield f"restart {name}"
            continue
        yield f"lead {name} {'off' if each.leads else 'on'}"
        yield from (f"job {name} j{number} (step {job.step})" for number, job in sorted(each.jobs.items()))
        for partition in range(world.setup.partitions):
            if each.leads or (repairs.Repair, name, str(partition)) in world.walks:
                yield f"repair {name} {partition}"
            if (each.leads and world.setup.retention is not None) or (repairs.Retirement, name, str(partition)) in world.walks:
                yield f"retain {name} {partition}"
        yield f"crash {name}"


def message_lines(world, came):
    """Requests to deliver and replies to take: those on their way each, the others as repeats."""
    again = 0
    for number, message in enumerate(world.messages):
        if number in came:
            again += 1
        elif hasattr(message, "ask"):
            yield f"deliver m{number} cK ({states.KINDS[message.ask.kind]} of s{message.instance})"
        elif world.servers[message.number[0]].up:
            yield f"reply m{number} ({message.status} to s{message.number[0]})"
    if again:
        yield f"deliver or reply again any of {again} messages that came"


def query_lines(world):
    for number, query in enumerate(world.queries):
        if query is None:
            continue
        yield from (f"route q{number} {partition}" for partition in range(world.setup.partitions) if partition not in query.plans)
        for partition, plan in sorted(query.plans.items()):
            for piece in plan or []:
                yield from (f"piece q{number} {partition}/{piece[0]} s{server}" for server in world.setup.replicas(partition)
                            if query.due(world.setup, partition, piece[0], server))
        if query.ended(world.setup):
            yield f"answer q{number}"


def due(world, came):
    """Groups of lines that can come next, each with its name; the last holds what always can."""
    groups = {"servers": server_lines(world), "controllers": controller_lines(world), "messages": message_lines(world, came), "queries": query_lines(world)}
    found = {name: list(lines) for name, lines in groups.items()}
    found["always"] = ["produce P TEXT", "fill P N", "tick N", "fault store lost", "ask TEXT", "query TEXT", "settle N", "show ideal"]
    return {name: shortened(lines) for name, lines in found.items() if lines}


def shortened(lines):
    return lines if len(lines) <= 3 * NAMED else [*lines[:3 * NAMED], f"and {len(lines) - 3 * NAMED} more"]

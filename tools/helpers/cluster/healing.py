"""The lines that heal a cluster: every node starts anew, one controller leads, and once each partition is mended one `settle` brings it to rest."""
import answers

# One repair ends what is under way, and of those behind it at most three write, each of which begins the grace of its segment anew.
REPAIRS, ROUNDS = 5, 1_000_000


def heal(schedule):
    """Adds these lines. Whether the cluster rests then, and each partition is served from its mark to its end."""
    start_anew(schedule)
    for partition in range(schedule.world.setup.partitions):
        mend(schedule, partition)
    for partition in range(schedule.world.setup.partitions):
        retire(schedule, partition)
    schedule.add(f"settle {ROUNDS}")
    return schedule.report[-1] == "settled" and is_whole(schedule.world)


def start_anew(schedule):
    """Each node crashes, where it is up, and comes up again; a pause ends, and the first controller leads. Planned faults are met before."""
    world = schedule.world
    for name, nodes in (("s", world.servers), ("c", world.controllers)):
        for node in nodes:
            if node.up:
                schedule.add(f"crash {name}{node.number}")
            while not node.up:
                schedule.add(f"restart {name}{node.number}")
    if world.paused:
        schedule.add("resume")
    schedule.add("lead c0 on")
    while world.store.planned:
        schedule.add("repair c0 0")


def mend(schedule, partition):
    """The grace passes before each repair."""
    for _ in range(REPAIRS):
        if schedule.world.setup.grace:
            schedule.add(f"tick {schedule.world.setup.grace}")
        go_to_end(schedule, f"repair c0 {partition}")


def retire(schedule, partition):
    """What is under way ends, and then retirements go on up to one that finds nothing to do."""
    if schedule.world.setup.retention is not None:
        go_to_end(schedule, f"retain c0 {partition}")
        while go_to_end(schedule, f"retain c0 {partition}") != "nothing":
            pass


def go_to_end(schedule, line):
    """Adds a line up to the step that ends what it begins, which it gives."""
    schedule.add(line)
    while schedule.report[-1].endswith((" listed", " idealRead")):
        schedule.add(line)
    return schedule.report[-1].rsplit(" ", 1)[-1]


def is_whole(world):
    return all(why(world, partition) is None for partition in range(world.setup.partitions))


def why(world, partition):
    """What isn't whole of a partition: a piece of its plan that no replica serves up to its end, or a gap between the pieces; or none."""
    nodes, at = world.store.present(partition), None
    for sequence, start, end in answers.plan(nodes):
        wanted = start, len(world.log[partition]) if end is None else end
        if at not in (None, start):
            return f"{partition}/{sequence} starts at {start}, and the segment before it ends at {at}"
        if not any(world.servers[number].up and world.servers[number].serves((partition, sequence), start, end) == wanted
                   for number in world.setup.replicas(partition)):
            return f"{partition}/{sequence} is served by no replica from {start} to {wanted[1]}"
        at = wanted[1]
    return None if at == len(world.log[partition]) else f"{partition} is served up to {at}, of {len(world.log[partition])} messages"

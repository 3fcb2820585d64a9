"""The end of a schedule in peace: nodes come up, jobs and repairs go on, time passes, until the cluster rests."""
import storage

# Within the hold window a replica alone asks in each round, so a turn has few rounds, and time passes between turns.
TURNS, ROUNDS = 100, 30


def settle(schedule):
    """Adds these lines. None where each partition is committed to its end and at rest, else why it isn't."""
    world = schedule.world
    for _ in range(TURNS):
        revive(schedule)
        finish_jobs(schedule)
        for partition in range(world.setup.partitions):
            repair(schedule, partition)
        schedule.add(f"settle {ROUNDS}")
        if schedule.report[-1] == "settled" and all(is_whole(world, partition) for partition in range(world.setup.partitions)):
            return None
        schedule.add(f"tick {max(world.setup.millis, world.setup.grace, 6_001)}")
    return "; ".join(why(world, partition) for partition in range(world.setup.partitions) if not is_whole(world, partition)) or "unsettled"


def revive(schedule):
    """Restarts what is down, ends a pause, and has the first controller believe that it leads."""
    world = schedule.world
    for name, nodes in (("s", world.servers), ("c", world.controllers)):
        for node in nodes:
            while not node.up:
                schedule.add(f"restart {name}{node.number}")
    if world.paused:
        schedule.add("resume")
    if not world.controllers[0].leads:
        schedule.add("lead c0 on")


def finish_jobs(schedule):
    for controller in schedule.world.controllers:
        while controller.jobs:
            schedule.add(f"job c{controller.number} j{min(controller.jobs)}")


def repair(schedule, partition):
    """Repairs up to one that has nothing to do."""
    while True:
        schedule.add(f"repair c0 {partition}")
        if schedule.report[-1].endswith((" nothing", " failed")):
            return


def is_whole(world, partition):
    """Whether the last node is in progress from the partition's end on."""
    _, _, meta = world.last(partition)
    return meta.status == storage.IN_PROGRESS and meta.start == len(world.log[partition])


def why(world, partition):
    sequence, _, meta = world.last(partition)
    held = [f"s{server.number} {server.replica((partition, sequence)).state}" for server in world.servers if server.replica((partition, sequence))]
    return f"{partition}/{sequence} is {meta.status} from {meta.start}, of {len(world.log[partition])} messages: {', '.join(held) or 'no replica'}"

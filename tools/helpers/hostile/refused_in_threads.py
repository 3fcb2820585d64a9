"""Allocations of a running cluster refused, whichever thread asks: the run ends with status 6 and writes nothing.

Each so-manieth is refused of three stored inputs, alone, and together with all that follow. The threads of a run take turns as they
come, so that the same number means another allocation in another run, and the number of all of them varies. One whose refusal is made
up for, or that isn't asked for any more, ends with the stored output. A run that doesn't end is wrong.
"""
import itertools
import os
import resource
import subprocess
import tempfile

import live_inputs
import refusing
import running

# Of each input one allocation in so many is refused, from the first on.
STEPS = {"eight-replicas": 47, "a-crash-during-a-commit": 199, "everything-at-once": 4001}
# How many of each input, and in a quick run.
NUMBERS, QUICK = 100, 3
HOW = {"alone": {}, "from it on": {"FROM_THEN_ON": "1"}}
# The seconds of processor time that a run gets, of which a whole one takes two; and those by the clock, for one that sleeps. Its threads pass
# turns on by yielding, which other work makes long.
PROCESSOR, CLOCK = 10, 3_600
REFUSED = (6, b"", b"out of memory\n")


def bound():
    resource.setrlimit(resource.RLIMIT_CPU, (PROCESSOR, PROCESSOR))


def ended(program, data, limits=bound, **variables):
    """How a run of an input ended, within these limits and with these variables of the environment; with no status where it didn't."""
    try:
        ran = subprocess.run([program], input=data, capture_output=True, env={**os.environ, **variables}, timeout=CLOCK, preexec_fn=limits,
                             check=False)
    except subprocess.TimeoutExpired:
        return running.Ended(None, b"", b"")
    return running.Ended(ran.returncode if ran.returncode >= 0 else None, ran.stdout, ran.stderr)


def run(given):
    count, numbers = running.Count("live"), QUICK if given.quick else NUMBERS
    refused_of_all = stored_of_all = 0
    with tempfile.TemporaryDirectory() as folder:
        library = refusing.compiled(folder)
        for (name, step), (how, more) in itertools.product(STEPS.items(), HOW.items()):
            data, output = (live_inputs.path_of(name, ending).read_bytes() for ending in ("in", "out"))
            refused, stored = 0, 0
            for number in range(1, 1 + numbers * step, step):
                found = ended(given.live, data, LD_PRELOAD=library, REFUSED_ALLOCATION=str(number), **more)
                came_to = (found.status, found.wrote, found.said)
                refused, stored = refused + (came_to == REFUSED), stored + (came_to == (0, output, b""))
                wrong = None if came_to in (REFUSED, (0, output, b"")) else found.shown()
                count.case(f"{name}, allocation {number}, {how}", wrong)
            refused_of_all, stored_of_all = refused_of_all + refused, stored_of_all + stored
            print(f"  {name}, {how}: {refused} refused, {stored} with the stored output", flush=True)
    return count.tell(f", {len(STEPS)} inputs, {refused_of_all} runs refused and {stored_of_all} with the stored output")

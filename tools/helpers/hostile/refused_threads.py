"""A running cluster that gets fewer threads than it has nodes: the run ends with status 6 and writes nothing.

The program runs as a user of its own, who may have only so many threads at once, from one on: the system refuses it the next one. With as
many threads as the run asks for it has the stored output. Where root can't run a program as another user nothing is done.
"""
import os
import pathlib
import resource
import shutil
import subprocess
import tempfile

import live_inputs
import running
from refused_in_threads import REFUSED, bound, ended

INPUTS = ("eight-replicas", "a-crash-during-a-commit")
# A number that no user has: the limit counts all threads of a user.
USER = 1_234_567
# The numbers of threads, and in a quick run. No input asks for more than the last one.
THREADS, QUICK = (1, 2, 3, 4, 5, 6, 8, 10, 12, 64), (3, 64)


def readable(program, folder):
    """A copy of the program in a folder that each user may read."""
    os.chmod(folder, 0o755)
    copy = pathlib.Path(shutil.copy(program, folder))
    copy.chmod(0o755)
    return str(copy)


def runs_as_another(program):
    """Whether the program can be run by another user here."""
    try:
        subprocess.run([program], stdin=subprocess.DEVNULL, capture_output=True, preexec_fn=lambda: os.setuid(USER), check=False)
    except (OSError, subprocess.SubprocessError):
        return False
    return True


def cases(program, name, numbers):
    """How an input ended with each of these numbers of threads, and whether it may be refused."""
    data = live_inputs.path_of(name, "in").read_bytes()
    for threads in numbers:
        def limits(threads=threads):
            bound()
            resource.setrlimit(resource.RLIMIT_NPROC, (threads, threads))
            os.setuid(USER)

        found = ended(program, data, limits)
        yield threads, found, threads < THREADS[-1]


def run(given):
    count, refused, stored = running.Count("threads"), 0, 0
    with tempfile.TemporaryDirectory() as folder:
        program = readable(given.live, folder)
        if not runs_as_another(program):
            return count.tell(", since no other user can be had here")
        for name in INPUTS:
            output = live_inputs.path_of(name, "out").read_bytes()
            for threads, found, may_be_refused in cases(program, name, QUICK if given.quick else THREADS):
                came_to = (found.status, found.wrote, found.said)
                is_refused, is_stored = came_to == REFUSED, came_to == (0, output, b"")
                refused, stored = refused + is_refused, stored + is_stored
                count.case(f"{name}, {threads} threads", None if is_stored or is_refused and may_be_refused else found.shown())
    return count.tell(f", {refused} runs refused and {stored} with the stored output")

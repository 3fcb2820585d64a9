"""One run of a program: how it ended, what it wrote, and what it took; and the counts of a part."""
import dataclasses
import functools
import os
import pathlib
import resource
import signal
import subprocess
import sys
import tempfile
import time

# What a run may take of processor time where nothing else is said, and how often that by the clock, which other work makes long.
SECONDS, WAITED = 60, 20
# How the system ends a run that takes more.
STOPPED = (-signal.SIGXCPU, -signal.SIGKILL)
# The most address space of a measured run: one that takes too much ends in want of it, and not the machine.
ROOM = 8 * 2**30
# How many wrong cases of a part are printed.
SHOWN = 20


@dataclasses.dataclass
class Ended:
    """A run's status, none where it was ended from outside, its report and standard error, and what it took."""
    status: int | None
    wrote: bytes
    said: bytes
    seconds: float = 0.0
    # The greatest memory that it held, in bytes.
    memory: int = 0

    def shown(self):
        how = "no end in time" if self.status is None else f"status {self.status}"
        return f"{how}, {self.said[:120]!r}, behind {len(self.wrote)} bytes"


def run(program, script=b"", words=(), seconds=SECONDS, **variables):
    """A run over a script, with more variables of the environment; it gets no more than so many seconds of processor time."""
    bound = functools.partial(resource.setrlimit, resource.RLIMIT_CPU, (seconds, seconds))
    try:
        ran = subprocess.run([program, *words], input=script, capture_output=True, env={**os.environ, **variables},
                             timeout=WAITED * seconds, preexec_fn=bound, check=False)
    except subprocess.TimeoutExpired:
        return Ended(None, b"", b"")
    return Ended(None if ran.returncode in STOPPED else ran.returncode, ran.stdout, ran.stderr)


def measured(program, path, words=(), seconds=SECONDS, memory=ROOM):
    """A run over a file, with what it took of processor time and of memory; it gets no more than so many seconds and bytes of address space."""
    measure = pathlib.Path(__file__).with_name("measure.py")
    with tempfile.TemporaryDirectory() as folder:
        report, said = pathlib.Path(folder, "report"), pathlib.Path(folder, "said")
        line = [sys.executable, "-S", "-E", measure, str(seconds), str(memory), path, report, said, program, *words]
        status, took, held = subprocess.run(line, stdout=subprocess.PIPE, check=True).stdout.split()
        return Ended(int(status) if int(status) >= 0 else None, report.read_bytes(), said.read_bytes(), float(took), int(held))


class Count:
    """How many cases of a part passed and failed; says what is wrong with some."""

    def __init__(self, part):
        self.part, self.passed, self.failed, self.begun = part, 0, 0, time.monotonic()

    def case(self, name, wrong):
        """Counts a case; `wrong` is none where it is as it must be."""
        if wrong is None:
            self.passed += 1
            return
        self.failed += 1
        if self.failed <= SHOWN:
            print(f"  {self.part}, {name}: {wrong}", flush=True)

    def tell(self, more=""):
        print(f"{self.part}: {self.passed} passed, {self.failed} failed, {time.monotonic() - self.begun:.0f} s{more}", flush=True)
        return self.passed, self.failed

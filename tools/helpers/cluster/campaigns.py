"""Many random schedules, on all processors: each one's outcome, and what they came to together, which can be kept and gone on with."""
import collections
import contextlib
import dataclasses
import itertools
import json
import multiprocessing
import os
import pathlib
import signal
import subprocess
import time

import healing
import peace
import schedules
import shortening

SECONDS = 300
# How often the state of a long campaign is written down, in seconds.
KEPT_EACH = 10


@dataclasses.dataclass
class Trial:
    """What is tried of each seed: settings by seed, the program, or none where only the model is asked, and where differing ones go."""
    settings: object
    program: pathlib.Path | None
    settles: bool
    folder: pathlib.Path
    heals: bool = False


@dataclasses.dataclass
class Outcome:
    seed: int
    mood: str
    lines: int
    cells: collections.Counter
    # Why the reports differ, and why the cluster doesn't come to rest, or none.
    wrong: str | None = None
    restless: str | None = None
    kept: str | None = None


def run(program, script):
    """A program's report of a script, or why there is none."""
    try:
        ran = subprocess.run([program], input=script.encode(), capture_output=True, timeout=SECONDS, check=False)
    except subprocess.TimeoutExpired:
        return None, f"no end within {SECONDS} seconds"
    if ran.returncode != 0:
        return None, f"status {ran.returncode}: {ran.stderr.decode(errors='replace').strip()}"
    return ran.stdout.decode(errors="replace"), None


def script_of(header, lines):
    return "".join(f"{line}\n" for line in [*header, *lines])


def difference(program, header, lines, report):
    """The first line of a program's report that isn't the model's, or none."""
    told, why = run(program, script_of(header, lines))
    if why:
        return why
    for number, (wanted, got) in enumerate(zip(report, told.split("\n"))):
        if wanted != got:
            return f"line {number + 1}, {lines[number]}: wanted {wanted!r}, got {got!r}"
    return None if told == "".join(f"{line}\n" for line in report) else "another length"


def keep(trial, schedule, seed):
    """Writes a differing schedule and a shorter one that still differs; the path of the latter."""
    trial.folder.mkdir(parents=True, exist_ok=True)
    whole, short = trial.folder / f"seed-{seed}.whole", trial.folder / f"seed-{seed}.script"
    whole.write_text(schedule.script())
    differs = lambda ran: difference(trial.program, schedule.header, ran.texts, ran.report) is not None
    short.write_text(script_of(schedule.header, shortening.shorten(schedule.header, schedule.lines, differs)))
    return str(short)


def outcome_of(trial, seed):
    """Makes and runs the schedule of a seed."""
    schedule = schedules.Schedule(seed, trial.settings(seed)).run()
    restless = peace.settle(schedule) if trial.settles else "unhealed" if trial.heals and not healing.heal(schedule) else None
    found = Outcome(seed, schedule.mood, len(schedule.lines), schedule.world.cells, restless=restless)
    if trial.program is not None:
        found.wrong = difference(trial.program, schedule.header, schedule.lines, schedule.report)
    if found.wrong:
        found.kept = keep(trial, schedule, seed)
    return found


class Worker:
    """One of several processes; a stop by hand is its parent's to see."""
    trial = None

    @staticmethod
    def begin(trial):
        signal.signal(signal.SIGINT, signal.SIG_IGN)
        Worker.trial = trial

    @staticmethod
    def work(seed):
        return outcome_of(Worker.trial, seed)


def pool_of(trial, jobs):
    """Several processes, or none where the system has no way for them to wait for each other."""
    try:
        return multiprocessing.get_context("fork").Pool(jobs, Worker.begin, (trial,))
    except OSError:
        return None


def outcomes(trial, seeds, jobs):
    """The outcome of each seed, in order."""
    pool = None if jobs == 1 else pool_of(trial, jobs)
    if pool is None:
        yield from (outcome_of(trial, seed) for seed in seeds)
        return
    with pool:
        waiting = collections.deque()
        for seed in seeds:
            waiting.append(pool.apply_async(Worker.work, (seed,)))
            if len(waiting) >= 2 * jobs:
                yield waiting.popleft().get()
        while waiting:
            yield waiting.popleft().get()


class Sum:
    """What schedules came to together."""

    def __init__(self, seed):
        self.next, self.count, self.lines, self.seconds = seed, 0, 0, 0.0
        self.cells, self.differ, self.restless = collections.Counter(), [], []

    def add(self, outcome):
        self.next, self.count, self.lines = outcome.seed + 1, self.count + 1, self.lines + outcome.lines
        self.cells += outcome.cells
        if outcome.wrong:
            self.differ.append(outcome.seed)
        if outcome.restless:
            self.restless.append(outcome.seed)

    def failed(self):
        return len({*self.differ, *self.restless})

    def write(self, path, words):
        """Writes itself down whole, beside the words that it is of."""
        path.parent.mkdir(parents=True, exist_ok=True)
        told = {**vars(self), "cells": [[*cell, count] for cell, count in self.cells.items()], "words": words}
        part = path.with_suffix(".part")
        part.write_text(json.dumps(told))
        os.replace(part, path)

    @staticmethod
    def read(path, words):
        """What was written down of the same words, or none."""
        told = {}
        with contextlib.suppress(OSError, ValueError):
            told = json.loads(path.read_text())
        if told.get("words") != words:
            return None
        found = Sum(told["next"])
        found.count, found.lines, found.seconds, found.differ, found.restless = (told[key] for key in ("count", "lines", "seconds", "differ", "restless"))
        found.cells = collections.Counter({tuple(cell[:-1]): cell[-1] for cell in told["cells"]})
        return found


class Campaign:
    """Runs seeds up to a count or a time, and adds them up."""

    def __init__(self, trial, jobs, total, bar):
        self.trial, self.jobs, self.total, self.bar = trial, jobs, total, bar

    def run(self, seeds, part, tell):
        begun, written = time.monotonic() - self.total.seconds, time.monotonic()
        for outcome in outcomes(self.trial, seeds, self.jobs):
            self.total.add(outcome)
            self.total.seconds = time.monotonic() - begun
            tell(outcome)
            self.bar.show(part(self.total), f"{self.total.count} schedules, {self.total.failed()} failed")
            if time.monotonic() - written > KEPT_EACH:
                written = time.monotonic()
                yield
        self.bar.end()


def seeds_of(first, count):
    return itertools.count(first) if count is None else range(first, first + count)

"""Plays batches one after the other, in a process of its own.

Use: worker PROGRAM FOLDER FIRST STEP COUNT UNTIL

Of each batch of the seeds FIRST, FIRST + STEP and so on, COUNT in all or up to the moment UNTIL, a line of JSON is written: its seed, the
counts of what was done, and what is wrong.
"""
import collections
import json
import pathlib
import resource
import signal
import sys
import time

HELPERS = pathlib.Path(__file__).resolve().parent.parent
sys.path[:0] = [str(HELPERS), *(str(HELPERS / folder) for folder in ("cluster", "hostile", "fuzzing"))]
import batches
import executions
import header
import mutations
import playing
import shortening

# How many differing scripts a process shortens.
SHORTENED = 10


class Worker:
    def __init__(self, program, folder):
        self.program, self.folder, self.kept, self.cells = program, pathlib.Path(folder), 0, set()
        self.stored = [batches.Stored(text) for text in mutations.stored()]

    def differs(self, lines):
        try:
            return playing.difference(self.program, executions.of(b"\n".join(lines), header.read)) is not None
        except executions.Unasked:
            return False

    def keep(self, name, script):
        """Writes a differing script, and a shorter one that still differs; the path of the latter."""
        whole = self.write(f"{name}.whole", script)
        self.kept += 1
        if self.kept > SHORTENED:
            return whole
        return self.write(f"{name}.script", b"\n".join(shortening.fewer(script.split(b"\n"), self.differs)))

    def write(self, name, script):
        self.folder.mkdir(parents=True, exist_ok=True)
        path = self.folder / name
        path.write_bytes(script)
        return path

    def play(self, seed):
        """What a batch came to."""
        begun = taken()
        batch, wrong = batches.Batch(seed, self.stored).draw(), []
        for place, what in playing.differences(self.program, batch.executions):
            wrong.append(f"seed {seed}, script {place}: {what}; {self.keep(f'seed-{seed}-{place}', batch.executions[place].script)}")
        for place, (script, what) in enumerate(batch.broken):
            wrong.append(f"seed {seed}: {what}; {self.write(f'seed-{seed}-broken-{place}.whole', script)}")
        counts = batch.counts + collections.Counter(f"status {each.status}" for each in batch.executions)
        counts["bytes"] = sum(len(each.script) for each in batch.executions)
        cells, self.cells = batch.cells - self.cells, self.cells | batch.cells
        return {"seed": seed, "counts": counts, "cells": sorted(cells), "wrong": wrong, "seconds": [end - start for start, end in zip(begun, taken())]}


def taken():
    """The processor time of this process, and of the programs that it ran."""
    return [used.ru_utime + used.ru_stime for used in map(resource.getrusage, (resource.RUSAGE_SELF, resource.RUSAGE_CHILDREN))]


def main(program, folder, first, step, count, until):
    signal.signal(signal.SIGINT, signal.SIG_IGN)
    worker, seed = Worker(program, folder), int(first)
    while time.time() < float(until) and seed < int(first) + int(step) * int(count):
        print(json.dumps(worker.play(seed)), flush=True)
        seed += int(step)


if __name__ == "__main__":
    main(*sys.argv[1:])

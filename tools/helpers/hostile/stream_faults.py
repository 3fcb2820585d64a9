"""Standard input and output that fail at each call, or give and take little at a time, over stored scripts and inputs of a running cluster.

A run whose input comes and whose output goes byte by byte must be the run itself. Where calls give and take at most PIECE bytes, so
that there are several of each, every one of them fails in turn, alone and with all that follow: a read ends the run with status 4
before anything is written, and a write with status 5 behind a front of the report. A write that takes nothing counts as one that fails.
"""
import itertools
import tempfile

import live_inputs
import refusing
import running
import scripts

MOST_LINES = 100
PIECE = 256
# No less is buffered before it is written, but for the last of a report.
BUFFERED = 4096
LITTLE = {"SHORT_READS": "1", "SHORT_WRITES": "1"}
PIECES = {"SHORT_READS": str(PIECE), "SHORT_WRITES": str(PIECE)}
KINDS = {"REFUSED_READ": (4, b"read failed\n"), "REFUSED_WRITE": (5, b"write failed\n"), "EMPTY_WRITE": (5, b"write failed\n")}
HOW = {"alone": {}, "and all that follow": {"FROM_THEN_ON": "1"}}
# Every fortieth script is tried in a quick run, and every fortieth input.
QUICK = 40


def short(paths):
    """Those of so few lines, that are read with no word; a device in the place of a file is none of them."""
    return [path for path in paths if path.is_file() and path.read_bytes().count(b"\n") < MOST_LINES
            and not path.with_suffix(".args").exists()]


def listed(given):
    """Each script and each input that is tried, with its program."""
    by_program = ((given.program, map(scripts.input_of, scripts.names())),
                  (given.live, (live_inputs.path_of(name, "in") for name in live_inputs.names() if not live_inputs.is_outside(name))))
    return [(program, path) for program, paths in by_program for path in short(paths)[::QUICK if given.quick else 1]]


def wrong(kind, ended, whole, fails):
    """What is wrong with a run one of whose calls fails, as it must or may; or none."""
    if not fails and ended == whole:
        return None
    if (ended.status, ended.said) != KINDS[kind]:
        return ended.shown()
    if not whole.wrote.startswith(ended.wrote) or (kind == "REFUSED_READ" and ended.wrote):
        return f"{len(ended.wrote)} bytes that are no front of the report"
    return None


def pieces(count):
    return -(-count // PIECE)


def calls_of(kind, script, report):
    """How many calls there are at least: the reads up to the one that finds the end, or the writes; and how many at most.

    What is buffered is written by itself, so that its last piece may be a short one.
    """
    if kind == "REFUSED_READ":
        return pieces(len(script)) + 1, pieces(len(script)) + 1
    return pieces(len(report)), pieces(len(report)) + len(report) // BUFFERED


def cases(program, library, script):
    """What is wrong with each case of a script, or none."""
    whole = running.run(program, script)
    if whole.status is None:
        yield "whole", whole.shown()
        return
    little = running.run(program, script, LD_PRELOAD=library, **LITTLE)
    yield "byte by byte", None if little == whole else little.shown()
    for kind in KINDS:
        least, most = calls_of(kind, script, whole.wrote)
        for number in itertools.count(1):
            for how, more in HOW.items():
                ended = running.run(program, script, LD_PRELOAD=library, **PIECES, **more, **{kind: str(number)})
                found = wrong(kind, ended, whole, number <= least)
                yield f"{kind} {number} {how}", "one call too many" if number > most and ended != whole else found
            if number > least and ended == whole or number > most:
                break


def run(given):
    count, tried = running.Count("streams"), listed(given)
    with tempfile.TemporaryDirectory() as folder:
        library = refusing.compiled(folder)
        for program, path in tried:
            for case, found in cases(program, library, path.read_bytes()):
                count.case(f"{path.parent.name}/{path.stem}, {case}", found)
    return count.tell(f", {len(tried)} scripts and inputs")

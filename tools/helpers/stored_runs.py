"""Stored runs of a program: what it is given, and how what it gives differs from what is stored.

A run is known by a function from an ending to its file: `in` (standard input), `args` (the program's words, one a line), `out` (the report),
`err` (standard error), `status`; `source` and `sink` name a path that is standard input or output in their place.
"""
import os
import subprocess


def part(path_of, ending, default=b""):
    path = path_of(ending)
    return path.read_bytes() if path.exists() else default


def opened(path_of, ending, how):
    """The file that stands for a stream, where the run names one: a device, or a folder, which can't be read."""
    path = part(path_of, ending).decode().strip()
    return os.open(path, how) if path else None


def run(program, path_of, seconds):
    words = part(path_of, "args").decode().splitlines()
    how = {"stderr": subprocess.PIPE, "timeout": seconds, "check": False}
    source, sink = opened(path_of, "source", os.O_RDONLY), opened(path_of, "sink", os.O_WRONLY)
    if source is None:
        how["input"] = part(path_of, "in")
    else:
        how["stdin"] = source
    how["stdout"] = subprocess.PIPE if sink is None else sink
    try:
        return subprocess.run([program, *words], **how)
    finally:
        for stream in (source, sink):
            if stream is not None:
                os.close(stream)


def first_difference(wanted, got):
    lines = zip([*wanted.split(b"\n"), None], [*got.split(b"\n"), None])
    number, (want, have) = next((n, pair) for n, pair in enumerate(lines, 1) if pair[0] != pair[1])
    return f"line {number}: wanted {want!r}, got {have!r}"


def differences(program, path_of, seconds):
    try:
        ran = run(program, path_of, seconds)
    except subprocess.TimeoutExpired:
        return [f"no end within {seconds} seconds"]
    found = []
    for what, wanted, got in (("report", part(path_of, "out"), ran.stdout), ("standard error", part(path_of, "err"), ran.stderr)):
        if got is not None and got != wanted:
            found.append(f"{what}, {first_difference(wanted, got)}")
    status = int(part(path_of, "status", b"0"))
    if ran.returncode != status:
        found.append(f"status {ran.returncode}, wanted {status}")
    return found

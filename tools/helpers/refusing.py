"""Runs of a built program behind helpers/refusals.c, which refuses it one call of the C library."""
import os
import shutil
import subprocess

import usage

# Each kind of call, with the status and the words by which a run ends whose call is refused.
KINDS = {"REFUSED_ALLOCATION": ("6", b"out of memory\n"), "REFUSED_READ": ("4", b"read failed\n"),
         "REFUSED_WRITE": ("5", b"write failed\n")}
# How many runs in a row may end as if nothing was refused before the search ends.
ENOUGH = 20
SECONDS = 60


def compiled(folder):
    """The library that stands before the C library's calls."""
    compiler = next((found for found in map(shutil.which, ("cc", "gcc", "clang")) if found), None)
    if compiler is None:
        usage.fail("there is no C compiler")
    library = os.path.join(folder, "refusals.so")
    source = usage.HOME / "tools" / "helpers" / "refusals.c"
    subprocess.run([compiler, "-O2", "-shared", "-fPIC", "-o", library, source, "-ldl"], check=True)
    return library


def run(program, script, words=(), **refused):
    """The status, the report and the standard error of a run."""
    ran = subprocess.run([program, *words], input=script, capture_output=True, env={**os.environ, **refused}, timeout=SECONDS, check=False)
    return str(ran.returncode), ran.stdout, ran.stderr


def is_front(part, whole, kind):
    """Whether it is a front of the report, in whole lines but where a write was refused."""
    if kind == "REFUSED_READ":
        return part == b""
    return whole.startswith(part) and (kind == "REFUSED_WRITE" or part == b"" or part.endswith(b"\n"))


def search(program, script, library, kind, words=(), step=1, **more):
    """How many calls were refused rightly, how many were made up for, and the first run that ended otherwise.

    Every call is refused in a run of its own, or each `step`-th; `more` are further variables of the library.
    """
    whole = run(program, script, words)
    right = spared = quiet = 0
    number = 1 - step
    while quiet < ENOUGH:
        number += step
        status, wrote, said = run(program, script, words, LD_PRELOAD=library, **{kind: str(number)}, **more)
        if (status, wrote, said) == whole:
            quiet += 1
            continue
        spared, quiet = spared + quiet, 0
        if (status, said) != KINDS[kind] or not is_front(wrote, whole[1], kind):
            return right, spared, f"call {number} ends with status {status}, {said!r}, behind {len(wrote)} bytes"
        right += 1
    return right, spared, None

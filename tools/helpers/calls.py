"""Runs lines of calls, as docs/rules/calls.md has them, on the built rt_calls, proved or not."""
import functools
import os
import subprocess
import sys
import tempfile

import programs

# How many differences are printed.
SHOWN = 20


def as_hex(text):
    """A text or bytes as a line writes them."""
    return (text.encode() if isinstance(text, str) else text).hex() or "-"


@functools.cache
def program():
    """The built rt_calls; ends the tool where there is none."""
    return programs.needed("rt_calls")


def run(lines):
    """The program's output; ends the script where it does not end well."""
    ran = subprocess.run([program()], input="".join(f"{line}\n" for line in lines).encode(), stdout=subprocess.PIPE, check=False)
    if ran.returncode != 0:
        sys.exit(f"rt_calls ended with status {ran.returncode}")
    return ran.stdout


def answers(lines):
    """The answer to each line."""
    return run(lines).decode().split("\n")[:-1]


def seconds(lines):
    """The processor time that a run takes, which other work beside it changes less than the time that passes."""
    with tempfile.TemporaryFile() as file:
        file.write("".join(f"{line}\n" for line in lines).encode())
        file.seek(0)
        ran = subprocess.Popen([program()], stdin=file, stdout=subprocess.DEVNULL)
        _, status, used = os.wait4(ran.pid, 0)
        ran.returncode = os.waitstatus_to_exitcode(status)
    if ran.returncode != 0:
        sys.exit(f"rt_calls ended with status {ran.returncode}")
    return used.ru_utime + used.ru_stime


def seconds_of(before, line, times, turns=5):
    """The least and the most that `line` takes by itself after the lines before it, in seconds."""
    least, found = min(seconds(before) for _ in range(turns)), []
    for _ in range(turns):
        found.append(max(0.0, seconds([*before, f"repeat {times} {line}"]) - least) / times)
    return min(found), max(found)


class Comparison:
    """Lines with the answers that they have to get, compared in one run."""

    def __init__(self):
        self.lines, self.wanted = [], []

    def add(self, line, answer):
        self.lines.append(line)
        self.wanted.append(answer)

    def differences(self):
        """How many answers differ. The first of them are printed."""
        found = answers(self.lines)
        wrong = [place for place, pair in enumerate(zip(self.wanted, found)) if pair[0] != pair[1]]
        for place in wrong[:SHOWN]:
            print(f"line {place + 1}: {self.lines[place]}\n  expected {self.wanted[place]}\n  found    {found[place]}")
        return len(wrong) + abs(len(self.wanted) - len(found))

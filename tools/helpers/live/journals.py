"""Runs of a built rtlive with its journal, and what is wrong with them."""
import subprocess

import checking
import journal
import live_input


def run(program, words, data, seconds):
    """What a run printed; ends with `journal.Fault` where it doesn't end well, or in time."""
    try:
        ran = subprocess.run([program, *words], input=data, capture_output=True, timeout=seconds, check=False)
    except subprocess.TimeoutExpired:
        raise journal.Fault(0, f"no end within {seconds} seconds") from None
    if ran.returncode != 0:
        raise journal.Fault(0, f"status {ran.returncode}, {ran.stderr.decode(errors='replace').strip()}")
    return ran.stdout


def check_run(program, data, output, seconds):
    """The counts of a run's journal, whose output in front of it must be this one."""
    printed = run(program, ["--journal"], data, seconds)
    if not printed.startswith(output) or not printed[len(output):].startswith(b"write "):
        raise journal.Fault(0, "another output in front of the journal than without one")
    return checking.check(printed.decode(errors="surrogateescape"), live_input.read(data.decode(errors="surrogateescape")))


def faults_of(program, data, output, seconds):
    """What is wrong with a run's journal, as a list."""
    try:
        check_run(program, data, output, seconds)
    except journal.Fault as fault:
        return [f"journal, {fault}"]
    return []

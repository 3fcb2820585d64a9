"""A small cluster's header, and what the model says of a script of bytes."""
import sys

import header
import schedules
import world as worlds

HEADER = "".join(f"{line}\n" for line in schedules.Settings(servers=1, controllers=1, replication=1, rows=1_000_000).header()).encode()
# A query may have numbers of as many digits as it has bytes.
sys.set_int_max_str_digits(0)
STATUSES = {"": 0, "line": 3, "limit": 7}


def played(script, read=header.read):
    """The report of the model, which reads the header so, and what is said on standard error."""
    report, _, said = worlds.play(script.decode(errors="surrogateescape"), read)
    return "".join(f"{line}\n" for line in report).encode(errors="surrogateescape"), said or ""


def status_of(said):
    """The status of a run that says so."""
    return STATUSES[said.split(" ")[0].rstrip(":")]

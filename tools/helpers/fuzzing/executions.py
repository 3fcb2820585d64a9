"""What the model says of a script, or why it isn't asked."""
import dataclasses
import re

import lines as script_lines
import limits
import worlds_of

# What is taken too long of the model: messages of one line, rounds of one line.
MOST_FILLED, MOST_ROUNDS = 2_000, 50
LONG = re.compile(r"^(fill \d+|settle) (\d+)", re.M)


@dataclasses.dataclass
class Execution:
    """A script, and how its run has to end."""
    script: bytes
    report: bytes
    said: str

    @property
    def status(self):
        return worlds_of.status_of(self.said)

    def told(self):
        """What the program writes of it."""
        return f"{self.status} {len(self.report)} {self.said}\n".encode() + self.report


class Unasked(Exception):
    """Why the model isn't asked."""


def is_long(text):
    """Whether a line of a text fills in more messages, or settles in more rounds, than the model takes in time."""
    return any(len(number) <= 20 and int(number) > (MOST_FILLED if word.startswith("fill") else MOST_ROUNDS) for word, number in LONG.findall(text))


def of(script, read):
    """A script beside the model, whose header is read so."""
    if is_long(script.decode(errors="surrogateescape")):
        raise Unasked("too long for the model")
    return Execution(script, *worlds_of.played(script, read))


def refusal(number, line_or_limit):
    """What is said of a refused line of this number."""
    if isinstance(line_or_limit, limits.Passed):
        return f"limit: {line_or_limit}"
    return f"line {number}: {line_or_limit}"


REFUSED = (script_lines.Refused, limits.Passed)

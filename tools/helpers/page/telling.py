"""Goes through a script by the model and keeps, line by line, what each one told, changed, and made possible."""
import dataclasses
import json
import re

import forms
import header
import limits
import lines as script_lines
import world as worlds

import dues
import reasons
import states

MOST_TOLD = 1_000


@dataclasses.dataclass
class Step:
    """A line that ran, or the one that was refused."""
    number: int
    text: str
    told: str
    changes: list
    next: dict
    # The answer's ranges and what is missing, with the partitions' lengths; why it is no query, or why it was refused.
    ranges: tuple | None = None
    why: reasons.Reason | None = None
    refused: bool = False


@dataclasses.dataclass
class Told:
    """A whole script: its setup, its first state, its lines, the state behind them, and what ended it."""
    setup: object
    begins: dict
    steps: list
    ends: dict
    said: str | None
    left_out: int
    faults: list = dataclasses.field(default_factory=list)
    line: int | None = None


def ranges_of(told, world):
    """The ranges of an answer with the lengths of the partitions, or none where the line tells none."""
    found = re.search(r'"ranges":(\[.*?\]),"missing":(\[.*?\]),"rows"', told) if told.startswith(("answer ", "latest ", "hybrid ")) else None
    return (json.loads(found[1]), json.loads(found[2]), [len(log) for log in world.log]) if found else None


def unasked(line, told, setup):
    """Why a text is no query, where its line says so."""
    return reasons.query(line.partition(" ")[2], setup) if told.startswith("noquery ") else None


def tell(text):
    try:
        setup, kept = header.read(text)
    except header.Stopped as stopped:
        return Told(None, {}, [], {}, str(stopped), 0, stopped.faults, stopped.line)
    world = worlds.World(setup)
    watch, steps, said, left_out = states.Watch(world), [], None, max(0, len(kept) - MOST_TOLD)
    begins = watch.last
    for place, (number, line) in enumerate(kept):
        try:
            if not forms.is_line(line):
                raise script_lines.Refused("BadLine")
            told = world.run(line)
        except (script_lines.Refused, limits.Passed) as stopped:
            why = f"limit: {stopped}" if isinstance(stopped, limits.Passed) else str(stopped)
            said = why if why.startswith("limit: ") else f"line {number}: {why}"
            # What a macro's events did before a limit stands.
            changes = watch.changes(line) if forms.is_line(line) else []
            steps.append(Step(number, line, said, changes, dues.due(world, watch.came), why=reasons.refused(world, line, why), refused=True))
            break
        if place < left_out:
            watch.note(line)
            steps.append(Step(number, line, told, [], {}))
            continue
        if place == left_out and left_out:
            watch.last = watch.look()
        steps.append(Step(number, line, told, watch.changes(line), dues.due(world, watch.came), ranges_of(told, world), unasked(line, told, setup)))
    return Told(setup, begins, steps, watch.look(), said, left_out)

"""Scripts without the lines that they don't need: for a case that is reached, or for whatever is still to be seen."""
import re

import forms
import limits
import lines as script_lines
import world as worlds

REFERENCE = re.compile(r"\b([mjqf])(\d+)\b")
# What ends a run at a line.
REFUSED = (script_lines.Refused, limits.Passed)
NAMES = {"deliver": "m", "reply": "m", "job": "j", "route": "q", "piece": "q", "answer": "q", "forceStatus": "f"}


class Line:
    """A line whose numbers of messages, jobs, queries and force jobs stand as the line that made them and its how manieth.

    One that `runs` has to be taken by the model; the others stand from the first refused line on.
    """

    def __init__(self, text, reference, runs=True):
        self.text, self.reference, self.runs = text, reference, runs


def made(world):
    """How many messages, queries and force jobs there are, and jobs of each controller."""
    return {"m": len(world.messages), "q": len(world.queries), "f": len(world.forced),
            **{f"c{each.number} j": each.started for each in world.controllers}}


def key_of(text):
    """What a line refers to: the kind with its controller, and the number; none where it makes no reference."""
    kind = NAMES.get(text.split(" ")[0])
    number = next((int(n) for k, n in REFERENCE.findall(text) if k == kind), None)
    if number is None:
        return None
    return (f"{text.split(' ')[1]} j", number) if kind == "j" else (kind, number)


class Ran:
    """What a script came to: the world, its lines as they read, and the report of those that ran."""

    def __init__(self, header):
        self.world, self.texts, self.report = worlds.World(worlds.setup_of(header)), [], []

    def run(self, text):
        """Runs a line and answers how many of each kind it made, from which number on."""
        before = made(self.world)
        if not forms.is_line(text):
            raise script_lines.Refused("BadLine")
        self.report.append(self.world.run(text))
        return {kind: (before[kind], count - before[kind]) for kind, count in made(self.world).items()}


def named_anew(line, places):
    """A line with the numbers of what it refers to, or none where that isn't there."""
    if line.reference is None:
        return line.text
    kind, source, ordinal = line.reference
    first, count = places.get((kind, source), (0, 0))
    return re.sub(rf"\b{kind[-1]}\d+\b", f"{kind[-1]}{first + ordinal}", line.text, count=1) if ordinal < count else None


def replay(header, kept):
    """What lines come to, or none where one that has to run is refused, or speaks of what isn't there."""
    ran, places, ended = Ran(header), {}, False
    for index, line in kept:
        text = named_anew(line, places)
        if text is None:
            return None
        ran.texts.append(text)
        if ended:
            continue
        try:
            places.update({(kind, index): found for kind, found in ran.run(text).items()})
        except REFUSED:
            if line.runs:
                return None
            ended = True
    return ran


def symbolic(header, texts):
    """The lines with references in place of numbers."""
    ran, found, origin, ended = Ran(header), [], {}, False
    for index, text in enumerate(texts):
        key = key_of(text)
        line = Line(text, (key[0], *origin[key]) if key in origin else None)
        try:
            for kind, (first, count) in ({} if ended else ran.run(text)).items():
                origin.update({(kind, first + place): (index, place) for place in range(count)})
        except REFUSED:
            ended = True
        line.runs = not ended
        found.append((index, line))
    return found


def fewer(listed, tries):
    """A part of a list of which `tries` is still true, from which no single item can be left out."""
    size = max(1, len(listed) // 2)
    while size:
        place, shorter = 0, False
        while place < len(listed):
            tried = listed[:place] + listed[place + size:]
            if tries(tried):
                listed, shorter = tried, True
            else:
                place += size
        size = size if size == 1 and shorter else size // 2
    return listed


def shorten(header, texts, holds):
    """Fewer lines, of which what they come to still holds."""
    def tries(kept):
        ran = replay(header, kept)
        return ran is not None and holds(ran)
    return replay(header, fewer(symbolic(header, texts), tries)).texts


class Shortest:
    """For each case the schedule that came to it first."""

    def __init__(self):
        self.found = {}

    def note(self, schedule):
        world, seen = worlds.World(worlds.setup_of(schedule.header)), set()
        for count, text in enumerate(schedule.lines, 1):
            world.run(text)
            if len(world.cells) == len(seen):
                continue
            for cell in set(world.cells) - seen:
                if cell not in self.found or count < len(self.found[cell][1]):
                    self.found[cell] = schedule.header, schedule.lines[:count]
            seen = set(world.cells)

    def write(self, folder):
        folder.mkdir(parents=True, exist_ok=True)
        for cell, (header, texts) in self.found.items():
            if cell[0] == "line":
                continue
            short = shorten(header, texts, lambda ran: ran.world.cells[cell])
            name = re.sub(r"[^A-Za-z0-9]+", "-", "-".join(cell)).strip("-").lower()
            (folder / name).write_text("".join(f"{line}\n" for line in [f"# {', '.join(cell)}", *header, *short]))

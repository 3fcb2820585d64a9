"""Schedules of due lines, at each step of which lines are tried that may be refused: each of these ends a script of its own."""
import re

import draws as drawing
import executions
import forms
import limits
import lines as script_lines
import moods
import mutations
import schedules
import world as worlds

# How often further lines are tried, beside those of a schedule.
FURTHER = dict(offline=1, hybrid=0.7, latest=0.7, peer=0.5, rehearse=1, any_query=1.5, any_message=5, any_ask=1.5)
WEIGHTS = {name: drawing.Weights({**moods.WEIGHTS, **mood, **FURTHER}) for name, mood in moods.MOODS.items()}
NAMES = list(WEIGHTS)
# How many lines a walk has behind those that it begins with, and how many lines are tried at each of its steps.
LENGTHS = [3, 4, 5, 6, 7, 8, 9, 10, 12, 15]
LONGER = [30, 60, 120]
BEGINNINGS = [[], ["fill 0 {}"], ["fill 0 {}", "settle {}"], ["fill 0 {}", "settle {}", "fill 0 {}"]]
TRIES = [1, 2, 4, 6, 8, 12]
# Milliseconds about the bounds of a machine's times, beside those of schedules.
TICKS = [1, 5999, 6000, 6001, 119_999, 120_000, 120_001, 1_800_000, 1_800_001]
# In every second walk lines are tried at so many of its last steps alone.
LAST = 4
# The words of lines that are due at hardly any moment, and those of lines that are due at most.
SELDOM = ["force", "stop", "build", "report", "extend", "deliver", "job", "reply", "restart", "transit", "download", "repair", "retain", "route", "piece",
          "answer", "exchange", "peer", "forceStatus", "rehearse", "consume"]
OFTEN = [word for word in forms.FORMS if word not in SELDOM]
SMALL = ["0", "0", "0", "1", "1", "2", "3", "5"]
NUMBER = re.compile(r"(?<![A-Z])([scmqjf]?)([NPQK])(?![A-Z])")
# How a line begins that is skipped.
SKIPPED = ("", "#")
BYTES = [chr(number) for number in range(32, 127)] + ["\t", "\0", "\x7f", "\udcff", "\udcc3", "\r", "é", " "]


class Walk(schedules.Schedule):
    """A script that grows line by line, and the executions that came of it."""

    def __init__(self, draws, cluster):
        self.random, self.settings = draws, cluster
        self.world = worlds.World(cluster.setup)
        self.lines, self.report, self.requests, self.replies, self.unanswered = [], [], [], [], {}
        self.mood = draws.choice(NAMES)
        self.weights, self.follows = WEIGHTS[self.mood], moods.FOLLOWS.get(self.mood, 0.65)
        self.script, self.told, self.number, self.is_over, self.found = cluster.front, b"", 4, False, []
        self.ending = draws.choice([b"\n", b"\n", b"\n", b"\r\n"])

    def run(self):
        """Finds the executions: those that a refused line ends, and the whole script."""
        for line in self.random.choice(BEGINNINGS):
            self.tries(line.format(self.random.randint(1, 6)))
        steps = len(self.lines) + self.random.choice(LENGTHS if self.random.often(0.96) else LONGER)
        tries, quiet = self.random.choice(TRIES), self.random.choice([0, max(0, steps - LAST)])
        for _ in range(3 * steps):
            if self.is_over or len(self.lines) >= steps:
                break
            for line in dict.fromkeys(self.wrong() for _ in range(tries if len(self.lines) >= quiet else 0)):
                self.tries(line)
            line = self.next_line()
            if line is not None:
                self.tries(line)
        if not self.is_over:
            self.found.append(executions.Execution(self.script, self.told, ""))

    def next_line(self):
        line = self.followed() if self.random.often(self.follows) else None
        return line or getattr(self, "to_" + self.weights.one(self.random))()

    def tries(self, line):
        """Goes on with a line, or ends a script with it where it is refused."""
        if self.is_over or line[:1] in SKIPPED or line[-1] == "\r" or "\n" in line or line[0] in "fs" and executions.is_long(line):
            return
        try:
            if not forms.is_line(line):
                raise script_lines.Refused("BadLine")
            self.add(line)
        except executions.REFUSED as refused:
            said = executions.refusal(self.number, refused)
            self.found.append(executions.Execution(self.script + line.encode(errors="surrogateescape"), self.told, said))
            self.is_over = isinstance(refused, limits.Passed)
            return
        self.script += line.encode(errors="surrogateescape") + self.ending
        self.told += (self.report[-1] + "\n").encode(errors="surrogateescape")
        self.number += 1
        if self.random.often(0.05):
            self.skips(self.random.choice([b"# a comment", b"", b"\xff".join([b"#", b"#"])]))

    def skips(self, line):
        """A line that is skipped."""
        self.script += line + b"\n"
        self.number += 1

    # ---- lines that may be refused

    def wrong(self):
        """A line that is due with something changed, or any line of the grammar."""
        line = None if self.random.often(0.35) else self.next_line()
        if line is None:
            return self.fresh()
        is_changed = self.random.often(0.1 if line.partition(" ")[0] in OFTEN else 0.85)
        return self.renumbered(line) if is_changed else self.damaged(line)

    def fresh(self):
        word = self.random.choice(SELDOM if self.random.often(0.8) else OFTEN)
        form = self.random.choice(mutations.CHOICES[word]) if word in mutations.CHOICES else forms.FORMS[word]
        form = NUMBER.sub(self.number_for, form)
        form = form.replace("TEXT", self.random.choice(self.settings.queries)) if "TEXT" in form else form
        return f"{word} {form}".rstrip(" ") if ".*" not in form else f"{word} {form[:-2]}{self.random.choice(self.settings.messages)}"

    def number_for(self, found):
        """A number in the place of a form's letter: most often one that there is."""
        kind, letter = found.groups()
        counts = {"s": self.world.setup.servers, "c": self.world.setup.controllers, "m": len(self.world.messages), "q": len(self.world.queries)}
        count = self.settings.partitions if letter == "P" else counts.get(kind, 3)
        return kind + (self.random.choice(SMALL) if count == 0 or self.random.often(0.15) else str(self.random.randrange(count)))

    def renumbered(self, line):
        return mutations.renumbered(self.random, line)

    def damaged(self, line):
        """A line with a piece dropped, doubled or changed."""
        place = self.random.randrange(len(line) + 1)
        end, kind = place + self.random.choice([1, 1, 2, 5]), self.random.randrange(4)
        piece = [self.random.choice(BYTES), "", 2 * line[place:end], line[place:place + 1] + self.random.choice(BYTES)][kind]
        return line[:place] + piece + line[end:]

    # ---- lines beside those of a schedule

    def any_text(self):
        text = self.random.choice(self.settings.queries)
        return text if self.random.often(0.8) else self.damaged(text) if self.random.often(0.5) else self.renumbered(text)

    def to_any_query(self):
        return f"query {self.any_text()}"

    def to_any_ask(self):
        return f"ask {self.any_text()}"

    def to_tick(self):
        return f"tick {self.random.choice(TICKS)}" if self.random.often(0.5) else super().to_tick()

    def to_hybrid(self):
        return f"hybrid {self.any_text()}"

    def to_latest(self):
        return f"latest {self.any_text()}"

    def to_any_message(self):
        text = self.random.choice(self.settings.messages)
        if self.random.often(0.25):
            text = mutations.revalued(self.random, text) if self.random.often(0.5) else self.damaged(text)
        return f"produce {self.partition()} {text}"

    def to_offline(self):
        texts = [self.random.choice(self.settings.messages) for _ in range(self.random.randint(1, 3))]
        return f"offline [{','.join(texts)}]"

    def to_peer(self):
        return self.at_segment("peer {}", lambda server: list(server.table))

    def to_rehearse(self):
        if self.world.rehearsal is None or self.random.often(0.2):
            return f"rehearse servers={self.random.randint(1, 6)} keep={self.random.randint(0, 3)}"
        if self.random.often(0.4):
            return "rehearse step"
        return f"rehearse loaded s{self.random.randrange(6)} {self.partition()}/{self.random.randrange(3)}"

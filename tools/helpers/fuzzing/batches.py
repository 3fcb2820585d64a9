"""A batch of executions by its seed: walks over small clusters, stored scripts cut and changed, and headers changed."""
import collections

import clusters
import damages
import draws as drawing
import executions
import mutations
import walks

# How many clusters a batch has, walks over each, changed stored scripts and changed headers.
CLUSTERS, WALKS, STORED, HEADERS = 3, 40, 40, 30
# How many lines behind the header are kept of a stored script.
LENGTHS = [3, 5, 8, 10, 12, 15, 15, 40]


class Stored:
    """A stored script by its lines: up to the third of its header, and those behind it."""

    def __init__(self, text):
        lines, kept = text.split(b"\n"), 0
        for place, line in enumerate(lines):
            kept += bool(line.strip(b"\r")) and not line.startswith(b"#")
            if kept == 3:
                break
        self.front, self.rest = lines[:place + 1], lines[place + 1:]

    def short(self, draws):
        return b"\n".join([*self.front, *self.rest[:draws.choice(LENGTHS)]])


def changed_stored(draws, stored):
    """A front of a stored script, by its bytes or by the grammar."""
    text = draws.choice(stored).short(draws)
    if draws.often(0.3):
        return damages.damaged(draws, text)[0]
    return mutations.by_grammar(draws, text, draws.choice(stored).short(draws))


def changed_header(draws):
    """A header with something changed, and a few lines behind it."""
    three = clusters.three_lines(draws)
    place, change = draws.randrange(3), draws.choice([mutations.revalued, mutations.renumbered, None])
    if change:
        three[place] = change(draws, three[place])
    text = "\n".join([*three, "fill 0 2", "consume s0 0/0 2", "query SELECT COUNT(*) FROM t", ""]).encode(errors="surrogateescape")
    return text if change else damages.damaged(draws, text)[0]


class Batch:
    """The executions of a seed, which cases of the tables its walks reach, and how many scripts aren't asked of the model, and why.

    Scripts at which the model itself fails are kept with how it does.
    """

    def __init__(self, seed, stored):
        self.draws, self.stored, self.read = drawing.Draws(seed), stored, clusters.Headers().read
        self.executions, self.counts, self.cells, self.broken = [], collections.Counter(), set(), []

    def walks(self, count):
        for _ in range(count):
            cluster = clusters.drawn(self.draws)
            for _ in range(WALKS):
                self.goes(walks.Walk(self.draws, cluster))

    def goes(self, walk):
        """Adds the executions of a walk."""
        try:
            walk.run()
        except Exception as fault:
            self.broken.append((walk.script, f"the model fails behind it: {fault!r}"))
        self.executions += walk.found
        self.counts["walks"] += 1
        self.counts["lines of walks"] += len(walk.lines)
        self.cells.update(walk.world.cells)

    def asks(self, script, kind):
        """Adds a script, where the model is asked."""
        try:
            self.executions.append(executions.of(script, self.read))
            self.counts[kind] += 1
        except executions.Unasked as why:
            self.counts[str(why)] += 1
        except Exception as fault:
            self.broken.append((script, f"the model fails: {fault!r}"))

    def draw(self):
        self.walks(CLUSTERS)
        for _ in range(STORED):
            self.asks(changed_stored(self.draws, self.stored), "stored scripts changed")
        for _ in range(HEADERS):
            self.asks(changed_header(self.draws), "headers changed")
        return self

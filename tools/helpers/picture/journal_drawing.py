"""Draws a journal: the chains above, then the writes as they came, what each controller heard, the queues, and the first answers."""
import json

import drawing
import journal
import storage
import svg

WIDTH, LEFT, RIGHT = 1_400, 132, 28
BAR, LANE, GAP = 22, 22, 24
KINDS = ("consumed", "commitStart", "upload", "commitEnd")
COLORS = {"HOLD": "#f0b23e", "CATCH_UP": "#8fb8e0", "COMMIT": "#a878b8", "COMMIT_CONTINUE": "#c5a3d1", "UPLOAD_SUCCESS": "#7cc4cf", "COMMIT_SUCCESS": "#2f8f4e",
          "KEEP": "#a5d6a0", "DISCARD": "#c9c5c0", "FAILED": "#b5533c", "NOT_LEADER": "#7a828e", "none": "#ffffff"}
CREATED, DONE, IDEAL, BOOT = "#dce8f5", "#2f8f4e", "#f0b23e", "#b5533c"


class JournalDrawing:
    def __init__(self, told, found, title):
        self.told, self.found, self.title, self.parts = told, found, title, []
        self.lengths = [len(messages) for messages in told.log()]
        # The places of Done writes by their paths, for the lines from commitEnds.
        self.done = {}
        self.later = found.writes[told.setup.servers + told.setup.partitions + 1:]

    def draw(self):
        self.label(24, 34, self.title, "title")
        y = self.chains(58)
        y = self.writes(y + GAP)
        y = self.heard(y + GAP)
        y = self.legend(y + 6)
        y = self.queues(y + GAP)
        self.parts.insert(0, svg.box(0, 0, WIDTH, y + 20, fill="#fff"))
        return svg.picture(WIDTH, y + 20, drawing.STYLES, drawing.DEFINITIONS, self.parts)

    def label(self, x, y, words, kind, **more):
        self.parts.append(svg.text(x, y, words, **more).replace("<text", f'<text class="{kind}"', 1))

    def nodes(self):
        """The last node of each segment, with the number of its last write."""
        found = {}
        for place, write in enumerate(self.found.writes):
            if write.key[0] == "meta":
                found[write.key[1:]] = place, storage.Meta(**json.loads(write.text))
        return found

    def chains(self, y):
        """Each partition's segments over its offsets, and below them the ranges of the first answers."""
        nodes, most = self.nodes(), max([*self.lengths, 1])
        x = lambda offset: LEFT + offset * (WIDTH - LEFT - RIGHT) / most
        for partition, length in enumerate(self.lengths):
            self.label(24, y + 15, f"partition {partition}", "head")
            self.parts.append(svg.path([(x(0), y + BAR + 2), (x(length), y + BAR + 2)], stroke=drawing.RULE))
            for (at, sequence), (place, meta) in sorted(nodes.items()):
                if at == partition:
                    self.segment(f"{at}/{sequence}", place, meta, x(meta.start), x(meta.end if meta.status == storage.DONE else length), y)
            for number, (_, line) in enumerate(self.found.mids):
                self.first_answer(partition, number, json.loads(line.removeprefix("mid ")), x, y + BAR + 5 + 6 * number)
            self.label(x(length) + 4, y + 15, str(length), "small quiet")
            y += BAR + 12 + 6 * len(self.found.mids)
        return y

    def segment(self, name, place, meta, start, end, y):
        is_done = meta.status == storage.DONE
        told = f"{name}, {meta.start} to {meta.end}, {meta.rows} rows, by write {place} from {meta.path}" if is_done else f"{name} from {meta.start}, in progress by write {place}"
        self.parts.append(svg.box(start, y, max(end - start - 1, 3), BAR, told, fill=DONE if is_done else CREATED, rx=2))
        if end - start > 26:
            self.label(start + 4, y + 15, name.split("/")[1], "small on" if is_done else "small")

    def first_answer(self, partition, number, found, x, y):
        for _, start, end in (each for each in found["ranges"] if each[0] == partition):
            self.parts.append(svg.box(x(start), y, x(end) - x(start), 4, f"first answer {number}: {start} to {end}", fill="#5b8ec9"))

    def writes(self, y):
        """A lane of each partition, of the ideal state and of boot nodes; a column of each later write."""
        lanes = [f"meta {partition}" for partition in range(self.told.setup.partitions)] + ["ideal", "boot"]
        column = min(42, (WIDTH - LEFT - RIGHT) / max(len(self.later), 1))
        self.label(24, y, f"{len(self.later)} writes behind the starting contents, from left to right", "head")
        y += 10
        for place, name in enumerate(lanes):
            self.label(24, y + LANE * place + 15, name, "small")
            self.parts.append(svg.path([(LEFT, y + LANE * (place + 1)), (WIDTH - RIGHT, y + LANE * (place + 1))], stroke=drawing.RULE))
        for place, write in enumerate(self.later):
            lane = write.key[1] if write.key[0] == "meta" else len(lanes) - (2 if write.key == storage.IDEAL else 1)
            self.write(write, LEFT + column * place, y + LANE * lane + 3, column)
        return y + LANE * len(lanes)

    def write(self, write, x, y, column):
        color, words = (BOOT, "") if write.key[0] == "boot" else (IDEAL, str(write.version))
        if write.key[0] == "meta":
            color, words = (CREATED, f"{write.key[2]}") if write.version == 0 else (DONE, f"{write.key[2]}")
            if write.version == 1:
                self.done[json.loads(write.text)["path"]] = x + column / 2, y + LANE - 6
        self.parts.append(svg.box(x, y, max(column - 1, 1.5), LANE - 6, f"{storage.key_text(write.key)} {write.version} {write.text[:300]}", fill=color, rx=2))
        if column > 14:
            self.label(x + 3, y + 12, words, "small on" if color == DONE else "small")

    def heard(self, y):
        """A band of each controller: a row of each kind of request, a column of each line, in the color of its answer."""
        for number, heard in enumerate(self.found.heard):
            column = min(26, (WIDTH - LEFT - RIGHT) / max(len(heard), 1))
            self.label(24, y, f"c{number} heard {len(heard)}" + ("" if number < self.told.chaos.leaders else " (doesn't lead)"), "head")
            y += 8
            for place, kind in enumerate(KINDS if heard else ()):
                self.label(24, y + LANE * place + 15, kind, "small")
            for place, line in ((place, line) for place, line in enumerate(heard) if line.kind in KINDS):
                self.line(line, LEFT + column * place, y + LANE * KINDS.index(line.kind) + 3, column)
            y += (LANE * len(KINDS) if heard else 0) + GAP
        return y

    def line(self, line, x, y, column):
        word = line.status.split(" ")[0]
        told = f"{line.kind} {line.offset} {line.reason or (line.path.text if line.path else '')} -> {line.status}"
        self.parts.append(svg.box(x, y, max(column - 1, 1.5), LANE - 6, told, fill=COLORS.get(word, "#b5533c"), stroke="#7a828e" if word == "none" else None, rx=2))
        if column > 20:
            self.label(x + 2, y + 12, str(line.offset), "small")
        if line.kind == "commitEnd" and line.status == "COMMIT_SUCCESS" and line.path.text in self.done:
            to_x, to_y = self.done[line.path.text]
            self.parts.append(svg.curve(x + column / 2, y, to_x, to_y, stroke=DONE, stroke_width=0.8, opacity=0.5))

    def legend(self, y):
        x = LEFT
        for word, color in COLORS.items():
            self.parts.append(svg.box(x, y, 12, 12, fill=color, stroke="#7a828e" if word == "none" else None, rx=2))
            self.label(x + 17, y + 10, word, "small")
            x += 34 + 6.4 * len(word)
        return y + 12

    def queues(self, y):
        """How much each queue took in, and how much of it was taken."""
        self.label(24, y, "queues: taken of accepted", "head")
        for place, queue in enumerate(self.found.queues):
            column, row = place % 8, place // 8
            self.label(24 + 168 * column, y + 18 + 15 * row, f"{queue.sender} to {queue.receiver}: {queue.taken} of {queue.accepted}", "small" if queue.accepted else "small quiet")
        return y + 18 + 15 * (-(-len(self.found.queues) // 8))


def picture(told, text, title):
    """The picture of a journal of an input; ends with `journal.Fault` at a line that is none."""
    return JournalDrawing(told, journal.read(text, told), title).draw()

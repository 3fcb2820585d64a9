"""Draws a story: partitions above, then controllers, the messages between, and the replicas of each server."""
import story as stories
import svg

COLORS = {"INITIAL_CONSUMING": "#5b8ec9", "CATCHING_UP": "#8fb8e0", "HOLDING": "#f0b23e", "COMMITTING": "#a878b8", "CONSUMING_TO_ONLINE": "#7cc4cf",
          "RETAINING": "#a5d6a0", "RETAINED": "#5fae68", "COMMITTED": "#2f8f4e", "ONLINE": "#2a9d8f", "DISCARDED": "#c9c5c0", stories.UNTOLD: "url(#untold)"}
STYLES = ("text{font-family:'DejaVu Sans',Helvetica,Arial,sans-serif;font-size:11px;fill:#2d3440}.title{font-size:16px;font-weight:bold}"
          ".head{font-size:12px;font-weight:bold}.small{font-size:9px}.quiet{fill:#7a828e}.halo{paint-order:stroke;stroke:#fff;stroke-width:3px;stroke-linejoin:round}"
          ".on{fill:#fff}.says{fill:#b5533c}")
DEFINITIONS = (
    '<pattern id="untold" width="6" height="6" patternUnits="userSpaceOnUse" patternTransform="rotate(45)"><rect width="6" height="6" fill="#eef0f3"/><rect width="2" height="6" fill="#d5d9df"/></pattern>'
    '<pattern id="given-up" width="7" height="7" patternUnits="userSpaceOnUse" patternTransform="rotate(45)"><rect width="7" height="7" fill="#f7e3df"/><rect width="2" height="7" fill="#d98b7d"/></pattern>'
    '<marker id="tip-asks" viewBox="0 0 8 8" refX="7" refY="4" markerWidth="6" markerHeight="6" orient="auto-start-reverse"><path d="M0,0.5 L8,4 L0,7.5 z" fill="#4a5568"/></marker>'
    '<marker id="tip-both" viewBox="0 0 8 8" refX="7" refY="4" markerWidth="6" markerHeight="6" orient="auto-start-reverse"><path d="M0,0.5 L8,4 L0,7.5 z" fill="#7b6f8f"/></marker>'
    '<marker id="tip-says" viewBox="0 0 8 8" refX="7" refY="4" markerWidth="6" markerHeight="6" orient="auto-start-reverse"><path d="M0,0.5 L8,4 L0,7.5 z" fill="#b5533c"/></marker>')
ASKS, SAYS, BOTH, RULE, PAPER = "#4a5568", "#b5533c", "#7b6f8f", "#dfe3e8", "#fbfbfc"
LEFT, RIGHT, PANEL, ROOF, LANE, BAND, GAP = 132, 28, 142, 34, 19, 118, 26
LONGEST_TEXT, LONGEST_STATUS = 44, 21


class Drawing:
    def __init__(self, story, title):
        self.story, self.title, self.parts, self.over = story, title, [], []
        count = max(len(story.lines), 1)
        self.column = min(42, max(25, 600 / (count + 1))) if count <= 64 else max(6.0, 1600 / count)
        self.width = LEFT + self.column * (count + 1) + RIGHT
        # Where the last words of a row of words end, so that the next ones leave room.
        self.ends = {}

    def x(self, at):
        """The place of a line; before the first one is the left edge."""
        return LEFT + self.column * (at + 1)

    def end_x(self, at):
        return self.x(len(self.story.lines) - 1) + self.column if at is None else self.x(at)

    def draw(self):
        y = self.heading(34)
        grid_from = y
        for partition in range(self.story.partitions):
            y = self.partition(partition, y)
        y = self.controllers(y)
        band = y
        y = self.servers(y + BAND)
        self.messages(band)
        self.grid(grid_from, y)
        y = self.texts(y + 10)
        y = self.legend(y + 8)
        self.parts.insert(0, svg.box(0, 0, self.width, y + 14, fill="#fff"))
        return svg.picture(self.width, y + 14, STYLES, DEFINITIONS, self.parts + self.over)

    def heading(self, y):
        """The title, in as many rows as it needs."""
        rows, most = [""], int((self.width - 48) / 9.7)
        for word in self.title.split(" "):
            if len(rows[-1]) + len(word) > most:
                rows.append("")
            rows[-1] = f"{rows[-1]} {word}".strip()
        for place, row in enumerate(rows):
            self.parts.append(self.label(24, y + 20 * place, row, "title"))
        return y + 20 * len(rows) + 4

    def label(self, x, y, words, kind, **more):
        return svg.text(x, y, words, **more).replace("<text", f'<text class="{kind}"', 1)

    def partition(self, partition, y):
        length = max(count for _, count in self.story.lengths[partition]) or 1
        scale = (PANEL - ROOF) / length
        floor = y + PANEL
        place = lambda offset: floor - offset * scale
        self.parts.append(self.label(24, y + 18, f"partition {partition}", "head"))
        self.parts.append(self.label(24, y + 33, "offsets", "small quiet"))
        self.parts.append(svg.box(LEFT, y + 8, self.width - LEFT - RIGHT, PANEL - 8, fill=PAPER))
        self.stream(partition, place, floor)
        marks = {0, length}
        for segment, node in sorted(self.story.segments.items()):
            if segment[0] == partition:
                marks |= {offset for offset in (node.start, node.end) if offset is not None}
                self.segment(segment, node, place)
        self.axis(sorted(marks), place)
        for at, ranges, missing in self.story.answers:
            self.answer(at, [each for each in ranges if each[0] == partition], [each for each in missing if each[0] == partition], place, y)
        self.parts.append(svg.path([(LEFT, floor), (self.width - RIGHT, floor)], stroke="#9aa3af"))
        return floor + GAP

    def axis(self, marks, place):
        """The offsets at which segments begin and end, with room between them."""
        last = None
        for offset in marks:
            if last is None or last - place(offset) >= 11:
                last = place(offset)
                self.parts.append(self.label(LEFT - 8, last + 4, str(offset), "small quiet", text_anchor="end"))
                self.parts.append(svg.path([(LEFT - 5, last), (LEFT, last)], stroke="#9aa3af"))

    def stream(self, partition, place, floor):
        """How far the stream has come, as steps."""
        points = [(LEFT, floor)]
        for at, count in self.story.lengths[partition]:
            points += [(self.x(at), points[-1][1]), (self.x(at), place(count))]
        points += [(self.end_x(None), points[-1][1])]
        self.parts.append(svg.path(points, stroke="#b8c0ca", stroke_width=1.5, stroke_dasharray="2 3"))

    def segment(self, segment, node, place):
        name = f"{segment[0]}/{segment[1]}"
        until = min((at for at in (node.done, node.abandoned, node.deleted) if at is not None), default=None)
        self.consuming(name, node, until, place)
        if node.done is not None:
            x, last = self.x(node.done), self.end_x(node.deleted)
            faded = self.end_x(node.removed) if node.removed is not None else last
            top, height = place(node.end), place(node.start) - place(node.end)
            told = f"{name} committed: offsets {node.start} to {node.end}"
            self.parts.append(svg.box(x, top, faded - x, height, told, fill="#2f8f4e", fill_opacity=0.88, stroke="#fff"))
            self.parts.append(svg.box(faded, top, last - faded, height, told + ", its entries removed", fill="#2f8f4e", fill_opacity=0.35, stroke="#fff"))
            self.over.append(self.label(x + 7, top + height / 2 + 4, f"{name} committed", "on" if faded - x > 90 else "halo"))
        if node.abandoned is not None:
            x, last = self.x(node.abandoned), self.end_x(node.deleted)
            top = min(place(node.start) - 14, place(node.reached[-1][1] if node.reached else node.start))
            self.parts.append(svg.box(x, top, last - x, place(node.start) - top, f"{name} abandoned", fill="url(#given-up)", stroke="#d98b7d"))
            self.over.append(self.label(x + 7, top + 12, f"{name} abandoned", "halo"))
        if node.deleted is not None:
            x = self.x(node.deleted)
            self.over.append(self.label(x + 5, place(node.start) - 6, f"{name} retired", "small halo quiet"))

    def consuming(self, name, node, until, place):
        """A segment in progress, as high as its farthest replica has come."""
        reached, marks = node.start, [(node.created, node.start)]
        for at, cur in node.reached:
            if until is None or at <= until:
                reached = max(reached, cur)
                marks.append((at, reached))
        points = [(self.x(node.created), place(node.start))]
        for at, offset in marks:
            points += [(max(self.x(at), self.x(node.created)), points[-1][1]), (max(self.x(at), self.x(node.created)), place(offset))]
        points += [(self.end_x(until), points[-1][1]), (self.end_x(until), place(node.start))]
        shape = " ".join(f"{x:.1f},{y:.1f}" for x, y in points)
        self.parts.append(f'<polygon points="{shape}" fill="#cfe0f3" stroke="#5b8ec9" stroke-width="1.2"><title>{name} in progress</title></polygon>')
        self.name_consuming(name, marks, until, place)

    def name_consuming(self, name, marks, until, place):
        """Its name, where it is highest."""
        x = self.x(next(at for at, offset in marks if offset == marks[-1][1]))
        room, height = self.end_x(until) - x, place(marks[0][1]) - place(marks[-1][1])
        if room < 76:
            x, room = self.x(marks[0][0]), self.end_x(until) - self.x(marks[0][0])
        if room >= 76:
            self.over.append(self.label(x + 7, place(marks[0][1]) - (height / 2 - 4 if height >= 18 else 5), f"{name} in progress", "small halo"))

    def answer(self, at, ranges, missing, place, y):
        x = self.x(at)
        self.over.append(svg.path([(x, y + 8), (x, y + PANEL)], stroke=SAYS, stroke_dasharray="3 3"))
        told = []
        for _, start, end in ranges:
            self.over.append(svg.path([(x, place(start)), (x, place(end))], stroke=SAYS, stroke_width=4, stroke_linecap="butt"))
            told.append(f"counted {start} to {end}")
        told += [f"missing {p}/{'-' if q is None else q}" for p, q in missing]
        words = ", ".join(told) or "nothing counted"
        if self.has_room(f"answers {y}", x - 5 - 5.6 * len(words), x):
            self.over.append(self.label(x - 5, y + 17, words, "small halo", text_anchor="end"))

    def has_room(self, row, start, end):
        """Whether words of a row would touch none before them; then they take their room."""
        free = self.ends.get(row, -1000) <= start
        if free:
            self.ends[row] = end
        return free

    def controllers(self, y):
        self.parts.append(self.label(24, y + 6, "controllers", "head"))
        self.parts.append(self.label(24, y + 20, "leading, and steps", "small quiet"))
        self.controller_rows = {}
        for controller in range(self.story.controllers):
            row = y + controller * LANE
            self.controller_rows[controller] = row + LANE / 2
            self.parts.append(svg.path([(LEFT, row + LANE / 2), (self.width - RIGHT, row + LANE / 2)], stroke=RULE))
            self.parts.append(self.label(LEFT - 8, row + 14, f"c{controller}", "small", text_anchor="end"))
            for span in self.story.leads.get(controller, []):
                x = self.x(span.start)
                self.parts.append(svg.box(x, row + 5, self.end_x(span.end) - x, LANE - 10, f"c{controller} believes that it leads", rx=4, fill="#e3c77b"))
            self.lapses(f"c{controller}", row)
        for at, controller, what in self.story.marks:
            x, row = self.x(at), self.controller_rows[controller]
            self.over.append(f'<circle cx="{x:.1f}" cy="{row:.1f}" r="4" fill="#2d3440"><title>{what}</title></circle>')
            self.words_at("steps", x, what, y + self.story.controllers * LANE + BAND)
        return y + self.story.controllers * LANE

    def lapses(self, name, row):
        """While a node is down."""
        for span in self.story.down.get(name, []):
            x, last = self.x(span.start), self.end_x(span.end)
            self.parts.append(svg.box(x, row + 2, last - x, LANE - 4, f"{name} down", fill="#3a3f47", rx=2))
            if last - x > 30:
                self.over.append(self.label(x + 6, row + 13, "down", "small on"))

    def servers(self, y):
        self.rows = {}
        for server in range(self.story.servers):
            segments = sorted(segment for owner, segment in self.story.replicas if owner == server)
            self.parts.append(self.label(24, y + 13, f"server {server}", "head"))
            for place, segment in enumerate(segments or [None]):
                row = y + place * LANE
                self.rows[server, segment] = row + LANE / 2
                self.parts.append(svg.path([(LEFT, row + LANE / 2), (self.width - RIGHT, row + LANE / 2)], stroke=RULE))
                if segment is not None:
                    self.parts.append(self.label(LEFT - 8, row + 13, f"{segment[0]}/{segment[1]}", "small", text_anchor="end"))
                    self.replica(server, segment, row)
            for lapse in self.story.down.get(f"s{server}", []):
                x, height = self.x(lapse.start), max(len(segments), 1) * LANE
                self.parts.append(svg.box(x, y + 2, self.end_x(lapse.end) - x, height - 4, f"s{server} down", fill="#3a3f47", rx=2))
                if self.end_x(lapse.end) - x > 36:
                    self.over.append(self.label(x + 6, y + 13, "down", "small on"))
            y += max(len(segments), 1) * LANE + 10
        return y

    def replica(self, server, segment, row):
        told = None
        for span in self.story.replicas[server, segment]:
            x, last = self.x(span.start), self.end_x(span.end)
            tip = f"s{server} {segment[0]}/{segment[1]} {span.state}" + (f" at {span.cur}" if span.cur is not None else "")
            self.parts.append(svg.box(x, row + 2, last - x, LANE - 4, tip, fill=COLORS[span.state], stroke="#fff", stroke_width=1, rx=2))
            if span.cur is not None and span.cur != told and span.state != stories.UNTOLD and last - x > 9:
                self.over.append(self.label(x + 4, row + 13, str(span.cur), "small on" if span.state not in ("HOLDING", "DISCARDED", "RETAINING") else "small"))
                told = span.cur

    def messages(self, band):
        for message in sorted(self.story.messages.values(), key=lambda message: message.sent):
            low = self.rows.get((message.server, message.segment))
            if low is None:
                continue
            if message.controller is None:
                self.request(message, low, band)
            else:
                self.reply(message, low, band)

    def request(self, message, low, band):
        x = self.x(message.sent)
        for at, controller in message.came:
            high = self.controller_rows[controller] + 5
            if at == message.sent:
                self.over.insert(0, svg.path([(x, low - 8), (x, high)], stroke=BOTH, stroke_width=1.4, marker_start="url(#tip-both)", marker_end="url(#tip-both)"))
                self.words_at("statuses", x, message.text, band + BAND)
            else:
                self.over.insert(0, svg.curve(x, low - 8, self.x(at), high, stroke=ASKS, stroke_width=1.2, marker_end="url(#tip-asks)"))
        if not message.came:
            self.over.append(svg.path([(x, low - 8), (x, low - 20)], stroke=ASKS, stroke_width=1.2, stroke_dasharray="2 2"))
            self.over.append(self.label(x, low - 22, "×", "small halo", text_anchor="middle"))

    def reply(self, message, low, band):
        x, high = self.x(message.sent), self.controller_rows[message.controller] + 5
        for at, _ in message.came:
            self.over.insert(0, svg.curve(x, high, self.x(at), low - 8, stroke=SAYS, stroke_width=1.2, marker_end="url(#tip-says)"))
        if not message.came:
            self.over.append(svg.path([(x, high), (x, high + 12)], stroke=SAYS, stroke_width=1.2, stroke_dasharray="2 2"))
        self.words_at("statuses", x, message.text, band + BAND, at_step=self.at_step(message))

    def at_step(self, message):
        """Whether a step of a job stands at the line that sent a message."""
        return any(at == message.sent and not what.startswith("re") for at, _, what in self.story.marks)

    def words_at(self, row, x, words, y, at_step=False):
        """What was told, beside its line and read from below; a reply stands behind the step that it ended."""
        words = words if len(words) <= LONGEST_STATUS else words[:LONGEST_STATUS - 1] + "…"
        place = x + (18 if at_step else 9)
        if self.has_room(row, place - 8, place):
            self.over.append(svg.turned(place, y - 4, words).replace("<text", f'<text class="small halo{" says" if at_step else ""}"', 1))

    def grid(self, top, bottom):
        lines = [svg.path([(self.x(at), top + 8), (self.x(at), bottom)], stroke="#eceff2") for at in range(len(self.story.lines))] if self.column >= 12 else []
        self.parts[:0] = lines

    def texts(self, y):
        """The lines of the script, turned, under their places."""
        if self.column < 12:
            return y
        longest = 0
        for at, line in enumerate(self.story.lines):
            words = line.text if len(line.text) <= LONGEST_TEXT else line.text[:LONGEST_TEXT - 1] + "…"
            longest = max(longest, len(words))
            self.parts.append(svg.text(self.x(at) + 4, y, words, text_anchor="end", transform=f"rotate(-90 {self.x(at) + 4:.1f} {y:.1f})").replace("<text", '<text class="small"', 1))
        self.parts.append(self.label(24, y + 8, "lines of the script", "small quiet"))
        return y + longest * 5.9 + 8

    def legend(self, y):
        x = 24
        used = {span.state for spans in self.story.replicas.values() for span in spans}
        for state, color in COLORS.items():
            if state not in used:
                continue
            self.parts.append(svg.box(x, y, 12, 12, fill=color, rx=2))
            self.parts.append(self.label(x + 17, y + 10, state, "small"))
            x += 34 + 6.4 * len(state)
            if x > self.width - 150:
                x, y = 24, y + 18
        return y + 12

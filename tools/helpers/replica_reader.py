"""A replica of a segment in Python, step by step.

It follows docs/rules/consuming.md alone and shares no code with the crates. Its calls are those of the line `consumer`.
"""
import datetime
import json

import segment_reader

MOST_ROWS = 1_000_000
INITIAL, CATCHING_UP, HOLDING, TO_ONLINE = "INITIAL_CONSUMING", "CATCHING_UP", "HOLDING", "CONSUMING_TO_ONLINE"
RETAINING, RETAINED, COMMITTING = "RETAINING", "RETAINED", "COMMITTING"
COMMITTED, DISCARDED = "COMMITTED", "DISCARDED"
# The stages of COMMITTING.
BUILDING, STARTING, UPLOADING, ENDING = "Building", "Starting", "Uploading", "Ending"
NOT_DUE, IGNORED, TAKEN = "notdue", "ignored", "taken"


def row_of(message):
    """The values of a message over a text dimension k and a long metric v, or nothing where it is undecodable."""
    try:
        value = json.loads(message)
    except ValueError:
        return None
    if not isinstance(value, dict):
        return None
    key, number = value.get("k"), value.get("v")
    key, number = "null" if key is None else key, 0 if number is None else number
    return (key, number) if isinstance(key, str) and type(number) is int else None


class Table:
    """What a replica needs of its table: the name, the row limit and the time limit."""

    def __init__(self, name, rows, millis):
        self.name, self.rows, self.millis = name, rows, millis


class Replica:
    def __init__(self, table, log, segment, start, instance, incarnation, version, now):
        self.table, self.log, self.segment, self.start = table, log, segment, start
        self.instance, self.incarnation, self.version, self.started = instance, incarnation, version, now
        moment = datetime.datetime(1970, 1, 1) + datetime.timedelta(minutes=now // 60_000)
        self.name = "__".join([table.name, *map(str, segment), moment.strftime("%Y%m%dT%H%MZ")])
        self.state, self.stage, self.cur, self.rows = INITIAL, None, start, []
        self.reason = self.target = self.path = self.waited = self.last = None
        self.made, self.stopped = 0, False

    def goes(self, state, stage=None, target=None):
        """Each change of the state or the stage ends the waiting."""
        self.state, self.stage, self.target, self.waited = state, stage, target, None

    def past_time(self, now):
        return max(0, now - self.started) >= self.table.millis and self.cur > self.start

    def call(self, text):
        """A call's answer, and the state after it."""
        name, *words = text.split(" ")
        return f"{getattr(self, name)(*words)} -> {self.state}"

    def consume(self, most, now):
        if self.state not in (INITIAL, CATCHING_UP, TO_ONLINE):
            return NOT_DUE
        limit = self.table.rows if self.state == INITIAL else MOST_ROWS
        end = len(self.log) if self.target is None else min(len(self.log), self.target)
        last = min(end, self.cur + int(most))
        while self.cur < last and len(self.rows) < limit:
            row = self.row_of(self.log[self.cur])
            self.cur += 1
            if row is not None:
                self.rows.append(row)
        self.after_batch(int(now))
        return "ok"

    def after_batch(self, now):
        if self.state == INITIAL:
            if len(self.rows) >= self.table.rows:
                self.reason = "rowLimit"
                self.goes(HOLDING)
            elif self.past_time(now):
                self.reason = "timeLimit"
                self.goes(HOLDING)
        elif self.cur >= self.target:
            self.goes(HOLDING if self.state == CATCHING_UP else RETAINING)

    def force(self):
        if self.state != INITIAL or self.cur == self.start:
            return NOT_DUE
        self.reason = "force"
        self.goes(HOLDING)
        return "ok"

    def stop(self):
        if self.state in (RETAINING, RETAINED, COMMITTED, DISCARDED):
            return NOT_DUE
        self.drop()
        self.stopped = True
        return "ok"

    def drop(self):
        self.rows = []
        self.goes(DISCARDED)

    def build(self):
        if self.state == RETAINING:
            self.goes(RETAINED)
        elif self.stage == BUILDING:
            self.goes(COMMITTING, STARTING)
        else:
            return NOT_DUE
        return "ok"

    def asked(self):
        """What `request` asks now, or nothing."""
        if self.state == HOLDING:
            return "consumed"
        if self.state == DISCARDED and self.stopped:
            return "stopped"
        return {STARTING: "commitStart", UPLOADING: "upload", ENDING: "commitEnd"}.get(self.stage)

    def request(self):
        asked = self.asked()
        if asked is None:
            return NOT_DUE
        number = self.draw(asked)
        path = ".".join([self.name, *map(str, number)])
        more = {"consumed": [self.reason], "upload": [path], "commitEnd": [self.path]}.get(asked, [])
        return " ".join([asked, str(self.cur), *more])

    def draw(self, asked):
        self.last = self.instance, self.incarnation, self.made
        self.waited = self.last, asked
        self.made += 1
        return self.last

    def extend(self, millis):
        if self.stage not in (BUILDING, STARTING):
            return NOT_DUE
        self.draw("extend")
        return f"extend {self.cur} {millis}"

    def reply(self, *status):
        return self.take(self.last, *status)

    def reply_to(self, instance, incarnation, count, *status):
        return self.take((int(instance[1:]), int(incarnation), int(count)), *status)

    def take(self, number, status, word=None):
        if self.waited is None or self.waited[0] != number:
            return IGNORED
        asked = self.waited[1]
        if asked == "stopped":
            self.stopped = self.stopped and status != "PROCESSED"
        elif asked == "extend":
            if status != "PROCESSED":
                self.goes(HOLDING)
        else:
            self.answered(asked, status, word)
        return TAKEN

    def answered(self, asked, status, word):
        ends_here = word == str(self.cur)
        if asked != "upload" and status == "DISCARD":
            self.drop()
        elif asked != "upload" and status == "KEEP" and ends_here:
            self.goes(RETAINING)
        elif (asked, status) == ("consumed", "CATCH_UP") and int(word) > self.cur:
            self.goes(CATCHING_UP, None, int(word))
        elif (asked, status) == ("consumed", "COMMIT") and ends_here:
            self.goes(COMMITTING, BUILDING)
        elif (asked, status) == ("commitStart", "COMMIT_CONTINUE"):
            self.goes(COMMITTING, UPLOADING)
        elif (asked, status) == ("upload", "UPLOAD_SUCCESS"):
            self.path = word
            self.goes(COMMITTING, ENDING)
        elif (asked, status) == ("commitEnd", "COMMIT_SUCCESS") and ends_here:
            self.goes(COMMITTED)
        elif self.state != HOLDING:
            self.goes(HOLDING)

    def learn(self, end):
        if self.state not in (INITIAL, CATCHING_UP, HOLDING, COMMITTING):
            return NOT_DUE
        if self.cur == int(end):
            self.goes(RETAINING)
        else:
            self.goes(TO_ONLINE, None, int(end))
        return "ok"

    def ready(self, length, now):
        below = self.target is None or self.cur < self.target
        return str((self.cur < int(length) and below) or self.past_time(int(now))).lower()

    def held(self):
        return f"{self.cur} {len(self.rows)}"

    def due(self):
        is_due = [self.state == INITIAL and self.cur > self.start, self.state == RETAINING or self.stage == BUILDING, self.asked() is not None, self.stage in (BUILDING, STARTING)]
        return " ".join(name if due else "-" for due, name in zip(is_due, ["force", "build", "request", "extend"]))

    def upload(self):
        return str(len(self.file())) if self.stage == UPLOADING else "0"

    def row_of(self, message):
        return row_of(message)

    def columns(self):
        """The name, the kind and the flag of each column."""
        return [("k", segment_reader.STRING, 0), ("v", segment_reader.LONG, 0)]

    def file(self):
        """The file of the rows that are held."""
        columns = [segment_reader.Column(*column, [row[place] for row in self.rows]) for place, column in enumerate(self.columns())]
        file = segment_reader.File(self.version, [*self.segment, self.start, self.cur], len(self.rows), columns)
        return segment_reader.write(file, self.version)

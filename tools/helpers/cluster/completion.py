"""The completion machine by its table, with a name for each case of it."""
import dataclasses

PARTIAL, HOLDING, DECIDED = "PARTIAL_CONSUMING", "HOLDING", "COMMITTER_DECIDED"
NOTIFIED, UPLOADING, COMMITTING = "COMMITTER_NOTIFIED", "COMMITTER_UPLOADING", "COMMITTING"
COMMITTED, ABORTED = "COMMITTED", "ABORTED"
CONSUMED, COMMIT_START, COMMIT_END, STOPPED, EXTEND = "Consumed", "CommitStart", "CommitEnd", "Stopped", "Extend"
HOLD_WINDOW, COMMIT_WINDOW, LONGEST = 6_000, 120_000, 1_800_000
OFFLINE_JOB, COMMIT_JOB = "offline job", "commit job"


@dataclasses.dataclass(frozen=True)
class Ask:
    kind: str
    offset: int = 0
    reason: str = ""
    millis: int = 0


class Machine:
    def __init__(self, version, meta, replicas, state, now):
        self.version, self.meta, self.replicas, self.state, self.made = version, meta, replicas, state, now
        self.notes, self.excluded = {}, set()
        self.winner = self.offset = self.deadline = None

    def on(self, sender, ask, now):
        """The reaction, and the case of the table. A machine that ended is ABORTED."""
        before = self.state
        reaction, case = self.react(sender, ask, now)
        return reaction, (before, ask.kind, case)

    def react(self, sender, ask, now):
        if self.deadline is not None and self.state in (DECIDED, NOTIFIED, UPLOADING) and now > self.deadline:
            return self.abort("HOLD"), "past the deadline: abort, HOLD"
        if ask.kind in (CONSUMED, COMMIT_START, COMMIT_END) and ask.offset <= self.meta.start:
            return f"FAILED 2 asked={ask.offset} kept={self.meta.start}", "at the start: FAILED 2"
        row = {CONSUMED: self.consumed, COMMIT_START: self.commit_start, COMMIT_END: self.commit_end,
               STOPPED: self.stopped, EXTEND: self.extend}
        return row[ask.kind](sender, ask, now)

    def abort(self, reply):
        self.state = ABORTED
        return reply

    def wrong(self):
        return f"FAILED 1 {self.state}", "FAILED 1"

    def not_committer(self):
        return f"FAILED 3 committer=s{self.winner}", "other: FAILED 3"

    def consumed(self, sender, ask, now):
        offset = ask.offset
        if self.state in (PARTIAL, HOLDING):
            return self.noted(sender, ask, now)
        first, o = sender == self.winner, self.offset
        if self.state == DECIDED:
            if offset > o:
                return self.abort("HOLD"), "x>o: abort, HOLD"
            if first and offset == o:
                self.state = NOTIFIED
                return f"COMMIT {o}", "i=w, x=o: COMMIT o, NOTIFIED"
            return (f"CATCH_UP {o}", "x<o: CATCH_UP o") if offset < o else ("HOLD", "else: HOLD")
        if self.state == NOTIFIED:
            if offset > o:
                return self.abort("HOLD"), "x>o: abort, HOLD"
            if first:
                return (f"COMMIT {o}", "i=w, x=o: COMMIT o") if offset == o else (self.abort("HOLD"), "i=w, x<o: abort, HOLD")
            return ("HOLD", "other, x=o: HOLD") if offset == o else (f"CATCH_UP {o}", "other, x<o: CATCH_UP o")
        if self.state == UPLOADING and first:
            return self.abort("HOLD"), "i=w: abort, HOLD"
        return (f"CATCH_UP {o}", "x<o: CATCH_UP o") if offset < o else ("HOLD", "else: HOLD")

    def noted(self, sender, ask, now):
        self.notes[sender] = ask.offset
        self.excluded.discard(sender)
        picked = self.picks(ask, now)
        if picked is None:
            self.state = HOLDING
            return "HOLD", "not picked: HOLD"
        self.offset = max(self.notes.values())
        level = [instance for instance, offset in sorted(self.notes.items()) if offset == self.offset]
        self.winner = sender if sender in level else level[0]
        self.deadline = now + COMMIT_WINDOW
        if self.winner == sender:
            self.state = NOTIFIED
            return f"COMMIT {self.offset}", f"picked {picked}, i=w: COMMIT o, NOTIFIED"
        self.state = DECIDED
        if ask.offset == self.offset:
            return "HOLD", f"picked {picked}, other, x=o: HOLD, DECIDED"
        return f"CATCH_UP {self.offset}", f"picked {picked}, other: CATCH_UP o, DECIDED"

    def picks(self, ask, now):
        """Why it picks now, or none."""
        if all(instance in self.notes for instance in self.replicas if instance not in self.excluded):
            return "by all"
        if now > self.made + HOLD_WINDOW:
            return "by time"
        if ask.reason == "rowLimit" and len(self.notes) == 1:
            return "by the row limit"
        return None

    def commit_start(self, sender, ask, now):
        if self.state != NOTIFIED or sender != self.winner:
            return "HOLD", ("other: HOLD" if self.state == NOTIFIED else "HOLD")
        if ask.offset == self.offset:
            self.state = UPLOADING
            return "COMMIT_CONTINUE", "i=w, x=o: COMMIT_CONTINUE, UPLOADING"
        return self.abort(f"FAILED 2 asked={ask.offset} kept={self.offset}"), "i=w, x!=o: abort, FAILED 2"

    def commit_end(self, sender, ask, now):
        if self.state != UPLOADING:
            return self.wrong()
        if sender != self.winner:
            return self.not_committer()
        if ask.offset == self.offset:
            self.state = COMMITTING
            return COMMIT_JOB, "i=w, x=o: COMMITTING, commit job"
        return self.abort(f"FAILED 2 asked={ask.offset} kept={self.offset}"), "i=w, x!=o: abort, FAILED 2"

    def stopped(self, sender, ask, now):
        if self.state in (PARTIAL, HOLDING):
            self.excluded.add(sender)
            self.notes.pop(sender, None)
            return OFFLINE_JOB, "exclude i, offline job"
        if self.state != COMMITTING and sender == self.winner:
            return self.abort(OFFLINE_JOB), "i=w: abort, offline job"
        return OFFLINE_JOB, "offline job" if self.state == COMMITTING else "other: offline job"

    def extend(self, sender, ask, now):
        if self.state != NOTIFIED:
            return self.wrong()
        if sender != self.winner:
            return self.not_committer()
        asked, most = now + ask.millis, self.made + LONGEST
        self.deadline = min(asked, most)
        return "PROCESSED", "i=w: PROCESSED, now+e" if asked <= most else "i=w: PROCESSED, making+1800000"


def without_machine(meta, ask):
    """What the metadata of a segment that ended answers, and the case."""
    if meta.status == "DONE":
        return ended(ask, ask.offset == meta.end, COMMITTED)
    return ended(ask, None, ABORTED)


def ended(ask, at_end, state):
    if ask.kind == STOPPED:
        return "PROCESSED", (state, ask.kind, "PROCESSED")
    if ask.kind == EXTEND:
        return f"FAILED 1 {state}", (state, ask.kind, "FAILED 1")
    if at_end is None:
        return "DISCARD", (state, ask.kind, "DISCARD")
    return ("KEEP", (state, ask.kind, "x=E: KEEP")) if at_end else ("DISCARD", (state, ask.kind, "else: DISCARD"))

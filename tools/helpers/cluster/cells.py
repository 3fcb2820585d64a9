"""Every case of the tables, and why those that no script reaches can't come."""
import itertools

KINDS = ("Consumed", "CommitStart", "CommitEnd", "Stopped", "Extend")
TIMED = ("COMMITTER_DECIDED", "COMMITTER_NOTIFIED", "COMMITTER_UPLOADING")
PICKS = ("by all", "by time", "by the row limit")
REPLICAS = ("INITIAL_CONSUMING", "CATCHING_UP", "HOLDING", "COMMITTING")
LATE = "past the deadline: abort, HOLD"
WRONG = "FAILED 1"
STOPS = ("i=w: abort, offline job", "other: offline job")
EARLY = {"Consumed": ["not picked: HOLD", *(f"picked {pick}, {case}" for pick in PICKS for case in
                      ("i=w: COMMIT o, NOTIFIED", "other: CATCH_UP o, DECIDED", "other, x=o: HOLD, DECIDED"))],
         "CommitStart": ["HOLD"], "CommitEnd": [WRONG], "Stopped": ["exclude i, offline job"], "Extend": [WRONG]}
MACHINE = {
    "PARTIAL_CONSUMING": EARLY,
    "HOLDING": EARLY,
    "COMMITTER_DECIDED": {"Consumed": ["x>o: abort, HOLD", "i=w, x=o: COMMIT o, NOTIFIED", "x<o: CATCH_UP o", "else: HOLD"],
                          "CommitStart": ["HOLD"], "CommitEnd": [WRONG], "Stopped": STOPS, "Extend": [WRONG]},
    "COMMITTER_NOTIFIED": {"Consumed": ["x>o: abort, HOLD", "i=w, x=o: COMMIT o", "i=w, x<o: abort, HOLD", "other, x=o: HOLD", "other, x<o: CATCH_UP o"],
                           "CommitStart": ["i=w, x=o: COMMIT_CONTINUE, UPLOADING", "i=w, x!=o: abort, FAILED 2", "other: HOLD"], "CommitEnd": [WRONG],
                           "Stopped": STOPS, "Extend": ["i=w: PROCESSED, now+e", "i=w: PROCESSED, making+1800000", "other: FAILED 3"]},
    "COMMITTER_UPLOADING": {"Consumed": ["i=w: abort, HOLD", "x<o: CATCH_UP o", "else: HOLD"], "CommitStart": ["HOLD"],
                            "CommitEnd": ["i=w, x=o: COMMITTING, commit job", "i=w, x!=o: abort, FAILED 2", "other: FAILED 3"],
                            "Stopped": STOPS, "Extend": [WRONG]},
    "COMMITTING": {"Consumed": ["x<o: CATCH_UP o", "else: HOLD"], "CommitStart": ["HOLD"], "CommitEnd": [WRONG], "Stopped": ["offline job"], "Extend": [WRONG]},
    "COMMITTED": {**{kind: ["x=E: KEEP", "else: DISCARD"] for kind in KINDS[:3]}, "Stopped": ["PROCESSED"], "Extend": [WRONG]},
    "ABORTED": {**{kind: ["DISCARD"] for kind in KINDS[:3]}, "Stopped": ["PROCESSED"], "Extend": [WRONG]},
}
HOLDS = ("HOLD", "NOT_LEADER", "FAILED 4", "FAILED 6")
ENDS = (("KEEP", "RETAINING"), ("DISCARD", "DISCARDED"))
REPLIES = {
    "consumed": [("CATCH_UP", "CATCHING_UP"), ("COMMIT", "COMMITTING Building"), *ENDS, *((status, "HOLDING as before") for status in HOLDS)],
    "commitStart": [("COMMIT_CONTINUE", "COMMITTING Uploading"), *ENDS, *((status, "HOLDING") for status in (*HOLDS, "FAILED 2"))],
    "upload": [("UPLOAD_SUCCESS", "COMMITTING Ending"), ("NOT_LEADER", "HOLDING"), ("FAILED 6", "HOLDING")],
    "commitEnd": [("COMMIT_SUCCESS", "COMMITTED"), *ENDS, *((status, "HOLDING") for status in (*HOLDS, "FAILED 1", "FAILED 2", "FAILED 3", "FAILED 5", "FAILED 8"))],
    "extend": [("PROCESSED", "COMMITTING Building as before"), ("PROCESSED", "COMMITTING Starting as before"),
               *((status, "HOLDING") for status in (*HOLDS, "FAILED 1", "FAILED 3"))],
    "stopped": [(status, "DISCARDED as before") for status in ("PROCESSED", *HOLDS, "FAILED 8")],
    "none": [("another number", "ignored"), ("no replica", "ignored")],
}
FAILS = ("failed, lost", "failed, kept")
JOBS = {
    "commit job": {"check": ["ok", "failed: FAILED 6"],
                   "done": ["ok", "changed: FAILED 5", "nonode: FAILED 4", *(f"{fail}: FAILED 6" for fail in FAILS)],
                   "next": ["ok", "exists", "gone: COMMIT_SUCCESS", *(f"{fail}: FAILED 6" for fail in FAILS)],
                   "idealRead": ["ok", "same: COMMIT_SUCCESS", "failed: FAILED 6"],
                   "idealSet": ["ok: COMMIT_SUCCESS", "changed", "changed: FAILED 8", *(f"{fail}: FAILED 6" for fail in FAILS)]},
    "offline job": {"idealRead": ["ok", "same: PROCESSED", "failed: FAILED 6"],
                    "idealSet": ["ok: PROCESSED", "changed", "changed: FAILED 8", *(f"{fail}: FAILED 6" for fail in FAILS)]},
}
REPAIR = {
    **{f"Create behind a node that is {status}": ["created", "exists", "gone", *FAILS] for status in ("DONE", "ABANDONED")},
    **{f"AddToIdeal by {how}": ["ideal", "changed", *FAILS] for how in ("a commit", "consumers")},
    "Abandon": ["abandoned", "changed", "gone", *FAILS],
    "nothing": ["the last node is young", "the last node is consumed", "AddToIdeal by a commit that changes nothing", "AddToIdeal by consumers that changes nothing"],
}
RETIREMENT = {
    **{f"Remove of a node that is {status}": ["removed", "changed", *FAILS] for status in ("DONE", "ABANDONED")},
    **{f"Delete of a node that is {status}": ["deleted", "gone", *FAILS] for status in ("DONE", "ABANDONED")},
    "nothing": ["the lowest node is the last", "the lowest node is young", "the next segment has no entries"],
}
SERVER = {"restart": ["up", *FAILS], "see": ["seen", "failed"], "download": ["loaded", "failed"], "transit": ["failed"]}
PIECES = {**{state: ["served", "notserved"] for state in (*REPLICAS, "CONSUMING_TO_ONLINE")}, **{state: ["served"] for state in ("RETAINING", "RETAINED", "COMMITTED", "file")},
          **{state: ["notserved"] for state in ("DISCARDED", "wanted", "no entry")}}


def machine():
    for state, row in MACHINE.items():
        for kind, cases in row.items():
            yield from (("machine", state, kind, case) for case in [*cases, *([LATE] if state in TIMED else [])])


def transit():
    yield from (("transit", "no target", was, "not read", "goes") for was in
                (*REPLICAS, "CONSUMING_TO_ONLINE", "RETAINING", "RETAINED", "COMMITTED", "DISCARDED", "wanted", "file"))
    yield from (("transit", "CONSUMING", "no entry", status, then) for status, then in
                (("IN_PROGRESS", "starts"), ("DONE", "the file is wanted"), ("ABANDONED", "goes"), ("no node", "goes")))
    yield from (("transit", "OFFLINE", "an entry", status, "goes") for status in ("IN_PROGRESS", "DONE", "ABANDONED", "no node"))
    for was in REPLICAS:
        yield from (("transit", "ONLINE", was, "DONE", then) for then in ("RETAINING", "CONSUMING_TO_ONLINE", "the file is wanted"))
    for was in ("no entry", "DISCARDED"):
        yield "transit", "ONLINE", was, "DONE", "the file is wanted"
    yield from (("transit", "ONLINE", was, "no node", "goes") for was in ("no entry", *REPLICAS, "DISCARDED"))


def named(table, rows):
    return ((table, name, case) for name, cases in rows.items() for case in cases)


def all_cells():
    """Every cell, table by table, in the tables' own order."""
    yield from machine()
    yield from (("controller", kind, case) for kind in KINDS for case in ("NOT_LEADER", "makes a machine", "a fault: FAILED 6", "no node: FAILED 4"))
    yield from (("controller", "Upload", case) for case in ("NOT_LEADER", "UPLOAD_SUCCESS", *(f"{fail}: FAILED 6" for fail in FAILS)))
    yield from (("reply", waited, *pair) for waited, pairs in REPLIES.items() for pair in pairs)
    yield from itertools.chain.from_iterable(named(job, steps) for job, steps in JOBS.items())
    for walk, rows in (("repair", REPAIR), ("retirement", RETIREMENT)):
        yield from ((walk, *case) for case in (("listed",), ("list", "failed"), ("idealRead",), ("idealRead", "failed")))
        yield from named(walk, rows)
    yield from transit()
    yield from named("server", SERVER)
    yield from named("query", {"route": ["routed", "failed"], **{f"piece of {state}": cases for state, cases in PIECES.items()}, "piece of a server that is down": ["nodedown"]})
    yield from named("consume", {"INITIAL_CONSUMING": ["INITIAL_CONSUMING", "HOLDING by rowLimit", "HOLDING by timeLimit"],
                                 "CATCHING_UP": ["CATCHING_UP", "HOLDING"], "CONSUMING_TO_ONLINE": ["CONSUMING_TO_ONLINE", "RETAINING"]})
    yield from (("stop", state) for state in (*REPLICAS, "CONSUMING_TO_ONLINE"))
    yield from (("build", state) for state in ("RETAINING", "COMMITTING"))


# Cells of the tables that no script reaches, by a front of theirs, and why.
NEVER = [
    (("machine", "PARTIAL_CONSUMING", "Consumed", "picked by all, other"), "a machine in PARTIAL_CONSUMING has no note, so the sender's is the only one"),
    (("machine", "PARTIAL_CONSUMING", "Consumed", "picked by time, other"), "a machine in PARTIAL_CONSUMING has no note, so the sender's is the only one"),
    (("machine", "PARTIAL_CONSUMING", "Consumed", "picked by the row limit, other"), "this pick needs the sender's note to be the only one"),
    (("machine", "HOLDING", "Consumed", "picked by the row limit, other"), "this pick needs the sender's note to be the only one"),
    (("machine", "HOLDING", "Consumed", "picked by all, other, x=o"), "of several that are level the sender wins"),
    (("machine", "HOLDING", "Consumed", "picked by time, other, x=o"), "of several that are level the sender wins"),
]
# Cases that the tables have, and that stand in no list above, since no world comes to them.
OUTSIDE = [
    ("machine, an offset at or before the start: FAILED 2", "a replica asks only past its segment's start"),
    ("controller, OtherBytes: FAILED 7", "an upload's path has its own number, so no two share one"),
    ("controller, a sender that isn't assigned: FAILED 9", "only assigned servers have replicas"),
    ("controller, the last sequences: HOLD", "a run has too few events for so many segments"),
    ("reply, CATCH_UP at or before cur, COMMIT elsewhere, KEEP and COMMIT_SUCCESS at another end", "a controller answers by the offset that was asked with, and cur stays while a replica waits"),
    ("reply, FAILED 7 and 9", "a controller never answers so"),
    ("commit job, check bad", "an upload has the file that its CommitEnd speaks of"),
    ("repair, no node; the last sequence; Create changed", "a partition keeps its last node, and a node that ended changes no more"),
    ("retirement, no node; the lowest in progress; Delete changed", "only the last node is in progress, and a node that ended changes no more"),
    ("transit, in progress with an entry", "entries become ONLINE only behind a Done write"),
    ("download, BadFile", "the file that a Done node names was put before that write"),
]


def why_never(cell):
    """Why a cell can't come, or none."""
    for front, why in NEVER:
        if cell[:len(front) - 1] == front[:-1] and cell[len(front) - 1].startswith(front[-1]):
            return why
    return None

"""Why a line is refused: the word that can't be read and its column, the state that decides, the byte and the token of a query text."""
import difflib
import itertools
import re

import forms
import limits
import query_reader
import servers
import states

# The forms of a line that has several, each by its words.
FORMS = {**{word: [form] for word, form in forms.FORMS.items()}, "show": ["meta P/Q", "ideal"], "rehearse": ["servers=N keep=N", "loaded sK P/Q", "step"]}
READS_AS = {"sK": "a server, as s0", "cK": "a controller, as c0", "[sc]K": "a server or a controller, as s0 or c0", "P": "a partition's number", "N": "a number",
            "P/Q": "a segment by its partition and sequence, as 0/3", "mN": "a message, as m4", "jN": "a job, as j0", "qN": "a query, as q0", "qK": "a query, as q0",
            "fN": "a force job, as f0", "cK jN": "a job"}
CONDITIONS = {
    "consume": "a replica consumes in INITIAL_CONSUMING, CATCHING_UP and CONSUMING_TO_ONLINE, and takes 1 to 4,294,967,295 messages",
    "force": "a replica is forced in INITIAL_CONSUMING, past its start", "stop": "a replica stops in each state but RETAINING, RETAINED, COMMITTED and DISCARDED",
    "build": "a replica builds in RETAINING and in the stage Building of COMMITTING",
    "report": "a replica asks in HOLDING, in the stages Starting, Uploading and Ending of COMMITTING, and after a stop that isn't processed",
    "exchange": "a replica asks in HOLDING, in the stages Starting, Uploading and Ending of COMMITTING, and after a stop that isn't processed",
    "extend": "a replica asks for more time in the stages Building and Starting of COMMITTING", "restart": "a node is restarted while it is down",
    "transit": "a transition is due by the server's target and entry: CONSUMING without an entry, ONLINE without a file, OFFLINE or no target with an entry",
    "download": "a server downloads a file that it wants", "repair": "a repair is under way, or the controller believes that it leads",
    "retain": "a retirement is under way, or there is a retention and the controller believes that it leads", "route": "a partition is routed once in a query",
    "piece": "the plan has the piece, nobody served it yet, and the server is assigned and wasn't asked for it",
    "answer": "each partition was tried, and each piece was served or asked of each of its servers", "fill": "at least one message is filled",
    "settle": "there are 1 to 1,000,000 rounds", "latest": "the table has upsert settings", "peer": "the segment's node is DONE",
    "rehearse": "there is a plan, made for a number of servers from the replication to 16",
}


def read_as(part):
    """A word of a form as a reader knows it."""
    return READS_AS.get(part) or re.sub(r"\(\?:(\w+)\|(\w+)\)", r"\1 or \2", part)


class Reason:
    """Why, in sentences, and the part of the line that it is about: a column from 1 on and a length, or none."""

    def __init__(self, sentences, column=None, length=0):
        self.sentences, self.column, self.length = sentences, column, max(length, 1)


def number_fault(token):
    """What is wrong with the numbers of a word, if anything is."""
    for number in re.findall(r"\d+", token):
        if number != "0" and number.startswith("0"):
            return "a number has no leading zero"
        if int(number) > forms.GREATEST["N"]:
            return "a number fits 64 bits"
        if int(number) > forms.GREATEST["P"]:
            return f"a number of a node, a partition or a segment is at most {forms.GREATEST['P']}"
    return None


def unread(line, form):
    """The place of the first word that a form hasn't, with its length and why; none where the form reads the line."""
    word, _, rest = line.partition(" ")
    place, parts = len(word) + 1, form.split(" ") if form else []
    if not parts:
        return None if line == word else (len(word), len(line) - len(word), f"nothing stands behind `{word}`")
    for part in parts:
        if place > len(line):
            return len(line), 1, f"here follows {read_as(part)}"
        if part in ("TEXT", ".*"):
            return None if part == ".*" or forms.is_utf8(line) else (place, len(line) - place, "the text isn't UTF-8")
        token = line[place:].partition(" ")[0]
        if not forms.Form(part).reads(token):
            return place, len(token), number_fault(token) or (f"here follows {read_as(part)}" + ("" if token else ", behind one space"))
        place += len(token) + 1
    return None if place > len(line) else (place - 1, len(line) - place + 1, "nothing stands behind it")


def bad_line(line):
    word = line.partition(" ")[0]
    if word not in FORMS:
        near = difflib.get_close_matches(word, FORMS, 1)
        return Reason([f"no line begins with `{word}`" + (f"; `{near[0]}` is near" if near else "")], 1, len(word))
    place, length, why = max((found for found in (unread(line, form) for form in FORMS[word]) if found), key=lambda found: found[0])
    wanted = " or ".join(f"`{word} {form}`".replace(" `", "`").replace("(?:", "(").replace("[sc]K", "sK or cK") for form in FORMS[word])
    return Reason([why, f"the line is {wanted}"], place + 1, length)


def named(line):
    """The words of a line that name something, by their first letter."""
    words = line.split(" ")[1:]
    found = {word[0]: word for word in words if re.fullmatch(r"[scmjqf]\d+", word)}
    found.update({"/": word for word in words if re.fullmatch(r"\d+/\d+", word)})
    return found


def no_node(world, line):
    setup = world.setup
    return [f"the cluster has {setup.servers} servers, {setup.controllers} controllers and {setup.partitions} partitions, each counted from 0"]


def no_message(world, line):
    found, told = named(line), []
    if "m" in found:
        number = int(found["m"][1:])
        if number < len(world.messages):
            told.append(f"{found['m']} is a {states.message_text(world.messages[number])}; `deliver` takes requests, and `reply` replies")
        else:
            told.append(f"{len(world.messages)} messages were sent, from m0 on")
    if "j" in found:
        each = world.controller_at(found["c"])
        has = ", ".join(f"j{number}" for number in sorted(each.jobs)) or "none"
        ended = "it has ended, or went with a crash" if int(found["j"][1:]) < each.started else f"it was never started: {each.started} were"
        told.append(f"of the jobs of {found['c']} {has} is open; {ended}")
    if "q" in found:
        told.append("it was answered" if int(found["q"][1:]) < len(world.queries) else f"{len(world.queries)} queries were asked, from q0 on")
    if "f" in found:
        told.append(f"{len(world.forced)} force jobs were begun, from f0 on")
    return told


def node_down(world, line):
    found = named(line)
    nodes = [(name, world.node_at(name)) for letter, name in found.items() if letter in "sc"]
    if line.startswith("reply "):
        number = world.messages[int(found["m"][1:])].number[0]
        nodes = [(f"s{number}", world.servers[number])]
    return [f"{name} is down: `restart {name}` brings it up" for name, node in nodes if node is not None and not node.up]


def nothing_to_do(world, line):
    """The condition, and what stands there that it asks of."""
    word, found = line.split(" ")[0], named(line)
    told = [f"the condition isn't met: {CONDITIONS.get(word, 'see the table of lines')}"]
    if "/" in found and "s" in found:
        told.append(server_has(world.server_at(found["s"]), world.segment_at(found["/"])))
    elif "c" in found:
        told.append(f"{found['c']} {'believes that it leads' if world.controller_at(found['c']).leads else 'does not believe that it leads'}")
    if word == "restart":
        told.append(f"{line.split(' ')[1]} is up")
    if word in ("route", "piece", "answer"):
        told.append(f"{found['q']}: {states.query_text(world.query_at(found['q']))}")
    if word == "peer":
        meta = world.meta(world.segment_at(found["/"]))
        told.append(f"the node of {found['/']} " + (f"is {meta.status}" if meta else "isn't there"))
    if word == "retain" and world.setup.retention is None:
        told.append("the cluster's line has no retention")
    if word == "rehearse":
        told.append("there is no plan yet" if world.rehearsal is None else f"the plan is at state {world.rehearsal.at} of {len(world.rehearsal.states) - 1}")
    return told


def server_has(server, segment):
    entry, name = server.table.get(segment), states.name_of(segment)
    told = f"s{server.number} has of {name}: " + (states.entry_text(entry) if entry is not None else "nothing")
    if isinstance(entry, servers.Replica):
        told += f", {len(entry.log)} messages in the stream"
    return f"{told}; its target is {server.targets.get(segment, 'none')}"


DECIDES = {"NoSuchNode": no_node, "NoSuchMessage": no_message, "NodeDown": node_down, "NothingToDo": nothing_to_do}


def limit(world, line, name):
    taken = {"events": (world.events, limits.MOST_EVENTS), "sent": (world.sent, limits.MOST_SENT), "stored": (world.store.entries, limits.MOST_STORED),
             "queries": (sum(query is not None for query in world.queries), limits.MOST_QUERIES), "moment": (world.now, limits.LAST_MOMENT)}
    if name == "message":
        return [f"the message has {limits.size_of(line.split(' ', 2)[2])} bytes, and {limits.LONGEST_MESSAGE} at most fit"]
    return [f"{taken[name][0]} of {taken[name][1]} are taken, and the line would go past that"]


def refused(world, line, said):
    """Why a line was refused or passed a limit, with the world in which it was."""
    if said == "BadLine":
        return bad_line(line)
    if said.startswith("limit: "):
        return Reason(limit(world, line, said.removeprefix("limit: ")))
    return Reason(DECIDES[said](world, line) or ["the condition isn't met"])


# ---- queries

def token_at(text, byte):
    """The token that begins at a byte, as it stands."""
    found = query_reader.TOKEN.match(text, byte)
    return text[byte:found.end()] if found and found.end() > byte else text[byte:byte + 1]


def tokens_of(text):
    """The tokens of a text, up to its end or to what is none."""
    return list(itertools.takewhile(lambda token: token.kind not in ("end", "none"), query_reader.tokens(text)))


def byte_of(text, name):
    """Where a name stands first as a token."""
    return next(token.byte for token in tokens_of(text) if token.kind == "name" and token.value == name)


def unknown_column(text, kinds):
    """The byte of the first name that is no column; the one behind FROM is the table's."""
    found = tokens_of(text)
    return next(token.byte for before, token in zip([None, *found], found)
                if token.kind == "name" and token.value not in kinds and (before is None or before.value != "FROM"))


def wrong_kind(query, kinds):
    """The name at which a column's type and what is asked of it don't fit."""
    items = [item for _, item in query["items"]] + [item for _, item, _ in query["order"]]
    for word, name in items:
        if not query_reader.fits_item(word, kinds.get(name)):
            return name, f"{word} of {kinds[name]}"
    for form, name, literals in query_reader.tests(query["filter"]):
        if not query_reader.fits_test(form, kinds[name], literals):
            return name, f"a test of {kinds[name]} with that literal or order"
    return None, ""


def query(text, setup):
    """Why a text is no query: its number, then a sentence, the byte and the token."""
    raw, number = text.encode(), query_reader.answer(setup.columns, setup.name, text.encode())
    kinds = {column.name.encode(): column.kind for column in setup.columns}
    if number.startswith("syntax"):
        byte = int(number.split(" ")[1])
        return told(raw, byte, "no query has this token here" if byte < len(raw) else "the text ends too early")
    if number == "5":
        return Reason(["the text is longer than 65,536 bytes, nests deeper than 64, or has a number beyond its bound"])
    read = query_reader.Reader(raw).query()
    if number == "2":
        return told(raw, byte_of(raw, read["table"]), f"the table is {setup.name} or {setup.name}_REALTIME")
    if number == "4":
        name, why = wrong_kind(read, kinds)
        return told(raw, byte_of(raw, name), f"{why} isn't taken")
    return told(raw, unknown_column(raw, kinds), f"the schema has the columns {', '.join(column.name for column in setup.columns)}")


def told(raw, byte, why):
    token = token_at(raw, byte).decode(errors="replace")
    column = len(raw[:byte].decode(errors="replace")) + 1
    return Reason([why, f"byte {byte} of the text" + (f", the token {token!r}" if token else ", its end")], column, len(token))

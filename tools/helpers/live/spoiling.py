"""Ways to spoil a journal, each of which makes it wrong for certain: where one can't, it gives none.

A way takes the journal's `Parts` and a random source, and changes the parts, or answers False where there is nothing that it could spoil.
"""
import re

import journal
import live_input

WAYS = {}
# The last cell of an answer, where it is a number; and an answer that names a range.
LAST_CELL, RANGED = r"([\[,])(\d+)(\]\]\})$", r'"ranges":\[\['
# The counts of a queue.
COUNTS = r"accepted=(\d+) taken=(\d+)"


def way(name):
    def keep(function):
        WAYS[name] = function
        return function
    return keep


class Parts:
    """The lines of a journal by their kinds; writes and heard lines without their numbers, which are made again."""

    def __init__(self, text, told):
        lines = text.split("\n")[:-1]
        self.told, self.read = told, journal.read(text, told)
        self.head = [line for line in lines if line.startswith(("answer ", "end "))]
        self.writes = [line.split(" ", 2)[2] for line in lines if line.startswith("write ")]
        self.heard = [[] for _ in range(told.setup.controllers)]
        for line in lines:
            found = journal.HEARD.fullmatch(line)
            if found:
                self.heard[int(found[1])].append([found[3], found[4]])
        self.queues = [line for line in lines if line.startswith("queue ")]
        self.mids = [line for line in lines if line.startswith("mid ")]
        self.tail = "\n"

    def text(self):
        lines = [*self.head, *(f"write {place} {rest}" for place, rest in enumerate(self.writes))]
        for controller, heard in enumerate(self.heard):
            lines += [f"heard c{controller} {place} {request} -> {status}" for place, (request, status) in enumerate(heard)]
        return "\n".join([*lines, *self.queues, *self.mids]) + self.tail

    def first(self):
        """How many writes are starting contents."""
        return self.told.setup.servers + self.told.setup.partitions + 1

    def accepted(self, sender, receiver):
        """How much each queue between two nodes, or all nodes of a kind, has accepted."""
        return [int(queue[5]) for queue in map(journal.QUEUE.fullmatch, self.queues) if sender in (queue[1], queue[1][0]) and receiver in (queue[3], queue[3][0])]

    def were_full(self, receivers):
        """Whether one more message could fill the inbox of one of these nodes."""
        kinds = {"s": "c", "c": "s"}
        return any(sum(self.accepted(kinds[name[0]], name)) >= live_input.CAPACITY - 1 for name in receivers)

    def servers(self):
        return [f"s{number}" for number in range(self.told.setup.servers)]

    def count(self, sender, receiver, step):
        """In the queue between two nodes, so much more was accepted and taken."""
        self.queues = [re.sub(COUNTS, counted(step), line) if line.startswith(f"queue {sender} {receiver} ") else line for line in self.queues]

    def places(self, pattern):
        """The places of later writes of a form."""
        return [place for place, rest in enumerate(self.writes) if place >= self.first() and re.search(pattern, rest)]

    def change(self, random, pattern, old, new):
        """In one of the later writes of a form, another text for a part of it."""
        return change_at(random, self.writes, self.places(pattern), old, new)

    def line(self, random, kind, pattern, old, new):
        """In one of the lines of a kind and a form, another text for a part of it."""
        lines = getattr(self, kind)
        return change_at(random, lines, [place for place, line in enumerate(lines) if re.search(pattern, line)], old, new)

    def answered(self, request, status, when=lambda *_: True):
        """The heard lines of a form: each as its controller's lines and its place."""
        return [(heard, place) for heard in self.heard for place, (asked, said) in enumerate(heard)
                if re.fullmatch(request, asked) and re.fullmatch(status, said) and when(heard, place)]

    def answers(self, random, request, status, new, when=lambda *_: True):
        """Another answer to one of the requests of a form."""
        found = self.answered(request, status, when)
        if not found:
            return False
        heard, place = random.choice(found)
        heard[place][1] = new(heard[place]) if callable(new) else new
        return True


def change_at(random, lines, places, old, new):
    if not places:
        return False
    place = random.choice(places)
    before = lines[place]
    lines[place] = re.sub(old, new, before, count=1)
    return lines[place] != before


def at_one(random, found, change):
    """Makes a change at one of the places that were found."""
    if not found:
        return False
    change(*random.choice(found))
    return True


def moves(heard, place, to):
    """Moves a line to an earlier place."""
    heard.insert(to, heard.pop(place))


def offset_of(line):
    return int(line[0].split(" ")[1])


def told_offset(line):
    return int(line[1].split(" ")[1])


def plus(step):
    return lambda found: found[1] + str(int(found[2]) + step) + (found[3] if found.re.groups > 2 else "")


def counted(step):
    """A queue that accepted more, and took as much."""
    return lambda found: f"accepted={int(found[1]) + step} taken={int(found[2]) + step}"


def is_only(status):
    """Whether a line is its controller's only one of an answer at its offset, and some later line of this offset needs that answer."""
    def test(heard, place):
        offset = offset_of(heard[place])
        same = [line for line in heard if offset_of(line) == offset and line[1] == status.format(offset)]
        needs = "commitStart" if status.startswith("COMMIT {") else "upload"
        return len(same) == 1 and any(line[0].split(" ")[0] == needs and offset_of(line) == offset for line in heard[place:])
    return test


# The answers and the ends.

@way("an end is missing")
def lost_end(parts, random):
    parts.head.pop()
    return True


@way("an answer is missing")
def lost_answer(parts, random):
    if not parts.told.queries:
        return False
    parts.head.pop(0)
    return True


@way("the last line has no end")
def no_newline(parts, random):
    parts.tail = ""
    return True


@way("a line stands behind the last")
def further_line(parts, random):
    parts.tail = "\nend 0 0\n"
    return True


# The writes.

@way("a boot node of the starting contents is missing")
def lost_boot(parts, random):
    parts.writes.pop(random.randrange(parts.told.setup.servers))
    return True


@way("a write of the starting contents says something else")
def wrong_start(parts, random):
    place = random.randrange(parts.told.setup.servers, parts.first() - 1)
    return change_at(random, parts.writes, [place], r'("written":)(\d+)', plus(1))


@way("a server restarts that never crashed")
def invented_restart(parts, random):
    servers = [number for number in range(parts.told.setup.servers) if number != parts.told.chaos.crashes]
    if not servers:
        return False
    parts.writes.append(f"boot/{random.choice(servers)} 1 -")
    return True


@way("a Done write is missing")
def lost_done(parts, random):
    return drop(parts, random, parts.places(r'^meta/.* 1 '))


@way("a segment that has a successor is never created")
def lost_create(parts, random):
    return drop(parts, random, [place for place in parts.places(r"^meta/.* 0 ") if any(rest.startswith(parts.writes[place].split(" ")[0] + " 1 ") for rest in parts.writes)])


@way("a write of the ideal state is missing")
def lost_ideal(parts, random):
    return drop(parts, random, parts.places("^ideal ")[:-1])


def drop(parts, random, places):
    return at_one(random, [(place,) for place in places], parts.writes.pop)


@way("a write comes twice")
def doubled_write(parts, random):
    places = parts.places("^(meta|ideal)")
    if not places:
        return False
    place = random.choice(places)
    parts.writes.insert(place, parts.writes[place])
    return True


@way("a segment is created before the one in front of it is Done")
def swapped_create(parts, random):
    places = [place for place in parts.places(r"^meta/\d+/\d+ 1 ") if place + 1 < len(parts.writes) and parts.writes[place + 1].startswith(successor(parts.writes[place]))]
    return swap(parts, random, places)


@way("entries come before their segment")
def swapped_ideal(parts, random):
    places = [place for place in parts.places(r"^meta/\d+/\d+ 0 ") if place + 1 < len(parts.writes) and parts.writes[place + 1].startswith("ideal ")
              and segment_in(parts.writes[place]) in parts.writes[place + 1] and segment_in(parts.writes[place]) not in ideal_before(parts, place)]
    return swap(parts, random, places)


def successor(rest):
    partition, sequence = rest.split(" ")[0].split("/")[1:]
    return f"meta/{partition}/{int(sequence) + 1} 0 "


def segment_in(rest):
    return '"{}/{}":'.format(*rest.split(" ")[0].split("/")[1:])


def ideal_before(parts, place):
    return next(rest for rest in reversed(parts.writes[:place]) if rest.startswith("ideal "))


def swap(parts, random, places):
    return at_one(random, [(parts.writes, place + 1, place) for place in places], moves)


@way("a segment was written before the cluster's start")
def wrong_written(parts, random):
    return parts.change(random, "^meta", r'"written":\d+', f'"written":{parts.told.setup.start - 1}')


@way("the ideal state changes nothing")
def same_ideal(parts, random):
    places = parts.places("^ideal")
    if not places:
        return False
    before = ideal_before(parts, places[-1]).split(" ", 2)[2]
    head = parts.writes[places[-1]].split(" ", 2)[:2]
    parts.writes[places[-1]] = " ".join([*head, before])
    return True


# What was heard.

@way("a heard line is missing")
def lost_heard(parts, random):
    return at_one(random, parts.answered(".*", ".*"), list.pop)


@way("a heard line comes twice")
def doubled_heard(parts, random):
    return at_one(random, parts.answered(".*", ".*"), lambda heard, place: heard.insert(place, list(heard[place])))


@way("the first report of several replicas is told to commit")
def hold_to_commit(parts, random):
    if parts.told.setup.replication == 1:
        return False
    return parts.answers(random, r"consumed \d+ (timeLimit|force)", "HOLD", lambda line: f"COMMIT {offset_of(line)}", lambda heard, place: place == 0)


@way("the first report of one replica alone is held")
def commit_to_hold_alone(parts, random):
    if parts.told.setup.replication > 1:
        return False
    return parts.answers(random, r"consumed .*", r"COMMIT \d+", "HOLD", lambda heard, place: place == 0)


@way("a KEEP is a DISCARD")
def keep_to_discard(parts, random):
    return parts.answers(random, "consumed .*", "KEEP", "DISCARD", lambda heard, place: is_alone(parts, offset_of(heard[place])))


@way("a DISCARD is a KEEP")
def discard_to_keep(parts, random):
    ends = {int(end) for rest in parts.writes for end in re.findall(r'"end":(\d+)', rest)}
    return parts.answers(random, "(consumed|commitStart) .*", "DISCARD", "KEEP", lambda heard, place: offset_of(heard[place]) not in ends)


@way("a KEEP comes before its commit")
def early_keep(parts, random):
    found = [(heard, place, commit) for heard, place in parts.answered(r"consumed .*", "KEEP") for commit in range(place)
             if heard[commit][0].startswith("commitEnd ") and heard[commit][1] == "COMMIT_SUCCESS" and offset_of(heard[commit]) == offset_of(heard[place])
             and is_alone(parts, offset_of(heard[place]))]
    return at_one(random, found, moves)


def is_alone(parts, offset):
    """Whether one segment alone has an end at an offset, and no other range has it inside."""
    ranges = [(int(start), int(end)) for rest in parts.writes for end, start in re.findall(r'"end":(\d+).*"start":(\d+)', rest)]
    return parts.told.setup.partitions == 1 and sum(start < offset <= end for start, end in ranges) == 1 and any(end == offset for _, end in ranges)


@way("an upload has the number of one that its server made before")
def old_upload(parts, random):
    def takes(heard, place, earlier):
        heard[place][0] = heard[place][0].rsplit(".", 1)[0] + "." + heard[earlier][0].rsplit(".", 1)[1]
    found = [(heard, place, earlier) for heard, place in parts.answered("upload .*", "UPLOAD_SUCCESS") for earlier in range(place)
             if heard[earlier][0].startswith("upload ") and life(heard[earlier]) == life(heard[place]) and heard[earlier][0] != heard[place][0]]
    return at_one(random, found, takes)


def life(line):
    """The instance and the incarnation of an upload."""
    return line[0].rsplit(".", 3)[1:3]


@way("a commitEnd comes before its upload")
def early_commit_end(parts, random):
    found = [(heard, place, upload) for heard, place in parts.answered("commitEnd .*", "COMMIT_SUCCESS") for upload in range(place)
             if heard[upload][0] == heard[place][0].replace("commitEnd", "upload") and not any(line[0] == heard[upload][0] for line in heard[:upload])]
    return at_one(random, found, moves)


@way("a request is at an offset past its partition")
def far_offset(parts, random):
    past = max(map(len, parts.told.log()), default=0) + 1

    def asks(heard, place):
        heard[place][0] = f"consumed {past} {heard[place][0].split(' ')[2]}"
    return at_one(random, parts.answered("consumed .*", ".*"), asks)


@way("a replica stops")
def stopped(parts, random):
    def stops(heard, place):
        heard[place] = [f"stopped {offset_of(heard[place])}", "PROCESSED"]
    return at_one(random, parts.answered("consumed .*", "HOLD"), stops)


# The queues.

@way("a server asks a controller that isn't its own")
def wrong_queue(parts, random):
    places = [place for place, queue in enumerate(parts.read.queues) if queue.sender[0] == "s" and int(queue.sender[1:]) % parts.told.chaos.leaders != int(queue.receiver[1:])]
    return change_at(random, parts.queues, places, COUNTS, counted(1))


@way("a server without a replica asks")
def idle_queue(parts, random):
    setup = parts.told.setup
    busy = {instance for partition in range(setup.partitions) for instance in setup.replicas(partition)}
    places = [place for place, queue in enumerate(parts.read.queues) if queue.sender[0] == "s" and int(queue.sender[1:]) not in busy]
    return change_at(random, parts.queues, places, COUNTS, counted(1))


@way("a queue is missing")
def lost_queue(parts, random):
    parts.queues.pop(random.randrange(len(parts.queues)))
    return True


@way("two queues are swapped")
def swapped_queues(parts, random):
    place = random.randrange(len(parts.queues) - 1)
    parts.queues[place], parts.queues[place + 1] = parts.queues[place + 1], parts.queues[place]
    return True


# What the chaos line says of messages and of a crash. In these ways no inbox was ever full.

def uploads(parts, controller, copies):
    """The heard uploads of servers that hadn't crashed, which are posted so often, each with its place."""
    if parts.were_full([f"c{controller}"]):
        return []
    return [(place, path) for place, (request, _) in enumerate(parts.heard[controller]) if request.startswith("upload ")
            and (path := journal.path_of(request.split(" ")[2])).incarnation == 0 and parts.told.chaos.copies(path.count + 1) in copies]


def at_upload(parts, random, copies, change):
    """Makes a change at an upload that is posted so often, with the queue from its server."""
    found = [(controller, place, path) for controller in range(len(parts.heard)) for place, path in uploads(parts, controller, copies)]
    if not found:
        return False
    controller, place, path = random.choice(found)
    step = change(parts, parts.heard[controller], place, path)
    parts.count(f"s{path.instance}", f"c{controller}", step)
    return True


@way("a message is heard that is never posted")
def heard_though_lost(parts, random):
    drop = parts.told.chaos.drop

    def renumbers(parts, heard, place, path):
        lost = f"{path.text.rsplit('.', 1)[0]}.{(path.count // drop + 1) * drop - 1}"
        for lines in parts.heard:
            for line in lines:
                line[0] = re.sub(re.escape(path.text) + "$", lost, line[0])
        parts.writes = [rest.replace(f'"{path.text}"', f'"{lost}"') for rest in parts.writes]
        return 0
    return at_upload(parts, random, (1, 2), renumbers) if drop else False


@way("a message comes once that is posted twice")
def heard_once(parts, random):
    def drops(parts, heard, place, path):
        heard.pop(place)
        return -1
    return at_upload(parts, random, (2,), drops)


@way("a message comes twice that is posted once")
def heard_twice(parts, random):
    def doubles(parts, heard, place, path):
        heard.insert(place, list(heard[place]))
        return 1
    return at_upload(parts, random, (1,), doubles)


@way("the copies of a message are parted")
def parted_copies(parts, random):
    chaos, found = parts.told.chaos, []
    for controller, heard in enumerate(parts.heard):
        name = f"c{controller}"
        if sum(map(bool, parts.accepted("s", name))) == 1 and not parts.were_full([name]):
            ends = [chaos.posted(message) for message in range(1, chaos.least(len(heard))) if chaos.copies(message) == 2]
            found += [(heard, end, end - 1) for end in ends if heard[end][0] != heard[end - 1][0]]
    return at_one(random, found, moves)


@way("a controller posts as many replies as the chaos line makes of no number of answers")
def no_number_of_replies(parts, random):
    chaos, found = parts.told.chaos, []
    for controller in range(len(parts.heard)):
        posted = sum(parts.accepted(f"c{controller}", "s"))
        found += [(controller, step) for step in (-1, 1) if posted and chaos.posted(chaos.least(posted + step)) != posted + step]
    if not found or parts.were_full(parts.servers()):
        return False
    controller, step = random.choice(found)
    return change_at(random, parts.queues, [place for place, line in enumerate(parts.queues) if re.match(f"queue c{controller} .* accepted=[1-9]", line)], COUNTS, counted(step))


@way("a controller that committed answered nobody")
def no_replies(parts, random):
    able = [controller for controller, heard in enumerate(parts.heard) if any(line[1] == "COMMIT_SUCCESS" for line in heard)]
    if not able or parts.were_full(parts.servers()):
        return False
    controller = random.choice(able)
    parts.queues = [re.sub(COUNTS, "accepted=0 taken=0", line) if line.startswith(f"queue c{controller} ") else line for line in parts.queues]
    return True


@way("a server that crashed never restarts")
def no_restart(parts, random):
    chaos = parts.told.chaos
    if chaos.crashes is None or parts.were_full([f"c{chaos.crashes % chaos.leaders}"]):
        return False
    # Each message takes a turn, and is posted twice at most: so some were made behind the crash.
    posted = sum(parts.accepted(f"s{chaos.crashes}", "c"))
    if posted == 0 or chaos.at > posted // 2:
        return False
    later, first = f"Z.{chaos.crashes}.1.", f"Z.{chaos.crashes}.0."
    for heard in parts.heard:
        for line in heard:
            line[0] = line[0].replace(later, first)
    parts.writes = [rest.replace(later, first) for rest in parts.writes if rest != f"boot/{chaos.crashes} 1 -"]
    return True


# The first answers.

@way("a first answer is missing")
def lost_mid(parts, random):
    if not parts.mids:
        return False
    parts.mids.pop()
    return True


@way("a first answer counts rows and names no range")
def lost_range(parts, random):
    places = [place for place, line in enumerate(parts.mids) if parts.told.queries[place].startswith("SELECT COUNT(*), SUM(v)") and '"rows":[[0,' not in line]
    return change_at(random, parts.mids, places, r'"ranges":\[\[.*?\]\]', '"ranges":[]')


# Of one of the lines of a kind and a form, another text for a part of it.
OTHER_LINES = {
    "a group of an answer counts one more": ("head", LAST_CELL, LAST_CELL, plus(1)),
    "an end is off by one": ("head", "^end ", r"( )(\d+)$", plus(1)),
    "more was taken than accepted": ("queues", "", r"accepted=(\d+) taken=\d+", lambda found: f"accepted={found[1]} taken={int(found[1]) + 1}"),
    "a request is left in an inbox": ("queues", "^queue s.* taken=[1-9]", r"(taken=)(\d+)", plus(-1)),
    "a reply is left in an inbox": ("queues", "^queue c.* taken=[1-9]", r"(taken=)(\d+)", plus(-1)),
    "a controller took one request less than it heard": ("queues", "^queue s.* taken=[1-9]", COUNTS, counted(-1)),
    "a controller posts more than it answered": ("queues", "^queue c", COUNTS, counted(100_000)),
    "a group of a first answer counts one more": ("mids", LAST_CELL, LAST_CELL, plus(1)),
    "a first answer names a range past the stream": ("mids", RANGED, r'("ranges":\[\[\d+,\d+,)(\d+)', plus(1_000_000)),
    "a first answer names a range that is no piece": ("mids", RANGED, r'("ranges":\[\[\d+,)(\d+)', plus(1)),
    "a first answer misses a piece that was never there": ("mids", "", r'"missing":\[', '"missing":[[0,4000000000]'),
    "a partition of a first answer isn't routed": ("mids", r'"missing":\[\]', r'"missing":\[\]', '"missing":[[0,null]]'),
}
# Of one of the later writes of a form, another text for a part of it.
CHANGED_WRITES = {
    "a version is off by one": ("^(meta|ideal)", r"(^\S+ )(\d+)( )", plus(1)),
    "a digest is another one": ("DONE", r'("digest":")(.)', lambda found: found[1] + ("1" if found[2] == "0" else "0")),
    "a Done segment has one row more": ("DONE", r'("rows":)(\d+)', plus(1)),
    "a Done segment ends one later": ("DONE", r'("end":)(\d+)', plus(1)),
    "a Done segment starts elsewhere": ("DONE", r'("start":)(\d+)', plus(1)),
    "a Done segment has the path of an instance that isn't its replica": ("DONE", r"(Z\.)(\d+)(\.\d+\.\d+\")", lambda found: found[1] + str(int(found[2]) + 16) + found[3]),
    "a Done segment has a path to which nobody uploaded": ("DONE", r"(Z\.\d+\.\d+\.)(\d+)(\")", plus(100_000)),
    "a Done segment has the path of a later life of its server": ("DONE", r"(Z\.\d+\.)(\d+)(\.\d+\")", plus(7)),
    "a Done segment has another segment's name": ("DONE", r'("name":"[^"]*?__\d+__)(\d+)(__)', plus(1)),
    "a segment starts past the end of the one in front of it": (r"^meta/.* 0 ", r'("start":)(\d+)', plus(1)),
    "a segment has the name of another minute": (r"^meta/.* 0 ", r'("name":"[^"]*T\d\d)(\d\d)(Z)', lambda found: f"{found[1]}{(int(found[2]) + 1) % 60:02}{found[3]}"),
    "a segment is abandoned": (r"^meta/.* 1 ", r"\{.*\}", lambda found: re.sub(r'"(?:digest|end|path|rows)":[^,}]*,', "", found[0]).replace("DONE", "ABANDONED")),
    "a metadata text has a space": ("^meta", ",", ", "),
    "an entry of the ideal state is lost": ("^ideal", r'"\d+/\d+":\{[^}]*\},', ""),
    "a mode of the ideal state is another one": ("^ideal", "CONSUMING", "OFFLINE"),
}
# To one of the requests of a form that was answered so, another answer; perhaps only where a further test holds.
OTHER_ANSWERS = {
    "the one COMMIT on which a commitStart rests is a HOLD": (r"consumed .*", r"COMMIT \d+", "HOLD", is_only("COMMIT {}")),
    "a COMMIT is at another offset": (r"consumed .*", r"COMMIT \d+", lambda line: f"COMMIT {offset_of(line) + 1}"),
    "a CATCH_UP is to an offset that nobody reported": (r"consumed .*", r"CATCH_UP \d+", lambda line: f"CATCH_UP {told_offset(line) + 1}",
         lambda heard, place: all(offset_of(line) != told_offset(heard[place]) + 1 for line in heard[:place])),
    "a CATCH_UP is to the reporter's own offset": (r"consumed .*", r"CATCH_UP \d+", lambda line: f"CATCH_UP {offset_of(line)}"),
    "a first report is told to catch up": (r"consumed .*", "HOLD|COMMIT .*", lambda line: f"CATCH_UP {offset_of(line) + 1}", lambda heard, place: place == 0),
    "the one COMMIT_CONTINUE on which an upload rests is a HOLD": ("commitStart .*", "COMMIT_CONTINUE", "HOLD", is_only("COMMIT_CONTINUE")),
    "an upload fails where no store fails": ("upload .*", "UPLOAD_SUCCESS", "FAILED 6"),
    "a commit that was written is told that the version changed": ("commitEnd .*", "COMMIT_SUCCESS", "FAILED 5 expected=0 found=1"),
    "a commit that was overtaken is told of its success": ("commitEnd .*", "FAILED 5.*", "COMMIT_SUCCESS"),
    "a version that changed is another one": ("commitEnd .*", "FAILED 5.*", "FAILED 5 expected=0 found=2"),
    "a job that was followed by another one never ended": ("commitEnd .*", "COMMIT_SUCCESS", "none", lambda heard, place: any(line[1] == "COMMIT_SUCCESS" for line in heard[place + 1:])),
    "a report has a job's answer": ("(consumed|commitStart) .*", ".*", "none"),
    "a leader answers that it doesn't lead": (".*", ".*", "NOT_LEADER"),
    "an answer is none that there is": (".*", ".*", "HOLD "),
}


def keep_table(table, change):
    for name, told in table.items():
        WAYS[name] = lambda parts, random, told=told: change(parts, random, *told)


keep_table(OTHER_LINES, Parts.line)
keep_table(CHANGED_WRITES, Parts.change)
keep_table(OTHER_ANSWERS, Parts.answers)

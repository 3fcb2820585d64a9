"""Faults of the stores at each place of two scripts: whatever fails, rounds of repair and of work bring the cluster back.

The scripts are those of a commit without its faults and crashes, macros written out. Before one event, or before each of two, a fault
is planned; events that are refused then are left out, which the model of the cluster tells. Behind them come rounds in which every
repair, every transition, and everything that a replica can do is tried. At the end the first segment must be committed at its end, or
retired where the script retires, and an answer must miss nothing; and the program's report of all that must be the model's.
"""
import itertools

import header
import lines
import running
import scripts
import world as worlds

FAULTS = ["store lost", "store kept", "deep lost", "deep kept"]
ROUNDS = 30
DROPPED = ("fault", "crash", "restart")
QUERY = "query SELECT COUNT(*) FROM t"
# One case in so many is tried in a quick run; it shares no divisor with the counts of places and of faults.
QUICK = 97
TWO = """
schema {"schemaName":"t","dimensionFieldSpecs":[{"name":"k","dataType":"STRING"}],"metricFieldSpecs":[{"name":"v","dataType":"LONG"}]}
table {"tableName":"t","tableType":"REALTIME","segmentsConfig":{"replication":"2"},"tableIndexConfig":{"invertedIndexColumns":["k"],\
"streamConfigs":{"realtime.segment.flush.threshold.rows":"3","realtime.segment.flush.threshold.time":"1h"}}}
cluster servers=2 controllers=2 partitions=1 start=1700000000000 grace=0 retention=10000
lead c1 on
fill 0 4
consume s0 0/0 3
consume s1 0/0 3
exchange s0 0/0 c0
build s0 0/0
exchange s0 0/0 c0
exchange s1 0/0 c1
exchange s0 0/0 c0
build s1 0/0
exchange s1 0/0 c1
exchange s1 0/0 c1
report s0 0/0
report s1 0/0
deliver m12 c0
job c0 j0
job c0 j0
deliver m13 c1
job c1 j0
job c1 j0
repair c1 0
repair c1 0
repair c1 0
job c0 j0
job c0 j0
job c0 j0
repair c0 0
repair c0 0
repair c0 0
reply m14
reply m15
see s0
see s1
transit s0 0/1
transit s1 0/1
tick 10000
retain c1 0
retain c1 0
retain c0 0
retain c1 0
retain c0 0
retain c0 0
retain c0 0
retain c0 0
retain c0 0
see s1
query SELECT COUNT(*) FROM t
"""


class Told:
    """A world, and the lines that it took."""

    def __init__(self, three):
        self.three, self.world, self.taken, self.report = three, worlds.World(worlds.setup_of(three)), [], []

    def run(self, line):
        """A line's report; a refused one raises, and isn't taken."""
        said = self.world.run(line)
        self.taken.append(line)
        self.report.append(said)
        return said

    def tries(self, line):
        """A line's report, or none where it is refused."""
        try:
            return self.run(line)
        except lines.Refused:
            return None

    def exchanges(self, at, where, to):
        """A request, its delivery, the steps of its job and its reply, as far as they are due."""
        sent = self.tries(f"report {at} {where}")
        said = sent and self.tries(f"deliver {sent.split(' ')[1]} {to}")
        while said and "reply" not in said:
            said = self.tries("job {} {}".format(*said.split(" ")[1:3]))
        if said:
            words = said.split(" ")
            self.tries(f"reply {words[words.index('reply') + 1]}")

    def asks(self, text):
        """What the macro `query` stands for."""
        query = self.run(f"ask {text}").split(" ")[1]
        self.run(f"route {query} 0")
        for sequence, _, _ in self.world.query_at(query).plans[0] or []:
            for server in self.world.setup.replicas(0):
                self.tries(f"piece {query} 0/{sequence} s{server}")
        self.run(f"answer {query}")

    def expand(self, line):
        """Runs the events that a line stands for."""
        word, _, rest = line.partition(" ")
        if word == "fill":
            first = len(self.world.log[0])
            for offset in range(first, first + int(rest.split(" ")[1])):
                self.run(f'produce 0 {{"k":"a","v":{offset}}}')
        elif word == "exchange":
            self.exchanges(*rest.split(" "))
        elif word == "query":
            self.asks(rest)
        else:
            self.run(line)

    def round(self):
        """One try of everything that brings a cluster back."""
        for controller in range(self.world.setup.controllers):
            self.tries(f"repair c{controller} 0")
        for server in range(self.world.setup.servers):
            self.tries(f"see s{server}")
            for where in ("0/0", "0/1"):
                for line in ("transit {}", "download {}", "consume {} 100", "build {}"):
                    self.tries(line.format(f"s{server} {where}"))
                self.exchanges(f"s{server}", where, f"c{self.world.leader().number}")

    def script(self):
        return "".join(f"{line}\n" for line in [*self.three, *self.taken]).encode()


def events_of(text):
    """The three lines of a script's header, and its events without those that fail or crash."""
    kept = [line for _, line in header.kept_lines(text)]
    told = Told(kept[:3])
    for line in kept[3:]:
        told.expand(line)
    return kept[:3], [line for line in told.taken if line.split(" ")[0] not in DROPPED]


def played(three, events, faults):
    """A case: the faults by the places before which they are planned."""
    told = Told(three)
    for place, event in enumerate(events):
        for fault in faults.get(place, []):
            told.run(f"fault {fault}")
        told.tries(event)
    for _ in range(ROUNDS):
        told.round()
    told.run("show meta 0/0")
    told.run(QUERY)
    return told


def unhealed(told):
    """Why a cluster isn't whole at its end, or none."""
    node, answer = told.report[-2:]
    end = len(told.world.log[0])
    retired = node == "nonode meta/0/0"
    if not retired and not ('"end":3,' in node and '"status":"DONE"' in node):
        return f"segment 0/0 isn't committed at 3: {node}"
    first = 3 if retired else 0
    ranges = f"[[0,{first},{end}]]" if first < end else "[]"
    wanted = f'answer {{"ranges":{ranges},"missing":[],"rows":[[{end - first}]]}}'
    return None if answer == wanted else f"another answer: {answer}"


def wrong(program, told):
    ended = running.run(program, told.script())
    report = "".join(f"{line}\n" for line in told.report).encode()
    if (ended.status, ended.said) != (0, b""):
        return ended.shown()
    return unhealed(told) if ended.wrote == report else "the report isn't the model's"


def cases(count, pairs):
    """The faults of each case by their places, with its name."""
    for place, fault in itertools.product(range(count), FAULTS):
        yield f"{fault} before event {place}", {place: [fault]}
    if not pairs:
        return
    for first, second in itertools.combinations_with_replacement(range(count), 2):
        for one, other in itertools.product(FAULTS, FAULTS):
            planned = {first: [one]}
            planned.setdefault(second, []).append(other)
            yield f"{one} before event {first}, {other} before event {second}", planned


def keep(given, part, name, told):
    """Writes a wrong case to the folder of what was found."""
    given.folder.mkdir(parents=True, exist_ok=True)
    path = given.folder / f"{part} {name}".replace(" ", "-").replace(",", "")
    path.write_bytes(told.script())
    return path


def table(given, part, text, pairs):
    """All cases of a script."""
    count = running.Count(part)
    three, events = events_of(text)
    for number, (name, faults) in enumerate(cases(len(events), pairs)):
        if given.quick and number % QUICK:
            continue
        told = played(three, events, faults)
        found = wrong(given.program, told)
        count.case(name, found and f"{found}; {keep(given, part, name, told)}")
    return count.tell(f", {len(events)} events")


def run(given):
    """Both scripts; each pair of places in the first, the shorter one."""
    first = scripts.input_of("a-kept-store-fault").read_text()
    counts = [table(given, "faults in a commit", first, True),
              table(given, "faults in a commit of rivals with a retention", TWO.lstrip(), False)]
    return [sum(each) for each in zip(*counts)]

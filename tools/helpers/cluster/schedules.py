"""Random scripts whose lines are due: each line is chosen by what the model of the cluster can do next."""
import random

import controllers
import moods
import repairs
import servers
import world as worlds

SCHEMA = '{"schemaName":"t","dimensionFieldSpecs":[{"name":"k","dataType":"STRING"}],"metricFieldSpecs":[{"name":"v","dataType":"LONG"}]}'
TABLE = ('{{"tableName":"t","tableType":"REALTIME","segmentsConfig":{{"replication":"{replication}"}},"tableIndexConfig":{{"invertedIndexColumns":["k"],'
         '"streamConfigs":{{"realtime.segment.flush.threshold.rows":"{rows}","realtime.segment.flush.threshold.time":"{time}"}}}}}}')
QUERY = "SELECT COUNT(*), SUM(v), MAX(v) FROM t"


class Settings:
    """The cluster of a schedule."""

    def __init__(self, servers=3, controllers=2, partitions=1, replication=2, retention=None, grace=0, rows=3, time="1h", lines=200, further=False):
        self.servers, self.controllers, self.partitions, self.replication = servers, controllers, partitions, replication
        self.retention, self.grace, self.rows, self.time, self.lines, self.further = retention, grace, rows, time, lines, further

    def header(self):
        kept = "" if self.retention is None else f" retention={self.retention}"
        return [f"schema {SCHEMA}", "table " + TABLE.format(**vars(self)),
                f"cluster servers={self.servers} controllers={self.controllers} partitions={self.partitions} start=1700000000000 grace={self.grace}{kept}"]


class Schedule:
    """One random script: its lines, its report by the model, and the world behind it."""

    def __init__(self, seed, settings):
        self.random, self.settings = random.Random(seed), settings
        self.header = settings.header()
        self.world = worlds.World(worlds.setup_of(self.header))
        self.lines, self.report, self.requests, self.replies, self.unanswered = [], [], [], [], {}
        self.mood = self.random.choice([mood for mood in moods.MOODS if settings.further or mood != "pauses"])
        self.weights = {**moods.WEIGHTS, **moods.MOODS[self.mood]}

    def script(self):
        return "".join(f"{line}\n" for line in [*self.header, *self.lines])

    def text(self):
        return "".join(f"{line}\n" for line in self.report)

    def add(self, line):
        self.report.append(self.world.run(line))
        self.lines.append(line)
        for number in range(len(self.requests) + len(self.replies), len(self.world.messages)):
            message = self.world.messages[number]
            if hasattr(message, "ask"):
                self.requests.append(number)
                self.unanswered[message.number] = number
            else:
                self.replies.append(number)
                self.unanswered.pop(message.number, None)

    def run(self):
        names, weights = list(self.weights), list(self.weights.values())
        follows = moods.FOLLOWS.get(self.mood, 0.65)
        while len(self.lines) < self.settings.lines:
            line = self.followed() if self.random.random() < follows else None
            line = line or getattr(self, "to_" + self.random.choices(names, weights)[0])()
            if line is not None:
                self.add(line)
        return self

    def followed(self):
        """What goes on with the line before, if anything does."""
        words = self.report[-1].split(" ") if self.report else ["-"]
        if words[0] == "sent":
            return self.delivered(int(words[1][1:]))
        if "reply" in words:
            number = int(words[words.index("reply") + 1][1:])
            return f"reply m{number}" if self.waits_for(number) else None
        if words[0] in ("job", "step"):
            return "job {} {}".format(*words[1:3])
        if words[0] in ("repair", "retain") and words[3] in ("listed", "idealRead"):
            return " ".join(words[:3])
        if words[0] == "fault":
            return self.writes_next(words[1])
        if words[0] == "took" and words[-1] in ("CATCHING_UP", "COMMITTING", "RETAINING"):
            return self.goes_on(*words[2:4])
        if words[0] == "built" and words[-1] == "COMMITTING":
            return "report {} {}".format(*words[1:3])
        return None

    def writes_next(self, which):
        """A step that would write in the store, or a step at all in the deep store."""
        jobs = [f"job c{each.number} j{number}" for each in self.world.controllers if each.up for number, job in each.jobs.items()
                if job.step in (("check",) if which == "deep" else controllers.WRITES)]
        walks = [f"{'repair' if kind is repairs.Repair else 'retain'} {at} {partition}" for (kind, at, partition), walk in self.world.walks.items()
                 if walk.seen is not None and self.world.controller_at(at).up and which == "store"]
        return self.one([*jobs, *walks])

    def goes_on(self, at, where):
        replica = self.world.server_at(at).replica(self.world.segment_at(where))
        if replica is None:
            return None
        word = "build" if replica.build_due() else "consume" if replica.consume_due() else "report"
        return f"{word} {at} {where}" + (" 100" if word == "consume" else "")

    def one(self, listed):
        return self.random.choice(listed) if listed else None

    def partition(self):
        return self.random.randrange(self.settings.partitions)

    def up_servers(self):
        return [server for server in self.world.servers if server.up]

    def controller(self):
        """A controller that is up, most often one that leads."""
        up = [each for each in self.world.controllers if each.up]
        leading = [each for each in up if each.leads]
        return self.one(leading if leading and self.random.random() < 0.95 else up)

    def at_replica(self, line, due):
        found = [(server, segment) for server in self.up_servers() for segment in server.held() if due(server.replica(segment))]
        picked = self.one(found)
        return picked and line.format(f"s{picked[0].number} {picked[1][0]}/{picked[1][1]}")

    def at_segment(self, line, listed):
        found = [(server, segment) for server in self.up_servers() for segment in listed(server)]
        picked = self.one(found)
        return picked and line.format(f"s{picked[0].number} {picked[1][0]}/{picked[1][1]}")

    def to_fill(self):
        return f"fill {self.partition()} {self.random.randint(1, 4)}"

    def to_produce(self):
        text = self.random.choice(['{"k":"a","v":1}', '{"k":"b","v":2}', '{"k":"c","v":-5}', "oops", ""])
        return f"produce {self.partition()} {text}"

    def to_consume(self):
        most = self.random.choice([1, 2, 3, 10, 100])
        ready = lambda replica: replica.consume_due() and (replica.ready(len(replica.log), self.world.now) == "true" or self.random.random() < 0.1)
        return self.at_replica(f"consume {{}} {most}", ready)

    def to_force(self):
        return self.at_replica("force {}", lambda replica: replica.force_due())

    def to_stop(self):
        return self.at_replica("stop {}", lambda replica: replica.state in servers.STOPPABLE)

    def to_build(self):
        return self.at_replica("build {}", lambda replica: replica.build_due())

    def to_report(self):
        waits = 0.3 if self.mood in ("slow", "messages", "repeats") else 0.1
        return self.at_replica("report {}", lambda replica: replica.asked() and (replica.waited is None or self.random.random() < waits))

    def to_extend(self):
        millis = self.random.choice([1, 60_000, 200_000, 1_000_000, 5_000_000])
        return self.at_replica(f"extend {{}} {millis}", lambda replica: replica.extend_due())

    def delivered(self, number):
        controller = self.controller()
        return controller and f"deliver m{number} c{controller.number}"

    def to_deliver(self):
        number = self.one(list(self.unanswered.values())[-8:])
        return None if number is None else self.delivered(number)

    def to_again(self):
        number = self.one(self.requests[-12:] if self.random.random() < 0.7 else self.requests)
        return None if number is None else self.delivered(number)

    def waits_for(self, number):
        reply = self.world.messages[number]
        replica = self.world.servers[reply.number[0]].replica((reply.partition, reply.sequence))
        return self.is_up(number) and replica is not None and replica.waited is not None and replica.waited[0] == reply.number

    def is_up(self, number):
        return self.world.servers[self.world.messages[number].number[0]].up

    def to_reply(self):
        found = [number for number in self.replies[-10:] if self.waits_for(number)]
        return f"reply m{self.one(found)}" if found else None

    def to_reply_again(self):
        number = self.one(self.replies[-20:])
        return f"reply m{number}" if number is not None and self.is_up(number) else None

    def to_job(self):
        found = [(controller, job) for controller in self.world.controllers if controller.up for job in controller.jobs]
        picked = self.one(found)
        return picked and f"job c{picked[0].number} j{picked[1]}"

    def to_crash_server(self):
        picked = self.one(self.up_servers())
        return picked and f"crash s{picked.number}"

    def to_crash_controller(self):
        picked = self.one([each for each in self.world.controllers if each.up])
        return picked and f"crash c{picked.number}"

    def to_restart(self):
        down = [f"s{each.number}" for each in self.world.servers if not each.up] + [f"c{each.number}" for each in self.world.controllers if not each.up]
        return f"restart {self.one(down)}" if down else None

    def to_see(self):
        picked = self.one(self.up_servers())
        return picked and f"see s{picked.number}"

    def to_transit(self):
        return self.at_segment("transit {}", lambda server: server.due_transits())

    def to_download(self):
        return self.at_segment("download {}", lambda server: server.wanted())

    def to_walk(self, word, kind, begins):
        """A step of what is under way, more often than the first one of another."""
        under_way = [(at, partition) for what, at, partition in self.world.walks if what is kind and self.world.controller_at(at).up]
        if under_way and self.random.random() < 0.8:
            return "{} {} {}".format(word, *self.one(under_way))
        leading = self.one([each for each in self.world.controllers if each.up and each.leads])
        return f"{word} c{leading.number} {self.partition()}" if leading and begins else None

    def to_repair(self):
        return self.to_walk("repair", repairs.Repair, True)

    def to_retain(self):
        return self.to_walk("retain", repairs.Retirement, self.settings.retention is not None)

    def to_fault(self):
        return f"fault {self.random.choice(['store', 'store', 'deep'])} {self.random.choice(['lost', 'kept'])}"

    def to_lead_on(self):
        picked = self.one([each for each in self.world.controllers if each.up and not each.leads])
        return picked and f"lead c{picked.number} on"

    def to_lead_off(self):
        picked = self.one([each for each in self.world.controllers if each.up and each.leads])
        return picked and f"lead c{picked.number} off"

    def to_tick(self):
        return f"tick {self.random.choice(moods.TICKS)}"

    def to_long_tick(self):
        return f"tick {self.random.choice(moods.LONG_TICKS)}"

    def to_exchange(self):
        controller = self.controller()
        return controller and self.at_replica(f"exchange {{}} c{controller.number}", lambda replica: replica.asked())

    def to_settle(self):
        return f"settle {self.random.choice([1, 2, 5])}"

    def to_query(self):
        return f"query {QUERY}"

    def to_ask(self):
        return f"ask {QUERY}"

    def open_queries(self):
        return [(number, query) for number, query in enumerate(self.world.queries) if query is not None]

    def to_route(self):
        found = [(number, partition) for number, query in self.open_queries() for partition in range(self.settings.partitions) if partition not in query.plans]
        return "route q{} {}".format(*self.one(found)) if found else None

    def to_piece(self):
        setup = self.world.setup
        found = [(number, partition, piece[0], server) for number, query in self.open_queries() for partition, plan in query.plans.items() for piece in plan or []
                 for server in setup.replicas(partition) if query.due(setup, partition, piece[0], server)]
        return "piece q{} {}/{} s{}".format(*self.one(found)) if found else None

    def to_answer(self):
        found = [number for number, query in self.open_queries() if query.ended(self.world.setup)]
        return f"answer q{self.one(found)}" if found else None

    def to_show(self):
        partition = self.partition()
        last = self.world.last(partition)[0]
        return self.random.choice(["show ideal", f"show meta {partition}/{self.random.randint(max(0, last - 2), last + 1)}"])

    def to_pause(self):
        return "pause"

    def to_resume(self):
        return "resume" if self.world.paused else None

    def to_force_commit(self):
        return "forceCommit"

    def to_force_status(self):
        return f"forceStatus f{self.random.randrange(len(self.world.forced))}" if self.world.forced else None

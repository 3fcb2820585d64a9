"""The nodes of a running cluster, one turn at a time."""
import answers
import repairs

FIRST_WAIT, LONGEST_WAIT = 64, 1_048_576
BATCH = 100


class Node:
    """What nodes have in common: the run, and the count of the messages that it made."""

    def __init__(self, run, name=""):
        self.run, self.name, self.made = run, name, 0

    def post(self, to, message):
        self.made += 1
        self.run.post(self.name, to, message, self.made)


class ProducerNode(Node):
    """Appends the rows in the order of the input."""

    def __init__(self, run):
        super().__init__(run)
        self.left = iter(run.told.rows)

    def turn(self):
        row = next(self.left, None)
        if row is None:
            self.run.all_appended = True
        else:
            self.run.cluster.log[row[0]].append(row[1])


class ServerNode(Node):
    def __init__(self, run, number):
        super().__init__(run, f"s{number}")
        self.number, self.server, self.turns = number, run.cluster.servers[number], 0
        # Of each replica that waits: in which turn it asked, and how many turns it waits.
        self.asked, self.waits = {}, {}

    def turn(self):
        turn, self.turns = self.turns, self.turns + 1
        chaos = self.run.told.chaos
        if chaos.crashes == self.number and turn == chaos.at:
            self.server.crash()
            self.asked, self.waits = {}, {}
        elif not self.server.up:
            self.run.cluster.on_restart(self.name)
        elif not self.takes():
            if turn % 8 == 7:
                self.server.see(self.run.cluster.ideal())
            else:
                self.goes_on(turn)

    def takes(self):
        """Whether there was a reply."""
        reply = self.run.take(self.name)
        if reply is None:
            return False
        if self.run.cluster.takes(reply) is not None:
            self.waits.pop((reply.partition, reply.sequence), None)
        return True

    def goes_on(self, turn):
        """The first event that a settled round would do for the server."""
        cluster, server = self.run.cluster, self.server
        for segment in server.due_transits():
            self.run.read_clock()
            server.transit(cluster, segment)
            return
        for segment in server.wanted():
            cluster.deep.get(server.table[segment].meta.path)
            server.table[segment].wanted = False
            return
        for segment in server.held():
            if self.steps(server.replica(segment), turn):
                return

    def steps(self, replica, turn):
        """Whether a replica had something to do."""
        if replica.consume_due():
            self.run.read_clock()
            if replica.ready(len(replica.log), self.run.cluster.now) == "true":
                replica.consume(BATCH, self.run.cluster.now)
                return True
            if self.run.all_appended and replica.force_due() and replica.cur == len(replica.log):
                replica.force()
                return True
        if replica.build_due():
            replica.build()
            return True
        return self.asks(replica, turn)

    def asks(self, replica, turn):
        if replica.asked() is None:
            return False
        if replica.waited is not None:
            wait = self.waits.get(replica.segment, FIRST_WAIT)
            if turn < self.asked[replica.segment] + wait:
                return False
            self.waits[replica.segment] = min(2 * wait, LONGEST_WAIT)
        self.asked[replica.segment] = turn
        number, text = self.run.cluster.sends(self.server, replica, "request")
        self.post(f"c{self.number % self.run.told.chaos.leaders}", (self.run.cluster.messages[number], text))
        return True

    def stop(self):
        """Takes what lies in its inbox."""
        while self.takes():
            pass


class ControllerNode(Node):
    def __init__(self, run, number):
        super().__init__(run, f"c{number}")
        self.number, self.controller = number, run.cluster.controllers[number]
        # Each request with its status, or none; and the line of each job.
        self.heard, self.lines = [], {}

    def turn(self, posts=True):
        """Whether there was something to do."""
        if self.controller.jobs:
            self.works(posts)
            return True
        return self.hears(posts)

    def works(self, posts):
        job = min(self.controller.jobs)
        request = self.controller.jobs[job].request
        self.run.read_clock()
        _, _, status = self.controller.works(self.run.cluster, job)
        if status is not None:
            line = self.lines.pop(job)
            self.heard[line] = self.heard[line][0], status
            self.answers(request, status, posts)

    def hears(self, posts):
        found = self.run.take(self.name)
        if found is None:
            return False
        request, text = found
        self.run.read_clock()
        said = self.controller.handles(self.run.cluster, request)
        if isinstance(said, int):
            self.lines[said] = len(self.heard)
            self.heard.append((text, None))
        else:
            self.heard.append((text, said))
            self.answers(request, said, posts)
        return True

    def answers(self, request, status, posts):
        reply = self.run.cluster.answered(request, status)
        if posts:
            self.post(f"s{request.instance}", self.run.cluster.messages[reply])

    def stop(self):
        """Has some more turns, takes what lies in its inbox, and ends its jobs then, or leaves them."""
        for _ in range(self.run.random.choice((0, 0, 5, 1_000))):
            self.turn(posts=False)
        while self.hears(posts=False):
            pass
        while self.controller.jobs and self.run.random.random() < 0.8:
            self.works(posts=False)


class RepairerNode(Node):
    """Repairs one partition after the other, a step a turn."""

    def __init__(self, run):
        super().__init__(run)
        self.repair, self.next = None, 0

    def turn(self):
        if self.repair is None:
            self.repair, self.next = repairs.Repair(self.next), (self.next + 1) % self.run.setup.partitions
        self.run.read_clock()
        self.repair.step(self.run.cluster)
        if self.repair.ended:
            self.repair = None


class BrokerNode(Node):
    """Answers each query once from the start on, and, when all is committed, each until its answer misses nothing."""

    def __init__(self, run):
        super().__init__(run)
        self.query, self.first, self.answered = None, [], []

    def turn(self):
        if self.query is None:
            self.begins()
        else:
            self.goes_on()

    def begins(self):
        queries = self.run.told.queries
        if len(self.first) < len(queries):
            self.query = answers.Query(queries[len(self.first)])
        elif self.run.all_appended and self.run.is_committed():
            if len(self.answered) == len(queries):
                self.run.all_answered = True
            else:
                self.query = answers.Query(queries[len(self.answered)])

    def goes_on(self):
        """One partition is routed, one server asked for one piece, or the answer given."""
        query, setup = self.query, self.run.setup
        if len(query.plans) < setup.partitions:
            partition = len(query.plans)
            query.plans[partition] = answers.plan(self.run.cluster.store.list(partition))
            return
        for partition in range(setup.partitions):
            for sequence, start, end in query.plans[partition]:
                for server in setup.replicas(partition):
                    if query.due(setup, partition, sequence, server):
                        self.asks(partition, sequence, start, end, server)
                        return
        self.ends()

    def asks(self, partition, sequence, start, end, server):
        self.query.asked.setdefault((partition, sequence), []).append(server)
        node = self.run.cluster.servers[server]
        served = node.serves((partition, sequence), start, end) if node.up else None
        if served is not None:
            self.query.served[partition, sequence] = served

    def ends(self):
        query, self.query = self.query, None
        if len(self.first) < len(self.run.told.queries):
            self.first.append((query, [list(messages) for messages in self.run.cluster.log]))
        elif all((partition, piece[0]) in query.served for partition, plan in query.plans.items() for piece in plan):
            self.answered.append(query)

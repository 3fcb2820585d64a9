"""The nodes of a running cluster by the model, in a random order of their turns: `Run.journal` gives what `rtlive --journal` would write."""
import collections
import random

import header
import live_input
import nodes
import storage
import world

# After so many turns without an end a run is given up.
MOST_TURNS = 1_000_000
# How far a reading of the clock is from the one before, at most: with a great pace windows and deadlines pass early. So that commits
# come to their end, the pace changes, and is 1 after some time.
PACES = (1, 1, 1, 5, 5, 100, 2_000, 40_000)
HURRIED_TURNS, SAME_PACE = 40_000, 300


class NoEnd(Exception):
    """A run didn't end within its turns."""


class Recorded(storage.Store):
    """A store that keeps its history."""

    def __init__(self):
        super().__init__()
        self.history = []

    def put(self, key, node):
        version = super().put(key, node)
        self.history.append((key, version, node if isinstance(node, str) else node.text()))
        return version


class Cluster(world.World):
    """The world that the nodes share, without the limits of a script."""
    new_store = Recorded

    def spend(self, **costs):
        """A running cluster has none of these limits."""

    def start_further(self):
        """It reads no settings of upserts, and nothing pauses it."""
        self.paused = False


class Queue:
    """How many messages a queue accepted, and how many of these were taken."""

    def __init__(self):
        self.accepted, self.taken = 0, 0


class Run:
    """One run of an input; the seed says in which order the nodes have their turns, and how fast time passes."""

    def __init__(self, told, seed):
        self.told, self.random = told, random.Random(seed)
        self.setup, self.cluster = told.setup, Cluster(told.setup)
        self.wanted = [len(messages) for messages in told.log()]
        self.readings, self.pace = 0, 1
        self.all_appended = self.all_answered = False
        self.looked = None, False
        self.queues = collections.defaultdict(Queue)
        self.inboxes = collections.defaultdict(collections.deque)
        for controller in self.cluster.controllers:
            controller.believe(controller.number < told.chaos.leaders)
        self.servers = [nodes.ServerNode(self, number) for number in range(self.setup.servers)]
        self.controllers = [nodes.ControllerNode(self, number) for number in range(self.setup.controllers)]
        self.broker = nodes.BrokerNode(self)
        self.nodes = [nodes.ProducerNode(self), *self.servers, *self.controllers, nodes.RepairerNode(self), self.broker]

    def read_clock(self):
        """Sets the moment of a step to a reading of the clock."""
        self.readings += self.random.randint(1, self.pace)
        self.cluster.now = min(self.setup.start + self.readings, header.LAST_MOMENT)

    def is_committed(self):
        """Whether each committed end is the length of the input's partition; looked at again where the store was written."""
        written = len(self.cluster.store.history)
        if self.looked[0] != written:
            self.looked = written, self.reaches_ends()
        return self.looked[1]

    def reaches_ends(self):
        return all(self.cluster.end(partition) == wanted for partition, wanted in enumerate(self.wanted))

    def post(self, sender, to, message, number):
        """Posts a node's message of this number, from 1 on, as often as the chaos line says."""
        for _ in range(self.told.chaos.copies(number)):
            if len(self.inboxes[to]) < live_input.CAPACITY:
                self.queues[sender, to].accepted += 1
                self.inboxes[to].append((sender, message))

    def take(self, owner):
        """The next message of an inbox, or none."""
        if not self.inboxes[owner]:
            return None
        sender, message = self.inboxes[owner].popleft()
        self.queues[sender, owner].taken += 1
        return message

    def run(self):
        """Gives the nodes their turns until all is answered, and then drains their inboxes."""
        weights = [1.0] * len(self.nodes)
        for turn in range(MOST_TURNS):
            if turn % SAME_PACE == 0:
                weights = [self.random.choice((0.05, 0.3, 1.0, 3.0)) for _ in self.nodes]
                self.pace = self.random.choice(PACES) if turn < HURRIED_TURNS else 1
            self.random.choices(self.nodes, weights)[0].turn()
            if self.all_answered:
                self.drain()
                return self
        raise NoEnd

    def drain(self):
        """No node posts any more, and what still lies in inboxes is taken."""
        owners = [*self.servers, *self.controllers]
        self.random.shuffle(owners)
        for node in owners:
            node.stop()

    def output(self):
        ended = [f"answer {query.answer(self.setup, self.cluster.log)}" for query in self.broker.answered]
        return ended + [f"end {partition} {self.cluster.end(partition)}" for partition in range(self.setup.partitions)]

    def journal(self):
        """All lines that `rtlive --journal` would write."""
        lines = self.output()
        lines += [f"write {place} {storage.key_text(key)} {version} {text}" for place, (key, version, text) in enumerate(self.cluster.store.history)]
        for controller in self.controllers:
            lines += [f"heard c{controller.number} {place} {request} -> {status or 'none'}" for place, (request, status) in enumerate(controller.heard)]
        servers, controllers = ([f"{letter}{number}" for number in range(count)] for letter, count in (("s", self.setup.servers), ("c", self.setup.controllers)))
        for senders, receivers in ((servers, controllers), (controllers, servers)):
            lines += [f"queue {a} {b} accepted={self.queues[a, b].accepted} taken={self.queues[a, b].taken}" for a in senders for b in receivers]
        return lines + [f"mid {query.answer(self.setup, log)}" for query, log in self.broker.first]

    def text(self):
        """The same as one text."""
        return "".join(f"{line}\n" for line in self.journal())


def run_of(text, seed):
    """The journal of an input, as its whole output."""
    return Run(live_input.read(text), seed).run().text()

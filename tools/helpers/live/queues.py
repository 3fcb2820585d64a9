"""The queues between servers and controllers: who posts to whom, and how much.

A node counts its messages, and the chaos line says how many copies of each are posted. Where an inbox was never full it has taken just these
in, in the order of their numbers; and the path of an upload tells its message's number, as long as its server hasn't crashed.
"""
import journal
import live_input

# For each segment that it commits a server consumes, takes three replies and builds, each in a turn of its own.
TURNS_OF_COMMIT = 5


def first_turn(message, commits=0):
    """The first turn in which a server can make its message of this number, from 1 on, behind so many commits; it has consumed before."""
    return message - 1 + max(1, TURNS_OF_COMMIT * commits)


class Queues:
    """The checks of a journal's queues."""

    def __init__(self, told, history, replayed, queues):
        self.told, self.setup, self.chaos, self.history, self.replayed, self.queues = told, told.setup, told.chaos, history, replayed, queues
        self.servers, self.controllers = ([f"{letter}{number}" for number in range(count)]
                                          for letter, count in (("s", told.setup.servers), ("c", told.setup.controllers)))
        self.found = {(queue.sender, queue.receiver): queue for queue in queues}

    def check(self):
        self.check_pairs()
        for number, name in enumerate(self.controllers):
            self.check_requests(name, number)
            self.check_replies(name, self.replayed[number])
        for number, name in enumerate(self.servers):
            self.check_messages(name, number)

    def check_pairs(self):
        wanted = [(a, b) for a in self.servers for b in self.controllers] + [(a, b) for a in self.controllers for b in self.servers]
        for queue, pair in zip(self.queues, wanted):
            if (queue.sender, queue.receiver) != pair:
                raise journal.Fault(queue.line, f"here stands the queue from {pair[0]} to {pair[1]}")
            if queue.taken != queue.accepted:
                raise journal.Fault(queue.line, "what was accepted is taken, and no more")
        if len(self.queues) != len(wanted):
            raise journal.Fault(self.queues[-1].line + 1 if self.queues else 1, f"there are {len(wanted)} queues")

    def to(self, name):
        """How much all queues to a node have accepted."""
        return sum(queue.accepted for queue in self.queues if queue.receiver == name)

    def was_full(self, name):
        """Whether the inbox of a node can have been full, so that messages are lost which the chaos line doesn't name."""
        return self.to(name) >= live_input.CAPACITY

    def check_requests(self, name, number):
        for place, server in enumerate(self.servers):
            queue = self.found[server, name]
            if queue.accepted and place % self.chaos.leaders != number:
                raise journal.Fault(queue.line, f"{server} asks c{place % self.chaos.leaders} alone")
            if queue.accepted and not any(place in self.setup.replicas(partition) for partition in range(self.setup.partitions)):
                raise journal.Fault(queue.line, f"{server} has no replica, and so nothing to ask")
        if self.to(name) != len(self.replayed[number].heard):
            raise journal.Fault(self.found[self.servers[0], name].line, f"{name} took {self.to(name)} requests, and heard {len(self.replayed[number].heard)}")

    def check_replies(self, name, replayed):
        """A controller's messages are its answers, up to some moment behind its last commit."""
        replies = [self.found[name, server] for server in self.servers]
        posted, line = sum(queue.accepted for queue in replies), replies[0].line
        answered = sum(heard.status != "none" for heard in replayed.heard)
        if posted > self.chaos.posted(answered):
            raise journal.Fault(line, f"of {answered} answers {name} can have posted {self.chaos.posted(answered)} at most")
        for server, reply in zip(self.servers, replies):
            if reply.accepted > self.found[server, name].taken * (2 if self.chaos.repeat else 1):
                raise journal.Fault(reply.line, f"{name} took {self.found[server, name].taken} requests of {server}")
        if any(map(self.was_full, self.servers)):
            return
        least = max(replayed.own_done.values(), default=0)
        if posted < self.chaos.posted(least):
            raise journal.Fault(line, f"{name} gave {least} answers before its last commit, and posted {self.chaos.posted(least)} of them")
        self.messages(name, line, posted)

    def messages(self, name, line, posted):
        """The least number of messages of which so many copies are posted."""
        found = self.chaos.least(posted)
        if self.chaos.posted(found) != posted:
            raise journal.Fault(line, f"by the chaos line no number of messages of {name} is posted {posted} times")
        return found

    def check_messages(self, name, number):
        """A server's messages are requests to its own controller, and come to it in their order."""
        to = number % self.chaos.leaders
        queue, heard = self.found[name, self.controllers[to]], self.replayed[to].heard
        for place, line in enumerate(heard):
            if line.kind == "upload" and (line.path.instance, line.path.incarnation) == (number, 0):
                self.check_upload(name, number, queue, heard, place, line)
        if not self.was_full(self.controllers[to]):
            self.check_crash(name, number, queue.line, self.messages(name, queue.line, queue.accepted))
            if queue.accepted == len(heard):
                self.check_copies(name, heard)

    def check_upload(self, name, number, queue, heard, place, line):
        """A server that hasn't crashed gives its messages the numbers from 0 on."""
        message = line.path.count + 1
        if self.chaos.crashes == number and first_turn(message) >= self.chaos.at:
            raise journal.Fault(line.line, f"{name} crashes in its turn {self.chaos.at}, before it has made so many requests")
        copies = self.chaos.copies(message)
        if copies == 0:
            raise journal.Fault(line.line, f"message {message} of {name} is never posted")
        if self.was_full(queue.receiver):
            return
        places = [other for other, each in enumerate(heard) if each.kind == "upload" and each.path.text == line.path.text]
        if len(places) != copies:
            raise journal.Fault(line.line, f"message {message} of {name} is posted {copies} times")
        others = len(heard) - queue.accepted
        if not 0 <= places[0] - self.chaos.posted(message - 1) <= others:
            raise journal.Fault(line.line, f"in front of message {message} of {name} come {self.chaos.posted(message - 1)} of its requests, and at most {others} of others")

    def check_crash(self, name, number, line, messages):
        """A server that makes a message behind its crash has restarted."""
        if self.chaos.crashes != number or not messages or self.history.versions["boot", number]:
            return
        commits = sum(journal.path_of(path).instance == number for path in self.history.paths)
        if first_turn(messages, commits) >= self.chaos.at:
            raise journal.Fault(line, f"{name} crashes in its turn {self.chaos.at}, and made message {messages} behind it: it must have restarted")

    def check_copies(self, name, heard):
        """Where one server alone asks, the copies of a message stand together."""
        place, message = 0, 1
        while place < len(heard):
            copies = heard[place:place + self.chaos.copies(message)]
            if any(asked(line) != asked(copies[0]) for line in copies):
                raise journal.Fault(copies[0].line, f"message {message} of {name} is posted {len(copies)} times")
            place, message = place + len(copies), message + 1


def asked(line):
    """What a line asks."""
    return line.kind, line.offset, line.reason, line.path and line.path.text

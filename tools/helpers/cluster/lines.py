"""The lines that are single events: what each needs, does and reports."""
import answers
import limits
import repairs
import servers
import storage


class Refused(Exception):
    """Why a line is refused."""


class Lines(limits.Limits):
    """Of a world: a method for each first word of a line. What follows the word is its argument."""

    def needs(self, *conditions):
        """The first refusal whose condition is false, in the order of the rules."""
        for reason, condition in zip(("NoSuchNode", "NoSuchMessage", "NodeDown", "NothingToDo"), conditions):
            if not condition():
                raise Refused(reason)

    def server_at(self, text):
        number = int(text[1:])
        return self.servers[number] if number < len(self.servers) else None

    def controller_at(self, text):
        number = int(text[1:])
        return self.controllers[number] if number < len(self.controllers) else None

    def segment_at(self, text):
        partition, sequence = map(int, text.split("/"))
        return (partition, sequence) if partition < self.setup.partitions else None

    def replica_at(self, at, where, due=lambda replica: True):
        """The server and the replica of a line at which something is due."""
        server, segment = self.server_at(at), self.segment_at(where)
        self.needs(lambda: server is not None and segment is not None, lambda: True, lambda: server.up,
                   lambda: server.replica(segment) is not None and due(server.replica(segment)))
        return server, server.replica(segment)

    def on_produce(self, rest):
        partition, _, text = rest.partition(" ")
        self.needs(lambda: int(partition) < self.setup.partitions)
        self.spend(message=limits.size_of(text))
        self.log[int(partition)].append(text)
        return f"produced {partition}@{len(self.log[int(partition)]) - 1}"

    def on_tick(self, rest):
        self.spend(moment=self.now + int(rest))
        self.now += int(rest)
        return f"now {self.now}"

    def on_lead(self, rest):
        at, belief = rest.split(" ")
        controller = self.controller_at(at)
        self.needs(lambda: controller is not None, lambda: True, lambda: controller.up)
        self.spend()
        controller.believe(belief == "on")
        return f"lead {rest}"

    def on_consume(self, rest):
        at, where, most = rest.split(" ")
        _, replica = self.replica_at(at, where, lambda replica: replica.consume_due() and 1 <= int(most) < 2**32)
        self.spend()
        before = replica.state
        replica.consume(most, self.now)
        by = f" by {replica.reason}" if before == "INITIAL_CONSUMING" and replica.state == "HOLDING" else ""
        self.cells["consume", before, replica.state + by] += 1
        return f"consumed {at} {where} cur={replica.cur} rows={len(replica.rows)} {replica.state}"

    def on_force(self, rest):
        _, replica = self.replica_at(*rest.split(" "), servers.Replica.force_due)
        self.spend()
        replica.force()
        return f"forced {rest} {replica.state}"

    def on_stop(self, rest):
        _, replica = self.replica_at(*rest.split(" "), lambda replica: replica.state in servers.STOPPABLE)
        self.spend()
        self.cells["stop", replica.state] += 1
        replica.stop()
        return f"stopped {rest} {replica.state}"

    def on_build(self, rest):
        _, replica = self.replica_at(*rest.split(" "), servers.Replica.build_due)
        self.spend()
        self.cells["build", replica.state] += 1
        replica.build()
        return f"built {rest} rows={len(replica.rows)} {replica.state}"

    def on_report(self, rest):
        server, replica = self.replica_at(*rest.split(" "), lambda replica: replica.asked() is not None)
        number, text = self.sends(server, replica, "request")
        return f"sent m{number} {text}"

    def on_extend(self, rest):
        at, where, millis = rest.split(" ")
        server, replica = self.replica_at(at, where, servers.Replica.extend_due)
        number, text = self.sends(server, replica, "extend", int(millis))
        return f"sent m{number} {text}"

    def message_at(self, text, is_request):
        number = int(text[1:])
        found = self.messages[number] if number < len(self.messages) else None
        return found if found is not None and hasattr(found, "ask") == is_request else None

    def on_deliver(self, rest):
        at, to = rest.split(" ")
        request, controller = self.message_at(at, True), self.controller_at(to)
        self.needs(lambda: controller is not None, lambda: request is not None, lambda: controller.up)
        said = self.delivers(controller, request)
        return f"job {to} j{said}" if isinstance(said, int) else f"reply m{self.answered(request, said)} {said}"

    def delivers(self, controller, request):
        """A reply's status, or the number of a job that a request starts."""
        self.spend()
        return controller.handles(self, request)

    def works(self, controller, number):
        """A step of a job: its name, its outcome and its reply, or none."""
        self.spend(stored=controller.jobs[number].sets(self))
        return controller.works(self, number)

    def on_job(self, rest):
        at, number = rest.split(" ")
        controller = self.controller_at(at)
        self.needs(lambda: controller is not None, lambda: int(number[1:]) in controller.jobs, lambda: controller.up)
        request = controller.jobs[int(number[1:])].request
        step, outcome, status = self.works(controller, int(number[1:]))
        return f"step {at} {number} {step} {outcome}" + (f" reply m{self.answered(request, status)} {status}" if status else "")

    def on_reply(self, rest):
        reply = self.message_at(rest, False)
        self.needs(lambda: True, lambda: reply is not None, lambda: self.servers[reply.number[0]].up)
        self.spend()
        state = self.takes(reply)
        return f"ignored {rest}" if state is None else f"took {rest} s{reply.number[0]} {reply.partition}/{reply.sequence} {state}"

    def node_at(self, text):
        return self.server_at(text) if text[0] == "s" else self.controller_at(text)

    def on_crash(self, rest):
        node = self.node_at(rest)
        self.needs(lambda: node is not None, lambda: True, lambda: node.up)
        self.spend()
        node.crash()
        return f"down {rest}"

    def on_restart(self, rest):
        node = self.node_at(rest)
        self.needs(lambda: node is not None, lambda: True, lambda: True, lambda: not node.up)
        self.spend()
        if rest[0] == "c":
            node.up = True
            return f"up {rest}"
        try:
            node.incarnation, node.made = self.store.bump(node.number), 0
        except storage.Failed as failed:
            self.cells["server", "restart", str(failed)] += 1
            return f"failed restart {rest}"
        node.up = True
        self.cells["server", "restart", "up"] += 1
        return f"up {rest} {node.incarnation}"

    def placed(self, rest, due):
        """The server and the segment of a line, once the server's test of that name says that the line is due."""
        at, where = rest.split(" ")
        server, segment = self.server_at(at), self.segment_at(where)
        self.needs(lambda: server is not None and segment is not None, lambda: True, lambda: server.up, lambda: getattr(server, due)(segment))
        self.spend()
        return server, segment

    def failed(self, step, rest):
        """What is reported of a server's step whose store met a fault."""
        self.cells["server", step, "failed"] += 1
        return f"failed {step} {rest}"

    def on_see(self, rest):
        server = self.server_at(rest)
        self.needs(lambda: server is not None, lambda: True, lambda: server.up)
        self.spend()
        try:
            version, state = self.store.read(storage.IDEAL)
        except storage.Failed:
            return self.failed("see", rest)
        server.see(state)
        self.cells["server", "see", "seen"] += 1
        return f"seen {rest} {version}"

    def on_transit(self, rest):
        server, segment = self.placed(rest, "transit_due")
        try:
            state, case = server.transit(self, segment)
        except storage.Failed:
            return self.failed("transit", rest)
        self.cells[("transit", *case)] += 1
        return f"moved {rest} {state}"

    def on_download(self, rest):
        server, segment = self.placed(rest, "wants")
        try:
            self.deep.get(server.table[segment].meta.path)
        except storage.Failed:
            return self.failed("download", rest)
        self.cells["server", "download", "loaded"] += 1
        server.table[segment].wanted = False
        return f"loaded {rest} rows={server.table[segment].meta.rows}"

    def walks_on(self, kind, rest):
        at, partition = rest.split(" ")
        controller, key = self.controller_at(at), (kind, at, partition)
        begins = lambda: controller.leads and (kind is repairs.Repair or self.setup.retention is not None)
        self.needs(lambda: controller is not None and int(partition) < self.setup.partitions, lambda: True, lambda: controller.up,
                   lambda: key in self.walks or begins())
        walk = self.walks.get(key) or kind(int(partition))
        self.spend(stored=walk.sets(self))
        self.walks[key] = walk
        said = walk.step(self)
        if walk.ended:
            del self.walks[key]
        return said

    def on_repair(self, rest):
        return f"repair {rest} {self.walks_on(repairs.Repair, rest)}"

    def on_retain(self, rest):
        return f"retain {rest} {self.walks_on(repairs.Retirement, rest)}"

    def on_fault(self, rest):
        which, how = rest.split(" ")
        self.spend()
        (self.store if which == "store" else self.deep).planned.append(how == "kept")
        return f"fault {rest}"

    def on_ask(self, rest):
        number = answers.number_of(rest, self.setup)
        self.spend(queries=number is None)
        if number is not None:
            return f"noquery {number}"
        self.queries.append(answers.Query(rest))
        return f"asked q{len(self.queries) - 1}"

    def query_at(self, text):
        number = int(text[1:])
        return self.queries[number] if number < len(self.queries) else None

    def on_route(self, rest):
        at, partition = rest.split(" ")
        query = self.query_at(at)
        self.needs(lambda: int(partition) < self.setup.partitions, lambda: query is not None, lambda: True, lambda: int(partition) not in query.plans)
        self.spend()
        try:
            query.plans[int(partition)] = answers.plan(self.store.list(int(partition)))
        except storage.Failed:
            query.plans[int(partition)] = None
            self.cells["query", "route", "failed"] += 1
            return f"failed route {rest}"
        self.cells["query", "route", "routed"] += 1
        return f"routed {rest} {len(query.plans[int(partition)])}"

    def on_piece(self, rest):
        at, where, to = rest.split(" ")
        query, segment, server = self.query_at(at), self.segment_at(where), self.server_at(to)
        self.needs(lambda: segment is not None and server is not None, lambda: query is not None, lambda: True,
                   lambda: query.due(self.setup, *segment, server.number))
        self.spend()
        query.asked.setdefault(segment, []).append(server.number)
        if not server.up:
            self.cells["query", "piece of a server that is down", "nodedown"] += 1
            return f"nodedown {at} {where}"
        served = server.serves(segment, *query.piece(*segment)[1:])
        held = server.table.get(segment)
        kind = held.state if isinstance(held, servers.Replica) else "no entry" if held is None else "wanted" if held.wanted else "file"
        self.cells["query", f"piece of {kind}", "notserved" if served is None else "served"] += 1
        if served is None:
            return f"notserved {at} {where}"
        query.served[segment] = served
        return "piece {} {} {} {}".format(at, where, *served)

    def on_answer(self, rest):
        query = self.query_at(rest)
        self.needs(lambda: True, lambda: query is not None, lambda: True, lambda: query.ended(self.setup))
        self.spend()
        self.queries[int(rest[1:])] = None
        return f"answer {query.answer(self.setup, self.log)}"

    def on_show(self, rest):
        if rest == "ideal":
            key = storage.IDEAL
        else:
            segment = self.segment_at(rest.split(" ")[1])
            self.needs(lambda: segment is not None)
            key = ("meta", *segment)
        self.spend()
        seen = self.store.look(key)
        name = storage.key_text(key)
        return f"nonode {name}" if seen is None else f"node {name} {seen[0]} {seen[1].text()}"

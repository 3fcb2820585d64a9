"""The lines that stand for several events, and their rounds."""
import limits
import lines


class Macros(lines.Lines):
    def on_fill(self, rest):
        partition, count = map(int, rest.split(" "))
        self.needs(lambda: partition < self.setup.partitions, lambda: True, lambda: True, lambda: count >= 1)
        room = min(count, limits.MOST_EVENTS - self.events)
        start = len(self.log[partition])
        self.log[partition] += [f'{{"k":"a","v":{offset}}}' for offset in range(start, start + room)]
        self.events += room
        if room < count:
            raise limits.Passed("events")
        return f"filled {partition} {len(self.log[partition])}"

    def on_query(self, rest):
        said = self.on_ask(rest)
        if said.startswith("noquery"):
            return said
        at = said.split(" ")[1]
        query = self.query_at(at)
        for partition in range(self.setup.partitions):
            self.on_route(f"{at} {partition}")
        for partition in range(self.setup.partitions):
            for sequence, _, _ in query.plans[partition] or []:
                for server in self.setup.replicas(partition):
                    if (partition, sequence) not in query.served:
                        self.on_piece(f"{at} {partition}/{sequence} s{server}")
        return self.on_answer(at)

    def on_exchange(self, rest):
        at, where, to = rest.split(" ")
        server, segment, controller = self.server_at(at), self.segment_at(where), self.controller_at(to)
        self.needs(lambda: None not in (server, segment, controller), lambda: True, lambda: server.up and controller.up,
                   lambda: server.replica(segment) is not None and server.replica(segment).asked() is not None)
        sent, reply = self.exchanged(server, server.replica(segment), controller)
        return f"exchanged m{sent} m{reply} {self.messages[reply].status} {server.replica(segment).state}"

    def exchanged(self, server, replica, controller):
        """The numbers of a request and of the reply that was taken."""
        sent, _ = self.sends(server, replica, "request")
        said = self.delivers(controller, self.messages[sent])
        if isinstance(said, int):
            status = None
            while status is None:
                _, _, status = self.works(controller, said)
            said = status
        reply = self.answered(self.messages[sent], said)
        self.spend()
        self.takes(self.messages[reply])
        return sent, reply

    def on_settle(self, rest):
        self.needs(lambda: True, lambda: True, lambda: True, lambda: 1 <= int(rest) <= 1_000_000)
        return "settled" if any(not self.round() for _ in range(int(rest))) else "unsettled"

    def round(self):
        """Whether anything happened in a round but that servers saw the ideal state."""
        happened = [self.follows(server) for server in self.servers if server.up]
        happened += [self.goes_on(server, segment) for server in self.servers if server.up for segment in server.held()]
        return any(happened)

    def follows(self, server):
        at, count = f"s{server.number}", 0
        self.on_see(at)
        for name, listed in (("transit", server.due_transits), ("download", server.wanted)):
            for partition, sequence in listed():
                getattr(self, "on_" + name)(f"{at} {partition}/{sequence}")
                count += 1
        return count > 0

    def goes_on(self, server, segment):
        where, replica, count = f"s{server.number} {segment[0]}/{segment[1]}", server.replica(segment), 0
        if replica is None:
            return False
        if replica.consume_due() and not self.is_paused(replica) and replica.ready(len(replica.log), self.now) == "true":
            self.on_consume(f"{where} 100")
            count += 1
        if replica.build_due():
            self.on_build(where)
            count += 1
        if replica.asked() is not None and self.leader() is not None:
            self.exchanged(server, replica, self.leader())
            count += 1
        return count > 0

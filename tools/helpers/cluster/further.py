"""The lines beside the events: upserts, hybrid tables, pausing, a peer's file, a rehearsed rebalance."""
import json

import answers
import macros
import rehearsals
import replica_reader as reader
import rows
import servers
import storage
import upsert_settings

DAY = 86_400_000
LEAST_TIME = -2**63
LONGEST_TEXT = 65_536
MOST_SERVERS = 16


class Further(macros.Macros):
    def start_further(self):
        """What these lines keep between them."""
        self.config = upsert_settings.read(self.setup)
        self.offline_rows, self.boundary, self.forced, self.paused, self.rehearsal = [], None, [], False, None

    def time_column(self):
        """The place of the time column, or none where it doesn't fit."""
        name = json.loads(self.setup.table_text)["segmentsConfig"].get("timeColumnName")
        places = [place for place, column in enumerate(self.setup.columns) if column.name == name and column.kind in ("LONG", "TIMESTAMP")]
        return places[0] if places else None

    def plan_now(self, partition):
        return answers.plan(self.store.present(partition))

    def served(self, server, partition, piece):
        return self.servers[server].serves((partition, piece[0]), *piece[1:]) if self.servers[server].up else None

    def rows_in(self, partition, start, end):
        return [row for row in map(self.setup.row_of, self.log[partition][start:end]) if row is not None]

    def on_latest(self, rest):
        self.needs(lambda: True, lambda: True, lambda: True, lambda: self.config is not None)
        self.spend()
        number = answers.number_of(rest, self.setup)
        if number is not None:
            return f"noquery {number}"
        ranges, missing, found = [], [], []
        for partition in range(self.setup.partitions):
            plan = self.plan_now(partition)
            whole = ([self.served(server, partition, piece) for piece in plan] for server in self.setup.replicas(partition))
            served = next((listed for listed in whole if None not in listed), None)
            if served is None:
                missing += [[partition, piece[0]] for piece in plan]
                continue
            ranges += [[partition, *each] for each in answers.merged(served)]
            found += self.latest_rows([row for each in served for row in self.rows_in(partition, *each)])
        return f"latest {answers.answer(ranges, missing, answers.Aggregate(rest, self.setup.columns).result(found))}"

    def latest_rows(self, listed):
        """Of rows in place order those that no other one with the same keys beats."""
        keys, compare = self.config
        best = {}
        for place, row in enumerate(listed):
            key = tuple(row[at] for at in keys)
            best[key] = max(best.get(key, (row[compare], place)), (row[compare], place))
        kept = {place for _, place in best.values()}
        return [row for place, row in enumerate(listed) if place in kept]

    def on_offline(self, rest):
        self.spend()
        time = self.time_column()
        if time is None:
            return "nooffline 1"
        pushed = self.pushed(rest)
        if pushed is None:
            return "nooffline 2"
        self.offline_rows += pushed
        self.boundary = max(LEAST_TIME, max(row[time] for row in self.offline_rows) - DAY)
        return f"offline {len(pushed)}"

    def pushed(self, text):
        found = rows.value_of(text)
        if not isinstance(found, list) or not 1 <= len(found) <= 10_000:
            return None
        listed = [rows.row_in(self.setup.columns, value) if isinstance(value, dict) else None for value in found]
        if None in listed or any(isinstance(value, str) and len(value.encode()) > LONGEST_TEXT for row in listed for value in row):
            return None
        return listed

    def on_hybrid(self, rest):
        self.spend()
        time = self.time_column()
        if time is None:
            return "nooffline 1"
        number = answers.number_of(rest, self.setup)
        if number is not None:
            return f"noquery {number}"
        ranges, missing = [], []
        counted = [row for row in self.offline_rows if row[time] <= self.boundary]
        for partition in range(self.setup.partitions):
            plan, served = self.plan_now(partition), []
            for piece in plan:
                ways = (self.served(server, partition, piece) for server in self.setup.replicas(partition))
                served.append(next((way for way in ways if way is not None), None))
            missing += [[partition, piece[0]] for piece, each in zip(plan, served) if each is None]
            for each in answers.merged([each for each in served if each is not None]):
                ranges.append([partition, *each])
                counted += [row for row in self.rows_in(partition, *each) if self.boundary is None or row[time] > self.boundary]
        said = answers.answer(ranges, missing, answers.Aggregate(rest, self.setup.columns).result(counted))
        return f"hybrid {'none' if self.boundary is None else self.boundary} {said}"

    def forces(self):
        """Forces each replica for which that is due; the segments of all that it forced, each time."""
        found = []
        for server in self.servers:
            for segment in server.held():
                if server.replica(segment).force_due():
                    self.spend()
                    server.replica(segment).force()
                    found.append(segment)
        return found

    def on_pause(self, rest):
        self.paused = True
        return f"paused {len(self.forces())}"

    def on_resume(self, rest):
        self.spend()
        self.paused = False
        return "resumed"

    def on_forceCommit(self, rest):
        self.forced.append(sorted(set(self.forces())))
        return f"force f{len(self.forced) - 1} {len(self.forced[-1])}"

    def on_forceStatus(self, rest):
        self.needs(lambda: True, lambda: int(rest[1:]) < len(self.forced))
        self.spend()
        pending = [segment for segment in self.forced[int(rest[1:])] if self.is_in_progress(segment)]
        return f"force {rest} pending={json.dumps(pending, separators=(',', ':'))}"

    def is_in_progress(self, segment):
        meta = self.meta(segment)
        return meta is not None and meta.status == storage.IN_PROGRESS

    def is_paused(self, replica):
        return self.paused and replica.state == reader.INITIAL

    def on_consume(self, rest):
        at, where, most = rest.split(" ")
        _, replica = self.replica_at(at, where, lambda replica: replica.consume_due() and 1 <= int(most) < 2**32)
        if not self.is_paused(replica):
            return super().on_consume(rest)
        # It counts as no event, and is refused where its event would be.
        self.asks_room(0, 0, 0, 0, 0)
        return f"paused {at} {where}"

    def on_peer(self, rest):
        at, where = rest.split(" ")
        server, segment = self.server_at(at), self.segment_at(where)
        self.needs(lambda: server is not None and segment is not None, lambda: True, lambda: server.up,
                   lambda: self.meta(segment) is not None and self.meta(segment).status == storage.DONE)
        self.spend()
        for other in self.servers:
            if other is not server and other.up and servers.has_file(other.table.get(segment)):
                return f"peer {rest} from s{other.number} rows={self.meta(segment).rows}"
        return f"nopeer {rest}"

    def on_rehearse(self, rest):
        word, _, more = rest.partition(" ")
        return self.rehearses_step() if word == "step" else self.rehearses_loaded(more) if word == "loaded" else self.rehearses_plan(rest)

    def rehearses_plan(self, rest):
        count, keep = (int(part.split("=")[1]) for part in rest.split(" "))
        self.needs(lambda: True, lambda: True, lambda: True, lambda: self.setup.replication <= count <= MOST_SERVERS)
        self.spend()
        states = rehearsals.plan(self.setup, self.ideal().entries, count, keep)
        if isinstance(states, int):
            return f"noplan {states}"
        self.rehearsal = rehearsals.Rehearsal(states, count)
        return f"plan {len(states) - 1} {rehearsals.moves(states)}"

    def rehearses_loaded(self, rest):
        at, where = rest.split(" ")
        segment = self.segment_at(where)
        self.needs(lambda: segment is not None, lambda: True, lambda: True, lambda: self.rehearsal is not None)
        self.needs(lambda: int(at[1:]) < self.rehearsal.servers)
        self.spend()
        return "rehearsed" if self.rehearsal.loads(segment, int(at[1:])) else "notplanned"

    def rehearses_step(self):
        self.needs(lambda: True, lambda: True, lambda: True, lambda: self.rehearsal is not None)
        self.spend()
        refusal = self.rehearsal.step()
        return f"noplan {refusal}" if refusal else f"at {self.rehearsal.at}/{len(self.rehearsal.states) - 1}"

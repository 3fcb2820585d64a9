"""What an event takes of the limits of a run, and which limit refuses it."""
MOST_EVENTS, LONGEST_MESSAGE, MOST_SENT = 4_000_000, 65_536, 1_073_741_824
MOST_QUERIES, MOST_STORED, LAST_MOMENT = 1_000, 67_108_864, 253_402_300_799_999


class Passed(Exception):
    """The name of the limit that an event would pass."""


class Limits:
    """Of a world: how much of each limit was taken."""

    def start_limits(self):
        self.events, self.sent = 0, 0

    def spend(self, message=0, sent=0, queries=0, stored=0, moment=0):
        """Takes what an event costs, or ends with the first limit that it would pass."""
        self.asks_room(message, sent, queries, stored, moment)
        self.events += 1
        self.sent += sent

    def asks_room(self, message, sent, queries, stored, moment):
        open_queries = sum(query is not None for query in self.queries) if queries else 0
        passed = {"message": message > LONGEST_MESSAGE, "events": self.events >= MOST_EVENTS, "sent": self.sent + sent > MOST_SENT,
                  "queries": open_queries + queries > MOST_QUERIES, "stored": self.store.entries + stored > MOST_STORED, "moment": moment > LAST_MOMENT}
        for name, is_passed in passed.items():
            if is_passed:
                raise Passed(name)


def size_of(text):
    """The bytes of a message."""
    return len(text.encode(errors="surrogateescape"))

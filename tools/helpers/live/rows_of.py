"""The rows of an input by their offsets: ranges, counts, and how far a replica can come."""
import itertools


class Rows:
    """All rows of an input, read once."""

    def __init__(self, told):
        self.setup, self.log = told.setup, told.log()
        self.rows = [[told.setup.row_of(message) for message in messages] for messages in self.log]
        # How many rows stand before each offset, and at which offset each row stands.
        self.before = [[0, *itertools.accumulate(row is not None for row in rows)] for rows in self.rows]
        self.places = [[place for place, row in enumerate(rows) if row is not None] for rows in self.rows]

    def length(self, partition):
        return len(self.log[partition])

    def of(self, partition, start, end):
        """The rows of a range."""
        return [row for row in self.rows[partition][start:end] if row is not None]

    def count(self, partition, start, end):
        return self.before[partition][end] - self.before[partition][start]

    def farthest(self, partition, start):
        """Behind the row that fills the row limit of a segment, or the partition's end where none does."""
        full = self.before[partition][start] + self.setup.rows - 1
        return self.places[partition][full] + 1 if full < len(self.places[partition]) else self.length(partition)

    def is_full(self, partition, start, end):
        return self.count(partition, start, end) == self.setup.rows

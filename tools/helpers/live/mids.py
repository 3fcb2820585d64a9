"""The first answers: each is right over the rows of the ranges that it names, and these are pieces of one plan."""
import json
import re

import answers
import journal
import storage

NUMBER = r"(?:0|[1-9][0-9]{0,19})"
RANGES = re.compile(rf"\[(?:\[{NUMBER},{NUMBER},{NUMBER}\](?:,(?!\])|(?=\])))*\]")
MISSING = re.compile(rf"\[(?:\[{NUMBER},(?:{NUMBER}|null)\](?:,(?!\])|(?=\])))*\]")
HEAD = re.compile(rf'\{{"ranges":({RANGES.pattern}),"missing":({MISSING.pattern}),"rows":')


class FirstAnswers:
    """The checks of first answers, over the input's rows and the history's chains."""

    def __init__(self, told, rows, history):
        self.setup, self.queries, self.rows, self.history = told.setup, told.queries, rows, history

    def check(self, mids):
        for query, (number, line) in zip(self.queries, mids):
            self.check_one(query, number, line.removeprefix("mid "))

    def check_one(self, query, number, text):
        found = HEAD.match(text)
        if found is None:
            raise journal.Fault(number, "no answer has this text")
        ranges, missing = json.loads(found[1]), json.loads(found[2])
        if ranges != sorted(ranges) or missing != sorted(missing, key=lambda piece: (piece[0], piece[1] is not None, piece[1] or 0)):
            raise journal.Fault(number, "ranges and missing pieces ascend")
        for partition, start, end in ranges:
            if partition >= self.setup.partitions or not start < end <= self.rows.length(partition):
                raise journal.Fault(number, f"the range {partition}, {start}, {end} isn't one of the stream's")
        for partition, sequence in missing:
            if sequence is None or (partition, sequence) not in self.history.nodes:
                raise journal.Fault(number, f"the piece {partition}, {json.dumps(sequence)} is in no plan")
        for partition in range(self.setup.partitions):
            self.check_plan(number, partition, [each[1:] for each in ranges if each[0] == partition], [each[1] for each in missing if each[0] == partition])
        self.check_rows(query, number, text, ranges, missing)

    def check_plan(self, number, partition, ranges, missing):
        """There is a plan, of the chain up to some Done segment, whose pieces are the named ranges and the missing ones."""
        if not any(self.is_plan(partition, count, is_open, ranges, missing) for count in range(len(self.history.chain(partition)) + 1) for is_open in (False, True)):
            raise journal.Fault(number, f"no plan of partition {partition} has these ranges and missing pieces")

    def is_plan(self, partition, count, is_open, ranges, missing):
        """Whether it is the plan with so many Done segments, and with the next one in progress where there is one."""
        chain = self.history.chain(partition)
        done = chain[:count]
        if any(meta.status != storage.DONE for meta in done) or (is_open and count == len(chain)) or not (is_open or count):
            return False
        if any(sequence >= count + is_open for sequence in missing):
            return False
        served = [[meta.start, meta.end] for sequence, meta in enumerate(done) if sequence not in missing]
        if not is_open or count in missing:
            return answers.merged(served) == ranges
        start = chain[count].start
        end = ranges[-1][1] if ranges and ranges[-1][1] > start else start
        return end <= self.rows.farthest(partition, start) and answers.merged([*served, [start, end]]) == ranges

    def check_rows(self, query, number, text, ranges, missing):
        rows = [row for each in ranges for row in self.rows.of(*each)]
        if text != answers.answer(ranges, missing, answers.Aggregate(query, self.setup.columns).result(rows)):
            raise journal.Fault(number, "the result rows aren't those of the named ranges")

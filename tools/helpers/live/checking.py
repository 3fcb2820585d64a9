"""The whole check of a journal against its input."""
import dataclasses

import hearings
import histories
import journal
import live_input
import mids
import queues
import rows_of


@dataclasses.dataclass
class Counts:
    answers: int
    writes: int
    heard: int
    together: int
    queues: int

    def text(self):
        return (f"right: {self.answers} answers, {self.writes} writes, {self.heard} requests ({self.together} with all possibilities together), "
                f"{self.queues} queues, {self.answers} first answers")


def check_output(told, found):
    """That the answers and the ends are those of the input."""
    for (number, line), wanted in zip([*found.answers, *found.ends], live_input.output(told)):
        if line != wanted:
            raise journal.Fault(number, f"by the input this line is {wanted!r}")


def check_ends(history, found):
    for partition, (number, line) in enumerate(found.ends):
        if line != f"end {partition} {history.end(partition)}":
            raise journal.Fault(number, f"by the writes partition {partition} is committed up to {history.end(partition)}")


def check(text, told):
    """The counts of a journal that is right; ends with `journal.Fault` at the first line that isn't."""
    found, rows = journal.read(text, told), rows_of.Rows(told)
    check_output(told, found)
    history = histories.History(told, rows).check(found.writes)
    check_ends(history, found)
    replayed = [hearings.Hearing(told, rows, history, number, heard).check() for number, heard in enumerate(found.heard)]
    check_commits(history, replayed, found)
    queues.Queues(told, history, replayed, found.queues).check()
    mids.FirstAnswers(told, rows, history).check(found.mids)
    return Counts(len(found.answers), len(found.writes), sum(map(len, found.heard)), sum(each.together for each in replayed), len(found.queues))


def check_commits(history, replayed, found):
    """Each Done write is that of a job which some controller's commitEnd started."""
    own = {segment for each in replayed for segment in each.own_done}
    for write in found.writes:
        if write.key[0] == "meta" and write.version == 1 and write.key[1:] not in own:
            raise journal.Fault(write.line, f"no commitEnd with the path {history.nodes[write.key[1:]].path} started a job")

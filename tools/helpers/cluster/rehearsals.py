"""Plans of a rebalance over the ideal state's entries, and their rehearsals."""
import dataclasses

import storage

KEEP, NOT_LOADED, ENDED = 2, 3, 4


def target_of(setup, segment, modes, servers):
    """The instances of a segment for a number of servers; the same ones where it isn't moved."""
    if any(mode != storage.ONLINE for mode in modes.values()):
        return sorted(modes)
    return sorted(dataclasses.replace(setup, servers=servers).replicas(segment[0]))


def plan(setup, entries, servers, keep):
    """The states up to the target, as the instances of each segment with their modes; or why there is none."""
    targets = {segment: target_of(setup, segment, modes, servers) for segment, modes in entries.items()}
    moved = [segment for segment in sorted(entries) if sorted(entries[segment]) != targets[segment]]
    if any(len(entries[segment]) <= keep for segment in moved):
        return KEEP
    states = [entries]
    while any(sorted(states[-1][segment]) != targets[segment] for segment in moved):
        states.append({segment: next_of(modes, targets[segment], len(modes) - keep) if segment in moved else modes
                       for segment, modes in states[-1].items()})
    return states


def next_of(modes, target, most):
    """The lowest that leave go for as many that come."""
    leave, come = sorted(set(modes) - set(target))[:most], sorted(set(target) - set(modes))[:most]
    return dict.fromkeys(sorted(set(modes) - set(leave) | set(come)), storage.ONLINE)


def moves(states):
    """How many instances are added on the way."""
    return sum(len(set(after[segment]) - set(before[segment])) for before, after in zip(states, states[1:]) for segment in after)


class Rehearsal:
    def __init__(self, states, servers):
        self.states, self.servers, self.at = states, servers, 0
        self.loaded = {(segment, instance) for segment, modes in states[0].items() for instance in modes}

    def online(self):
        return {(segment, instance) for segment, modes in self.states[self.at].items() for instance, mode in modes.items() if mode == storage.ONLINE}

    def loads(self, segment, instance):
        planned = (segment, instance) in self.online()
        if planned:
            self.loaded.add((segment, instance))
        return planned

    def step(self):
        """Why it doesn't go on, or none."""
        if self.at == len(self.states) - 1:
            return ENDED
        if self.online() - self.loaded:
            return NOT_LOADED
        self.at += 1
        self.loaded &= {(segment, instance) for segment, modes in self.states[self.at].items() for instance in modes}
        return None

"""Random numbers that are drawn by one call of the library's `random` each."""
import bisect
import itertools
import random


class Draws(random.Random):
    """The choices that are drawn most often, in few steps."""

    def choice(self, listed):
        return listed[int(self.random() * len(listed))]

    def randrange(self, start, stop=None):
        low, high = (0, start) if stop is None else (start, stop)
        return low + int(self.random() * (high - low))

    def randint(self, low, high):
        return low + int(self.random() * (high - low + 1))

    def often(self, chance):
        return self.random() < chance


class Weights:
    """Things that are drawn as often as their weights say."""

    def __init__(self, weights):
        self.things, self.sums = list(weights), list(itertools.accumulate(weights.values()))

    def one(self, draws):
        return self.things[bisect.bisect_right(self.sums, draws.random() * self.sums[-1])]

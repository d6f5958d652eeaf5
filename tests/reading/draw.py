"""Numbers and choices drawn from a seed, the same on every machine."""

from random import Random


class NoChoice(Exception):
    """There is nothing to draw from."""


class Draw:
    def __init__(self, seed):
        self.random = Random(seed)

    def word(self):
        return self.random.getrandbits(64)

    def below(self, n):
        if n <= 0:
            raise NoChoice
        return self.word() % n

    def of(self, choices):
        return choices[self.below(len(choices))]

    def weighed(self, choices):
        """Of choices with their weights."""
        place = self.below(sum(weight for _, weight in choices))
        for choice, weight in choices:
            if place < weight:
                return choice
            place -= weight

"""Chance from a seed, by few plain draws, so that the same seed gives the same tables everywhere."""

from random import Random


class Dice:
    """A seeded source of numbers."""

    def __init__(self, seed):
        self.source = Random(seed)

    def share(self):
        """A fraction from 0 up to but not including 1."""
        return self.source.random()

    def between(self, least, most):
        """A whole number from `least` to `most`, both included."""
        return least + int(self.source.random() * (most - least + 1))

    def chance(self, share):
        """True in about this share of the calls."""
        return self.source.random() < share

    def pick(self, things):
        """One of the things."""
        return things[int(self.source.random() * len(things))]

    def word(self):
        """A number of 32 random bits."""
        return self.source.getrandbits(32)

    def bytes(self, length):
        """Random bytes."""
        return bytes(self.source.getrandbits(8) for _ in range(length))

    def shuffled(self, things):
        """The things in a random order."""
        return [thing for _, _, thing in sorted((self.source.random(), place, thing)
                                                for place, thing in enumerate(things))]

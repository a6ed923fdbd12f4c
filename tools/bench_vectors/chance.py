"""Chance of which each seed has one stream, in each version of Python."""

import random

# A normal number is made of so many bytes by chance: their sum has this mean and, nearly, this deviation, and is the same everywhere.
BYTES, MEAN, DEVIATION = 12, 1530, 256


class Chance:
    """Uses of `random()` and `getrandbits()` alone, whose streams Python keeps: its other methods may draw otherwise in another version."""

    def __init__(self, seed):
        source = random.Random(seed)
        self.random, self.bits = source.random, source.getrandbits

    def below(self, count):
        """A whole number from 0 to below the count."""
        return int(self.random() * count)

    def between(self, least, most):
        """A whole number between two, both of them included."""
        return least + self.below(most - least + 1)

    def one_of(self, things):
        return things[self.below(len(things))]

    def some_of(self, count, things):
        """So many different ones of the things, or all where there are fewer, in rising order of their places."""
        left, taken = list(range(len(things))), []
        for _ in range(min(count, len(left))):
            taken.append(left.pop(self.below(len(left))))
        return [things[at] for at in sorted(taken)]

    def normal(self):
        """A number from nearly the normal distribution with mean 0 and variance 1."""
        return (sum(self.bits(8 * BYTES).to_bytes(BYTES, "little")) - MEAN) / DEVIATION

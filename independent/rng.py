"""A small pseudo-random generator (splitmix64), integer arithmetic only.

The stream depends on the seed alone, never on the Python in use.
"""

MASK = (1 << 64) - 1


class Rng:
    """A stream of 64-bit numbers and a few ways to take from it."""

    def __init__(self, seed):
        self.state = seed & MASK

    def next(self):
        """The next 64-bit number."""
        self.state = (self.state + 0x9E3779B97F4A7C15) & MASK
        z = self.state
        z = ((z ^ (z >> 30)) * 0xBF58476D1CE4E5B9) & MASK
        z = ((z ^ (z >> 27)) * 0x94D049BB133111EB) & MASK
        return z ^ (z >> 31)

    def below(self, n):
        """A number from 0 to n - 1."""
        return (self.next() * n) >> 64

    def between(self, low, high):
        """A number from low to high, both included."""
        return low + self.below(high - low + 1)

    def bits(self, n):
        """A number of n bits, n at most 64."""
        return self.next() >> (64 - n)

    def data(self, n):
        """n bytes (none if n is negative)."""
        return bytes(self.bits(8) for _ in range(n))

    def pick(self, items):
        """One of a sequence."""
        return items[self.below(len(items))]

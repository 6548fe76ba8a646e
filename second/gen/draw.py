"""Numbers drawn from a seed, the same on every machine and in every Python.

The step is splitmix64; Python's own random module is not used since its methods differ
between versions.
"""

ALL_BITS = (1 << 64) - 1
GOLDEN = 0x9E3779B97F4A7C15


def mixed(number):
    number = (number ^ number >> 30) * 0xBF58476D1CE4E5B9 & ALL_BITS
    number = (number ^ number >> 27) * 0x94D049BB133111EB & ALL_BITS
    return number ^ number >> 31


class Draw:
    """A stream of numbers. A label and an index give each case a stream of its own, so
    that a new kind of case does not change the others."""

    def __init__(self, seed, label='', index=0):
        state = mixed(seed & ALL_BITS)
        for byte in label.encode('utf-8'):
            state = mixed((state ^ byte) + GOLDEN & ALL_BITS)
        self.state = mixed((state ^ index) + GOLDEN & ALL_BITS)

    def bits(self):
        self.state = self.state + GOLDEN & ALL_BITS
        return mixed(self.state)

    def below(self, bound):
        return self.bits() * bound >> 64

    def between(self, low, high):
        """Both ends included."""
        return low + self.below(high - low + 1)

    def chance(self, percent):
        return self.below(100) < percent

    def pick(self, choices):
        return choices[self.below(len(choices))]

    def weighted(self, pairs):
        """One of (choice, weight) by its weight."""
        at = self.below(sum(weight for _, weight in pairs))
        for choice, weight in pairs:
            if at < weight:
                return choice
            at -= weight
        raise AssertionError('weights do not add up')

    def shuffled(self, items):
        items = list(items)
        for at in range(len(items) - 1, 0, -1):
            other = self.below(at + 1)
            items[at], items[other] = items[other], items[at]
        return items

    def bytes(self, length):
        return bytes(self.below(256) for _ in range(length))

    def fork(self):
        """A stream of its own, seeded by this one."""
        return Draw(self.bits())

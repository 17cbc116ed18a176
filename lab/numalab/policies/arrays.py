"""NumPy where it is installed, and draws that are the same with and without it.

Python's generator and NumPy's are one algorithm, so a state handed from the first to the second gives the same numbers. Nothing
here needs NumPy: it only makes counting faster."""
import itertools
import random
from bisect import bisect_right

try:
    import numpy
except ImportError:
    numpy = None


class Table:
    """A distribution over the numbers 0 to n - 1, by their weights. (The sums are made one after another, so that they are the
    same however the draws are made.)"""

    def __init__(self, weights):
        self.sums = list(itertools.accumulate(weights))
        self.total = self.sums[-1] + 0.0
        self.array = None if numpy is None else numpy.array(self.sums, dtype=float)


class Draws:
    """Draws from tables, from one seed."""

    def __init__(self, seed):
        self.random = random.Random(seed)
        self.fast = None
        if numpy is not None:
            state = self.random.getstate()[1]
            self.fast = numpy.random.RandomState()
            self.fast.set_state(("MT19937", state[:-1], state[-1]))

    def take(self, table, count):
        """That many numbers, as a list or an array."""
        last, total = len(table.sums) - 1, table.total
        if self.fast is not None:
            found = numpy.searchsorted(table.array, self.fast.random_sample(count) * total, side="right")
            return numpy.minimum(found, last)
        draw, sums = self.random.random, table.sums
        return [bisect_right(sums, draw() * total, 0, last) for _ in range(count)]


def block_of(items):
    """Numbers as a block: an array, or a list."""
    return items if numpy is None else numpy.asarray(items, dtype=numpy.int64)


def cycle(base, start, count):
    """That many numbers of a block that is repeated for ever, from a place on."""
    start %= len(base)
    times = -(-(start + count) // len(base))
    whole = numpy.tile(base, times) if numpy is not None and times > 1 else base * times if numpy is None else base
    return whole[start : start + count]


def look_up(block, table):
    """Each number's entry in a table, which is a block."""
    return [table[item] for item in block] if numpy is None else table[block]


def concatenate(blocks):
    """Blocks one after another."""
    return list(itertools.chain.from_iterable(blocks)) if numpy is None else numpy.concatenate(blocks)


def pairs_of(block):
    """Each number 2k of a block, and after it 2k + 1: a read and a write of one place."""
    if numpy is None:
        return [item for place in block for item in (2 * place, 2 * place + 1)]
    found = numpy.repeat(block * 2, 2)
    found[1::2] += 1
    return found

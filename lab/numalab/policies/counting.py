"""Counts a stream block by block: of each epoch how often each item occurs, in the order in which they occur first, and which pages
were sampled. Nothing here depends on a policy, so that one count serves all."""
import random
from collections import Counter
from functools import cached_property

from . import arrays


class Epoch:
    """What the stream did in one epoch. `items` are in the order of their first access, `counts` belong to them."""

    def __init__(self, number, items, counts, samples):
        self.number, self.items, self.counts, self.samples = number, items, counts, samples
        self.accesses = sum(counts)

    @cached_property
    def places(self):
        """How often each place, which is a page and a process, was accessed, in the order of the first access."""
        found = {}
        for item, count in zip(self.items, self.counts):
            place = item >> 1
            found[place] = found.get(place, 0) + count
        return found


class Sampler:
    """Takes one access of every N, at a random place among them, as a processor's counters do."""

    def __init__(self, every, seed, sharers):
        self.every, self.random, self.shift = every, random.Random(f"samples {seed}"), 2 * sharers
        self.window = self.done = 0
        self.next = int(self.random.random() * every)
        self.found = Counter()

    def add(self, block):
        """Samples a block, the next of the stream."""
        end, places = self.done + len(block), []
        while self.next < end:
            places.append(self.next - self.done)
            self.window += self.every
            self.next = self.window + int(self.random.random() * self.every)
        self.done = end
        items = block[places].tolist() if arrays.numpy is not None and places else [block[place] for place in places]
        self.found.update(item // self.shift for item in items)

    def take(self):
        found, self.found = self.found, Counter()
        return found


class PlainCount:
    """Counts with Python alone: a Counter keeps the order of first occurrence."""

    def __init__(self, _):
        self.found = Counter()

    def add(self, block):
        self.found.update(block)

    def take(self):
        found, self.found = self.found, Counter()
        return list(found), list(found.values())


class FastCount:
    """The same with NumPy."""

    def __init__(self, item_count):
        self.size, self.done = item_count, 0
        self.begin()

    def begin(self):
        numpy = arrays.numpy
        self.counts = numpy.zeros(self.size, dtype=numpy.int64)
        self.first = numpy.full(self.size, -1, dtype=numpy.int64)

    def add(self, block):
        numpy = arrays.numpy
        self.counts += numpy.bincount(block, minlength=self.size)
        # Assigned backwards, so that of an item that occurs several times the first place stays.
        here = numpy.full(self.size, -1, dtype=numpy.int64)
        here[block[::-1]] = numpy.arange(self.done + len(block) - 1, self.done - 1, -1)
        new = (self.first < 0) & (here >= 0)
        self.first[new] = here[new]
        self.done += len(block)

    def take(self):
        numpy = arrays.numpy
        there = numpy.flatnonzero(self.counts)
        items = there[numpy.argsort(self.first[there], kind="stable")]
        counts = self.counts[items]
        self.begin()
        return items.tolist(), counts.tolist()


def all_samples(items, counts, sharers):
    """Every access as a sample."""
    found = Counter()
    for item, count in zip(items, counts):
        found[item // (2 * sharers)] += count
    return found


def epochs_of(workload, every, seed, progress=None):
    """The epochs of a workload, one after another, each counted; those in which nothing happens as well."""
    counts = (PlainCount if arrays.numpy is None else FastCount)(workload.item_count)
    sharers, now, done = len(workload.processes), 0, 0
    sampler = Sampler(every, seed, sharers) if every > 1 else None

    def end_epoch(number):
        items, found = counts.take()
        return Epoch(number, items, found, sampler.take() if sampler else all_samples(items, found, sharers))

    for epoch, block in workload.blocks():
        while now < epoch:
            yield end_epoch(now)
            now += 1
        counts.add(block)
        if sampler:
            sampler.add(block)
        done += len(block)
        if progress:
            progress.at(done, workload.accesses)
    while now < workload.epochs:
        yield end_epoch(now)
        now += 1

"""The built-in policies. Each names what it is modelled on and what it leaves out; none is a kernel's policy."""
import math
from collections import Counter, defaultdict
from functools import reduce

from .policy import MOVE_ALL, Policy


def nearest_with_room(view, pages, nodes):
    """Each page with the nearest of some nodes that has a free frame left, for as many as there are: pages, and their nodes."""
    left, found = {node: view.free(node) for node in nodes}, ([], [])
    for page in pages:
        node = next((node for node in view.nearest(view.home(page), nodes) if left[node]), None)
        if node is None:
            break
        left[node] -= 1
        found[0].append(page)
        found[1].append(node)
    return found


class Turns:
    """Goes round a list of pages by their numbers, some at a time."""

    def __init__(self):
        self.last = -1

    def next(self, pages, count):
        pages = [page for page in pages if page > self.last] + [page for page in pages if page <= self.last]
        self.last = pages[:count][-1] if pages[:count] else self.last
        return pages[:count]


class FirstTouch(Policy):
    """A page stays where its first access has put it: on the node of its process, or on the nearest that has a free frame."""

    modelled_on = "the default policy of the kernel's document NUMA Memory Policy (numa_memory_policy.rst): local allocation"
    left_out = "reclaim: a node that is full stays full"


class Interleave(Policy):
    """New pages take turns on all nodes, by their place in their area."""

    modelled_on = "MPOL_INTERLEAVE of the kernel's document NUMA Memory Policy (numa_memory_policy.rst)"
    left_out = "the policy of a process (set_mempolicy): each area has its own"

    def start(self, view):
        for area in view.areas:
            view.mbind(area.pages, "MPOL_INTERLEAVE", view.nodes)


class WeightedInterleave(Policy):
    """New pages take turns on all nodes, several in a row on each by its weight, which is by default as its share of the frames."""

    modelled_on = "MPOL_WEIGHTED_INTERLEAVE of the kernel's document NUMA Memory Policy (numa_memory_policy.rst)"
    left_out = "weights by bandwidth, which the model does not have; the mode itself, in whose place stretches of pages prefer a node each"

    def __init__(self, weights=None):
        self.weights = None if weights is None else [int(weight) for weight in str(weights).split(",")]

    def start(self, view):
        weights = self.weights or self.by_frames(view.frames)
        if len(weights) != len(view.nodes) or min(weights) < 0 or not any(weights):
            raise ValueError(f"expected {len(view.nodes)} weights, not all 0")
        for area in view.areas:
            first, turn = area.pages.start, 0
            while first < area.pages.stop:
                end = min(first + weights[turn], area.pages.stop)
                if first < end:
                    view.mbind(range(first, end), "MPOL_PREFERRED", [turn])
                first, turn = end, (turn + 1) % len(weights)

    @staticmethod
    def by_frames(frames):
        """Small weights in about the ratio of the frames: 16 for the largest node, in lowest terms."""
        weights = [max(1, round(16 * one / max(frames))) for one in frames]
        common = reduce(math.gcd, weights)
        return [weight // common for weight in weights]


class Hints(Policy):
    """Marks a part of the pages in each epoch. A page that is touched twice in a row by processes on one node goes there, if the
    node has a free frame; the pages that are touched soonest after they were marked come first."""

    modelled_on = ("NUMA balancing of the kernel's document on sysctls (admin-guide/sysctl/kernel.rst, numa_balancing), "
                   "with its rule that two faults in a row must come from one node")
    left_out = "moving processes to their memory; scan rates that adapt; groups of processes; time, in whose place epochs stand"

    def __init__(self, scan=0.25, limit=math.inf):
        self.scan, self.limit, self.turns, self.last = scan, limit, Turns(), {}

    def epoch(self, view):
        wanted = defaultdict(list)
        for fault in view.faults:
            if self.last.get(fault.page) == fault.node != view.node_of(fault.page):
                wanted[fault.node].append(fault.page)
            self.last[fault.page] = fault.node
        for node, pages in sorted(wanted.items()):
            view.move_pages(pages[: int(min(self.limit, view.free(node)))], node, MOVE_ALL)
        pages = view.pages
        view.hint(self.turns.next(pages, math.ceil(len(pages) * self.scan)))


class Watermark(Policy):
    """Of slow pages a part is marked in each epoch; those that are touched twice come to a fast node, as far as pages that were not
    accessed there make room. A part of the fast nodes is kept free, if need be by pages that were accessed, which go by turns."""

    modelled_on = ("the paper TPP: Transparent Page Placement for CXL-Enabled Tiered-Memory: promotion on hint faults of slow pages that are "
                   "active, demotion under a watermark before the fast tier is full")
    left_out = "active and inactive lists, for which accessed bits of an epoch stand; demotion during an epoch; kinds of pages; reclaim"

    def __init__(self, scan=0.25, free=0.02):
        self.scan, self.free, self.marks, self.hand = scan, free, Turns(), Turns()
        self.active = set()

    def epoch(self, view):
        if not view.slow:
            return
        wanted = self.pages_to_promote(view)
        frames = sum(view.frames[node] for node in view.fast)
        high = math.ceil(frames * self.free)
        self.demote(view, high - view.free(*view.fast), len(wanted))
        coming = wanted[: max(0, view.free(*view.fast) - high)]
        view.move_pages(*nearest_with_room(view, coming, view.fast), MOVE_ALL)
        self.active.difference_update(coming)
        slow = view.on(*view.slow)
        view.hint(self.marks.next(slow, math.ceil(len(slow) * self.scan)))

    def pages_to_promote(self, view):
        """Slow pages with a second fault, the soonest first. A first fault makes a page active."""
        faulted = list(dict.fromkeys(fault.page for fault in view.faults))
        wanted = [page for page in faulted if page in self.active and view.node_of(page) in view.slow]
        self.active.update(faulted)
        return wanted

    def demote(self, view, short, coming):
        """Pages that were not accessed, for what is short of the watermark and for what comes, and for the first others too."""
        pages = self.hand.next(view.on(*view.fast), len(view.pages))
        chosen = [page for page in pages if page not in view.accessed][: max(0, short + coming)]
        chosen += [page for page in pages if page in view.accessed][: max(0, short - len(chosen))]
        self.hand.last = chosen[-1] if chosen else self.hand.last
        view.move_pages(*nearest_with_room(view, chosen, view.slow), MOVE_ALL)


class HotCold(Policy):
    """Counts the samples of each page, and halves all counts every few epochs. A histogram of the counts by powers of two says from
    which one on the pages fit the fast nodes: those are hot, come there, and the coldest pages there make room."""

    modelled_on = ("the papers HeMem: Scalable Tiered Memory Management for Big Data Applications and Real NVM (sampled counts, cooling) and "
                   "MEMTIS: Efficient Memory Tiering with Dynamic Page Classification and Page Size Determination (a threshold from a histogram)")
    left_out = "huge pages and their splitting; cooling by the number of samples; a limit on the rate of moves; writes that count for more"

    def __init__(self, cool=4):
        self.cool, self.counts = int(cool), Counter()

    def epoch(self, view):
        if not view.slow:
            return
        self.counts.update(view.samples)
        heat = {page: self.counts[page].bit_length() for page in view.pages}
        here, there = view.on(*view.fast), view.on(*view.slow)
        threshold = self.threshold(heat, len(here) + view.free(*view.fast))
        coming = sorted((page for page in there if heat[page] >= threshold), key=lambda page: (-self.counts[page], page))
        going = sorted((page for page in here if heat[page] < threshold), key=lambda page: (self.counts[page], page))
        short = len(coming) - view.free(*view.fast)
        if short > 0:
            view.move_pages(*nearest_with_room(view, going[:short], view.slow), MOVE_ALL)
        view.move_pages(*nearest_with_room(view, coming, view.fast), MOVE_ALL)
        if self.cool and view.epoch % self.cool == self.cool - 1:
            self.counts = Counter({page: count // 2 for page, count in self.counts.items() if count > 1})

    @staticmethod
    def threshold(heat, room):
        """The least power of two from which on all pages fit; pages without a sample are never hot."""
        sizes, total = Counter(heat.values()), 0
        for power in range(max(sizes, default=0), 0, -1):
            total += sizes[power]
            if total > room:
                return power + 1
        return 1


POLICIES = {"first-touch": FirstTouch, "interleave": Interleave, "weighted-interleave": WeightedInterleave, "hints": Hints,
            "watermark": Watermark, "hot-cold": HotCold}

"""What a policy sees of the machine, and the calls that it may ask for."""
from collections import Counter, namedtuple
from operator import index

from ..words import ERRORS, MODES, counted
from .policy import MOVE

# A page that was touched after it was marked: by which process, and on which node that runs.
Fault = namedtuple("Fault", "page process node")
# An area: the processes that see it, and the numbers of its pages.
Area = namedtuple("Area", "processes pages")
# What a call answered: its name, its error or None, how many pages failed, and for move_pages the status of each entry.
Answer = namedtuple("Answer", "call error failed pages statuses", defaults=((), ()))


class BrokenRule(Exception):
    """A policy has broken its rules."""


class View:
    """The machine as a policy sees it. Pages are numbers from 0 on; a page is there from its first touch."""

    def __init__(self, machine, every):
        self._machine, workload = machine, machine.workload
        self.epoch, self.sample_every = -1, every
        self.nodes, self.frames, self.distance = machine.setup.nodes, tuple(machine.setup.frames), machine.setup.distance
        self.fast = self.slow = ()
        self.homes = [process.home for process in workload.processes]
        self.areas = [Area(region.processes, range(first, first + region.pages)) for first, region in machine.index.regions]
        self.samples, self.accessed, self.written, self.faults = Counter(), frozenset(), frozenset(), []
        self.answers, self._answers = [], []
        self._nodes, self._free, self._known = [None] * workload.pages, None, False
        self._marked = set()

    # ---- what it sees

    def node_of(self, page):
        """The node that a page is on; None before it is touched."""
        return self._where()[self._page(page)]

    @property
    def pages(self):
        """All pages that were touched, by number."""
        return [page for page, node in enumerate(self._where()) if node is not None]

    def on(self, *nodes):
        """The pages on some nodes, by number."""
        return [page for page, node in enumerate(self._where()) if node in nodes]

    def free(self, *nodes):
        """How many frames are free on some nodes together."""
        if self._free is None:
            self._free = self._machine.free()
        return sum(self._free[self._node(node)] for node in nodes)

    def nearest(self, home, nodes):
        """Some nodes by their distance from another, ties by number."""
        return sorted(nodes, key=lambda node: (self.distance[home][node], node))

    def home(self, page):
        """The node on which the process runs that a page belongs to."""
        return self.homes[self._machine.index.owner(self._page(page))]

    # ---- what it asks for

    def hint(self, pages):
        """Marks pages: in the next epoch that accesses one, the first access of each process is a fault, and then the mark is gone."""
        self._marked.update(self._page(page) for page in pages)

    def move_pages(self, pages, nodes, flags=MOVE):
        """move_pages(2), by an administrator: pages to one node, or each to its own."""
        pages = [self._page(page) for page in pages]
        nodes = [self._node(node) for node in (nodes if hasattr(nodes, "__iter__") else [nodes] * len(pages))]
        if len(nodes) != len(pages):
            raise BrokenRule(f"move_pages has {len(pages)} pages and {len(nodes)} nodes")
        if not pages:
            return Answer("move_pages", None, 0)
        statuses, failed, error = self._machine.move_pages(pages, nodes, check_flags(flags))
        return self._note(Answer("move_pages", error, failed, tuple(zip(pages, nodes)), tuple(statuses)))

    def migrate_pages(self, old, new, process=0):
        """migrate_pages(2), by an administrator: what a process has on some nodes goes to others."""
        answer = self._machine.migrate_pages(check_number(process, len(self.homes), "process"), [self._node(node) for node in old], [self._node(node) for node in new])
        return self._note(Answer("migrate_pages", answer.get("error"), answer.get("answer", 0)))

    def mbind(self, pages, mode, nodes=(), flags=0):
        """mbind(2), by each process that sees them: adjacent pages of one area."""
        pages, area = list(pages), None
        if pages:
            area = next((one for one in self.areas if self._page(pages[0]) in one.pages), None)
        if not area or pages != list(range(pages[0], pages[-1] + 1)) or pages[-1] not in area.pages:
            raise BrokenRule("mbind: expected adjacent pages of one area")
        number = MODES.index(mode) if mode in MODES else mode
        if number not in range(len(MODES)):
            raise BrokenRule(f"mbind: {mode} is not a mode")
        nodes, address = [self._node(node) for node in nodes], self._machine.index.address(pages[0])
        told = [self._machine.mbind(process, address, len(pages), number, nodes, check_flags(flags)) for process in area.processes]
        error = next((one["error"] for one in told if "error" in one), None)
        return self._note(Answer("mbind", error, sum(one.get("answer", 0) for one in told)))

    # ---- for the laboratory alone

    def _page(self, page):
        return check_number(page, len(self._nodes), "page")

    def _node(self, node):
        return check_number(node, len(self.nodes), "node")

    def _note(self, answer):
        self._known, self._free = False, None
        self._answers.append(answer)
        return answer

    def _where(self):
        """The node of each page by its number, which the program is asked for where something may have changed."""
        if not self._known:
            self._machine.look(self._nodes)
            self._known = True
        return self._nodes

    def _forget(self):
        """Something other than the policy has changed where pages are."""
        self._known, self._free = False, None

    def _begin(self):
        """The policy is asked: what it asks from now on is answered to it."""
        self.answers, self._answers = self._answers, []

    def _show(self, epoch, sharers):
        """What the policy sees of an epoch that has ended."""
        self.epoch, self.samples = epoch.number, epoch.samples
        places = list(epoch.places)
        self.accessed = frozenset(place // sharers for place in places)
        self.written = frozenset(item // (2 * sharers) for item in epoch.items if item & 1)
        self.faults = [Fault(place // sharers, place % sharers, self.homes[place % sharers]) for place in places if place // sharers in self._marked]
        self._marked -= self.accessed


def check_number(number, count, what):
    """A number that a policy gave, if it is one of those that there are."""
    try:
        found = index(number)
    except TypeError:
        found = -1
    if not 0 <= found < count:
        raise BrokenRule(f"there is no {what} {number!r}: the last is {count - 1}")
    return found


def check_flags(flags):
    """Flags that a policy gave, if they are a number that a call can have."""
    if not isinstance(flags, int) or not 0 <= flags < 1 << 32:
        raise BrokenRule(f"the flags are {flags!r}: expected MOVE, MOVE_ALL, STRICT or a sum of these")
    return flags


def status_names(answer):
    """How many entries of a call did not move, by what they answered."""
    return Counter(ERRORS.get(-status, str(status)) for status in answer.statuses if status is not None and status < 0)


def call_text(answer):
    """A call and what became of it, in a line."""
    if answer.error:
        return f"{answer.call}: error {answer.error}"
    if answer.call != "move_pages":
        return f"{answer.call}: {counted(answer.failed, 'page')} failed" if answer.failed else f"{answer.call}: ok"
    arrived = Counter(status for (_, node), status in zip(answer.pages, answer.statuses) if status == node)
    words = [f"{count:,} on node {node}" for node, count in sorted(arrived.items())] + [f"{name} {count:,}" for name, count in sorted(status_names(answer).items())]
    return f"move_pages of {counted(len(answer.pages), 'page')}: {', '.join(words)}"

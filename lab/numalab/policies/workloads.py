"""Workloads: a stream of accesses in epochs, which is made or read block by block.

An access is a number, an item: (page * processes + process) * 2, and 1 more for a write. Pages are numbered from 0 over all regions."""
import random
from collections import Counter, namedtuple

from ..faults import MOST_FRAMES
from ..notation import FIRST_ADDRESS, next_free
from ..traces import Bad
from .arrays import Draws, Table, block_of, concatenate, cycle, look_up, pairs_of
from .spec import Parameters

BLOCK = 1 << 16
TURN = 1000  # how many accesses of a mix follow each other before its next part

# A process: its pid, the node it runs on, and the nodes that it may use.
Process = namedtuple("Process", "pid home allowed")
# Pages next to each other: the address of the first, how many, and by their numbers the processes that see them.
Region = namedtuple("Region", "address pages processes")


class Workload:
    """What policies are compared on. `blocks()` gives pairs of an epoch's number and a block of items, in order."""

    def __init__(self, name, processes, regions, epochs, pinned=()):
        self.name, self.processes, self.regions, self.epochs = name, processes, regions, epochs
        self.pinned, self.left_out = frozenset(pinned), Counter()
        self.scale = 1

    @property
    def pages(self):
        return sum(region.pages for region in self.regions)

    @property
    def item_count(self):
        return self.pages * len(self.processes) * 2

    def blocks(self):
        raise NotImplementedError


class GeneratedWorkload(Workload):
    """A workload that a generator makes: `take(epoch, count)` gives its next items."""

    def __init__(self, source, common):
        regions, processes = source.regions(), common.processes_of(source.homes)
        pages = sum(region.pages for region in regions)
        chosen = random.Random(f"pins {common.seed}").sample(range(pages), round(pages * common.pinned))
        super().__init__(source.words, processes, regions, common.epochs, chosen)
        self.source, self.accesses, self.seed = source, common.accesses, common.seed

    def blocks(self):
        self.source.begin(self.seed)
        for epoch in range(self.epochs):
            left = self.accesses * (epoch + 1) // self.epochs - self.accesses * epoch // self.epochs
            while left:
                count = min(left, BLOCK)
                yield epoch, self.source.take(epoch, count)
                left -= count


# ---- generators


class Source:
    """A generator. Its parameters are read once; `begin` starts it anew from a seed."""

    def __init__(self, words, setup):
        self.words, self.setup = f"{words.name} {' '.join(f'{key}={value}' for key, value in words.given.items())}".strip(), setup
        self.size = words.count("pages", 4000, 1, MOST_FRAMES)
        self.homes = homes_of(words, setup, self.default_processes)
        self.writes = words.number("writes", 0.25, 1)
        self.read(words)

    default_processes = 1

    @property
    def sharers(self):
        return len(self.homes)

    def read(self, words):
        """Reads the parameters of this kind."""

    def regions(self):
        """All pages are seen by all processes."""
        return [Region(FIRST_ADDRESS, self.size, tuple(range(self.sharers)))]

    def begin(self, seed):
        self.draws = Draws(f"{self.words} {seed}")
        order = list(range(self.size))
        random.Random(f"order {self.words} {seed}").shuffle(order)
        self.order = order

    def table(self, weights):
        """The distribution of items where each page has a weight, each process does the same, and some accesses are writes."""
        each = [1 - self.writes, self.writes] * self.sharers
        return Table([weight * part for weight in weights for part in each])


class Uniform(Source):
    """Every page is as likely as any other."""

    def begin(self, seed):
        super().begin(seed)
        self.now = self.table([1.0] * self.size)

    def take(self, epoch, count):
        return self.draws.take(self.now, count)


class Zipf(Uniform):
    """The page of rank k has the weight 1 / k^a; ranks are scattered over the addresses."""

    def read(self, words):
        self.exponent = words.number("a", 0.99)

    def begin(self, seed):
        super().begin(seed)
        weights = [0.0] * self.size
        for rank, page in enumerate(self.order, 1):
            weights[page] = rank ** -self.exponent
        self.now = self.table(weights)


class Gups(Uniform):
    """Random updates: each a read and a write of one page, all pages as likely."""

    def begin(self, seed):
        super().begin(seed)
        self.now, self.held = Table([1.0] * (self.size * self.sharers)), None

    def take(self, epoch, count):
        """A block may end between the read and the write of an update, which then begins the next one."""
        held = [] if self.held is None else [block_of([self.held])]
        count_new = count - len(held)
        made = pairs_of(self.draws.take(self.now, (count_new + 1) // 2))
        self.held = int(made[-1]) if count_new % 2 else None
        return concatenate([*held, made[:count_new]])


class Phases(Source):
    """A hot set of pages has most accesses, and moves on after some epochs."""

    def read(self, words):
        self.hot, self.heat = words.number("hot", 0.1, 1), words.number("heat", 0.9, 1)
        self.every = words.count("every", 5)

    def begin(self, seed):
        super().begin(seed)
        self.phase = None

    def take(self, epoch, count):
        if epoch // self.every != self.phase:
            self.phase = epoch // self.every
            many = max(1, round(self.size * self.hot))
            hot = {self.order[(self.phase * many + k) % self.size] for k in range(many)}
            cold = max(1, self.size - len(hot))
            heat = self.heat if len(hot) < self.size else 1.0
            self.now = self.table([heat / len(hot) if page in hot else (1 - heat) / cold for page in range(self.size)])
        return self.draws.take(self.now, count)


class Repeated(Source):
    """Items that are repeated for ever."""

    def begin(self, seed):
        super().begin(seed)
        self.base, self.place = block_of(self.round()), 0

    def take(self, epoch, count):
        block = cycle(self.base, self.place, count)
        self.place += count
        return block

    def is_written(self, page):
        """Whether a page is one of those that are written, which are spread evenly."""
        return int((page + 1) * self.writes) > int(page * self.writes)


class Scan(Repeated):
    """The pages from the first to the last, again and again."""

    def round(self):
        return [(page * self.sharers + process) * 2 + self.is_written(page) for page in range(self.size) for process in range(self.sharers)]


class Stencil(Repeated):
    """Each process reads and writes pages of its own, and the borders that it has with its neighbours, which both see."""

    default_processes = 4

    def read(self, words):
        self.border = words.count("border", 8)
        self.own = (self.size - self.border * (self.sharers - 1)) // self.sharers
        if self.own < 1:
            raise Bad(f"{words.what}: {self.size} pages are too few for {self.sharers} processes with borders of {self.border}")
        self.size = self.own * self.sharers + self.border * (self.sharers - 1)

    def regions(self):
        """Each process's own pages, and after them the border with the next process."""
        found, address = [], FIRST_ADDRESS
        for process in range(self.sharers):
            parts = [(self.own, (process,)), (self.border, (process, process + 1))]
            for pages, processes in parts[: 2 if process + 1 < self.sharers else 1]:
                found.append(Region(address, pages, processes))
                address = next_free(address, pages, address)
        return found

    def round(self):
        many, items = self.sharers, []
        each = self.own + self.border
        for page in range(self.own):
            for process in range(many):
                place = ((process * each + page) * many + process) * 2
                items += [place, place + 1]
        for process in range(many - 1):
            for page in range(process * each + self.own, (process + 1) * each):
                mine, theirs = ((page * many + one) * 2 for one in (process, process + 1))
                items += [mine, mine + 1, theirs]
        return items


GENERATORS = {"zipf": Zipf, "uniform": Uniform, "scan": Scan, "phases": Phases, "stencil": Stencil, "gups": Gups}


class Mix:
    """Several generators, which take turns by their shares. Each has pages and processes of its own."""

    def __init__(self, parts, shares, setup):
        self.parts, self.shares, self.setup = parts, shares, setup
        self.words = "mix " + " + ".join(part.words for part in parts)
        self.homes = [home for part in parts for home in part.homes]

    def regions(self):
        found, address, first = [], FIRST_ADDRESS, 0
        for part in self.parts:
            for region in part.regions():
                found.append(Region(address, region.pages, tuple(first + process for process in region.processes)))
                address = next_free(address, region.pages, address)
            first += part.sharers
        return found

    def begin(self, seed):
        self.tables, self.given, page, process = [], [0] * len(self.parts), 0, 0
        for number, part in enumerate(self.parts):
            part.begin(f"{seed} part {number}")
            many, size = part.sharers, sum(region.pages for region in part.regions())
            self.tables.append(block_of([((page + item // (2 * many)) * len(self.homes) + process + item // 2 % many) * 2 + item % 2
                                         for item in range(size * many * 2)]))
            page, process = page + size, process + many
        self.turn = self.part = 0  # how far the turn of which part has come

    def take(self, epoch, count):
        blocks = []
        while count:
            part, many = self.next_turn(count)
            blocks.append(look_up(self.parts[part].take(epoch, many), self.tables[part]))
            count -= many
        return concatenate(blocks)

    def next_turn(self, most):
        """The part whose turn goes on, or that is most behind its share, and how many accesses it makes."""
        if not self.turn:
            total = sum(self.given) + TURN
            self.part = max(range(len(self.parts)), key=lambda one: self.shares[one] * total - self.given[one])
            self.given[self.part] += TURN
        many = min(TURN - self.turn, most)
        self.turn = (self.turn + many) % TURN
        return self.part, many


# ---- parameters that all have


def homes_of(words, setup, default):
    """The node of each process: they take turns on those of `homes`."""
    many = words.count("processes", default, 1, 64)
    text = words.text("homes", None)
    nodes = setup.node_list(text, f"{words.what}: homes") if text else setup.first_tier() or [0]
    return [nodes[k % len(nodes)] for k in range(many)]


class Common:
    """Parameters of the whole workload."""

    def __init__(self, words, setup, seed):
        self.accesses, self.epochs = words.count("accesses", 1000000), words.count("epochs", 20)
        self.pinned, self.seed = words.number("pinned", 0, 1), seed
        allowed = words.text("allowed", None)
        self.allowed = setup.node_list(allowed, f"{words.what}: allowed") if allowed else list(setup.nodes)

    def processes_of(self, homes):
        return [Process(pid, home, self.allowed) for pid, home in enumerate(homes, 1)]


def source_of(words, setup):
    if words.name not in GENERATORS:
        raise Bad(f"there is no workload {words.name}: there are {', '.join([*GENERATORS, 'mix'])}, and files")
    return GENERATORS[words.name](words, setup)


def mix_of(text, setup, seed):
    """A mix: 'mix zipf pages=1000 share=0.7 + scan pages=3000 share=0.3 accesses=1e6'. What concerns the whole may stand anywhere."""
    whole = {}
    parts, shares = [], []
    for piece in text.split(None, 1)[1].split(" + ") if " " in text else []:
        words = Parameters(piece, "workload mix:")
        for key in ("accesses", "epochs", "pinned", "allowed"):
            if key in words.given:
                whole[key] = words.given.pop(key)
        shares.append(words.number("share", 1))
        parts.append(source_of(words, setup))
        words.done()
    if not parts or sum(shares) <= 0:
        raise Bad("workload mix: expected parts with shares, such as 'mix zipf pages=1000 share=0.7 + scan pages=3000 share=0.3'")
    common = Common(Parameters(" ".join(["mix", *(f"{key}={value}" for key, value in whole.items())]), "workload"), setup, seed)
    return GeneratedWorkload(Mix(parts, [share / sum(shares) for share in shares], setup), common)


def make_workload(text, setup, seed):
    """The generated workload that some words describe."""
    if text.split()[:1] == ["mix"]:
        return mix_of(text, setup, seed)
    words = Parameters(text, "workload")
    source, common = source_of(words, setup), Common(words, setup, seed)
    words.done()
    return GeneratedWorkload(source, common)

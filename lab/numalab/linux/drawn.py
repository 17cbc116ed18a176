"""Random traces that a kernel can be made to play. A trace is drawn from a seed, its kind and its number alone; those of one lot have
the same machine, so that one guest plays them all."""
import random
from collections import namedtuple

from .. import model
from ..model import PAGE, ZERO
from ..traces import Trace, json_text
from .differences import KERNELS
from .instructions import Instructions, Unplayable
from .worlds import Prediction

LOT = 50  # how many traces share a machine
FIRST, SPACE = 16, 56  # where areas are, in pages
PLENTY = 2000  # the frames of a node that never fills up
DISTANCES = {
    2: [[[10, 20], [20, 10]]],
    3: [[[10, 20, 20], [20, 10, 20], [20, 20, 10]], [[10, 20, 30], [20, 10, 20], [30, 20, 10]], [[10, 20, 30], [20, 10, 30], [30, 30, 10]],
        [[10, 21, 17], [21, 10, 28], [17, 28, 10]]],
    4: [[[10 if own == other else 20 for other in range(4)] for own in range(4)],
        [[10 if own == other else 20 if own // 2 == other // 2 else 30 for other in range(4)] for own in range(4)]],
}
# A kind of trace: how many steps it has, how many processes, and what it is called.
Kind = namedtuple("Kind", "steps processes about")
KINDS = {"small": Kind(30, 2, "three nodes and 30 calls"), "large": Kind(100, 4, "two to four nodes, some of them full or going offline, and 100 calls")}
# The machine of a lot: the frames of its nodes, their distances, and those that may go offline.
Lot = namedtuple("Lot", "nodes distance removable")


def lot_of(seed, kind, number):
    """The machine of the traces of a lot."""
    rng = random.Random(f"{seed} {kind} lot {number}")
    if kind == "small":
        return Lot([PLENTY] * 3, rng.choice(DISTANCES[3]), frozenset())
    if rng.random() < 0.2:
        return Lot([PLENTY] * 3, rng.choice(DISTANCES[3]), frozenset(rng.choice([[2], [1], [1, 2]])))
    count = rng.choice([2, 3, 3, 3, 4])
    sizes = [PLENTY] * count
    if rng.random() < 0.5:
        for node in rng.sample(range(count), rng.randint(1, count - 1)):
            sizes[node] = rng.randint(4, 12)
    return Lot(sizes, rng.choice(DISTANCES[count]), frozenset())


class Drawing:
    """A trace that is being drawn, and the plain model, which plays each step at once and shows what is worth asking next."""

    def __init__(self, seed, kind, number, lot, cpusets=True, root=True):
        self.rng = random.Random(f"{seed} {kind} {number}")
        self.choice, self.below = self.rng.choice, self.rng.randrange
        self.kind, self.lot, self.cpusets, self.root = KINDS[kind], lot, cpusets, root
        self.top = {"version": 1, "machine": {"nodes": list(lot.nodes), "distance": lot.distance}, "steps": []}
        self.machine = model.Machine(self.top)
        self.processes = self.machine.processes
        self.spawned = 0
        self.slips = self.choice([0.3, 1, 1, 2])

    # ---- small things

    def chance(self, share):
        return self.rng.random() < share

    def slip(self, share):
        """Whether to ask for something that will be refused."""
        return self.chance(share * self.slips)

    def add(self, step):
        self.top["steps"].append(step)
        self.machine.play(step)

    def pid(self):
        if self.slip(0.01):
            return 77
        touched = [pid for pid, process in self.processes.items() if process.seen]
        return self.choice(touched if touched and self.chance(0.8) else list(self.processes))

    def node(self):
        count = len(self.machine.nodes)
        return self.choice([count, count + 1, 63]) if self.slip(0.02) else self.below(count)

    def nodes(self, pid=None, most=4):
        """A set of nodes, most often of those that a process may use."""
        count = len(self.machine.nodes)
        drawn = {self.below(count) for _ in range(self.rng.randint(1, most))}
        process = self.processes.get(pid)
        if process and self.chance(0.7):
            drawn = drawn & process.allowed or {self.choice(sorted(process.allowed))}
        if self.slip(0.03):
            drawn = self.choice([set(), drawn | {count}, {count}])
        return sorted(drawn)

    def caller_and_pid(self):
        caller = self.pid()
        if self.chance(0.6) or caller not in self.processes:
            return {"caller": caller, "pid": self.choice([0, 0, caller])}
        return {"caller": caller, "pid": self.pid()}

    def flags(self, caller):
        if self.slip(0.02):
            return self.choice([1, 3, 8, 16])
        if caller in self.processes and self.processes[caller].privileged:
            return self.choice([0, 2, 4, 4, 6])
        return 4 if self.slip(0.04) else self.choice([0, 2, 2])

    def number(self, pid):
        """A page number: one that the process has touched, one of its areas or beside it, or any other."""
        process = self.processes.get(pid)
        if process and process.seen and self.chance(0.8):
            return self.choice(sorted(process.seen))
        if process and process.areas and self.chance(0.9):
            area = self.choice(process.areas)
            return self.choice([area.first + self.below(area.pages)] * 6 + [area.end])
        return FIRST + self.below(SPACE)

    def address(self, number):
        return number * PAGE + self.choice([0, 0, 0, 0, 1, 4095])

    def gap(self, pid, pages):
        """A page number from which a process has room, often right beside one of its areas."""
        areas = self.processes[pid].areas if pid in self.processes else []
        beside = [place for area in areas for place in (area.end, area.first - pages) if place >= FIRST]
        tried = [self.choice(beside)] if beside and self.chance(0.6) else []
        for first in [*tried, *(FIRST + self.below(SPACE) for _ in range(8)), *range(FIRST, FIRST + 40 * SPACE, 8)]:
            if not any(area.part(first, first + pages) for area in areas):
                return first
        return 1 << 20

    # ---- steps

    def spawn(self):
        self.spawned += 1
        count = len(self.machine.nodes)
        rng, whole = self.rng, list(range(count))
        allowed = whole if not self.cpusets or self.chance(0.7) else sorted(rng.sample(whole, rng.randint(1, count)))
        return {"op": "spawn", "pid": self.spawned, "uid": self.choice([100, 100, 200]) if self.root else 100, "home": self.below(count),
                "allowed": allowed, "privileged": self.root and self.chance(0.4)}

    def map(self):
        pid, pages = self.pid(), self.choice([1, 2, 3, 4, 4, 6, 8, 18])
        return {"op": "map", "pid": pid, "addr": self.gap(pid, pages) * PAGE, "pages": pages, "shared": self.chance(0.4)}

    def attach(self):
        shared = [number for number, segment in self.machine.segments.items() if segment.shared]
        if not shared:
            return {**self.map(), "shared": True}
        pid, segment = self.pid(), self.choice(shared)
        length = self.machine.segments[segment].pages
        offset = self.choice([0, self.below(length)])
        pages = self.rng.randint(1, length - offset)
        addr = self.gap(pid, pages)
        # Where an area ends in the middle of the segment, this one may go on there.
        ends = [area for area in self.processes[pid].areas if area.segment == segment] if pid in self.processes else []
        for area in ends[:1] if self.chance(0.5) else []:
            offset, addr = area.offset + area.pages, area.end
            pages = length - offset
        if pages <= 0 or pid not in self.processes or any(area.part(addr, addr + pages) for area in self.processes[pid].areas):
            return self.map()
        return {"op": "attach", "pid": pid, "addr": addr * PAGE, "segment": segment, "offset": offset, "pages": pages}

    def unmap(self):
        pid = self.pid()
        areas = self.processes[pid].areas if pid in self.processes else []
        if not areas:
            return self.map()
        area = self.choice(areas)
        first = self.choice([area.first, area.first + self.below(area.pages)])
        pages = self.rng.randint(1, area.end - first)
        pinned = {page for page, count in self.machine.pins.items() if count}
        if not self.chance(0.05) and any(part.page(number) in pinned for part in areas for number in range(part.first, part.end) if first <= number < first + pages):
            return self.touch()
        return {"op": "unmap", "pid": pid, "addr": first * PAGE, "pages": pages}

    def exit(self):
        pid = self.pid()
        pinned = {page for page, count in self.machine.pins.items() if count}
        areas = self.processes[pid].areas if pid in self.processes else []
        if len(self.processes) < 2 or any(area.number_of(page) is not None for area in areas for page in pinned):
            return self.spawn()
        return {"op": "exit", "pid": pid}

    def touch(self):
        """A read or a write, most often where nobody has touched an area."""
        pid = self.pid()
        areas = self.processes[pid].areas if pid in self.processes else []
        number = self.number(pid)
        if areas and self.chance(0.7):
            area = self.choice(areas)
            number = area.first + self.below(area.pages)
        if self.chance(0.65):
            return {"op": "write", "pid": pid, "addr": number * PAGE, "data": f"{self.below(256):02x}"}
        return {"op": "read", "pid": pid, "addr": number * PAGE, "len": 1}

    def pin_or_unpin(self):
        pid = self.pid()
        process = self.processes.get(pid)
        pages = {number: page for number, page in process.seen.items() if page != ZERO} if process else {}
        pinned = [number for number, page in pages.items() if self.machine.pins.get(page)]
        op = "unpin" if pinned and self.chance(0.6) else "pin"
        numbers = pinned if op == "unpin" else list(pages)
        return {"op": op, "pid": pid, "addr": (self.choice(numbers) if numbers else self.number(pid)) * PAGE}

    def targets(self, pid, count):
        """Some nodes, in stretches."""
        process, change, found = self.processes.get(pid), self.choice([0.1, 0.35, 0.6]), []
        usable = sorted(process.allowed) if process and not self.chance(0.15) else list(self.machine.nodes)
        while len(found) < count:
            found.append(found[-1] if found and not self.chance(change) else self.choice(usable))
        if found and self.slip(0.04):
            found[self.below(count)] = self.node()
        return found

    def move_pages(self):
        step = {"op": "move_pages", **self.caller_and_pid()}
        pid, count = step["pid"] or step["caller"], self.choice([0, 1, 1, 2, 3, 4, 5, 6, 8, 12])
        numbers = []
        while len(numbers) < count:
            numbers.append(self.choice(numbers) if numbers and self.chance(0.08) else self.number(pid))
        return {**step, "pages": [self.address(number) for number in numbers], "nodes": self.targets(pid, count),
                "flags": self.flags(step["caller"])}

    def query(self):
        step = {"op": "query", **self.caller_and_pid()}
        pid, count = step["pid"] or step["caller"], self.choice([1, 3, 6])
        return {**step, "pages": [self.address(self.number(pid)) for _ in range(count)], "flags": self.flags(step["caller"])}

    def migrate_pages(self):
        step = {"op": "migrate_pages", **self.caller_and_pid()}
        return {**step, "old": self.choice([self.nodes(), self.nodes(), list(self.machine.nodes)]), "new": self.nodes(step["pid"] or step["caller"])}

    def mbind(self):
        caller = self.pid()
        areas = self.processes[caller].areas if caller in self.processes else []
        first, end = FIRST, FIRST + 2
        if areas:
            area = self.choice(areas)
            first, end = area.first, area.end
            if self.chance(0.6):
                first += self.below(area.pages)
                end = self.rng.randint(first + 1, end)
            if self.chance(0.2):
                end += self.below(10)
        mode = self.choice([0, 0, 1, 1, 1, 2, 2, 2, 2, 3, 3, 3, 4, 5, 6] if self.chance(0.3) else [0, 1, 2, 2, 3])
        nodes = [] if mode in (0, 4) or mode == 1 and self.chance(0.1) else self.nodes(caller, 3)
        if mode in (1, 2, 3) and self.chance(0.08):
            mode += self.choice([1 << 14, 1 << 15])
        flags = self.choice([0, 0, 0, 1, 2, 2, 2, 3])
        if caller in self.processes and self.processes[caller].privileged and self.chance(0.5) or self.slip(0.02):
            flags = self.choice([4, 4, 5, 6, 7])
        length = (end - first) * PAGE - self.choice([0, 0, 0, 0, 0, 1, 4095])
        if self.slip(0.02):
            mode, nodes, length, flags = self.choice([(mode, nodes, 0, flags), (mode, nodes, length, 8), (0, [0], length, flags), (2, [], length, flags),
                                                      (7, nodes, length, flags)])
        return {"op": "mbind", "caller": caller, "addr": first * PAGE, "len": length, "mode": mode, "nodes": nodes, "flags": flags}

    def offline_or_online(self):
        away = sorted(set(self.machine.nodes) - self.machine.online)
        if away and self.chance(0.6):
            return {"op": "online", "node": self.choice(away)}
        node = self.choice(sorted(self.lot.removable))
        # A kernel tries for ten seconds to move a pinned page.
        if any(count and page in self.machine.place and self.machine.node(page) == node for page, count in self.machine.pins.items()):
            return self.touch()
        return {"op": "offline", "node": node}

    def look(self):
        return self.choice([{"op": "pagemap", "pid": self.pid()}, {"op": "numa_maps", "pid": self.pid()}, {"op": "numa_maps", "pid": self.pid()},
                            {"op": "vmstat"}])

    # ---- a trace

    def draw(self):
        """Draws the whole trace, choosing steps by weights that differ from trace to trace."""
        for _ in range(self.rng.randint(1, self.kind.processes)):
            self.add(self.spawn())
        for _ in range(self.rng.randint(1, self.kind.processes + 1)):
            self.add(self.choice([self.map, self.map, self.attach])())
        weights = [weight * self.choice([0.3, 1, 1, 1, 2]) for weight in WEIGHTS.values()]
        going = self.choice([0, 2, 4]) if self.lot.removable else 0
        while len(self.top["steps"]) < self.kind.steps:
            draw = self.rng.choices([*WEIGHTS, Drawing.offline_or_online], [*weights, going])[0]
            self.add(draw(self))
        self.add({"op": "vmstat"})
        for pid in sorted(self.processes):
            self.add({"op": "pagemap", "pid": pid})
            self.add({"op": "numa_maps", "pid": pid})
        return self.top


# How often steps are drawn.
WEIGHTS = {
    Drawing.spawn: 1, Drawing.map: 5, Drawing.attach: 5, Drawing.unmap: 4, Drawing.exit: 1, Drawing.touch: 32, Drawing.pin_or_unpin: 5,
    Drawing.move_pages: 16, Drawing.query: 3, Drawing.migrate_pages: 8, Drawing.mbind: 18, Drawing.look: 7,
}


def starved_at(top):
    """The first step after which all nodes that a process may use are full: it has no room for what is its own. None where there is none."""
    machine = model.Machine(top)
    for place, step in enumerate(top["steps"]):
        machine.play(step)
        full = {node for node in machine.nodes if not machine.free[node]}
        if full and any(process.allowed <= full for process in machine.processes.values()):
            return place
    return None


def killed_at(top):
    """The first step at which a kernel is expected to kill a process: which one, is chance. None where there is none."""
    for version in KERNELS:
        prediction = Prediction(top, version)
        for place, step in enumerate(top["steps"]):
            if str(prediction.give(step).lines[0]).endswith(" killed"):
                return place
    return None


def playable(top, name, here=False):
    """The trace without the steps that no kernel can be made to play."""
    tight = any(frames < PLENTY for frames in top["machine"]["nodes"])
    while True:
        try:
            Instructions(Trace(name, b"", top), here)
            place = starved_at(top) if tight else None
            if place is None and tight:
                place = killed_at(top)
        except Unplayable as fault:
            place = fault.step
        if place is None:
            return top
        top = {**top, "steps": [step for other, step in enumerate(top["steps"]) if other != place]}


def drawn(seed, kind, number, here=None, root=True):
    """A trace; with the number of this machine's nodes, one that it can play itself, by root or by any user."""
    lot = Lot([PLENTY] * here, [[10 if own == other else 20 for other in range(here)] for own in range(here)], frozenset()) if here \
        else lot_of(seed, kind, number // LOT)
    name = f"{kind}-{seed}-{number}.nt"
    top = playable(Drawing(seed, kind, number, lot, not here, root).draw(), name, bool(here))
    return Trace(name, json_text(top).encode(), top)

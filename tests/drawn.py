#!/usr/bin/env python3
"""Plays random traces on the built program and on the plain model in Python, and compares the reports.

The model is lab/numalab/model.py. First it plays each trace that has a report beside it. `tests/drawn.py [PROGRAM]` tests
crates/numatrace/out/numatrace by default, as `rt ci` and `./build` leave it, and plays 2,000 traces with 1, 2 or 3 workers. A trace
is drawn only from its number, and --trace writes the trace with a number. Nothing is printed where all is well; otherwise the first
trace that differs, and then the status is 1. With --times it prints how many traces were played in how many seconds, and how often
each op had each answer."""
import argparse
import collections
import glob
import itertools
import json
import os
import random
import subprocess
import sys
import time

sys.dont_write_bytecode = True
ROOT = os.path.dirname(os.path.dirname(os.path.abspath(__file__)))
sys.path.insert(0, os.path.join(ROOT, "lab"))
from numalab import model  # noqa: E402

PROGRAM = os.path.join(ROOT, "crates/numatrace/out/numatrace")
TRACES = 2000
MOST_WAIT = 120
PAGE, END = model.PAGE, model.END
TOP, MOST = 1 << 47, (1 << 64) - 1

# Addresses and numbers of pages at the limits, good and bad; None keeps what was drawn.
EDGES = [
    (TOP - PAGE, 1), (TOP - PAGE, 2), (TOP, 1), (0, 1), (0, 16), (0, END), (PAGE, END - 1), (PAGE, END), (1 << 40, 1 << 25),
    (1 << 46, 1 << 34), (MOST, 1), (MOST - 4095, 1), (MOST - 4095, 1 << 52), (MOST - 4095, (1 << 52) + 1), (None, 0), (None, END),
    (None, 1 << 52), (None, MOST), (65537, None), (69631, None), (65536, None), (81920, None), (98304, None), (65536, 30),
]
# The same for offsets in a segment and numbers of pages.
OFFSETS = [(MOST, 1), (MOST, 2), (MOST - 1, 2), (None, MOST), (None, 0), (END - 1, 1), (END - 2, 3), (0, END), (5, END - 5)]
# The same for addresses and lengths of mbind.
LENGTHS = [
    (None, 0), (None, 0), (65537, None), (69631, None), (None, MOST), (MOST - 4095, PAGE), (MOST - 4095, 1), (MOST - 4095, 0),
    (TOP, PAGE), (MOST - 8191, PAGE), (65536, MOST - 65535), (65536, MOST - 69631), (65536, MOST - 69630), (65536, 40 * PAGE),
]


class Drawing:
    """A trace that is being drawn, and the machine of the model, which plays each step at once and shows what is worth asking next."""

    def __init__(self, number):
        self.rng = random.Random(number)
        self.choice, self.below = self.rng.choice, self.rng.randrange
        self.pids = [1, 2, 3, 4, self.choice([5, 4294967295])]
        self.haste = self.choice([0.3, 0.3, 1, 1, 1, 1, 4])
        self.wide = self.chance(0.025)
        self.trace = {**self.top(), "machine": self.drawn_machine(), "steps": []}
        self.machine = model.Machine(self.trace)
        self.processes = self.machine.processes
        self.lines = []

    # ---- small things

    def chance(self, share):
        return self.rng.random() < share

    def slip(self, share):
        """Whether to ask for something that will be refused: seldom in some traces, and in others so often that one step has two mistakes."""
        return self.chance(share * self.haste)

    def top(self):
        if self.chance(0.5):
            return {"version": 1, **self.choice([{}, {}, {}, {"run_limit": 1}, {"run_limit": None}])}
        return {"version": 2, "run_limit": self.choice([1, 1, 2, 2, 3, 4, 7, model.MOST_ENTRIES])}

    def drawn_machine(self):
        count, most = self.choice([1, 2, 2, 2, 3, 3, 3, 4, 4, 5, 5]), self.choice([2, 3, 4, 4, 6, 9, 9, 14])
        sizes = [self.rng.randint(1, most) for _ in range(count)]
        if self.wide:
            sizes = [self.choice([100, 150, 260]) for _ in range(self.choice([2, 3]))]
        elif self.chance(0.03):
            sizes = [self.choice([1, 1, 2, 3]) for _ in range(self.choice([12, 40, 64]))]
        elif self.chance(0.15):
            sizes[self.below(count)] = self.choice([20, 100])
        some = self.choice([[20], [11, 20, 30], [11, 20, 30], [11, 12, 13, 255], [20, 21]])
        rows = [[10 if own == other else self.choice(some) for other in range(len(sizes))] for own in range(len(sizes))]
        if self.chance(0.4):
            rows = [[rows[min(own, other)][max(own, other)] for other in range(len(sizes))] for own in range(len(sizes))]
        return {"nodes": sizes, "distance": rows}

    def flag(self, key, share):
        """A key that is true, false or missing."""
        return {key: True} if self.chance(share) else self.choice([{}, {key: False}])

    def edged(self, step, keys, edges, share):
        """The step, now and then with other values of two keys."""
        drawn = self.choice(edges) if self.chance(share) else (None, None)
        return {**step, **{key: value for key, value in zip(keys, drawn) if value is not None}}

    def ranged(self, step, share=0.07):
        return self.edged(step, ("addr", "pages"), EDGES, share)

    def node(self, share=0.04):
        count = len(self.machine.nodes)
        return self.choice([count, count + 1, 63, 64, 4294967295]) if self.slip(share) else self.below(count)

    def usable(self, pid):
        """The nodes that a process may use; all online nodes where there is no such process."""
        process = self.processes.get(pid)
        return sorted(self.machine.online & process.allowed if process else self.machine.online)

    def nodes(self, pid=None, share=0.03):
        """A set of nodes, most often of those that a process may use."""
        count = len(self.machine.nodes)
        drawn = {self.below(count) for _ in range(self.rng.randint(1, min(count, 4)))}
        if count > 5 and self.chance(0.5):
            first = self.below(count)
            drawn = set(range(first, self.rng.randint(first + 1, count)))
        usable = self.usable(pid)
        if pid is not None and usable and self.chance(0.75):
            drawn = drawn & set(usable) or {self.choice(usable)}
        if self.slip(share):
            drawn = self.choice([set(), drawn | {min(count, 63)}, drawn | {63}])
        listed = self.rng.sample(sorted(drawn), len(drawn))
        return listed + listed[:1] if self.chance(0.1) else listed

    def pid(self, share=0.06):
        """A process, most often one that has touched something."""
        if not self.processes or self.slip(share):
            return self.choice([0, 77, 4294967295, *self.pids])
        touched = [pid for pid, process in self.processes.items() if process.seen]
        return self.choice(touched if touched and self.chance(0.75) else list(self.processes))

    def caller_and_pid(self):
        caller, kind = self.pid(), self.rng.random()
        if kind < 0.55 or caller not in self.processes:
            return {"caller": caller, "pid": self.choice([0, 0, 0, caller])}
        if kind < 0.63:
            return {"caller": caller, "pid": self.choice([77, 4294967294, self.pid(0.1)])}
        return {"caller": caller, "pid": self.choice(self.subjects(caller) if self.chance(0.7) else list(self.processes))}

    def subjects(self, caller):
        """The processes whose pages a process may move."""
        own = self.processes[caller]
        return [pid for pid, process in self.processes.items() if own.privileged or process.user == own.user]

    def flags(self, caller):
        """Flags of move_pages and query."""
        if self.slip(0.05):
            return self.choice([1, 3, 5, 7, 8, 10, 16, 1 << 31, 4294967295])
        if caller in self.processes and self.processes[caller].privileged:
            return self.choice([0, 2, 2, 4, 4, 6, 6])
        return 4 if self.slip(0.15) else self.choice([0, 2, 2])

    # ---- places in memory

    def number(self, pid):
        """A page number: one that the process has touched, one of its areas or beside it, or any other."""
        process = self.processes.get(pid)
        if process and process.seen and self.chance(0.7):
            return self.choice(sorted(process.seen))
        if process and process.areas and self.chance(0.87):
            area = self.choice(process.areas)
            inside = area.first + self.below(min(area.pages, 8))
            return self.choice([inside] * 8 + [area.end - 1, area.end, max(area.first, 1) - 1])
        return self.choice([16 + self.below(24), 16 + self.below(24), 0, END - 1, END, (1 << 52) - 1])

    def address(self, number):
        """An address in a page, most often its first."""
        return number * PAGE + self.choice([0, 0, 0, 1, self.below(PAGE), 4095])

    def gap(self, pid, pages):
        """An address at which the process has room for `pages` pages."""
        areas = self.processes[pid].areas if pid in self.processes else []
        drawn = [16 + self.below(28) for _ in range(6)]
        for first in drawn + list(range(16, 100)):
            if not any(area.part(first, first + pages) for area in areas):
                return first * PAGE
        return 1 << 30

    def shown(self, page):
        """Where areas show a page: pids and page numbers."""
        found = [(pid, area.number_of(page)) for pid, process in self.processes.items() for area in process.areas]
        return [(pid, number) for pid, number in found if number is not None]

    def untouched(self, places):
        return [(pid, number) for pid, number in places if number not in self.processes[pid].seen]

    def pages_of(self, pid):
        """The page numbers at which a process sees pages, in ascending order."""
        seen = self.processes[pid].seen if pid in self.processes else {}
        return [number for number in sorted(seen) if seen[number] != model.ZERO]

    def nodes_of(self, pid):
        """The nodes on which a process sees pages, in ascending order."""
        return sorted({self.machine.node(self.processes[pid].seen[number]) for number in self.pages_of(pid)})

    def seers(self, least=1):
        """The processes that see at least this many pages."""
        return [pid for pid in self.processes if len(self.pages_of(pid)) >= least]

    # ---- steps on processes and areas

    def spawn(self):
        dead = [pid for pid in self.pids if pid not in self.processes]
        pid = self.choice(dead) if dead and not self.slip(0.1) else self.choice([0, *self.pids])
        allowed = list(self.machine.nodes) if self.chance(0.45) else self.nodes(share=0.02)
        return {"op": "spawn", "pid": pid, "uid": self.choice([0, 0, 100, 100, 200, 4294967295]), "home": self.node(0.03),
                "allowed": allowed, **self.flag("privileged", 0.45)}

    def map(self):
        pid, pages = self.pid(), self.choice([1, 1, 2, 3, 4, 5, 6, 8])
        return self.ranged({"op": "map", "pid": pid, "addr": self.gap(pid, pages), "pages": pages, **self.flag("shared", 0.5)})

    def attach(self):
        """An area of a segment that may be shared, seldom of another, of one that is gone, or of none."""
        pid, there = self.pid(), self.machine.segments
        shared = [number for number, segment in there.items() if segment.shared]
        if not shared and self.chance(0.7):
            return {**self.map(), "shared": True}
        number = self.choice([0, 1, self.below(self.machine.segments_made + 1), self.machine.segments_made, 65536, MOST])
        if shared and not self.slip(0.08):
            number = self.choice(shared)
        length = there[number].pages if number in there else 3
        offset = self.choice([0, self.below(min(length, 8))])
        pages = self.rng.randint(1, min(length - offset, 6)) + (length if self.slip(0.05) else 0)
        step = {"op": "attach", "pid": pid, "addr": self.gap(pid, min(pages, 8)), "segment": number}
        share = 0.6 if length > END // 4 else 0.05
        step = self.edged({**step, "offset": offset, "pages": pages}, ("offset", "pages"), OFFSETS, share)
        return self.ranged(step, 0.04)

    def unmap(self):
        """A part of an area or more, and now and then a place that shows a pinned page and that nobody touched."""
        pinned = self.untouched([place for page, count in self.machine.pins.items() if count for place in self.shown(page)])
        if pinned and self.chance(0.4):
            pid, number = self.choice(pinned)
            first, pages = max(number - self.choice([0, 0, 1]), 0), self.rng.randint(1, 3)
        else:
            pid = self.pid()
            areas = self.processes[pid].areas if pid in self.processes else []
            area = self.choice(areas) if areas else model.Area(16 + self.below(24), 3, None, None, None)
            inside = area.first + self.below(min(area.pages, 8))
            before = (max(area.first - self.below(4), 0), self.rng.randint(1, 8))
            first, pages = self.choice([(area.first, area.pages), (inside, 1), (inside, 2), (inside, 3), before])
        return self.ranged({"op": "unmap", "pid": pid, "addr": first * PAGE, "pages": pages})

    def exit(self):
        return {"op": "exit", "pid": self.pid(0.15)}

    # ---- reads, writes and pins

    def write_at(self, pid, address, most=4):
        data = bytes(self.below(256) for _ in range(self.rng.randint(1, most))).hex()
        return {"op": "write", "pid": pid, "addr": address, "data": data.upper() if self.chance(0.2) else data}

    def access(self, op):
        """A read or a write of some bytes, most often inside one page."""
        pid = self.pid()
        address = self.address(self.number(pid))
        areas = self.processes[pid].areas if pid in self.processes else []
        if op == "write" and areas and self.chance(0.5):
            area = self.choice(areas)
            address = (area.first + self.below(min(area.pages, 8))) * PAGE + self.choice([0, 0, 5, 4095])
        room = PAGE - address % PAGE
        length = self.choice([1, 2, 3, 4] * 6 + [40, 0, room if room < 300 or self.chance(0.05) else 2])
        if length > room and not self.chance(0.3):
            length = room
        if op == "write":
            return {**self.write_at(pid, address), "data": ""} if length == 0 else self.write_at(pid, address, length)
        return {"op": "read", "pid": pid, "addr": address, "len": length or self.choice([0, 4097, 1 << 32, MOST])}

    def read_or_write(self):
        return self.access(self.choice(["read", "write"]))

    def fill(self):
        """A write where nobody has touched an area, half of the time in one with a policy that mbind has set."""
        areas = [(pid, area) for pid, process in self.processes.items() for area in process.areas]
        if self.chance(0.5):
            areas = [(pid, area) for pid, area in areas if area.policy.nodes] or areas
        places = self.untouched([(pid, area.first + k) for pid, area in areas for k in range(min(area.pages, 8))])
        if not places:
            return self.attach()
        pid, number = self.choice(places)
        return self.write_at(pid, number * PAGE)

    def share(self):
        """A touch of a page that exists, where the process has not touched it."""
        places = self.untouched([place for page in self.machine.place for place in self.shown(page)])
        if not places:
            return self.attach()
        pid, number = self.choice(places)
        return self.choice([{"op": "read", "pid": pid, "addr": number * PAGE, "len": 2}, self.write_at(pid, number * PAGE + 1)])

    def pin_or_unpin(self):
        """Another pin, mostly on a page that has none, or one fewer, mostly on a page that has some."""
        pid, op = self.pid(), self.choice(["pin", "unpin"])
        wants_pinned = op == "unpin" or self.chance(0.4)
        pinned = {number: self.machine.pins.get(self.processes[pid].seen[number], 0) > 0 for number in self.pages_of(pid)}
        numbers = [number for number in pinned if pinned[number] == wants_pinned]
        number = self.choice(numbers) if numbers and self.chance(0.75) else self.number(pid)
        return {"op": op, "pid": pid, "addr": self.address(number)}

    # ---- steps that move pages

    def move_pages(self):
        step = {"op": "move_pages", **self.caller_and_pid()}
        pid, count = step["pid"] or step["caller"], self.choice([0, 1, 1, 2, 3, 4, 5, 6, 8, 12])
        if self.wide and self.chance(0.6):
            count = self.choice([70, 130, 200])
        numbers = self.pages_of(pid)[:count] if self.chance(0.25) else []
        while len(numbers) < count:
            numbers.append(self.choice(numbers) if numbers and self.chance(0.15) else self.number(pid))
        if self.chance(0.2):
            self.rng.shuffle(numbers)
        step["pages"], step["nodes"] = [self.address(number) for number in numbers], self.targets(pid, count)
        step["flags"] = self.flags(step["caller"])
        lengths = model.runs(step["nodes"], self.machine.limit)
        if lengths and self.chance(0.5):
            step["during"] = [self.in_flight(pid, numbers, len(lengths)) for _ in range(self.rng.randint(1, 6))]
        elif self.chance(0.1):
            step["during"] = []
        return step

    def targets(self, pid, count):
        """Some nodes, in stretches."""
        usable, change, nodes = self.usable(pid), self.choice([0.05, 0.35, 0.35, 0.6]), []
        while len(nodes) < count:
            again = nodes and not self.chance(change)
            nodes.append(nodes[-1] if again else self.choice(usable) if usable else self.node())
        if nodes and self.slip(0.12):
            nodes[self.below(count)] = self.node(0.5)
        return nodes

    def in_flight(self, pid, numbers, count):
        """An access while the pages of one of the runs move: anywhere, or at a page that is asked for, through any area."""
        access = self.read_or_write()
        if self.chance(0.5) and not self.slip(0.1):
            number, places = self.choice(numbers), []
            area = self.processes[pid].area(number) if pid in self.processes else None
            if area and self.chance(0.65):
                places = self.shown(area.page(number))
                places = self.chance(0.5) and self.untouched(places) or places
            access["pid"], number = self.choice(places or [(pid, number)])
            access["addr"] = number * PAGE + access["addr"] % PAGE
        return {**access, "run": self.choice([0, count - 1, self.below(count), self.below(count)])}

    def query(self):
        step = {"op": "query", **self.caller_and_pid()}
        pid, count = step["pid"] or step["caller"], self.choice([0, 1, 3, 6, 10])
        return {**step, "pages": [self.address(self.number(pid)) for _ in range(count)], "flags": self.flags(step["caller"])}

    def migrate_pages(self):
        step = {"op": "migrate_pages", **self.caller_and_pid()}
        pid = step["pid"] or step["caller"]
        old = self.choice([self.nodes(share=0.1), list(self.machine.nodes), self.nodes_of(pid)])
        new = self.usable(pid) if self.chance(0.25) else self.nodes(pid, 0.1)
        return {**step, "old": old, "new": new}

    def migrate_well(self):
        """Moves a process that sees pages, by one that may, with nodes that are offline in both sets."""
        seers = self.seers()
        if not seers:
            return self.fill()
        pid, away = self.choice(seers), set(self.machine.nodes) - self.machine.online
        callers = [caller for caller in self.processes if pid in self.subjects(caller)]
        old = {*self.nodes_of(pid), *(away if self.chance(0.5) else []), *self.rng.choices(self.machine.nodes, k=self.below(3))}
        usable = self.usable(pid) or [0]
        new = {*self.rng.sample(usable, self.rng.randint(1, len(usable))), *(away if self.chance(0.2) else [])}
        return {"op": "migrate_pages", "caller": self.choice(callers), "pid": pid, "old": list(old), "new": list(new)}

    def mbind(self):
        caller = self.pid()
        first, end = self.touching(caller)
        if self.chance(0.5):
            first += self.below(min(end - first, 8))
            end = self.rng.randint(first + 1, min(end, first + 10))
        mode = 5 if self.slip(0.03) else self.choice([0, 1, 1, 1, 2, 2, 2, 3, 3, 3, 4])
        nodes = [self.below(len(self.machine.nodes))] if self.chance(0.2) else self.nodes(caller, 0.02)
        if mode in (0, 4) and not self.slip(0.1) or mode == 1 and self.chance(0.15):
            nodes = []
        privileged = caller in self.processes and self.processes[caller].privileged or self.slip(0.2)
        flags = self.choice([0, 0, 1, 2, 2, 2, 3, 3, 3] + [4, 5, 6, 7, 6, 7] * privileged)
        if self.slip(0.03):
            flags = self.choice([8, 9, 16, 4294967295])
        length = (end - first) * PAGE - self.choice([0, 0, 0, 1, 4095]) + (self.choice([1, 5 * PAGE]) if self.chance(0.05) else 0)
        step = {"op": "mbind", "caller": caller, "addr": first * PAGE, "len": length}
        return {**self.edged(step, ("addr", "len"), LENGTHS, 0.07), "mode": mode, "nodes": nodes, "flags": flags}

    def touching(self, pid):
        """A range of adjacent areas of a process."""
        process = self.processes.get(pid)
        if not process or not process.areas:
            return 16, 18
        touched = [area for area in process.areas if any(area.part(number, number + 1) for number in process.seen)]
        area = self.choice(touched if touched and self.chance(0.7) else process.areas)
        end = area.end
        for behind in process.areas:
            if behind.first == end and self.chance(0.7):
                end = behind.end
        return area.first, end

    def mbind_well(self):
        """Moves pages to nodes on which the process has none, or off one node, where there is often no room for all."""
        seers = self.seers(2)
        if not seers:
            return self.fill()
        caller = self.choice(seers)
        first, end = self.touching(caller)
        left = self.choice([self.nodes_of(caller), [self.choice(self.nodes_of(caller))]])
        others = [node for node in self.usable(caller) if node not in left] or self.usable(caller) or [0]
        nodes = self.rng.sample(others, self.rng.randint(min(2, len(others)), len(others)))
        flags = self.choice([1, 2, 3, 2, 3] + [4, 5, 6, 7] * self.processes[caller].privileged)
        step = {"op": "mbind", "caller": caller, "addr": first * PAGE, "len": (end - first) * PAGE}
        if self.chance(0.08):  # The range ends past the areas.
            step["len"] += self.choice([1, PAGE, 20 * PAGE])
            flags = self.choice([1, 1, 3])
        elif self.chance(0.04):
            step["addr"] += self.choice([1, 4095])
            flags = self.choice([1, 2, 4, 5, 6])
        return {**step, "mode": self.choice([1, 2, 2, 3, 3]), "nodes": nodes, "flags": flags}

    # ---- nodes, and a look at something

    def offline_or_online(self):
        away = sorted(set(self.machine.nodes) - self.machine.online)
        if self.chance(0.5):
            return {"op": "offline", "node": self.node()}
        return {"op": "online", "node": self.choice(away) if away and self.chance(0.85) else self.node()}

    def look(self):
        return self.choice([{"op": "free", "node": self.node()}, {"op": "pagemap", "pid": self.pid()},
                            {"op": "numa_maps", "pid": self.pid()}, {"op": "vmstat"}])

    # ---- a trace

    def add(self, step):
        self.trace["steps"].append(step)
        self.lines += self.machine.play(step)

    def begin(self):
        """Processes, areas and pages to begin with."""
        for draw, least, most in BEGIN:
            for _ in range(self.rng.randint(least, most)):
                self.add(draw(self))
        if self.wide and self.processes:
            pid, pages = self.choice(list(self.processes)), self.choice([90, 140, 200])
            self.add({"op": "map", "pid": pid, "addr": 1 << 20, "pages": pages, **self.flag("shared", 0.5)})
            if self.chance(0.4):
                turns = {"op": "mbind", "caller": pid, "addr": 1 << 20, "len": pages * PAGE, "mode": 3, "flags": 0}
                self.add({**turns, "nodes": self.usable(pid)})
            for page in self.rng.sample(range(pages), pages - self.choice([0, 10])):
                self.add(self.write_at(pid, (1 << 20) + page * PAGE + page % 5))

    def end(self):
        """Looks at everything."""
        self.add({"op": "vmstat"})
        for node in self.machine.nodes:
            self.add({"op": "free", "node": node})
        for pid, process in sorted(self.processes.items()):
            self.add({"op": "pagemap", "pid": pid})
            self.add({"op": "numa_maps", "pid": pid})
            numbers = self.rng.sample(sorted(process.seen), min(5, len(process.seen)))
            numbers += [area.first + self.below(min(area.pages, 6)) for area in process.areas[:4]]
            for number in numbers:
                self.add({"op": "read", "pid": pid, "addr": number * PAGE, "len": 6})

    def draw(self):
        """Draws the whole trace, choosing steps by weights that differ from trace to trace."""
        self.begin()
        weights = [weight * self.choice([0.3, 1, 1, 1, 2]) for weight in WEIGHTS.values()]
        for _ in range(self.rng.randint(20, 120)):
            if not self.processes:
                self.add(self.spawn())
            self.add(self.rng.choices(list(WEIGHTS), weights)[0](self))
        self.end()
        return self


# How often steps are drawn, and what each trace begins with: the least and the greatest number of each.
WEIGHTS = {
    Drawing.spawn: 5, Drawing.map: 8, Drawing.attach: 9, Drawing.unmap: 8, Drawing.exit: 2, Drawing.read_or_write: 20,
    Drawing.fill: 10, Drawing.share: 8, Drawing.pin_or_unpin: 12, Drawing.move_pages: 22, Drawing.query: 4,
    Drawing.migrate_pages: 9, Drawing.migrate_well: 6, Drawing.mbind: 18, Drawing.mbind_well: 10,
    Drawing.offline_or_online: 13, Drawing.look: 12,
}
BEGIN = [(Drawing.spawn, 1, 3), (Drawing.map, 1, 4), (Drawing.attach, 0, 3), (Drawing.mbind, 0, 1), (Drawing.fill, 0, 9),
         (Drawing.mbind, 0, 1), (Drawing.fill, 0, 5)]


# ---- both reports


def answers(report):
    """How often each op had each answer, and pages each status."""
    counts = collections.Counter()
    for line in report.splitlines():
        number, op, *words = line.split(" ")
        if op in model.CALLS:  # An area's line of numa_maps has its policy there.
            name = op + " in flight" if "." in number else op
            told = words[1] if words[0] == "error" else "held" if words[0] == "held" else "ok"
            counts[name, told] += 1
            if op in ("move_pages", "query") and told == "ok":
                counts.update((op + " of a page", status if status.startswith("-") else "node") for status in words[1:])
    return counts


def difference(want, got):
    """The first line that differs in two reports."""
    pairs = itertools.zip_longest(want.split("\n"), got.split("\n"), fillvalue="(no line feed)")
    mine, its = next((mine, its) for mine, its in pairs if mine != its)
    return f"the model says\n  {mine or '(the end)'}\nand the report\n  {its or '(the end)'}"


def workers(number):
    """How many workers play the trace with a number."""
    return 1 + number % 3


def check(number, program):
    """What differs when a program plays the trace with a number, or None; and the answers."""
    drawing = Drawing(number).draw()
    want = "".join(line + "\n" for line in drawing.lines)
    command = [program, "--workers", str(workers(number))]
    data = json.dumps(drawing.trace).encode()
    try:
        ran = subprocess.run(command, input=data, capture_output=True, timeout=MOST_WAIT, check=False)
    except (subprocess.TimeoutExpired, OSError) as failure:
        return str(failure), {}
    fault, got = None, ran.stdout.decode("ascii", "replace")
    if (ran.returncode, ran.stderr) != (0, b""):
        fault = f"the program ended with {ran.returncode} and said {ran.stderr[:200]!r}"
    elif want != got:
        fault = difference(want, got)
    return fault, answers(want)


def check_model():
    """The model's report on each trace of the examples and the tests is the one beside the trace."""
    for folder in ("examples", "tests/traces"):
        for path in sorted(glob.glob(os.path.join(ROOT, folder, "*.json"))):
            with open(path, "rb") as trace, open(path[: -len("json")] + "report", encoding="ascii") as report:
                mine, its = model.report(json.load(trace)), report.read()
            if mine != its:
                sys.exit(f"tests/drawn.py: {path}: {difference(mine, its)}")


def play_all(numbers, program):
    """Plays the traces with these numbers on a program, and returns the answers of all. Exits at the first that differs."""
    counts = collections.Counter()
    for number in numbers:
        fault, counted = check(number, program)
        if fault:
            where = f"trace {number} with --workers {workers(number)}"
            sys.exit(f"tests/drawn.py: {where}: {fault}\n`tests/drawn.py --trace {number}` writes the trace")
        counts.update(counted)
    return counts


def main():
    words = argparse.ArgumentParser(description=__doc__.split("\n", maxsplit=1)[0])
    words.add_argument("program", nargs="?", default=PROGRAM)
    words.add_argument("--count", type=int, default=TRACES, help="how many traces to play")
    words.add_argument("--first", type=int, default=0, help="the number of the first trace")
    words.add_argument("--trace", type=int, help="write the trace with this number, and play none")
    words.add_argument("--times", action="store_true", help="print how long that took, and how often each op had each answer")
    asked = words.parse_args()
    if asked.trace is not None:
        print(json.dumps(Drawing(asked.trace).draw().trace))
        return
    program = os.path.abspath(asked.program)
    if not os.access(program, os.X_OK):
        sys.exit(f"tests/drawn.py: there is no program {asked.program}: run ./build first")
    check_model()
    begun = time.monotonic()
    counts = play_all(range(asked.first, asked.first + asked.count), program)
    if asked.times:
        print(f"{asked.count} traces in {time.monotonic() - begun:.1f} s")
        for name, told in itertools.groupby(sorted(counts), key=lambda pair: pair[0]):
            print(f"{name}: " + ", ".join(f"{answer} {counts[name, answer]}" for _, answer in told))


if __name__ == "__main__":
    main()

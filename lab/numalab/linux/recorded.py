"""From what was seen of a program to a trace: its calls from strace, and what its processes had in /proc at each call about nodes."""
from collections import Counter, namedtuple

from ..model import END, MOST_ENTRIES, PAGE
from ..traces import Bad
from ..words import counted
from .strace import Call, Ended, nodes_of_mask, number, numbers

MOST_FRAMES = 16384
MAP_SHARED, MAP_FIXED, MAP_ANONYMOUS, MAP_HUGETLB, MAP_STACK = 0x1, 0x10, 0x20, 0x40000, 0x20000
CLONE_VM, CLONE_THREAD = 0x100, 0x10000
ABOUT_NODES = {"mbind", "move_pages", "migrate_pages"}
# Calls that change what the model has no place for, and how they are listed.
LEFT_OUT = {"set_mempolicy": "set_mempolicy", "set_mempolicy_home_node": "set_mempolicy_home_node", "mremap": "mremap", "shmat": "shmat",
            "fork": "memory that a child has from its parent (fork)", "vfork": "memory that a child has from its parent (fork)",
            "mlock": "mlock", "mlockall": "mlockall", "setuid": "setuid", "setresuid": "setresuid", "capset": "capset"}

# What /proc showed of a process: its user, privilege, home and allowed nodes, the areas that it had before (for a process that is
# not traced), and which page numbers were there, each with its node or None.
Seen = namedtuple("Seen", "uid privileged home allowed areas pages")


class Process:
    """A process as the trace has it so far."""

    def __init__(self, pid):
        self.pid, self.areas, self.touched, self.brk = pid, [], set(), None


class Recorder:
    """Makes the steps of a trace from calls and from what was seen."""

    def __init__(self, machine, scale=1):
        self.machine, self.scale = machine, scale
        self.steps, self.processes, self.same_as, self.left = [], {}, {}, Counter()
        self.present = 0

    def step(self, op, **keys):
        self.steps.append({"op": op, **keys})

    # ---- processes

    def process(self, pid, seen=None):
        """The process of a thread or a process, which is spawned when it is first met."""
        pid = self.same_as.get(pid, pid)
        if pid not in self.processes:
            self.processes[pid] = Process(pid)
            nodes = range(len(self.machine["nodes"]))
            allowed = [node for node in (seen.allowed if seen else nodes) if node in nodes] or [0]
            home = seen.home if seen and seen.home in nodes else 0
            self.step("spawn", pid=pid, uid=seen.uid if seen else 0, home=home, allowed=allowed, privileged=bool(seen and seen.privileged))
            for first, end, shared in seen.areas if seen else []:
                self.map(self.processes[pid], first // self.scale, -(-end // self.scale), shared)
        return self.processes[pid]

    def look(self, pid, seen, statuses):
        """What was there becomes writes, or reads where it was the page of zeros."""
        process = self.process(pid, seen)
        there = {number // self.scale: node for number, node in (seen.pages if seen else {}).items()}
        zeros = {number for number, status in statuses.items() if status == -14 and number in there}
        there.update({number: status for number, status in statuses.items() if status >= 0 or status in (-13, -16)})
        for number in sorted(there):
            if number in process.touched or not self.area_over(process, number):
                continue
            process.touched.add(number)
            if number in zeros:
                self.step("read", pid=process.pid, addr=number * PAGE, len=1)
                continue
            self.present += 1
            self.step("write", pid=process.pid, addr=number * PAGE, data="01")
        return process

    def place(self, process, seen):
        """Pages of a process that is not traced go to the nodes that they were on."""
        home = seen.home
        there = [(number // self.scale, node) for number, node in sorted(seen.pages.items()) if node is not None and node != home]
        entries = [(number, node) for number, node in dict(there).items() if number in process.touched and node < len(self.machine["nodes"])]
        for start in range(0, len(entries), MOST_ENTRIES):
            part = entries[start : start + MOST_ENTRIES]
            self.step("move_pages", caller=process.pid, pid=0, pages=[number * PAGE for number, _ in part], nodes=[node for _, node in part], flags=0)

    # ---- areas

    @staticmethod
    def area_over(process, number):
        return any(first <= number < end for first, end in process.areas)

    def scaled(self, address, length):
        """A range in bytes as page numbers of the trace."""
        return address // PAGE // self.scale, -(-(address + length) // PAGE // self.scale) if self.scale > 1 else -(-(address + length) // PAGE)

    def map(self, process, first, end, shared):
        """A new area, without the pages that another area already has where scaling made them overlap."""
        for low, high in sorted(process.areas):
            if low <= first < high:
                first = high
            elif first < low < end:
                end = low
        if first < end <= END:
            process.areas.append((first, end))
            self.step("map", pid=process.pid, addr=first * PAGE, pages=end - first, shared=bool(shared))

    def unmap(self, process, first, end):
        if not any(low < end and first < high for low, high in process.areas):
            return
        process.areas = [part for low, high in process.areas for part in ((low, min(high, first)), (max(low, end), high)) if part[0] < part[1]]
        process.touched -= {number for number in process.touched if first <= number < end}
        self.step("unmap", pid=process.pid, addr=first * PAGE, pages=end - first)

    # ---- calls

    def add(self, event, seen=None):
        """Adds what a call did; seen is what /proc showed at its beginning, by process."""
        if isinstance(event, Ended):
            self.ended(event.pid)
        elif event.name in ABOUT_NODES:
            getattr(self, event.name)(event, seen or {})
        elif event.result is not None and event.error is None and hasattr(self, "do_" + event.name):
            getattr(self, "do_" + event.name)(event)
        elif event.name in LEFT_OUT and event.error is None:
            self.left[LEFT_OUT[event.name]] += 1

    def ended(self, pid):
        if pid in self.processes:
            self.step("exit", pid=pid)
            del self.processes[pid]

    def do_mmap(self, call):
        flags, address = number(call.arguments[3]), call.result & (1 << 64) - 1
        first, end = self.scaled(address, number(call.arguments[1]))
        process = self.process(call.pid)
        if flags & MAP_FIXED:
            self.unmap(process, first, end)
        if not flags & MAP_ANONYMOUS:
            self.left["mappings of files"] += 1
        elif flags & MAP_HUGETLB:
            self.left["huge pages"] += 1
        else:
            self.map(process, first, end, flags & MAP_SHARED)

    def do_munmap(self, call):
        self.unmap(self.process(call.pid), *self.scaled(number(call.arguments[0]), number(call.arguments[1])))

    def do_brk(self, call):
        process = self.process(call.pid)
        before, process.brk = process.brk, call.result
        if before is not None and call.result > before:
            self.map(process, self.scaled(before + PAGE - 1, 0)[0], self.scaled(call.result, 0)[1], False)
        elif before is not None and call.result < before:
            self.unmap(process, self.scaled(call.result + PAGE - 1, 0)[0], self.scaled(before, 0)[1])

    def do_execve(self, call):
        process = self.process(call.pid)
        for first, end in list(process.areas):
            self.unmap(process, first, end)
        process.brk = None

    def do_madvise(self, call):
        if number(call.arguments[2]) in (4, 8, 9, 14):  # MADV_DONTNEED, MADV_FREE, MADV_REMOVE, MADV_HUGEPAGE
            self.left["madvise that drops pages or asks for huge ones"] += 1

    def do_clone(self, call):
        flags = next((number(part.split("=")[1]) or 0 for part in " ".join(call.arguments).replace("{", " ").replace(",", " ").split() if part.startswith("flags=")), 0)
        if flags & CLONE_THREAD:
            self.same_as[call.result] = self.same_as.get(call.pid, call.pid)
        elif not flags & CLONE_VM:
            self.left["memory that a child has from its parent (fork)"] += 1

    do_clone3 = do_clone

    def target(self, pid, call, seen, statuses=None):
        """The process whose pages a call is about, with what it had; the caller first."""
        caller = self.look(call.pid, seen.get(call.pid), statuses if statuses and not pid else {})
        if not pid or pid == caller.pid:
            return caller
        known = self.same_as.get(pid, pid) in self.processes
        if not known and pid not in seen:
            self.left["calls about a process that was not seen"] += 1
            return None
        process = self.look(pid, seen.get(pid), statuses or {})
        if not known:
            self.place(process, seen[pid])
        return process

    def move_pages(self, call, seen):
        pid, pages, nodes = number(call.arguments[0]), numbers(call.arguments[2]), numbers(call.arguments[3])
        statuses = numbers(call.arguments[4]) or []
        if pages is None or nodes is None or len(pages) > MOST_ENTRIES or any(node < 0 for node in nodes):
            self.left["batches that strace does not show in full, or with more than 16,384 entries"] += 1
            return
        told = {page // PAGE // self.scale: status for page, status in zip(pages, statuses)} if call.error is None else {}
        self.target(pid, call, seen, told)
        keys = {"caller": self.process(call.pid).pid, "pid": pid, "pages": [self.scaled_address(page) for page in pages], "flags": number(call.arguments[5])}
        if call.arguments[3] == "NULL":
            self.step("query", **keys)
        else:
            self.step("move_pages", **keys, nodes=nodes)

    def scaled_address(self, address):
        return address if self.scale == 1 else address // PAGE // self.scale * PAGE

    def nodes(self, text, most):
        """The nodes of a mask that a trace can have."""
        found = nodes_of_mask(text, number(most) or 0)
        if any(node > 63 for node in found):
            self.left["nodes above 63"] += 1
        return [node for node in found if node < 64]

    def migrate_pages(self, call, seen):
        pid = number(call.arguments[0])
        self.target(pid, call, seen)
        old, new = (self.nodes(call.arguments[place], call.arguments[1]) for place in (2, 3))
        self.step("migrate_pages", caller=self.process(call.pid).pid, pid=pid, old=old, new=new)

    def mbind(self, call, seen):
        self.target(0, call, seen)
        address, length = number(call.arguments[0]), number(call.arguments[1])
        first, end = self.scaled(address, length)
        if self.scale > 1:
            address, length = first * PAGE, (end - first) * PAGE
        nodes = self.nodes(call.arguments[3], call.arguments[4])
        self.step("mbind", caller=self.process(call.pid).pid, addr=address, len=length, mode=number(call.arguments[2]), nodes=nodes,
                  flags=number(call.arguments[5]))

    # ---- the trace

    def trace(self):
        """The trace of everything that was added."""
        frames = sum(self.machine["nodes"])
        if self.present > frames:
            raise Bad(f"{counted(self.present, 'page')} were there, together or one after another, and the trace's machine has {frames:,} frames: "
                      f"--scale {-(-self.present // frames)} or more lets one frame stand for that many pages")
        left = [f"{what}: {count}" for what, count in sorted(self.left.items())]
        scale = {"scale": self.scale} if self.scale > 1 else {}
        return {"version": 1, "machine": self.machine, **scale, "left_out": left, "steps": self.steps}


def machine_of(sizes, distance, scale=1):
    """The machine of a trace for nodes of these sizes in pages, with as many frames as are allowed."""
    most = MOST_FRAMES // len(sizes)
    return {"nodes": [max(1, min(size // scale, most)) for size in sizes], "distance": distance}


def recorded(events, machine, scale=1):
    """The trace of events, which are pairs: a call or an end, and what was seen."""
    recorder = Recorder(machine, scale)
    for event, seen in events:
        if isinstance(event, (Call, Ended)):
            recorder.add(event, seen)
    return recorder.trace()

"""A plain machine that plays a good trace by the rules and returns its report.

Its rules were written by someone who had not read the program's code, so that one can be tested against the other, which
tests/drawn.py does. It is slow and simple on purpose. It reads no JSON and checks no form: it takes the object that json.loads
returns, and faults.py says which traces are good. Nothing of it is proved."""
import collections

from .words import nodes_text

PAGE = 4096
# Areas are below this page number, and so is everything that a process has.
END = (1 << 47) // PAGE
MOST_ADDRESS = (1 << 64) - 1
MOST_PROCESSES = 1024
MOST_SEGMENTS = 65536
MOST_PINS = 65535
MOST_ENTRIES = 16384
ZERO = "zero"
OK = ["ok"]
# The names of the modes of mbind. Flags of mbind: 1 is strict, 2 moves, 4 also moves what others see.
MODES = ["default", "prefer", "bind", "interleave", "local"]
STRICT, MOVE, MOVE_ALL = 1, 2, 4

# How long a segment is, and whether it is shared.
Segment = collections.namedtuple("Segment", "pages shared")
# The name of a policy, and its nodes in ascending order.
Policy = collections.namedtuple("Policy", "kind nodes")
DEFAULT = Policy("default", ())


class Refused(Exception):
    """A call that is refused, with the name of the error."""


class Area(collections.namedtuple("Area", "first pages policy segment offset")):
    """A range of page numbers of a process, which shows a stretch of a segment under a policy."""

    @property
    def end(self):
        return self.first + self.pages

    def page(self, number):
        """The page at a page number: its segment, and its index there."""
        return (self.segment, self.offset + number - self.first)

    def number_of(self, page):
        """The page number at which the area shows a page, or None."""
        shown = page[0] == self.segment and self.offset <= page[1] < self.offset + self.pages
        return self.first + page[1] - self.offset if shown else None

    def part(self, first, end):
        """The part of the area inside a range: one area, or none."""
        first, end = max(first, self.first), min(end, self.end)
        if first >= end:
            return []
        return [Area(first, end - first, self.policy, self.segment, self.offset + first - self.first)]


class Process:
    """A process: who it is, its areas by address, and what it has at each page number that it has touched: a page, or ZERO."""

    def __init__(self, user, privileged, home, allowed):
        self.user, self.privileged, self.home, self.allowed = user, privileged, home, allowed
        self.areas = []
        self.seen = {}

    def area(self, number):
        """The area that covers a page number, or None."""
        return next((area for area in self.areas if area.first <= number < area.end), None)

    def pages_seen(self, first, end):
        """The pages that the process sees in a range, each once and at its lowest number, by that number."""
        numbers = {}
        for number in sorted(self.seen):
            if first <= number < end and self.seen[number] != ZERO:
                numbers.setdefault(self.seen[number], number)
        return [(number, page) for page, number in numbers.items()]


def runs(targets, limit):
    """How long each run is: the longest stretches of equal targets, cut from the front where they exceed the limit."""
    lengths = []
    for at, target in enumerate(targets):
        if at and targets[at - 1] == target and lengths[-1] < limit:
            lengths[-1] += 1
        else:
            lengths.append(1)
    return lengths


def failures(statuses):
    """How many entries failed: those of a pinned page, and those that found no frame."""
    return sum(status in (-16, -12) for status in statuses)


def follows(policy, node):
    """Whether a page on a node follows a policy. Policies without nodes are always followed."""
    return not policy.nodes or node in policy.nodes


def pairs(old, new):
    """Which node's pages go to which node, in order."""
    sources, targets = sorted(old), sorted(new)
    target = {source: targets[k % len(targets)] for k, source in enumerate(sources)}
    # A pair is dropped where both are the same, or where the sets differ in size and the source is a new node as well.
    for source in sources:
        if target[source] == source or (len(sources) != len(targets) and source in new):
            del target[source]
    # The first whose target is not pending is taken, or the last if there is none. All of the old nodes are pending at first.
    pending, taken = set(sources), []
    while target:
        ready = [source for source in target if target[source] not in pending]
        source = ready[0] if ready else list(target)[-1]
        taken.append((source, target.pop(source)))
        pending.discard(source)
    return taken


def policy_text(policy):
    """A policy as numa_maps shows it, with consecutive nodes as a range."""
    return f"{policy.kind}:{nodes_text(policy.nodes)}" if policy.nodes else policy.kind


class Machine:
    """A machine, and the steps of a trace as its methods, which return the answer to a step and the lines after it."""

    def __init__(self, trace):
        sizes = trace["machine"]["nodes"]
        self.distance = trace["machine"]["distance"]
        self.limit = trace["run_limit"] if trace["version"] == 2 else MOST_ENTRIES
        self.nodes = range(len(sizes))
        # Frames are numbered consecutively. A free list begins in ascending order, and every node is online.
        self.owner = [node for node in self.nodes for _ in range(sizes[node])]
        self.free = [[frame for frame, owner in enumerate(self.owner) if owner == node] for node in self.nodes]
        self.online = set(self.nodes)
        self.processes = {}
        self.segments = {}
        self.segments_made = 0
        # Of each page that has a frame: the frame, its bytes, and how often it is pinned.
        self.place, self.bytes, self.pins = {}, {}, {}
        self.moved = self.failed = 0
        self.steps = 0

    def play(self, step):
        """The lines of the next step."""
        try:
            answer, *lines = getattr(self, CALLS[step["op"]])(step)
        except Refused as refusal:
            answer, lines = f"error {refusal}", []
        head = f"{self.steps} {step['op']}"
        self.steps += 1
        return [f"{head} {answer}", *lines]

    # ---- what calls ask

    def process(self, pid):
        if pid not in self.processes:
            raise Refused("ESRCH")
        return self.processes[pid]

    def node(self, page):
        """The node that a page is on."""
        return self.owner[self.place[page]]

    def sharers(self, page):
        """The processes that see a page."""
        return {pid for pid, process in self.processes.items() if page in process.seen.values()}

    def areas(self):
        """The areas of all processes."""
        return [area for process in self.processes.values() for area in process.areas]

    def usable(self, nodes, process):
        """The nodes among these that are online and allowed, in ascending order."""
        return tuple(sorted(node for node in set(nodes) if node in self.online and node in process.allowed))

    def exists(self, node):
        """Refuses a node that does not exist."""
        if node not in self.nodes:
            raise Refused("EINVAL")

    def zonelist(self, node):
        """The online nodes by their distance from a node, ties by number."""
        return sorted(self.online, key=lambda other: (self.distance[node][other], other))

    # ---- processes and areas

    def spawn(self, step):
        # The pid is free and not 0, the home node exists, and some nodes that exist are allowed.
        if step["pid"] == 0 or step["pid"] in self.processes or not step["allowed"]:
            raise Refused("EINVAL")
        for node in [step["home"], *step["allowed"]]:
            self.exists(node)
        if len(self.processes) >= MOST_PROCESSES:
            raise Refused("ENOMEM")
        self.processes[step["pid"]] = Process(step["uid"], step.get("privileged", False), step["home"], set(step["allowed"]))
        return OK

    @staticmethod
    def whole_pages(step):
        """The range of page numbers that a step names: whole pages, at least one, and none past the end."""
        first, end = step["addr"] // PAGE, step["addr"] // PAGE + step["pages"]
        if step["addr"] % PAGE or first == end or end > END:
            raise Refused("EINVAL")
        return first, end

    def place_for(self, process, step):
        """The first page number of a new area, which must not overlap another."""
        first, end = self.whole_pages(step)
        if any(area.part(first, end) for area in process.areas):
            raise Refused("EINVAL")
        return first

    def map(self, step):
        process = self.process(step["pid"])
        first = self.place_for(process, step)
        if self.segments_made >= MOST_SEGMENTS:
            raise Refused("ENOMEM")
        # Segments are numbered from 0, and no number is used twice.
        segment = self.segments_made
        self.segments_made += 1
        self.segments[segment] = Segment(step["pages"], step.get("shared", False))
        process.areas = sorted([*process.areas, Area(first, step["pages"], DEFAULT, segment, 0)])
        return [f"segment={segment}"]

    def attach(self, step):
        process = self.process(step["pid"])
        first = self.place_for(process, step)
        # The segment exists, is shared, and is long enough.
        segment = self.segments.get(step["segment"])
        if segment is None or not segment.shared or step["offset"] + step["pages"] > segment.pages:
            raise Refused("EINVAL")
        process.areas = sorted([*process.areas, Area(first, step["pages"], DEFAULT, step["segment"], step["offset"])])
        return OK

    def refuse_pinned(self, process, first, end):
        """No area may show a pinned page in the range, whether the process sees it or not."""
        for page in self.pins:
            numbers = [area.number_of(page) for area in process.areas]
            if self.pins[page] and any(number is not None and first <= number < end for number in numbers):
                raise Refused("EBUSY")

    def remove(self, process, first, end):
        """Removes the areas in a range and what the process sees there."""
        removed = [part for area in process.areas for part in area.part(first, end)]
        process.areas = [part for area in process.areas for part in area.part(0, first) + area.part(end, END)]
        process.seen = {number: page for number, page in process.seen.items() if not first <= number < end}
        # A page that no area covers any more loses its frame. Frames become free by address, a page at its lowest.
        for part in removed:
            numbers = {part.number_of(page): page for page in self.place if part.number_of(page) is not None}
            for number in sorted(numbers):
                if all(area.number_of(numbers[number]) is None for area in self.areas()):
                    self.give_back(numbers[number])
        # A segment without areas is gone.
        covered = {area.segment for area in self.areas()}
        self.segments = {number: segment for number, segment in self.segments.items() if number in covered}

    def give_back(self, page):
        """Frees the frame of a page, at the end of its node's list."""
        frame = self.place.pop(page)
        del self.bytes[page]
        self.pins.pop(page, None)
        self.free[self.owner[frame]].append(frame)

    def unmap(self, step):
        process = self.process(step["pid"])
        first, end = self.whole_pages(step)
        self.refuse_pinned(process, first, end)
        self.remove(process, first, end)
        return OK

    def exit(self, step):
        process = self.process(step["pid"])
        self.refuse_pinned(process, 0, END)
        self.remove(process, 0, END)
        del self.processes[step["pid"]]
        return OK

    # ---- touching memory

    def order(self, process, policy, index):
        """The nodes on which a page may find a frame, in order. Bound pages go only to the set."""
        if policy.kind == "bind":
            return [node for node in self.zonelist(process.home) if node in policy.nodes]
        first = process.home
        if policy.kind == "prefer":
            first = policy.nodes[0]
        if policy.kind == "interleave":
            first = policy.nodes[index % len(policy.nodes)]
        return [node for node in self.zonelist(first) if node in process.allowed]

    def take_frame(self, process, policy, page):
        """Gives a page of zeros the front free frame of the first node that has one."""
        node = next((node for node in self.order(process, policy, page[1]) if self.free[node]), None)
        if node is None:
            raise Refused("ENOMEM")
        self.place[page] = self.free[node].pop(0)
        self.bytes[page] = bytearray(PAGE)

    def touch(self, process, area, number, write):
        """What the process has at a page number after touching it."""
        if process.seen.get(number, ZERO) == ZERO:
            page, shared = area.page(number), self.segments[area.segment].shared
            # A read of private memory takes no frame. Any touch of shared memory shows the page, or takes a frame for it.
            if not shared and not write:
                page = ZERO
            elif not shared or page not in self.place:
                self.take_frame(process, area.policy, page)
            process.seen[number] = page
        return process.seen[number]

    def access(self, step, held=()):
        """The answer to a read or a write, which is held if it is made at one of the pages that move."""
        process = self.process(step["pid"])
        data = bytes.fromhex(step["data"]) if step["op"] == "write" else None
        length = step["len"] if data is None else len(data)
        number, offset = divmod(step["addr"], PAGE)
        # It has at least one byte and is inside one page.
        if length == 0 or offset + length > PAGE:
            raise Refused("EINVAL")
        area = process.area(number)
        if area is None:
            raise Refused("EFAULT")
        # What counts is the page that the area shows, and not what the process has touched.
        if area.page(number) in held:
            return "held"
        page = self.touch(process, area, number, data is not None)
        if page == ZERO:
            return bytes(length).hex()
        if data is None:
            return self.bytes[page][offset : offset + length].hex()
        self.bytes[page][offset : offset + length] = data
        return "ok"

    def read_or_write(self, step):
        return [self.access(step)]

    # ---- pins

    def page_to_pin(self, step):
        process, number = self.process(step["pid"]), step["addr"] // PAGE
        page = process.seen.get(number)
        if process.area(number) is None or page == ZERO:
            raise Refused("EFAULT")
        if page is None:
            raise Refused("ENOENT")
        return page

    def pin(self, step):
        page = self.page_to_pin(step)
        if self.pins.get(page, 0) >= MOST_PINS:
            raise Refused("EBUSY")
        self.pins[page] = self.pins.get(page, 0) + 1
        return OK

    def unpin(self, step):
        page = self.page_to_pin(step)
        # It does not matter who pinned the page.
        if self.pins.get(page, 0) == 0:
            raise Refused("EINVAL")
        self.pins[page] -= 1
        return OK

    # ---- moving pages

    def status_of_page(self, run, page, target):
        """Moves a page unless something keeps it, and returns the status. A run has the frames that its pages left, by page."""
        if self.node(page) == target:
            return target
        if self.pins.get(page, 0):
            return -16
        if not self.free[target]:
            return -12
        run[page] = self.place[page]
        self.place[page] = self.free[target].pop(0)
        return target

    def status_of_number(self, run, pid, number, target, everyone):
        """The status of an entry that names a page number of a process: the first case that holds."""
        process = self.processes[pid]
        if process.area(number) is None:
            return -14
        page = process.seen.get(number)
        if page is None:
            return -2
        if page == ZERO:
            return -14
        if self.node(page) == target:
            return target
        # Sharing counts processes and not addresses.
        if not everyone and self.sharers(page) - {pid}:
            return -13
        return self.status_of_page(run, page, target)

    def batch_of_numbers(self, pid, entries, everyone, during=()):
        """Moves pages of a process, given by page number and target."""
        return self.batch(entries, lambda run, number, target: self.status_of_number(run, pid, number, target, everyone), during)

    def batch(self, entries, status_of, during=()):
        """Moves entries to their targets run by run. Returns the statuses and the answers to the accesses in flight."""
        statuses, answers = [], {}
        for number, length in enumerate(runs([target for _, target in entries], self.limit)):
            run = {}
            for what, target in entries[len(statuses) : len(statuses) + length]:
                statuses.append(status_of(run, what, target))
            # Accesses come after the run has taken its frames and before those that its pages left are free.
            for place, access in enumerate(during):
                if access["run"] == number:
                    answers[place] = self.in_flight(access, run)
            # Frames that pages left are free when the run ends, in the order of the moves.
            for frame in run.values():
                self.free[self.owner[frame]].append(frame)
            self.moved += len(run)
        self.failed += failures(statuses)
        return statuses, [answers[place] for place in range(len(during))]

    def in_flight(self, access, held):
        try:
            return self.access(access, held)
        except Refused as refusal:
            return f"error {refusal}"

    def target_process(self, step):
        """The pid whose pages are meant: 0 is the caller. Another user's pages are only for the privileged."""
        pid = step["pid"] or step["caller"]
        process, caller = self.process(pid), self.processes[step["caller"]]
        if process.user != caller.user and not caller.privileged:
            raise Refused("EPERM")
        return pid

    def may_ask(self, step):
        """The pid whose pages move_pages or query is about."""
        caller = self.process(step["caller"])
        if step["flags"] & ~(MOVE | MOVE_ALL):
            raise Refused("EINVAL")
        if step["flags"] & MOVE_ALL and not caller.privileged:
            raise Refused("EPERM")
        return self.target_process(step)

    def move_pages(self, step):
        pid = self.may_ask(step)
        # Entry by entry, a target must be online, and then allowed to the process whose pages they are.
        for node in step["nodes"]:
            if node not in self.online:
                raise Refused("ENODEV")
            if node not in self.processes[pid].allowed:
                raise Refused("EACCES")
        entries = [(address // PAGE, node) for address, node in zip(step["pages"], step["nodes"])]
        during = step.get("during", [])
        statuses, answers = self.batch_of_numbers(pid, entries, step["flags"] & MOVE_ALL, during)
        lines = [f"{self.steps}.{j} {access['op']} {answer}" for j, (access, answer) in enumerate(zip(during, answers))]
        return [" ".join(map(str, [f"{failures(statuses)}:", *statuses])), *lines]

    def query(self, step):
        process = self.processes[self.may_ask(step)]
        statuses = []
        for address in step["pages"]:
            page = process.seen.get(address // PAGE)
            if process.area(address // PAGE) is None or page == ZERO:
                statuses.append(-14)
            else:
                statuses.append(-2 if page is None else self.node(page))
        return [" ".join(map(str, ["0:", *statuses]))]

    def migrate_pages(self, step):
        caller = self.process(step["caller"])
        for node in step["old"] + step["new"]:
            self.exists(node)
        pid = self.target_process(step)
        process = self.processes[pid]
        if not caller.privileged and not set(step["new"]) <= process.allowed:
            raise Refused("EPERM")
        new = self.usable(step["new"], process)
        if not new:
            raise Refused("EINVAL")
        # The list is made at the start: for each pair the pages on its source, by address. With privilege all of them move.
        seen = process.pages_seen(0, END)
        entries = [(number, target) for source, target in pairs(set(step["old"]), new)
                   for number, page in seen if self.node(page) == source]
        statuses, _ = self.batch_of_numbers(pid, entries, caller.privileged)
        return [failures(statuses)]

    # ---- policies

    def policy_asked(self, process, step):
        """The policy that mbind asks for, with the nodes that are kept."""
        flags, mode, nodes = step["flags"], step["mode"], step["nodes"]
        if flags > STRICT | MOVE | MOVE_ALL or mode >= len(MODES):
            raise Refused("EINVAL")
        kind = MODES[mode]
        # Nodes are for modes that take them, and two modes need some.
        if nodes and kind in ("default", "local") or not nodes and kind in ("bind", "interleave"):
            raise Refused("EINVAL")
        for node in nodes:
            self.exists(node)
        kept = self.usable(nodes, process)
        if nodes and not kept:
            raise Refused("EINVAL")
        if flags & MOVE_ALL and not process.privileged:
            raise Refused("EPERM")
        # The preferred node is the lowest, or without nodes the local one.
        if kind == "prefer":
            return Policy(kind, kept[:1]) if kept else Policy("local", ())
        return Policy(kind, kept)

    def mbind(self, step):
        process, flags = self.process(step["caller"]), step["flags"]
        policy = self.policy_asked(process, step)
        # The length is rounded up to whole pages. A length of 0 changes nothing, and a hole is refused.
        first, end = step["addr"] // PAGE, (step["addr"] + step["len"] + PAGE - 1) // PAGE
        if step["addr"] % PAGE or end * PAGE > MOST_ADDRESS:
            raise Refused("EINVAL")
        if first == end:
            return ["0"]
        if sum(part.pages for area in process.areas for part in area.part(first, end)) < end - first:
            raise Refused("EFAULT")
        strays = [(number, page) for number, page in process.pages_seen(first, end) if not follows(policy, self.node(page))]
        if flags == STRICT and strays:
            raise Refused("EIO")
        # Areas are split at both ends of the range, and those inside have the policy.
        process.areas = [part for area in process.areas for part in area.part(0, first)
                         + [inside._replace(policy=policy) for inside in area.part(first, end)] + area.part(end, END)]
        if flags & (MOVE | MOVE_ALL):
            self.move_strays(step, policy, strays)
            # What moved stays moved where strict is refused.
            if flags & STRICT and any(not follows(policy, self.node(page)) for _, page in strays):
                raise Refused("EIO")
        return ["0"]

    def move_strays(self, step, policy, strays):
        """Moves the pages that do not follow their new policy."""
        pid, everyone = step["caller"], step["flags"] & MOVE_ALL
        if policy.kind == "prefer":
            self.batch_of_numbers(pid, [(number, policy.nodes[0]) for number, _ in strays], everyone)
        if policy.kind == "interleave":
            # Each goes to the node whose turn it is, ordered by node and then by address.
            turns = sorted((policy.nodes[page[1] % len(policy.nodes)], number) for number, page in strays)
            self.batch_of_numbers(pid, [(number, node) for node, number in turns], everyone)
        if policy.kind == "bind":
            # Passes over the set's online nodes by distance from home. Pages that found no frame go on to the next.
            numbers = [number for number, _ in strays]
            for node in self.order(self.processes[pid], policy, 0):
                statuses, _ = self.batch_of_numbers(pid, [(number, node) for number in numbers], everyone)
                numbers = [number for number, status in zip(numbers, statuses) if status == -12]

    # ---- nodes

    def offline(self, step):
        node = step["node"]
        self.exists(node)
        # A node that is already offline is left as it is, before the last one is refused.
        if node not in self.online:
            return OK
        if len(self.online) == 1:
            raise Refused("EBUSY")
        self.online.remove(node)
        # All of its pages, by segment and index, go to the others by distance. Those that found no frame go on to the next.
        listed = sorted(page for page in self.place if self.node(page) == node)
        left = listed
        for target in self.zonelist(node):
            statuses, _ = self.batch([(page, target) for page in left], self.status_of_page)
            left = [page for page, status in zip(left, statuses) if status == -12]
        if any(self.node(page) == node for page in listed):
            self.online.add(node)
            raise Refused("EBUSY")
        return OK

    def bring_online(self, step):
        self.exists(step["node"])
        self.online.add(step["node"])
        return OK

    # ---- looking

    def free_list(self, step):
        self.exists(step["node"])
        frames = self.free[step["node"]]
        return [" ".join(map(str, [f"{len(frames)}:", *frames]))]

    def pagemap(self, step):
        seen = self.process(step["pid"]).seen
        entries = [f"{number * PAGE:08x}={self.place.get(seen[number], ZERO)}" for number in sorted(seen)]
        return [" ".join([f"{len(entries)}:", *entries])]

    def numa_maps(self, step):
        process = self.process(step["pid"])
        lines = []
        for area in process.areas:
            line = f"{area.first * PAGE:08x} {policy_text(area.policy)}"
            pages = [page for number, page in process.seen.items() if area.first <= number < area.end and page != ZERO]
            if pages:
                line += f" anon={len(pages)}"
                most = max(len(self.sharers(page)) for page in pages)
                line += f" mapmax={most}" if most > 1 else ""
                counts = collections.Counter(self.node(page) for page in pages)
                line += "".join(f" N{node}={counts[node]}" for node in sorted(counts)) + " kernelpagesize_kB=4"
            lines.append(line)
        return [len(lines), *lines]

    def vmstat(self, _):
        return [f"pgmigrate_success {self.moved} pgmigrate_fail {self.failed}"]


# The methods whose names differ from those of their steps.
METHODS = {"read": "read_or_write", "write": "read_or_write", "online": "bring_online", "free": "free_list"}
CALLS = {
    op: METHODS.get(op, op)
    for op in ("spawn", "map", "attach", "unmap", "exit", "read", "write", "pin", "unpin", "move_pages", "query", "migrate_pages",
               "mbind", "offline", "online", "free", "pagemap", "numa_maps", "vmstat")
}


def report(trace):
    """The report of a good trace."""
    machine = Machine(trace)
    return "".join(line + "\n" for step in trace["steps"] for line in machine.play(step))

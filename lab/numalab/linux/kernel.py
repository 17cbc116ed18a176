"""What a series of Linux is expected to answer: the plain model with the rules of the differences in place that hold of it.

Each rule that decides differently from the model's names its row of differences.json (`fire`). Nothing here is proved, and nothing
is claimed of kernels that were not asked. Reports have nodes in place of frames. What the rules do not determine is chosen, once for each way that
it can go (`choose`): worlds.py follows all of them."""
from collections import namedtuple
from math import gcd

from .. import model
from ..model import DEFAULT, END, MOST_ENTRIES, MOVE, MOVE_ALL, PAGE, STRICT, ZERO, Policy, Refused, policy_text
from .differences import holding
from .vmas import Vmas

WINDOW, TABLE = 16, 512  # how many pages are mapped around one that is read, at most to the end of a page table
KINDS = [*model.MODES, "prefer(many)", "weighted-interleave"]
PREFERRED_MANY, WEIGHTED = 5, 6
# The flags in a mode, and what numa_maps calls them.
MODE_FLAGS = {1 << 15: "static", 1 << 14: "relative"}
TURNS = ("interleave", "weighted-interleave")
# Whether a privileged process has CAP_SYS_NICE and CAP_SYS_PTRACE, or only the first.
BOTH, NICE = "both", "nice"

# What a step answers: its lines, and the rows whose rules decided.
Given = namedtuple("Given", "lines rows")


class Killed(Exception):
    """A process that the out-of-memory killer killed."""


# A policy with a flag in its mode, and the nodes that were asked for, by which it is told from others as well.
FlaggedPolicy = namedtuple("FlaggedPolicy", "kind nodes asked")


def kind_of(policy):
    """The kind of a policy as the model has it, or prefer(many)."""
    kind = policy.kind.split("=")[0]
    return "interleave" if kind in TURNS else kind


def folded(asked, usable):
    """Nodes that are meant relative to those that a process may use (mpol_relative_nodemask)."""
    return {usable[node % len(usable)] for node in asked} if usable else set()


def rebound(policy, before, now):
    """A policy where the nodes that a process may use change (mpol_rebind_nodemask)."""
    if kind_of(policy) not in ("bind", "interleave"):
        return policy
    if policy.kind.endswith("=static"):
        nodes = set(policy.asked) & set(now)
    elif policy.kind.endswith("=relative"):
        nodes = folded(policy.asked, now)
    else:
        nodes = {now[before.index(node) % len(now)] if node in before else node for node in policy.nodes}
    return policy._replace(nodes=tuple(sorted(nodes & set(now))) or tuple(now))


class Room:
    """The frames of a node, which has plenty, or where the player has filled it those that pages leave within the step, if they are
    found. A frame is its node."""

    def __init__(self, node):
        self.node, self.full, self.left, self.found, self.asked = node, False, 0, None, None

    def begin(self, full, asked):
        self.full, self.left, self.found, self.asked = full, 0, None, asked

    def __bool__(self):
        if not self.full or self.left <= 0:
            return not self.full
        if self.found is None:
            self.found = self.asked()
        return self.found

    def pop(self, _):
        self.left -= self.full
        return self.node

    def append(self, _):
        self.left += self.full

    def copied(self):
        other = Room(self.node)
        other.full, other.left = self.full, self.left
        return other


class Kernel(model.Machine):
    """The plain model with the rules of a kernel."""

    def __init__(self, top, version, privilege=BOTH):
        super().__init__(top)
        self.limit = MOST_ENTRIES  # a kernel knows nothing of a trace's limit on runs
        self.rows, self.privilege = holding(version), privilege
        self.owner, self.free = list(self.nodes), [Room(node) for node in self.nodes]
        self.vmas, self.configured, self.shared_policies = {}, {}, {}
        self.lately_set = {}  # of each process the ranges that have got a policy since it was last said which nodes it may use
        self.pinners = {}  # of each page the processes that pinned it, the last at the end
        self.hidden = set()  # pages of shared segments that no area shows
        self.inodes = {}  # of each segment what is left over where the number of its inode is divided by some numbers
        self.uncounted = False  # whether the totals of vmstat have moves that a trace does not show
        self.fired, self.choices, self.asked = [], [], []
        self.page_meant = None  # of a pin or an unpin, the page that the model means
        self.orders = self.orders_of_nodes()

    def copied(self):
        """Another kernel in the same state."""
        other = object.__new__(type(self))
        other.__dict__.update(self.__dict__)
        other.processes = {}
        for pid, process in self.processes.items():
            twin = other.processes[pid] = model.Process(process.user, process.privileged, process.home, set(process.allowed))
            twin.areas, twin.seen = list(process.areas), dict(process.seen)
        other.free = [room.copied() for room in self.free]
        other.online, other.hidden = set(self.online), set(self.hidden)
        other.segments, other.place, other.pins = dict(self.segments), dict(self.place), dict(self.pins)
        other.bytes = {page: bytearray(data) for page, data in self.bytes.items()}
        other.vmas = {pid: vmas.copied() for pid, vmas in self.vmas.items()}
        other.configured = dict(self.configured)
        other.lately_set = {pid: list(spans) for pid, spans in self.lately_set.items()}
        other.pinners = {page: list(pids) for page, pids in self.pinners.items()}
        other.shared_policies = {segment: dict(policies) for segment, policies in self.shared_policies.items()}
        other.inodes = {segment: dict(known) for segment, known in self.inodes.items()}
        return other

    def fire(self, row):
        if row not in self.fired:
            self.fired.append(row)

    def choose(self, count):
        """One of several ways that it can go, by number."""
        self.asked.append(count)
        place = len(self.asked) - 1
        return self.choices[place] if place < len(self.choices) else 0

    def finds_left(self):
        """Whether frames that pages have just left are found in a full node, which nobody knows beforehand."""
        self.fire("move-room-made")
        return self.choose(2) == 0

    def give(self, step, full=frozenset(), choices=()):
        """The lines of the next step as a kernel would answer it, and the rows that decided. Some nodes are full."""
        self.fired, self.choices, self.asked = [], choices, []
        for room in self.free:
            room.begin(room.node in full, self.finds_left)
        try:
            lines = self.play(step)
        except Killed:
            lines = [f"{self.steps} {step['op']} killed"]
            self.steps += 1
        return Given(lines, list(self.fired))

    # ---- who may ask

    def target_process(self, step):
        pid = step["pid"] or step["caller"]
        process, caller = self.process(pid), self.processes[step["caller"]]
        if pid == step["caller"]:
            return pid
        call = "migrate" if step["op"] == "migrate_pages" else "move"
        if process.user != caller.user and (not caller.privileged or self.privilege == NICE):
            if caller.privileged:
                self.fire(f"{call}-nice-alone")
            raise Refused("EPERM")
        if process.user == caller.user and process.privileged and not caller.privileged:
            self.fire("move-privileged-target")
            raise Refused("EPERM")
        return pid

    # ---- the order of nodes

    def orders_of_nodes(self):
        """For each node the others in the order in which they are asked: a lower node counts as a bit farther, and of two
        equally far nodes the one that comes first for fewer others is asked first."""
        load, orders = dict.fromkeys(self.nodes, 0), {}
        for node in self.nodes:
            order, left = [node], set(self.nodes) - {node}
            while left:
                best = min(left, key=lambda other: (self.distance[node][other] + (other < node), load[other], other))
                if self.distance[node][best] != self.distance[node][order[-1]]:
                    load[best] += 1
                order.append(best)
                left.remove(best)
            orders[node] = order
        return orders

    def zonelist(self, node):
        found = [other for other in self.orders[node] if other in self.online]
        if found != super().zonelist(node):
            self.fire("touch-tie")
        return found

    def order(self, process, policy, index):
        kind = kind_of(policy)
        if kind == "prefer(many)":
            return sorted(super().order(process, DEFAULT, index), key=lambda node: node not in policy.nodes)
        if kind == "bind":
            # A set that has none of the nodes that the process may use is no limit (cpuset_nodemask_valid_mems_allowed).
            policy = policy._replace(nodes=self.usable(policy.nodes, process) or tuple(sorted(process.allowed)))
        policy, fired = Policy(kind, policy.nodes), list(self.fired)
        order = super().order(process, policy, index)
        if order == self.plain_order(process, policy, index):
            self.fired = fired
        return order

    def plain_order(self, process, policy, index):
        """The same by the plain model."""
        kept, self.orders = self.orders, {node: model.Machine.zonelist(self, node) for node in self.nodes}
        try:
            return super().order(process, policy, index)
        finally:
            self.orders = kept

    # ---- areas

    def spawn(self, step):
        answer = super().spawn(step)
        self.vmas[step["pid"]], self.configured[step["pid"]] = Vmas(self.rows), frozenset(step["allowed"])
        return answer

    def map(self, step):
        answer = super().map(step)
        first = step["addr"] // PAGE
        origin = (self.segments_made - 1, first) if step.get("shared", False) else None
        if self.vmas[step["pid"]].map(first, first + step["pages"], origin):
            self.fire("areas-maps-merge")
        return answer

    def attach(self, step):
        answer = super().attach(step)
        first = step["addr"] // PAGE
        self.vmas[step["pid"]].map(first, first + step["pages"], (step["segment"], first - step["offset"]))
        return answer

    def refuse_pinned(self, process, first, end):
        try:
            super().refuse_pinned(process, first, end)
        except Refused:
            self.fire("exit-pinned" if (first, end) == (0, END) else "unmap-pinned")

    def remove(self, process, first, end):
        """Removes the areas in a range. The pages of a shared segment stay in its file, and the file stays."""
        removed = [part for area in process.areas for part in area.part(first, end)]
        process.areas = [part for area in process.areas for part in area.part(0, first) + area.part(end, END)]
        process.seen = {number: page for number, page in process.seen.items() if not first <= number < end}
        shown = self.areas()
        for part in removed:
            for page in [page for page in self.place if part.number_of(page) is not None]:
                if not self.segments[page[0]].shared:
                    self.give_back(page)
                elif all(area.number_of(page) is None for area in shown):
                    self.hidden.add(page)
        self.vmas[self.pid_of(process)].cut(first, end)

    def pid_of(self, process):
        return next(pid for pid, other in self.processes.items() if other is process)

    def exit(self, step):
        answer = super().exit(step)
        self.release_pins(step["pid"])
        return answer

    # ---- pins

    def release_pins(self, pid):
        """A process that ends lets go of what it pinned."""
        for page, pids in self.pinners.items():
            if page in self.pins:
                self.pins[page] -= pids.count(pid)

    def pin(self, step):
        self.pinners.setdefault(self.page_meant, []).append(step["pid"])
        return super().pin(step)

    def unpin(self, _):
        """The process that was the last to pin the page lets go of it."""
        page = self.page_meant
        self.process(self.pinners[page].pop())
        self.pins[page] = max(self.pins.get(page, 0) - 1, 0)
        return model.OK

    # ---- touching memory

    def policy_at(self, process, area, number):
        """The policy of a page number: that of the shared object, or of the area."""
        segment, index = area.page(number)
        if not self.segments[segment].shared:
            return area.policy
        policy = self.shared_policies.get(segment, {}).get(index, DEFAULT)
        if policy != area.policy:
            self.fire("touch-shared-policy")
        return policy

    def touch(self, process, area, number, write):
        before = process.seen.get(number, ZERO)
        if before != ZERO:
            return before
        pid = self.pid_of(process)
        page, shared = area.page(number), self.segments[area.segment].shared
        if shared and not write:
            self.map_around(process, pid, number)
        if shared or write:
            if not shared or page not in self.place:
                self.first_touch(pid, process, area, number, page)
            elif page in self.hidden:
                self.find(page)
            if not shared:
                self.vmas[pid].touched(number)
        process.seen[number] = page if shared or write else ZERO
        return process.seen[number]

    def first_touch(self, pid, process, area, number, page):
        policy, turn = self.policy_at(process, area, number), page[1]
        if kind_of(policy) == "interleave":
            if self.segments[page[0]].shared:
                self.fire("touch-interleave-shared")
                turn = page[1] + self.left_over(page[0], len(policy.nodes))
            else:
                turn = number
                if (number - page[1]) % len(policy.nodes):
                    self.fire("touch-interleave-private")
        try:
            self.take(process, policy, page, turn)
        except Refused as refusal:
            self.fire("touch-no-frame")
            self.remove(process, 0, END)
            del self.processes[pid]
            self.release_pins(pid)
            raise Killed from refusal

    def left_over(self, segment, count):
        """What is left over where the number of a segment's inode is divided by a count, which nobody knows beforehand."""
        known = self.inodes.setdefault(segment, {})
        if count not in known:
            options = [rest for rest in range(count) if all((rest - told) % gcd(count, other) == 0 for other, told in known.items())]
            known[count] = options[self.choose(len(options)) if len(options) > 1 else 0]
        return known[count]

    def take(self, process, policy, page, turn):
        """Takes a frame for a page whose turn may not be its index."""
        node = next((node for node in self.order(process, policy, turn) if self.free[node]), None)
        if node is None:
            raise Refused("ENOMEM")
        self.place[page] = self.free[node].pop(0)
        self.bytes[page] = bytearray(PAGE)

    def find(self, page):
        """A page of a file shows again."""
        self.hidden.discard(page)
        self.fire("unmap-shared-stays")

    def map_around(self, process, pid, number):
        """A read of shared memory maps the pages near it that are there."""
        vma = self.vmas[pid].over(number)
        low = max(number // WINDOW * WINDOW, vma.first)
        for near in range(low, min(low + WINDOW, (number // TABLE + 1) * TABLE, vma.end)):
            page = process.area(near).page(near)
            if near != number and near not in process.seen and page in self.place:
                process.seen[near] = page
                self.fire("touch-fault-around")
                if page in self.hidden:
                    self.find(page)

    # ---- moving pages

    def mappings(self, page):
        """How many page numbers of all processes show a page."""
        return sum(list(process.seen.values()).count(page) for process in self.processes.values())

    def is_shared(self, page, row):
        """Whether a page counts as shared; names the row where only the kernel says so."""
        if self.mappings(page) <= 1:
            return False
        if len(self.sharers(page)) == 1:
            self.fire(row)
        return True

    def move_queued(self, queued, target, allowed):
        """Moves pages to a node: the answer of the kernel, which is how many stay, or -12 as soon as one finds no frame."""
        stay, left = 0, []
        for page in queued:
            # A frame is looked for before anything else.
            if not self.free[target] or target not in allowed:
                self.failed += stay + 1
                self.moved += len(left)
                self.fire("vmstat-target-full")
                return -12
            if self.pins.get(page, 0):
                stay += 1
            else:
                left.append(self.place[page])
                self.place[page] = self.free[target].pop(0)
        for frame in left:
            self.free[self.owner[frame]].append(frame)
        self.moved += len(left)
        self.failed += stay
        return stay

    def move_pages(self, step):
        pid = self.may_ask(step)
        batch = Batch(self, step, pid)
        answer = batch.play()
        if answer < 0:
            raise Refused({-12: "ENOMEM", -13: "EACCES", -19: "ENODEV"}[answer])
        return [" ".join(map(str, [f"{answer}:", *batch.statuses]))]

    def status_of_absent(self, process, number):
        """The status of a page that nobody has touched."""
        private = not self.segments[process.area(number).segment].shared
        return -14 if private and "move-private-untouched" in self.rows else -2

    def query(self, step):
        answer = super().query(step)
        process = self.processes[step["pid"] or step["caller"]]
        statuses = answer[0].split(" ")
        for place, address in enumerate(step["pages"], 1):
            number = address // PAGE
            if statuses[place] == "-2" and self.status_of_absent(process, number) == -14:
                statuses[place] = "-14"
                self.fire("query-private-untouched")
        return [" ".join(statuses)]

    def new_nodes(self, step, process):
        """The nodes to which migrate_pages goes."""
        caller, new = self.processes[step["caller"]], set(step["new"])
        missing = {node for node in new if node not in self.nodes}
        if not caller.privileged and not new <= process.allowed & self.online:
            if missing:
                self.fire("migrate-new-node-missing")
            elif new - self.online:
                self.fire("offline-migrate")
            raise Refused("EPERM")
        if missing and new - missing:
            self.fire("migrate-new-node-missing-privileged")
        found = tuple(sorted(new & caller.allowed & self.online))
        plain = self.usable(new & set(self.nodes), process)
        if found != plain:
            self.fire("migrate-process-may-not" if found else "migrate-caller-may-not")
        if not found:
            raise Refused("EINVAL")
        return found

    def migrate_pages(self, step):
        caller = self.process(step["caller"])
        if any(node not in self.nodes for node in step["old"]):
            self.fire("migrate-old-node-missing")
        process = self.processes[self.target_process(step)]
        new, stay = self.new_nodes(step, process), 0
        for source, target in model.pairs(set(step["old"]), new):
            queued = [page for _, page in process.pages_seen(0, END) if self.node(page) == source
                      and (caller.privileged or not self.is_shared(page, "migrate-page-at-two-addresses"))]
            answer = self.move_queued(queued, target, caller.allowed)
            if answer < 0:
                self.fire("migrate-target-full")
                raise Refused("ENOMEM")
            stay += answer + self.listed_again(process, queued, caller.privileged, 0, END)
        return [stay]

    def listed_again(self, process, queued, everyone, first, end, strict=False):
        """How often a kernel meets a page that it has already isolated. In 6.12 each counts as one that stays, in 6.1 only where
        MPOL_MF_STRICT asks for that."""
        if not everyone or not strict and "migrate-all-page-at-two-addresses" not in self.rows:
            return 0
        queued = set(queued)
        again = sum(page in queued for number, page in process.seen.items() if first <= number < end and page != ZERO) - len(queued)
        if again:
            self.fire("migrate-all-page-at-two-addresses")
        return again

    # ---- policies

    def refuse_mbind(self, process, step):
        """The refusals that come before mode and nodes are looked at; returns the range, or None where there is nothing to do."""
        flags, (mode, of_mode) = step["flags"], self.mode_asked(step)
        last = WEIGHTED if "mbind-weighted" in self.rows else PREFERRED_MANY
        if mode > last or len(of_mode) > 1 or flags > STRICT | MOVE | MOVE_ALL:
            raise Refused("EINVAL")
        if flags & MOVE_ALL and not process.privileged:
            if self.plain_refusal(process, step) != "EPERM":
                self.fire("mbind-privilege-first")
            raise Refused("EPERM")
        length = (step["len"] + PAGE - 1) // PAGE * PAGE % (1 << 64)
        if step["addr"] % PAGE or step["addr"] + length >= 1 << 64:
            raise Refused("EINVAL")
        if length == 0:
            if step["len"]:
                self.fire("mbind-length-wraps")
            elif self.plain_refusal(process, step):
                self.fire("mbind-length-zero-first")
            return None
        return step["addr"] // PAGE, (step["addr"] + length) // PAGE

    @staticmethod
    def mode_asked(step):
        """The mode without its flags, and these."""
        told = [flag for flag in MODE_FLAGS if step["mode"] & flag]
        return step["mode"] - sum(told), told

    def plain_refusal(self, process, step):
        """The error with which the plain model refuses the policy."""
        try:
            super().policy_asked(process, step)
        except Refused as refusal:
            return str(refusal)
        return None

    def policy_asked(self, process, step):
        (mode, of_mode), nodes = self.mode_asked(step), set(step["nodes"])
        kind = KINDS[mode]
        if nodes and kind in ("default", "local") or not nodes and kind not in ("default", "local", "prefer"):
            raise Refused("EINVAL")
        if of_mode and (kind == "local" or kind == "prefer" and not nodes):
            raise Refused("EINVAL")
        usable = sorted(process.allowed & self.online)
        relative = [MODE_FLAGS[flag] for flag in of_mode] == ["relative"]
        kept = tuple(sorted(folded(nodes, usable) if relative else nodes & set(usable)))
        if nodes and not kept:
            raise Refused("EINVAL")
        for row, holds in [("mbind-node-missing", not relative and any(node not in self.nodes for node in nodes)), ("mbind-mode-flags", of_mode),
                           ("mbind-preferred-many", mode == PREFERRED_MANY), ("mbind-weighted", mode == WEIGHTED)]:
            if holds:
                self.fire(row)
        if kind == "prefer":
            kept, kind = kept[:1], kind if kept else "local"
        if of_mode and kind != "default":
            return FlaggedPolicy(f"{kind}={MODE_FLAGS[of_mode[0]]}", kept, tuple(sorted(nodes)))
        return Policy(kind, kept)

    def mbind(self, step):
        process = self.process(step["caller"])
        span = self.refuse_mbind(process, step)
        if span is None:
            return ["0"]
        policy = self.policy_asked(process, step)
        flags = step["flags"] & (MOVE | MOVE_ALL) if policy.kind == "default" else step["flags"]
        listed = self.walk(process, step, span, policy, flags)
        self.set_policy(step["caller"], span, policy)
        again = self.listed_again(process, listed, flags & MOVE_ALL, *span, flags & STRICT)
        if flags & (MOVE | MOVE_ALL) and (self.move_listed(step["caller"], span, policy, listed) or again) and flags & STRICT:
            raise Refused("EIO")
        return ["0"]

    def walk(self, process, step, span, policy, flags):
        """The pages that are to move, area by area; holes and MPOL_MF_STRICT refuse the call on the way."""
        first, end = span
        vmas = [vma for vma in self.vmas[step["caller"]].all if vma.first < end and vma.end > first]
        whole = sum(min(vma.end, end) - max(vma.first, first) for vma in vmas) == end - first
        if not vmas or policy.kind != "default" and vmas[0].first > first:
            raise Refused("EFAULT")
        listed, given = {}, set(step["nodes"])
        for vma in vmas:
            hole = vma.end < end and not any(other.first == vma.end for other in vmas)
            if hole and policy.kind != "default":
                raise Refused("EFAULT")
            for number, page in process.pages_seen(max(vma.first, first), min(vma.end, end)):
                if self.node(page) in given or (flags & 7) == 0:
                    self.fire_unlisted(policy, page, step)
                    continue
                if flags & (MOVE | MOVE_ALL):
                    self.list_page(listed, number, page, policy, flags)
                elif flags & STRICT:
                    self.fire_strict(policy, page, whole)
                    raise Refused("EIO")
        if policy.kind == "default" and not whole:
            self.fire("mbind-default-hole")
        return listed

    def list_page(self, listed, number, page, policy, flags):
        """Lists a page that is to move, unless others see it too."""
        if not flags & MOVE_ALL and self.is_shared(page, "mbind-page-at-two-addresses"):
            if flags & STRICT and len(self.sharers(page)) > 1 and not model.follows(policy, self.node(page)):
                self.fire("mbind-shared-strict")
            return
        listed.setdefault(page, number)

    def fire_unlisted(self, policy, page, step):
        """A page that is on one of the nodes as given, but not where the policy puts it."""
        if step["flags"] and not model.follows(policy, self.node(page)):
            many = "mbind-preferred-stays" if step["flags"] & 6 else "mbind-preferred-strict"
            row = "mbind-cpuset-strict" if kind_of(policy) != "prefer" else many
            self.fire(row)

    def fire_strict(self, policy, page, whole):
        if not policy.nodes:
            self.fire("mbind-local-strict")
        elif not whole:
            self.fire("mbind-strict-before-hole")

    def set_policy(self, pid, span, policy):
        process, (first, end) = self.processes[pid], span
        process.areas = [part for area in process.areas for part in area.part(0, first)
                         + [inside._replace(policy=policy) for inside in area.part(first, end)] + area.part(end, END)]
        changed, merged, same = self.vmas[pid].set_policy(first, end, policy)
        self.lately_set.setdefault(pid, []).extend((vma.first, vma.end) for vma in changed)
        if merged:
            self.fire("areas-default-merges" if policy.kind == "default" else "areas-policy-merges")
        if same:
            self.fire("areas-same-policy")
        # The shared object gets it only where the area of the process did not have it yet, but then for all of the merged area.
        for vma in changed:
            for part in [part for area in process.areas for part in area.part(vma.first, vma.end)]:
                if self.segments[part.segment].shared:
                    if vma.first < first or vma.end > end:
                        self.fire("areas-shared-merged")
                    policies = self.shared_policies.setdefault(part.segment, {})
                    policies.update({part.offset + place: policy for place in range(part.pages)})

    def object_policy(self, process, number):
        """The policy that a kernel finds at a page number of a process: that of the shared object, or of the area."""
        area = process.area(number)
        segment, index = area.page(number)
        return self.shared_policies.get(segment, {}).get(index, DEFAULT) if self.segments[segment].shared else area.policy

    def place_to_move(self, pid, span, policy, number, page):
        """The policy by which a new page is allocated, and its turn. 6.1 looks both up for each page, in the first area that shows it
        from the range on (`new_page`); 6.12 has the policy, and counts turns from those of the first page (`do_mbind`)."""
        process, turn = self.processes[pid], number
        if self.segments[page[0]].shared:
            shown = [area.number_of(page) for area in process.areas]
            number = next(one for one in shown if one is not None and self.vmas[pid].over(one).end > span[0])
            turn = page[1]
        return policy if "mbind-interleave-shared" in self.rows else self.object_policy(process, number), turn

    def first_turn(self, pid, span, policy, listed):
        """From where 6.12 counts the turns of the pages that it moves."""
        page, number = next(iter(listed.items()))
        if "mbind-interleave-shared" not in self.rows or kind_of(policy) != "interleave" or not self.segments[page[0]].shared:
            return 0
        self.fire("mbind-interleave-shared")
        rest = self.left_over(page[0], len(policy.nodes))
        found = kind_of(self.object_policy(self.processes[pid], number))
        return rest if found == "interleave" else rest - page[1]

    def move_listed(self, pid, span, policy, listed):
        """Moves listed pages to where their policy allocates them; says whether one stays."""
        if not listed:
            return False
        if not policy.nodes:
            self.fire("mbind-default-moves")
        process, stay, left = self.processes[pid], 0, []
        begin = self.first_turn(pid, span, policy, listed)
        for page, number in listed.items():
            wanted, turn = self.place_to_move(pid, span, policy, number, page)
            turn += begin
            if kind_of(wanted) == "interleave" and (turn - page[1]) % len(wanted.nodes):
                self.fire("mbind-interleave-turns")
            order = self.order(process, wanted, turn)
            target = next((node for node in order if self.free[node]), None)
            self.fire_full(wanted, order, target)
            if target is None:
                stay += 1
                break
            if self.pins.get(page, 0):
                stay += 1
                continue
            left.append(self.place[page])
            self.place[page] = self.free[target].pop(0)
        for frame in left:
            self.free[self.owner[frame]].append(frame)
        self.moved += len(left)
        self.failed += stay
        return stay > 0

    def fire_full(self, policy, order, target):
        if order and target != order[0] and kind_of(policy) in ("prefer", "bind"):
            for table in ("mbind", "vmstat"):
                self.fire(f"{table}-{'preferred' if kind_of(policy) == 'prefer' else 'bind'}-full")

    # ---- nodes that go and come

    def allowed_now(self, pid):
        """What a process may use: those of its nodes that are online, or all online nodes if none is."""
        return set(self.configured[pid] & self.online) or set(self.online)

    def rebind(self):
        """Cpusets lose and gain nodes, and policies change with them."""
        for pid, process in self.processes.items():
            before, now = sorted(process.allowed), sorted(self.allowed_now(pid))
            if before == now:
                continue
            process.allowed = set(now)
            if not self.configured[pid] & self.online:
                self.fire("offline-cpuset")

            self.rebind_areas(pid, process, before, now)
            self.follow_cpuset(process, pid, before, now)

    def rebind_areas(self, pid, process, before, now):
        """Rebinds the policies of areas to the nodes that a process may use now. From 6.16 on it is to all that it might use, and so only
        those change that were set after nodes had gone."""
        later, spans = self.rows["offline-bound"] == "6.16", self.lately_set.pop(pid, [])
        usable = sorted(self.configured[pid]) if later else now

        def change(area):
            if later and not any(first <= area.first < end for first, end in spans):
                return area
            return area._replace(policy=rebound(area.policy, before, usable))

        areas = [change(area) for area in process.areas]
        if areas != process.areas:
            self.fire("offline-bound")
        process.areas = areas
        self.vmas[pid].rebind(change)

    def follow_cpuset(self, process, pid, before, now):
        """Moves the pages of a process whose cpuset changes. One that may use all nodes is in none of its own."""
        if len(self.configured[pid]) == len(self.nodes):
            return
        for source, target in model.pairs(set(before), tuple(now)):
            queued = [page for _, page in process.pages_seen(0, END) if self.node(page) == source]
            if queued:
                self.fire("offline-cpuset-moves")
                self.move_queued(queued, target, set(self.nodes))

    def offline(self, step):
        self.uncounted = self.uncounted or step["node"] in self.online
        answer = super().offline(step)
        self.rebind()
        return answer

    def bring_online(self, step):
        answer = super().bring_online(step)
        self.rebind()
        return answer

    # ---- looking

    def free_list(self, step):
        self.exists(step["node"])
        return ["-"]

    def vmstat(self, step):
        if self.uncounted:
            self.fire("vmstat-offline")
            return ["pgmigrate_success ? pgmigrate_fail ?"]
        return super().vmstat(step)

    def node_text(self, page):
        return "zero" if page == ZERO else str(self.node(page))

    def pagemap(self, step):
        seen = self.process(step["pid"]).seen
        entries = [f"{number * PAGE:08x}={self.node_text(seen[number])}" for number in sorted(seen)]
        return [" ".join([f"{len(entries)}:", *entries])]

    def numa_maps(self, step):
        process = self.process(step["pid"])
        lines = [self.area_line(process, vma) for vma in self.vmas[step["pid"]].all]
        return [len(lines), *lines]

    def area_line(self, process, vma):
        area = process.area(vma.first)
        segment, index = area.page(vma.first)
        shared = self.segments[segment].shared
        policy = self.shared_policies.get(segment, {}).get(index, DEFAULT) if shared else vma.policy
        if policy != vma.policy:
            self.fire("touch-shared-policy")
        line = f"{vma.first * PAGE:08x} {policy_text(policy)}"
        pages = [page for number, page in process.seen.items() if vma.first <= number < vma.end and page != ZERO]
        if not pages:
            return line
        most = max(self.mappings(page) for page in pages)
        if most != max(len(self.sharers(page)) for page in pages):
            self.fire("areas-mapmax")
        line += f" anon={len(pages)}" + (f" mapmax={most}" if most > 1 else "")
        nodes = [self.node(page) for page in pages]
        return line + "".join(f" N{node}={nodes.count(node)}" for node in sorted(set(nodes))) + " kernelpagesize_kB=4"


class Batch:
    """A move_pages call as the kernel makes it: entries are queued while they have the same target and nothing is wrong with them."""

    def __init__(self, kernel, step, pid):
        self.kernel, self.step, self.pid = kernel, step, pid
        self.caller, self.process = kernel.processes[step["caller"]], kernel.processes[pid]
        self.statuses, self.queued, self.start, self.target = ["-"] * len(step["pages"]), {}, 0, None

    def play(self):
        """The answer of the call: how many stay, or less than 0 for an error."""
        total = len(self.step["pages"])
        for place in range(total):
            node = self.step["nodes"][place]
            error = -19 if node not in self.kernel.online else -13 if node not in self.process.allowed else 0
            if error:
                return self.refused(place, error)
            if self.target != node:
                answer = self.flush(place)
                if answer:
                    return answer
                self.start, self.target = place, node
            answer = self.add(place)
            if answer is not None:
                return answer
        return self.flush(total)

    def refused(self, place, error):
        if self.queued:
            self.kernel.fire("move-node-missing")
        self.flush(place)
        return error

    def add(self, place):
        """Queues an entry, or writes its status and moves what is queued; returns the answer of the call where it ends."""
        status = self.status(place)
        if status is None:
            return None
        self.statuses[place] = status
        answer = self.flush(place, "move-error-ends-run")
        if answer:
            return answer - 1 if answer > 0 else answer
        self.target = None
        return None

    def status(self, place):
        """The status of an entry that is not queued, or None for one that is."""
        kernel, number = self.kernel, self.step["pages"][place] // PAGE
        if self.process.area(number) is None:
            return -14
        page = self.process.seen.get(number)
        if page is None:
            status = kernel.status_of_absent(self.process, number)
            if status == -14:
                kernel.fire("move-private-untouched")
            return status
        if page == ZERO:
            return -14
        if kernel.node(page) == self.target:
            return self.target
        if not self.step["flags"] & MOVE_ALL and kernel.is_shared(page, "move-page-at-two-addresses"):
            return -13
        if page in self.queued:
            kernel.fire("move-same-page-twice")
            return -16
        self.queued[page] = place
        return None

    def flush(self, place, row="move-pinned-next-run"):
        """Moves what is queued and writes its statuses: 0, how many stay and are not tried, or less than 0. The row is about entries
        that follow where a page stays."""
        if not self.queued:
            return 0
        queued, self.queued = list(self.queued), {}
        answer = self.kernel.move_queued(queued, self.target, self.caller.allowed)
        if answer == 0:
            for done in range(self.start, place):
                self.statuses[done] = self.target
            return 0
        rest = len(self.statuses) - place
        if answer < 0:
            self.kernel.fire("move-caller-cpuset" if self.target not in self.caller.allowed else "move-target-full")
            if rest:
                self.kernel.fire("move-target-full-next-run")
            return answer
        self.kernel.fire("move-pinned")
        if rest:
            self.kernel.fire(row)
        return answer + rest

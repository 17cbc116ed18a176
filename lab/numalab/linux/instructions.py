"""What the player has to do for a trace: its instructions, one per line, and what in a trace no kernel can be made to play.

Where a call is the model's own (a spawn, a map over another area, a pin of a page that is not there) and the model refuses it,
the player prints the model's answer. A node that is full in the model is filled by a process of the player before the step."""
import os
import re

from ..model import END, MOST_PINS, PAGE, Machine
from ..traces import Bad
from ..words import counted

LOWEST, HIGHEST = 0x10000, 0x550000000000
FIRST_USER = 20000
MOST_PAGES = 1 << 20
MOST_PROCESSES, MOST_SEGMENTS, MOST_AT_ONCE = 256, 1024, 256
# The privilege of a privileged process.
PRIVILEGES = {"nice": 1, "both": 2}


# The steps that the player does not make where the model refuses them, but answers as the model does.
OWN = {"spawn", "map", "attach", "pin", "unpin"}


def is_said(op, answer):
    """Whether the player says the answer of the model, because the call is the model's own."""
    return answer.startswith("error ") and (op in OWN or op in ("read", "write") and answer in ("error EINVAL", "error ESRCH"))


class Unplayable(Bad):
    """A trace that no kernel can be made to play, and the step because of which."""

    def __init__(self, told, step=None):
        super().__init__(told)
        self.step = step


class Watched(Machine):
    """The plain model, which notes targets that fill up within a step."""

    def __init__(self, trace):
        super().__init__(trace)
        self.full, self.ran_full = set(), None

    def status_of_page(self, run, page, target):
        status = super().status_of_page(run, page, target)
        if status == -12 and target not in self.full:
            self.ran_full = target
        return status


class Instructions:
    """The instructions for a trace."""

    def __init__(self, trace, here=False, privilege="both"):
        self.name, self.top, self.here, self.privilege = trace.name, trace.top, here, PRIVILEGES[privilege]
        self.machine = Watched(trace.top)
        self.users, self.pins, self.pins_made, self.filled = [], {}, 0, set()
        self.shared, self.body = [], []
        self.offlined = {step["node"] for step in trace.steps if step["op"] in ("offline", "online")}
        for self.k, step in enumerate(trace.steps):
            self.add(step)

    @property
    def nodes(self):
        return len(self.top["machine"]["nodes"])

    def text(self):
        return "".join(line + "\n" for line in [f"trace {short_name(self.name)}", *self.shared, *self.body])

    def cannot(self, why):
        raise Unplayable(f"{self.name}: step {self.k}: {why}", self.k)

    def add(self, step):
        """Adds a step, and plays it on the model."""
        machine, op = self.machine, step["op"]
        machine.full = {node for node in machine.nodes if not machine.free[node]}
        self.fill(machine.full)
        machine.ran_full = None
        place = self.pinned_page(step) if op in ("pin", "unpin") else None
        head = machine.play(step)[0].split(" ", 2)[2]
        if machine.ran_full is not None:
            self.cannot(f"node {machine.ran_full} fills up within the step, and a kernel's node can only be filled before a step")
        if op == "free":
            self.say(op, head if head.startswith("error ") else "-")
        elif is_said(op, head):
            self.say(op, head)
        else:
            self.body.append(f"{self.k} {op} {getattr(self, op)(step) if place is None else self.pin_words(step, place)}")

    def say(self, op, text):
        self.body.append(f"{self.k} say {op} {text}")

    def fill(self, full):
        """Fills the nodes that are full, and drains the others."""
        if full and self.here:
            self.cannot(f"node {min(full)} is full, and --here does not fill nodes of this machine")
        if full and len(full) == self.nodes:
            self.cannot("all nodes are full, and a kernel needs some memory for itself")
        self.body += [f"drain {node}" for node in sorted(self.filled - full)]
        source = min(set(range(self.nodes)) - full, default=0)
        self.body += [f"fill {node} {source}" for node in sorted(full - self.filled)]
        self.filled = full

    # ---- the arguments of each step

    def spawn(self, step):
        if step["uid"] not in self.users:
            self.users.append(step["uid"])
        if len(self.machine.processes) > MOST_PROCESSES:
            self.cannot(f"at most {MOST_PROCESSES} processes can be played at a time")
        allowed = sorted(set(step["allowed"]))
        everywhere = len(allowed) == self.nodes
        if self.here and not everywhere:
            self.cannot("the process may not use all nodes, and --here does not make cpusets")
        user = FIRST_USER + self.users.index(step["uid"])
        privilege = self.privilege if step.get("privileged", False) else 0
        return f"{step['pid']} {user} {privilege} {step['home']} {'-' if everywhere else ','.join(map(str, allowed))}"

    def place(self, step):
        end = step["addr"] + step["pages"] * PAGE
        if step["addr"] < LOWEST or end > HIGHEST:
            self.cannot(f"only areas from {LOWEST:#x} to {HIGHEST:#x} can be played")
        if step["pages"] > MOST_PAGES:
            self.cannot(f"only areas of at most {counted(MOST_PAGES, 'page')} can be played")

    def map(self, step):
        self.place(step)
        segment = self.machine.segments_made - 1
        if segment >= MOST_SEGMENTS:
            self.cannot(f"at most {MOST_SEGMENTS:,} segments can be played")
        if step.get("shared", False):
            self.shared.append(f"shared {segment} {step['pages']}")
        return f"{step['pid']} {step['addr']:#x} {step['pages']} {segment} {int(step.get('shared', False))}"

    def attach(self, step):
        self.place(step)
        return f"{step['pid']} {step['addr']:#x} {step['segment']} {step['offset']} {step['pages']}"

    def unmap(self, step):
        if step["addr"] + step["pages"] * PAGE > HIGHEST:
            self.cannot(f"a range that ends above {HIGHEST:#x} cannot be unmapped: the player itself is there")
        return f"{step['pid']} {step['addr']:#x} {min(step['pages'], END)}"

    def exit(self, step):
        return str(step["pid"])

    pagemap = numa_maps = exit

    def vmstat(self, _):
        return ""

    def offline(self, step):
        if self.here:
            self.cannot("--here does not take nodes of this machine offline")
        return str(step["node"])

    online = offline

    def pinned_page(self, step):
        process = self.machine.processes.get(step["pid"])
        return (process and process.seen.get(step["addr"] // PAGE)) or "nothing"

    def pin_words(self, step, page):
        """A pin is made by the process that asks for it, and released by the one that made it."""
        held = self.pins.setdefault(page, [])
        if step["op"] == "unpin":
            pid, number = held.pop()
            return f"{pid} {number}"
        if self.pins_made >= min(MOST_PINS, MOST_AT_ONCE):
            self.cannot(f"at most {MOST_AT_ONCE} pins can be played")
        held.append((step["pid"], self.pins_made))
        self.pins_made += 1
        return f"{step['pid']} {step['addr']:#x} {held[-1][1]}"

    def read(self, step):
        return f"{step['pid']} {step['addr']:#x} {step['len']}"

    def write(self, step):
        return f"{step['pid']} {step['addr']:#x} {step['data']}"

    def move_pages(self, step):
        if step.get("during"):
            self.cannot("accesses in flight exist only in the model: no kernel can be told when to make them")
        entries = "".join(f" {address:#x} {node}" for address, node in zip(step["pages"], step["nodes"]))
        return f"{step['caller']} {step['pid']} {step['flags']} {len(step['pages'])}{entries}"

    def query(self, step):
        entries = "".join(f" {address:#x}" for address in step["pages"])
        return f"{step['caller']} {step['pid']} {step['flags']} {len(step['pages'])}{entries}"

    def migrate_pages(self, step):
        return f"{step['caller']} {step['pid']} {mask(step['old']):#x} {mask(step['new']):#x}"

    def mbind(self, step):
        return f"{step['caller']} {step['addr']:#x} {step['len']} {step['mode']} {mask(step['nodes']):#x} {step['flags']}"


def mask(nodes):
    """A set of nodes as a number with a bit for each."""
    return sum(1 << node for node in set(nodes))


def short_name(path):
    """The name of a trace in a replay."""
    return re.sub(r"[^A-Za-z0-9._-]", "_", os.path.basename(path)) or "-"

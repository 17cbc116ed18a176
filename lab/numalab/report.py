"""What a report says: its lines by steps, and what it shows of frames between two changes."""
import re
from collections import namedtuple

from .faults import Form
from .names import Names
from .traces import Bad
from .words import PAGE

LINE = re.compile(r"(0|[1-9][0-9]*) ([a-z_]+) (.*)")
# The line of an access in flight: its step, its number, and what it answers.
FLIGHT = re.compile(r"(0|[1-9][0-9]*)\.(0|[1-9][0-9]*) (read (?:(?:[0-9a-f]{2})+|held|error [A-Z]+)|write (?:ok|held|error [A-Z]+))")
LIST = re.compile(r"(0|[1-9][0-9]*):((?: \S+)*)")
NUMBER = re.compile(r"0|[1-9][0-9]*")
FRAME = re.compile(r"(?P<frame>0|[1-9][0-9]{0,4})")
ENTRY = re.compile(r"(?P<page>[0-9a-f]{5,9})000=(?:zero|(?P<frame>0|[1-9][0-9]{0,4}))")
# The refusals that may come after moves.
LATE = {("mbind", "error EIO"), ("offline", "error EBUSY")}
# The steps that move no page and neither take nor free a frame. All others may.
KEEPS = {"spawn", "map", "attach", "pin", "unpin", "online", "query", "free", "pagemap", "numa_maps", "vmstat"}
MOST_FRAMES = 16384

# Its number in the file, its op and answer, the lines of accesses in flight after it, and those of areas.
Line = namedtuple("Line", "number op answer flight areas")


def is_refused(line):
    return line.answer.startswith("error ")


def is_access(text, lines):
    """Whether a line is that of the next access in flight after the lines before it, the last of which is a batch's."""
    match = FLIGHT.fullmatch(text)
    if not match or is_refused(lines[-1]):
        return False
    return (match[1], match[2]) == (str(len(lines) - 1), str(len(lines[-1].flight)))


def report_lines(text):
    """The lines of the steps of a report."""
    if text and not text.endswith("\n"):
        raise Bad("the last line has no line feed: the report was cut off")
    lines, skipped, ops = [], 0, Form().steps
    for number, line in enumerate(text.split("\n")[:-1], 1):
        if skipped:
            skipped -= 1
            lines[-1].areas.append(line)
            continue
        if lines and lines[-1].op == "move_pages" and is_access(line, lines):
            lines[-1].flight.append(line)
            continue
        match = LINE.fullmatch(line)
        if not match or match[2] not in ops or match[1] != str(len(lines)):
            raise Bad(f"line {number}: expected the line of step {len(lines)}")
        if match[2] == "numa_maps" and not match[3].startswith("error "):
            if not NUMBER.fullmatch(match[3]):
                raise Bad(f"line {number}: expected a number of areas")
            skipped = int(match[3])
        lines.append(Line(number, match[2], match[3], [] if match[2] == "move_pages" else (), [] if match[2] == "numa_maps" else ()))
    if skipped:
        raise Bad(f"{skipped} line{' of numa_maps is' if skipped == 1 else 's of numa_maps are'} missing: the report was cut off")
    return lines


def items_of(number, answer, form):
    """The items of a list after its count, each as the match of its form."""
    match = LIST.fullmatch(answer)
    items = match[2].split() if match else []
    if not match or match[1] != str(len(items)):
        raise Bad(f"line {number}: expected a list after the count of its items")
    found = [form.fullmatch(item) for item in items]
    for item, one in zip(items, found):
        if not one or int(one["frame"] or 0) >= MOST_FRAMES:
            raise Bad(f"line {number}: {item[:40]} is not an item of this list")
    return found


def node_ranges(top):
    """The frames of each node of a trace, which are numbered consecutively."""
    found, end = [], 0
    for size in top["machine"]["nodes"]:
        found.append(range(end, end + size))
        end += size
    return found


class Layout:
    """What a trace says beyond its report."""

    def __init__(self, top):
        self.steps, self.ranges, self.names = top["steps"], node_ranges(top), Names(top)
        for step in self.steps:
            self.names.made(step)

    def check(self, lines):
        """Refuses the report of another trace, as far as the names of steps show it."""
        for k, line in enumerate(lines):
            if k >= len(self.steps) or self.steps[k]["op"] != line.op:
                raise Bad(f"line {line.number}: the trace has a different step {k}")
            if line.op == "move_pages" and not is_refused(line):
                told = [access.split(" ")[1] for access in line.flight]
                wanted = [access["op"] for access in self.steps[k].get("during", [])]
                if told != (wanted[: len(told)] if k + 1 == len(lines) else wanted):
                    raise Bad(f"line {line.number}: the trace has different accesses in flight in step {k}")


class Moment:
    """What the report says of frames between two changes."""

    def __init__(self, after, flight=()):
        self.after = after  # the step that may have changed something last, and its op
        self.flight = flight  # the lines of its accesses in flight
        self.steps = []  # the steps that look
        self.free = {}  # by frame: its place in its node's list, from 1
        self.held = {}  # by frame: the pages that it holds, as (process, page number, None), or (None, page number, step)
        self.zeros = []  # where the page of zeros is seen, likewise
        self.lists = []  # for each list of free frames that is not empty, its lowest and its highest frame
        self.nodes = set()  # the nodes whose list is shown, where they are known
        self.counts = {}  # by node, where nodes are known: how many pages of each process numa_maps shows
        self.offline = set()  # the nodes that are offline, where nodes are known
        self.pinned = set()  # the frames of pages with a pin, as far as it was taken where the page is shown

    def sees(self, kept):
        """Notes what is kept from looks before: nodes that are offline, and pins."""
        self.offline = set(kept.offline)
        self.pinned |= {frame for frame, pages in self.held.items() if any(kept.pins.get(page[:2]) for page in pages)}

    def add_free(self, k, number, answer, machine):
        node = machine and machine.steps[k]["node"]
        if machine and node >= len(machine.ranges):
            raise Bad(f"line {number}: node {node} is not in the trace")
        frames = [int(match["frame"]) for match in items_of(number, answer, FRAME)]
        for place, frame in enumerate(frames, 1):
            if self.free.setdefault(frame, place) != place:
                raise Bad(f"line {number}: frame {frame} occurs twice")
            if machine and frame not in machine.ranges[node]:
                raise Bad(f"line {number}: frame {frame} is not on node {node} of the trace")
        if machine:
            self.nodes.add(node)
        if frames:
            self.lists.append((min(frames), max(frames)))
        self.steps.append(k)

    def add_pagemap(self, k, number, answer, machine):
        below = -1
        for match in items_of(number, answer, ENTRY):
            page = (machine.steps[k]["pid"], int(match["page"], 16), None) if machine else (None, int(match["page"], 16), k)
            if page[1] <= below:
                raise Bad(f"line {number}: the entries are not in ascending order")
            below = page[1]
            if not match["frame"]:
                self.zeros.append(page)
                continue
            if machine and int(match["frame"]) >= machine.ranges[-1].stop:
                raise Bad(f"line {number}: frame {match['frame']} is not in the trace")
            self.held.setdefault(int(match["frame"]), []).append(page)
        self.steps.append(k)

    def add_numa_maps(self, k, line, machine):
        """Counts the pages of a process on each node. It shows no frames."""
        self.steps.append(k)
        for area in line.areas:
            for node, count in re.findall(r" N([0-9]+)=([0-9]+)", area):
                told = self.counts.setdefault(int(node), {})
                told[machine.steps[k]["pid"]] = told.get(machine.steps[k]["pid"], 0) + int(count)


class Kept:
    """What steps that look at no frame leave: nodes that are offline, and pins by process and page number."""

    def __init__(self):
        self.offline, self.pins = set(), {}

    def add(self, step):
        op = step["op"]
        if op == "offline":
            self.offline.add(step["node"])
        elif op == "online":
            self.offline.discard(step["node"])
        elif op in ("pin", "unpin"):
            page = (step["pid"], step["addr"] // PAGE)
            self.pins[page] = self.pins.get(page, 0) + (1 if op == "pin" else -1)


def moments_of(lines, machine):
    """The moments at which a report shows something."""
    found, now, kept = [], Moment(None), Kept()
    for k, line in enumerate(lines):
        refused = is_refused(line)
        if machine and not refused:
            kept.add(machine.steps[k])
        if line.op == "free" and not refused:
            now.add_free(k, line.number, line.answer, machine)
        elif line.op == "pagemap" and not refused:
            now.add_pagemap(k, line.number, line.answer, machine)
        elif line.op == "numa_maps" and not refused and machine:
            now.add_numa_maps(k, line, machine)
        elif line.op not in KEEPS and (not refused or (line.op, line.answer) in LATE):
            found.append(now)
            now = Moment((k, line.op), line.flight)
        if now.steps and now.steps[-1] == k:
            now.sees(kept)
    found = [moment for moment in found + [now] if moment.steps]
    for moment in found:
        both = sorted(set(moment.free) & set(moment.held))
        if both:
            raise Bad(f"steps {moment.steps[0]} to {moment.steps[-1]}: frame {both[0]} is both free and held")
    return found


def read_report(data, name):
    """The lines of the steps of a report that is read as bytes."""
    try:
        return report_lines(data.decode("ascii"))
    except UnicodeDecodeError as error:
        raise Bad(f"{name}: byte {error.start} does not belong in a report") from error

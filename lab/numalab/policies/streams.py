"""Workloads that are read from files, as valgrind, perf, DAMON and others write accesses. A file is read twice, and never as a whole:
first for its pages, then block by block. What has no place in the model is counted."""
import gzip
import re
import zlib
from collections import Counter, namedtuple
from math import isfinite

from ..linux.recorded import END, MOST_FRAMES
from ..notation import guessed
from ..traces import Bad
from ..words import PAGE, counted
from . import arrays
from .spec import Parameters, split
from .workloads import BLOCK, Process, Region, Workload, homes_of

# What a line tells: when (or None), the process, the bytes from one address to before another, what is done (READ, WRITE or both),
# and how often to each page.
Record = namedtuple("Record", "time process first end kinds times")
READ, WRITE = (0,), (1,)
BOTH = READ + WRITE
MOST_PROCESSES, MOST_PID = 64, (1 << 32) - 1
MOST_KEPT = 16 * MOST_FRAMES
LACKEY = re.compile(r"( [LSM]) ([0-9a-f]+),[0-9]+")
PERF = re.compile(r"\s*\S.*?\s([0-9]+)(?:/[0-9]+)?\s+(?:\[[0-9]+\]\s+)?([0-9]+\.[0-9]+):\s+(?:[0-9]+\s+)?(\S+?):\s+([0-9a-f]+)(?:\s+[0-9a-f]+(?:\s.*)?)?\s*")
REGION = re.compile(r"\s*([0-9a-f]+)-([0-9a-f]+)\s*\(.*?\)\s*:\s*([0-9]+).*")
DAMON_KEY = re.compile(r"\s*(monitoring_start|target_id):\s*(.*?)\s*")
TIME = re.compile(r"([0-9][0-9.,]*) *(ns|us|ms|s|m|h)\b")
UNITS = {"ns": 1e-9, "us": 1e-6, "ms": 1e-3, "s": 1.0, "m": 60.0, "h": 3600.0}
KINDS = {**dict.fromkeys(("r", "read", "l", "load", "0", "0.0"), READ), **dict.fromkeys(("w", "write", "s", "store", "1", "1.0"), WRITE),
         "m": BOTH, "modify": BOTH}


def lackey(lines, left):
    """valgrind --tool=lackey --trace-mem=yes: a letter, an address and a size."""
    kinds = {" L": READ, " S": WRITE, " M": BOTH}
    for line in lines:
        if line.startswith("I  "):  # Most lines.
            left["instruction fetches"] += 1
            continue
        match = LACKEY.fullmatch(line)
        if match:
            address = int(match[2], 16)
            yield Record(None, 1, address, address + 1, kinds[match[1]], 1)
        else:
            left["lines that are no access"] += 1


def perf(lines, left):
    """perf script of a record by perf mem: process, time, event and address, and after that nothing or a number, since a name would
    mean that the number before it is the place of the instruction. An event that has `store` in its name writes."""
    for line in lines:
        match = PERF.fullmatch(line)
        if not match:
            left["lines that are no sample with an address"] += 1
            continue
        address = int(match[4], 16)
        yield Record(float(match[2]), int(match[1]), address, address + 1, WRITE if "store" in match[3] else READ, 1)


def damon(lines, left):
    """The raw report of DAMON's record: regions with how many of their samples were accesses, which all their pages get."""
    time, target, targets = 0.0, 1, {}
    for line in lines:
        match, key = REGION.fullmatch(line), DAMON_KEY.fullmatch(line)
        if match and int(match[3]):
            yield Record(time, target, int(match[1], 16), int(match[2], 16), READ, int(match[3]))
        elif match:
            left["regions without an access"] += 1
        elif key and key[1] == "target_id":
            target = targets.setdefault(key[2], len(targets) + 1)
        elif key:
            time = sum(float(number.replace(",", "")) * UNITS[unit] for number, unit in TIME.findall(key[2]))


def table(lines, left):
    """Lines of time, process, address and kind, separated by commas."""
    for number, line in enumerate(lines):
        words = [word.strip().strip('"') for word in line.split(",")]
        # The first may be a heading.
        yield from record_of(words, left if number else Counter(), "lines that are not a time, a process, an address and a kind")


def opened_lines(path):
    """The lines of a file, one after another, which may be compressed by gzip."""
    opened = gzip.open if path.endswith(".gz") else open
    try:
        with opened(path, "rt", encoding="utf-8", errors="replace") as file:
            for line in file:
                yield line.rstrip("\n")
    except (OSError, EOFError, zlib.error) as error:
        raise Bad(f"{path}: {getattr(error, 'strerror', None) or error}") from error


def rows_of_array(path, left):
    """The rows of a NumPy file: four columns, or fields with their names in this order. It is mapped, and not read as a whole."""
    if arrays.numpy is None:
        raise Bad(f"{path}: NumPy is needed to read it, which is not installed (Debian's package python3-numpy)")
    try:
        rows = arrays.numpy.load(path, mmap_mode="r", allow_pickle=False)
    except OSError as error:
        raise Bad(f"{path}: {error.strerror or error}") from error
    except ValueError as error:
        raise Bad(f"{path}: {error}") from None
    if len(rows.dtype.names or ()) != 4 and (rows.ndim != 2 or rows.shape[1] != 4):
        raise Bad(f"{path}: expected rows of a time, a process, an address and a kind")
    for start in range(0, len(rows), BLOCK):
        for row in rows[start : start + BLOCK].tolist():
            words = [word.decode("ascii", "replace") if isinstance(word, bytes) else word for word in row]
            yield from record_of(words, left, "rows that are not a time, a process, an address and a kind")


def record_of(words, left, what):
    """The record of a time, a process, an address and a kind, or a count of what is none."""
    try:
        time, process, address, kind = words
        address = int(address, 0) if isinstance(address, str) else int(address)
        yield Record(float(time), int(process), address, address + 1, KINDS[str(kind).lower()], 1)
    except (ValueError, KeyError, OverflowError):
        left[what] += 1


READERS = {"lackey": lackey, "perf": perf, "damon": damon, "csv": table}
FORMATS = [*READERS, "numpy"]


class PageSet:
    """The pages of a process: single ones, and stretches. Where they are far more than a machine has frames, two become one, unless the
    scale is given, so that the set stays small."""

    def __init__(self, scale):
        self.unit, self.fixed, self.most = scale or 1, bool(scale), MOST_KEPT
        self.pages, self.stretches = set(), set()

    def add(self, record):
        first, end = record.first // PAGE // self.unit, (record.end - 1) // PAGE // self.unit + 1
        if end - first == 1:
            self.pages.add(first)
        else:
            self.stretches.add((first, end))
        if len(self.pages) + len(self.stretches) > self.most:
            self.shrink()

    def shrink(self):
        """Joins what is adjacent, and takes two pages for one while they are too many."""
        groups = self.groups(self.unit)
        while not self.fixed and sum(end - first for first, end in groups) > MOST_KEPT:
            self.pages, self.stretches = set(), {(first // 2, (end - 1) // 2 + 1) for first, end in groups}
            self.unit *= 2
            groups = self.groups(self.unit)
        self.pages, self.stretches = set(), set(map(tuple, groups))
        self.most = max(MOST_KEPT, 2 * len(groups))

    def groups(self, scale):
        """Stretches of adjacent pages, where N pages in a row are one."""
        many = scale // self.unit
        ends = {(page // many, page // many + 1) for page in self.pages} | {(first // many, (end - 1) // many + 1) for first, end in self.stretches}
        found = []
        for first, end in sorted(ends):
            if found and first <= found[-1][1]:
                found[-1][1] = max(found[-1][1], end)
            else:
                found.append([first, end])
        return found


def scale_for(seen, most, asked):
    """The scale that is asked for, or the least power of two with which all pages find a frame."""
    scale = max([asked or 1, *(one.unit for one in seen)])
    while True:
        total = sum(end - first for one in seen for first, end in one.groups(scale))
        if total <= most:
            return scale
        if asked or scale > END:
            raise Bad(f"with scale={scale} there are {counted(total, 'page')}, and the processes may use {counted(most, 'frame')}")
        scale *= 2


class FileWorkload(Workload):
    """A workload from a file."""

    def __init__(self, words, path, setup):
        self.kind, self.path = words.name, path
        left, epochs, asked = Counter(), words.count("epochs", 20), words.count("scale", 0, 0)
        seen, self.accesses, self.times = self.look(left, asked)
        allowed = words.text("allowed", None)
        allowed = setup.node_list(allowed, f"{words.what}: allowed") if allowed else list(setup.nodes)
        if not seen:
            raise Bad(f"{path}: no access was found in it, as {self.kind} writes them")
        words.given.setdefault("processes", str(len(seen)))
        homes = homes_of(words, setup, len(seen))
        words.done()
        self.numbers = {process: number for number, process in enumerate(sorted(seen))}
        scale = scale_for(seen.values(), sum(setup.frames[node] for node in allowed), asked)
        regions = [Region(first * PAGE, end - first, (self.numbers[process],)) for process in sorted(seen) for first, end in seen[process].groups(scale)]
        processes = [Process(pid, homes[number % len(homes)], allowed) for pid, number in self.numbers.items()]
        super().__init__(f"{self.kind} {path}", processes, regions, epochs)
        self.scale, self.left_out = scale, left
        self.pages_at, first = {}, 0
        for region in regions:
            base = self.pages_at.setdefault(region.processes[0], {})
            base.update((region.address // PAGE + k, first + k) for k in range(region.pages))
            first += region.pages

    def records(self, left):
        """What each line tells, without what the model has no place for."""
        known = {}
        reader = rows_of_array(self.path, left) if self.kind == "numpy" else READERS[self.kind](opened_lines(self.path), left)
        for record in reader:
            if not 0 <= record.first < record.end <= END * PAGE:
                left["accesses to addresses that no process has"] += 1
            elif record.time is not None and not isfinite(record.time):
                left["accesses at no time"] += 1
            elif not 1 <= record.process <= MOST_PID:
                left["accesses by no process"] += 1
            elif record.process not in known and len(known) == MOST_PROCESSES:
                left[f"accesses by further processes than {MOST_PROCESSES}"] += 1
            else:
                known[record.process] = True
                yield record

    def look(self, left, asked):
        """The pages of each process, how many accesses there are, and the first and the last time."""
        seen, total, first, last = {}, 0, None, None
        for record in self.records(left):
            if record.process not in seen:
                seen[record.process] = PageSet(asked)
            seen[record.process].add(record)
            total += len(record.kinds) * record.times * ((record.end - 1) // PAGE - record.first // PAGE + 1)
            if record.time is not None:
                first = record.time if first is None else min(first, record.time)
                last = record.time if last is None else max(last, record.time)
        return seen, total, None if first is None or first == last else (first, last)

    def epoch_of(self, time, place):
        """The epoch of an access: equally long ones, or without times ones with equally many accesses."""
        if self.times:
            part = (time - self.times[0]) / (self.times[1] - self.times[0])
        else:
            part = place / max(1, self.accesses)
        return min(self.epochs - 1, int(part * self.epochs))

    def blocks(self):
        block, epoch, place = [], 0, 0
        for record in self.records(Counter()):
            at = max(epoch, self.epoch_of(record.time, place))
            if block and at != epoch:
                yield epoch, arrays.block_of(block)
                block = []
            epoch = at
            for item, times in self.items_of(record):
                place += times
                while times:
                    many = min(times, BLOCK - len(block))
                    block += [item] * many
                    times -= many
                    if len(block) == BLOCK:
                        yield epoch, arrays.block_of(block)
                        block = []
        if block:
            yield epoch, arrays.block_of(block)

    def items_of(self, record):
        """The items of a record, each with how often it is accessed in a row."""
        process, unit = self.numbers[record.process], PAGE * self.scale
        pages, many = self.pages_at[process], len(self.processes)
        for group in range(record.first // unit, (record.end - 1) // unit + 1):
            item = (pages[group] * many + process) * 2
            for kind in record.kinds:
                yield item + kind, record.times * self.weight(record, group)

    def weight(self, record, group):
        """How many pages of a stretch are in a group."""
        first, end = record.first // PAGE, (record.end - 1) // PAGE + 1
        return min(end, (group + 1) * self.scale) - max(first, group * self.scale)


def read_from(text, setup):
    """The workload in a file: 'lackey FILE epochs=10 scale=4'."""
    kind, *rest = split(text, "workload")
    if not rest or "=" in rest[0]:
        raise Bad(f"workload {kind}: expected the name of a file after it{guessed(kind, FORMATS) if kind not in FORMATS else ''}")
    return FileWorkload(Parameters(" ".join([kind, *rest[1:]]), "workload"), rest[0], setup)

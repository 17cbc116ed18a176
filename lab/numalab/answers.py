"""The answers of calls as values, each with a type of its own, from the lines of a report."""
import re
from collections import Counter
from dataclasses import dataclass, fields
from typing import NamedTuple, Optional

from .report import ENTRY, FRAME, Line, items_of
from .traces import Bad
from .words import ERRORS

NUMBERS = {name: number for number, name in ERRORS.items()}
AREA = re.compile(r"([0-9a-f]{8,}) (\S+)(?: anon=(\d+))?(?: mapmax=(\d+))?((?: N\d+=\d+)*)(?: kernelpagesize_kB=4)?")
DATA = re.compile("(?:[0-9a-f]{2})+")
VMSTAT = re.compile(r"pgmigrate_success (\d+) pgmigrate_fail (\d+)")
MOST_SHOWN = 8


def shortened(value):
    """A value for people: of a long list its first elements, how many there are, and how often each occurs where they are few."""
    if isinstance(value, list) and len(value) > MOST_SHOWN:
        kinds = Counter(value).most_common() if isinstance(value[0], int) else []
        tally = ", ".join(f"{count:,} x {kind}" for kind, count in kinds)
        return f"[{', '.join(map(repr, value[:MOST_SHOWN]))}, .. {len(value):,} in all{': ' + tally if 0 < len(kinds) <= MOST_SHOWN else ''}]"
    if isinstance(value, bytes) and len(value) > 4 * MOST_SHOWN:
        return f"{value[:4 * MOST_SHOWN]!r}.. {len(value):,} bytes"
    return repr(value)


class Answer:
    """What a call answers. `step` is the number of the call in its trace, from 0."""

    step = None

    def __repr__(self):
        told = ", ".join(f"{field.name}={shortened(getattr(self, field.name))}" for field in fields(self))
        return f"{type(self).__name__}({told})"


@dataclass(repr=False)
class Done(Answer):
    """A call that was made, and has nothing to tell."""

    def as_object(self):
        return {"ok": True}


@dataclass(repr=False)
class Bound(Answer):
    """An mbind that was made."""

    def as_object(self):
        return {"answer": 0}


@dataclass(repr=False)
class Refusal(Answer):
    """The error of a call: its name, such as ENODEV, and its number."""

    name: str
    errno: Optional[int]

    def as_object(self):
        return {"error": self.name, "errno": self.errno}


@dataclass(repr=False)
class Held(Answer):
    """An access in flight to a page that its run moves: it would have to wait."""

    def as_object(self):
        return {"held": True}


@dataclass(repr=False)
class Read(Answer):
    """The bytes that were read."""

    bytes: bytes

    def __bytes__(self):
        return self.bytes

    def as_object(self):
        return {"data": self.bytes.hex()}


@dataclass(repr=False)
class Mapped(Answer):
    """The number of a new segment."""

    segment: int

    def as_object(self):
        return {"segment": self.segment}


@dataclass(repr=False)
class Moved(Answer):
    """A batch: how many entries failed, the status of each, and the answer to each access in flight."""

    failed: int
    statuses: list
    answers: list

    def as_object(self):
        during = {"during": [answer.as_object() for answer in self.answers]} if self.answers else {}
        return {"answer": self.failed, "statuses": self.statuses, **during}


@dataclass(repr=False)
class Queried(Answer):
    """The node of each page that was asked for, or its status."""

    statuses: list

    def as_object(self):
        return {"answer": 0, "statuses": self.statuses}


@dataclass(repr=False)
class Migrated(Answer):
    """How many pages stayed for a pin or for lack of a free frame."""

    failed: int

    def as_object(self):
        return {"answer": self.failed}


@dataclass(repr=False)
class FreeList(Answer):
    """The free frames of a node, front first."""

    frames: list

    def __len__(self):
        return len(self.frames)

    def as_object(self):
        return {"frames": self.frames}


class Entry(NamedTuple):
    """A page of a pagemap: its address and its frame, or None for the page of zeros."""

    address: int
    frame: Optional[int]

    def __repr__(self):
        return f"Entry(address={self.address:#x}, frame={self.frame})"


@dataclass(repr=False)
class Pagemap(Answer):
    """The pages that a process has touched, by address."""

    entries: list

    def as_object(self):
        return {"entries": [entry._asdict() for entry in self.entries]}


class AreaMap(NamedTuple):
    """A line of numa_maps: where the area begins, its policy, and how many pages the process sees in it: all, by how many processes
    one of them is seen at most, and by node."""

    address: int
    policy: str
    anon: int
    mapmax: int
    nodes: dict

    def __repr__(self):
        told = f", anon={self.anon}, mapmax={self.mapmax}, nodes={self.nodes}" if self.anon else ""
        return f"AreaMap(address={self.address:#x}, policy={self.policy!r}{told})"

    def as_object(self):
        return self._asdict() if self.anon else {"address": self.address, "policy": self.policy}


@dataclass(repr=False)
class Maps(Answer):
    """The areas of a process."""

    areas: list

    @property
    def nodes(self):
        """How many pages are on each node, over all areas."""
        found = {}
        for area in self.areas:
            for node, count in area.nodes.items():
                found[node] = found.get(node, 0) + count
        return dict(sorted(found.items()))

    def as_object(self):
        return {"areas": [area.as_object() for area in self.areas]}


@dataclass(repr=False)
class Counters(Answer):
    """How many pages moved and how many entries failed so far."""

    pgmigrate_success: int
    pgmigrate_fail: int

    def as_object(self):
        return {"pgmigrate_success": self.pgmigrate_success, "pgmigrate_fail": self.pgmigrate_fail}


# ---- from lines


def refusal_of(name):
    return Refusal(name, NUMBERS.get(name))


def access_answer(op, answer):
    """What an access answers."""
    if answer.startswith("error "):
        return refusal_of(answer[6:])
    if answer == "held":
        return Held()
    return Read(bytes.fromhex(answer)) if op == "read" else Done()


def area_answer(number, text):
    """A line of numa_maps."""
    match = AREA.fullmatch(text)
    if not match:
        raise Bad(f"line {number}: {text[:40]} is not an area")
    nodes = {int(node): int(count) for node, count in re.findall(r"N(\d+)=(\d+)", match[5])}
    return AreaMap(int(match[1], 16), match[2], int(match[3] or 0), int(match[4] or (1 if match[3] else 0)), nodes)


def statuses_of(line):
    """The answer of a batch, and its statuses."""
    head, _, rest = line.answer.partition(":")
    try:
        return int(head), [int(status) for status in rest.split()]
    except ValueError:
        raise Bad(f"line {line.number}: expected an answer and statuses") from None


def answer_of(line):
    """The answer of a step; a Refusal where it was refused."""
    op, answer = line.op, line.answer
    if answer.startswith("error "):
        return refusal_of(answer[6:])
    if op == "move_pages":
        return Moved(*statuses_of(line), [access_answer(*text.split(" ", 1)[1].split(" ", 1)) for text in line.flight])
    if op == "query":
        return Queried(statuses_of(line)[1])
    if op == "free":
        return FreeList([int(match["frame"]) for match in items_of(line.number, answer, FRAME)])
    if op == "pagemap":
        return Pagemap([Entry(int(match["page"], 16) << 12, int(match["frame"]) if match["frame"] else None)
                        for match in items_of(line.number, answer, ENTRY)])
    if op == "numa_maps":
        return Maps([area_answer(line.number + 1 + k, text) for k, text in enumerate(line.areas)])
    return simple_answer(line)


def simple_answer(line):
    """The same for steps that answer in a word or two."""
    op, answer = line.op, line.answer
    if op == "vmstat":
        match = VMSTAT.fullmatch(answer)
        if match:
            return Counters(int(match[1]), int(match[2]))
    elif op == "map" and answer.startswith("segment=") and answer[8:].isdecimal():
        return Mapped(int(answer[8:]))
    elif op == "read" and DATA.fullmatch(answer):
        return Read(bytes.fromhex(answer))
    elif op in ("mbind", "migrate_pages") and answer.isdecimal():
        return Migrated(int(answer)) if op == "migrate_pages" else Bound()
    elif answer == "ok" and op != "read":
        return Done()
    raise Bad(f"line {line.number}: {answer[:40]} is not an answer of {op}")


def line_of(number, lines):
    """The lines of one step, which begin at that line of a report, as one Line."""
    _, op, answer = lines[0].split(" ", 2)
    rest = lines[1:]
    return Line(number, op, answer, rest if op == "move_pages" else (), rest if op == "numa_maps" else ())

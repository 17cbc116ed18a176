"""What a trace does to frames, step by step: the data of a picture that moves.

The states between two looks come from the plain model, which is not proved; the caller
has to check that its whole report is the program's."""
from bisect import bisect_right

from .model import ZERO
from .names import is_name, notes_of
from .notate import node_labels
from .reasons import Explained
from .report import KEEPS, LATE, Layout, is_refused, moments_of, node_ranges
from .table import Table
from .traces import Bad, left_out_of
from .words import PAGE

MOST_STEPS, MOST_CHANGES, MOST_ROWS = 20000, 2000000, 200


class Queue(list):
    """A list of free frames that counts what is taken from its front and added to its end."""

    def __init__(self, frames):
        super().__init__(frames)
        self.taken, self.added = 0, []

    def pop(self, place=0):
        self.taken += 1
        return super().pop(place)

    def append(self, frame):
        self.added.append(frame)
        super().append(frame)

    def told(self):
        """How many frames were taken since the last call, and those that were added; or None."""
        found = [self.taken, *self.added] if self.taken or self.added else None
        self.taken, self.added = 0, []
        return found


class Watched(Explained):
    """The plain model, which notes which pages each step has changed."""

    def __init__(self, trace):
        super().__init__(trace, wordy=False)
        self.free = [Queue(frames) for frames in self.free]
        self.pids, self.where, self.changed, self.shown, self.zeros = {}, {}, set(), {}, 0
        # The pins of frames that have changed since the last call of `marks`, and the nodes that were offline then.
        self.pinned, self.away = {}, []

    def spawn(self, step):
        answer = super().spawn(step)
        self.pids[id(self.processes[step["pid"]])] = step["pid"]
        return answer

    def touch(self, process, area, number, write):
        before = process.seen.get(number)
        page = super().touch(process, area, number, write)
        if page != before:
            self.zeros += (page == ZERO) - (before == ZERO)
        if page not in (before, ZERO):
            self.where.setdefault(page, set()).add((self.pids[id(process)], number))
            self.changed.add(page)
        return page

    def take_frame(self, process, policy, page):
        super().take_frame(process, policy, page)
        self.changed.add(page)

    def status_of_page(self, run, page, target):
        self.changed.add(page)
        return super().status_of_page(run, page, target)

    def remove(self, process, first, end):
        pid = self.pids[id(process)]
        for number, page in process.seen.items():
            if first <= number < end:
                self.zeros -= page == ZERO
                if page != ZERO:
                    self.where[page].discard((pid, number))
                    self.changed.add(page)
        super().remove(process, first, end)

    def give_back(self, page):
        self.changed.add(page)
        super().give_back(page)

    def pin(self, step):
        return self.noting_pins(step, super().pin(step))

    def unpin(self, step):
        return self.noting_pins(step, super().unpin(step))

    def noting_pins(self, step, answer):
        page = self.processes[step["pid"]].seen[step["addr"] // PAGE]
        self.pinned[self.place[page]] = self.pins[page]
        return answer

    def marks(self):
        """The frames whose pins have changed since the last call, with their pins, and the nodes that are offline, where those have
        changed."""
        found, self.pinned = {"p": self.pinned} if self.pinned else {}, {}
        away = [node for node in self.nodes if node not in self.online]
        if away != self.away:
            found["o"] = self.away = away
        return found

    def changes(self):
        """The frames that have changed since the last call, each with its page or none; and the lists of free frames."""
        frames = {}
        for page in self.changed:
            if page in self.shown:
                frames.setdefault(self.shown.pop(page), 0)
        for page in sorted(self.changed):
            if page in self.place:
                frame = self.shown[page] = self.place[page]
                frames[frame] = [f"{page[0]}:{page[1]}", *map(list, sorted(self.where.get(page, ())))]
        self.changed = set()
        queues = {node: told for node, told in enumerate(queue.told() for queue in self.free) if told}
        return frames, queues


def entry_marks(machine, step, line):
    """For each entry of a batch the frame that its page is in, or -1 where it has none, and its status."""
    seen = machine.processes[step["pid"] or step["caller"]].seen
    statuses = [int(text) for text in line.answer.partition(":")[2].split()]
    return [[machine.place.get(seen.get(address // PAGE), -1), status] for address, status in zip(step["pages"], statuses)]


class Film:
    """The steps of a trace in a range, and what each changes."""

    def __init__(self, top, lines, steps=None):
        self.top, self.lines = top, lines
        first, last = steps or (0, len(lines) - 1)
        self.first, self.last = first, min(last, len(lines) - 1)
        if self.last - self.first >= MOST_STEPS:
            raise Bad(f"the picture would have {self.last - self.first + 1:,} steps, and at most {MOST_STEPS:,} are drawn: pick some with --steps A-B")
        self.machine, self.count = Watched(top), 0
        self.alive = []  # the processes that are alive after each step

    def frames(self, progress=None):
        """For each step of the range what it changes; first, all that the steps before the range have changed together. Compares
        the lines with the report."""
        found = []
        for k, step in enumerate(self.top["steps"][: self.last + 1]):
            lines, _ = self.machine.explain(step)
            line = self.lines[k]
            if lines != [f"{k} {line.op} {line.answer}", *line.flight, *line.areas]:
                raise Differs(k)
            self.alive.append(set(self.machine.processes) if k >= self.first else None)
            if k == self.first - 1 or k >= self.first:
                found.append(self.step(k, step, line))
            if progress:
                progress.at(k, self.last + 1)
        return [{"f": {}, "q": {}, "z": 0}, *found] if self.first == 0 else found

    def step(self, k, step, line):
        frames, queues = self.machine.changes()
        self.count += len(frames)
        if self.count > MOST_CHANGES:
            raise Bad(f"the picture would have more than {MOST_CHANGES:,} changes of frames: pick some steps with --steps A-B")
        told = {"f": frames, "q": queues, "z": self.machine.zeros, **self.machine.marks()}
        if line.op == "move_pages" and not line.answer.startswith("error "):
            told["e"] = entry_marks(self.machine, step, line)
            self.count += len(told["e"])
        return told


class Differs(Exception):
    """The model's answer to a step differs from the report's."""


def looks_of(top, lines):
    """For each step what the report shows of the state after it: the nodes whose lists it shows, the processes whose pages it
    shows, and the number of the moment."""
    found = [[[], [], -1] for _ in lines]
    bounds = moments_of(lines, Layout(top))
    starts = [moment.after[0] if moment.after else -1 for moment in bounds]
    changes = change_steps(lines)
    for number, (moment, start) in enumerate(zip(bounds, starts)):
        place = bisect_right(changes, start)
        end = changes[place] if place < len(changes) else len(lines)
        pids = sorted({top["steps"][k]["pid"] for k in moment.steps if top["steps"][k]["op"] == "pagemap"})
        for k in range(max(start, 0), end):
            found[k] = [sorted(moment.nodes), pids, number]
    return found


def change_steps(lines):
    """The steps that may have changed frames."""
    return [k for k, line in enumerate(lines) if line.op not in KEEPS and (not is_refused(line) or (line.op, line.answer) in LATE)]


def step_text(table, k, line, looks, alive):
    """A step and its answer as text, and what the report shows of the state after it: which nodes and processes, in which
    moment, and whether that is everything."""
    full = len(looks[0]) == table.plain.count and alive <= set(looks[1])
    rows = table.lines(k, line)
    cut = [f"and {len(rows) - MOST_ROWS - 1:,} more lines"] if len(rows) > MOST_ROWS + 1 else []
    return {"t": "   →   ".join(table.head(k, line)), "m": rows[1 : MOST_ROWS + 1] + cut, "at": table.steps[k].get("at", ""), "l": [*looks, full]}


def texts_of(film, top, lines):
    """The texts of the steps of a film."""
    table, looks, found = Table(top), looks_of(top, lines), []
    for k in range(film.last + 1):
        table.passes(k, lines[k])
        if k >= film.first:
            found.append(step_text(table, k, lines[k], looks[k], film.alive[k]))
    return found


def notes_in(top, first, last):
    """The notes before the steps of a range, each with how many steps of it are before."""
    steps = range(first, last + 1)
    found = [[k - first, text] for k in steps for text in notes_of(top["steps"][k])]
    ends = notes_of(top, "note_at_end") if last + 1 == len(top["steps"]) else []
    return found + [[len(steps), text] for text in ends]


def areas_of(top, lines):
    """The areas with a name: the process, the first page number, the number of pages, the name and the step that made each."""
    return [[step["pid"], step["addr"] // PAGE, step["pages"], step["name"], k] for k, (step, line) in enumerate(zip(top["steps"], lines))
            if step["op"] in ("map", "attach") and is_name(step.get("name")) and not is_refused(line)]


def film_of(name, top, lines, steps=None, progress=None):
    """All that the page needs to know, as an object for JSON."""
    film = Film(top, lines, steps)
    changes = film.frames(progress)
    names = film.machine.names.processes
    return {"name": name, "nodes": [[frames.start, len(frames)] for frames in node_ranges(top)], "labels": node_labels(top), "first": film.first,
            "changes": changes, "steps": texts_of(film, top, lines), "notes": notes_in(top, film.first, film.last),
            "processes": sorted({step["pid"] for step in top["steps"] if step["op"] == "spawn"}),
            "names": {pid: name for pid, name in names.items() if name}, "areas": areas_of(top, lines),
            "left": left_out_of(top), "total": len(top["steps"]), "lines": len(lines)}

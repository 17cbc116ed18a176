"""A modelled machine in Python: calls as methods, each answered when it returns, by the library or the program numatrace_session.

    from numalab import Machine
    with Machine(nodes=[4, 4]) as m:
        p = m.spawn("app", home=0)
        heap = p.map(3, "heap")
        p.touch(heap, write=True)
        moved = m.move_pages(p, heap[:], node=1)
        print(moved.statuses)

An answer is a value of its own type (`numalab.answers`). A call that is refused raises a `Refused`, which is the OSError of its
errno, at that call and nowhere else; `why` says which rule refused it. What is no call, such as one with a negative number, is a
ValueError or a TypeError, and changes nothing. The steps are kept, and can be saved as a trace. The program's answers are those of
`Session` in nm_trace, which is proved; nothing of this module is."""
import errno
import os
import sys
from contextlib import AbstractContextManager

from . import answers, arguments
from .arguments import addresses, data_bytes, name_or_none, truth, whole
from .drawing import picture_of
from .faults import MOST_ENTRIES, Form, machine_faults, step_faults
from .film import Differs
from .names import node_names
from .notate import head_of, notation_of
from .notation import FIRST_ADDRESS, next_free
from .page import page_of
from .program import Failed, played
from .reasons import Beside, refusal_text
from .report import read_report
from .session import Fault, session_by
from .statements import machine_said, tier_distances
from .traces import Bad, Trace, json_text, load, write_file
from .words import PAGE, left_out_text

MOVE, MOVE_ALL, STRICT = 2, 4, 1
HERE = os.path.dirname(os.path.abspath(__file__)) + os.sep


class Refused(OSError):
    """A call that the machine refuses. Besides errno it has `name`, such as "ENODEV", `step`, the number of the call in the trace,
    `at`, the line of the script that made it, and `why`, the rule that refused it."""

    def __init__(self, number, machine, step):
        super().__init__(number, os.strerror(number))
        self.machine, self.step = machine, step
        self.name, self.at = errno.errorcode[number], machine.trace()["steps"][step]["at"]

    @property
    def why(self):
        """What `numalab why` says of the call."""
        return self.machine.why(self)

    def __str__(self):
        return f"step {self.step}: {self.why} (at {self.at})"


KINDS = {}


def refused(number, machine, step):
    """The error of a refused call. It is also of the kind that Python has for its errno, such as PermissionError."""
    if number not in KINDS:
        kind = type(OSError(number, ""))
        KINDS[number] = Refused if kind is OSError else type("Refused", (Refused, kind), {"__doc__": Refused.__doc__, "__module__": __name__})
    return KINDS[number](number, machine, step)


class Area:
    """Adjacent pages of a process: a[0] is the address of the first; a[:], a[::2], a[range(3)] and a[[5, 7]] are lists of addresses."""

    def __init__(self, process, address, pages, segment, offset=0, name=None):
        self.process, self.address, self.pages, self.name = process, address, pages, name
        self.segment, self.offset = segment, offset

    def __len__(self):
        return self.pages

    def __getitem__(self, place):
        if isinstance(place, slice):
            return [self.address + number * PAGE for number in range(self.pages)[place]]
        if isinstance(place, int) or hasattr(place, "__index__"):
            return self._address(place)
        return [self._address(number) for number in arguments.items("a place in an area", place, "a page number, a slice, or several numbers")]

    def _address(self, number):
        count = whole("a page number", number)
        if not -self.pages <= count < self.pages:
            raise IndexError(f"page {count} is not in the area, which has {self.pages:,} pages")
        return self.address + count % self.pages * PAGE

    def __iter__(self):
        return iter(self[:])

    def __repr__(self):
        return f"<area {self.name or ''} of {self.pages:,} pages at {self.address:#x}>".replace("  ", " ")


class Modelled:
    """What has calls as methods: asked for one that the model leaves out, it says so."""

    def __getattr__(self, name):
        left_out = left_out_text(name)
        raise AttributeError(f"{type(self).__name__} has no {name}" + (f": {left_out}" if left_out else ""))


class Process(Modelled):
    """A process, and the calls about it."""

    def __init__(self, machine, pid, name=None, allowed=None):
        self.machine, self.pid, self.name, self.allowed = machine, pid, name, allowed

    def __repr__(self):
        return f"<process {self.name + ', ' if self.name else ''}pid {self.pid}>"

    def _step(self, op, **keys):
        return self.machine._step(op, pid=self.pid, **keys)

    def map(self, pages, name=None, addr=None, shared=False):
        """An area over a new segment, at a free place if no address is given."""
        more = {"shared": True} if truth("map: shared", shared) else {}
        return self._area("map", whole("map: pages", pages), name, addr, more)

    def attach(self, segment, pages=None, offset=0, addr=None, name=None):
        """An area over a shared segment, given by its number, or over the pages that an area shows; the offset is in pages."""
        offset = whole("attach: offset", offset)
        if isinstance(segment, Area):
            pages, offset, segment = segment.pages - offset if pages is None else pages, segment.offset + offset, segment.segment
        more = {"segment": whole("attach: segment", segment), "offset": offset}
        return self._area("attach", whole("attach: pages", pages), name, addr, more)

    def _area(self, op, pages, name, addr, more):
        place = self.machine._place(pages, addr if addr is None else whole(f"{op}: addr", addr))
        named = {"name": name} if name_or_none(f"{op}: name", name) else {}
        answer = self.machine._step(op, named, pid=self.pid, addr=place, pages=pages, **more)
        return Area(self, place, pages, answer.segment if op == "map" else more["segment"], more.get("offset", 0), name)

    def unmap(self, pages, count=None):
        """Unmaps an area, or `count` pages from an address on."""
        address, count = (pages.address, pages.pages) if isinstance(pages, Area) else (pages, count)
        return self._step("unmap", addr=whole("unmap: pages", address), pages=whole("unmap: count", count))

    def exit(self):
        answer = self._step("exit")
        self.machine.processes.remove(self)
        return answer

    def _each(self, op, addr, **keys):
        """A call for an address; or one for each of several pages, sent in blocks, whose answers are a list. A refusal among several
        is raised when all are made."""
        if type(addr) is int or hasattr(addr, "__index__"):
            return self._step(op, addr=whole(f"{op}: addr", addr), **keys)
        return self.machine._steps([{"op": op, "pid": self.pid, "addr": address, **keys} for address in addresses(f"{op}: addr", addr)])

    def read(self, addr, length=1):
        """The bytes at an address, or at each of several."""
        return self._each("read", addr, len=whole("read: length", length))

    def write(self, addr, data):
        return self._each("write", addr, data=data_bytes("write: data", data).hex())

    def touch(self, pages, write=False):
        """Reads a byte of each page, or writes a zero there, and returns the node of each page as `where` does."""
        places = addresses("touch: pages", pages)
        if truth("touch: write", write):
            self.write(places, b"\0")
        else:
            self.read(places)
        return self.machine.where(self, places)

    def pin(self, addr):
        return self._each("pin", addr)

    def unpin(self, addr):
        return self._each("unpin", addr)

    def mbind(self, area, mode, nodes=(), flags=0, length=None):
        """Sets the policy of an area, or of `length` bytes from an address on. Mode and flags are numbers or names, such as
        "MPOL_BIND" and "MPOL_MF_MOVE|MPOL_MF_STRICT"."""
        address, length = (area.address, area.pages * PAGE) if isinstance(area, Area) else (area, length)
        words = self.machine._words
        return self.machine._step("mbind", caller=self.pid, addr=whole("mbind: area", address), len=whole("mbind: length", length),
                                  mode=words.mode("mbind: mode", mode), nodes=words.nodes("mbind: nodes", nodes, self.allowed),
                                  flags=words.flags("mbind: flags", flags))

    def pagemap(self):
        return self._step("pagemap")

    def numa_maps(self):
        return self._step("numa_maps")


class Machine(Modelled, AbstractContextManager):
    """A machine of nodes, and the calls made on it so far. The nodes are their numbers of frames, such as [1200, 1200, 4096], or
    what follows `nodes` in the notation, such as "2x1200 + cxl 4096"; `names` names them. It is asked in this process, by the library
    libnumatrace, or by pipes to the program numatrace_session, whose path `program` is where it is not the one in this repository or
    on the PATH: `by` chooses "library" or "pipes" (default: the library where it is found, unless a program is named), and the
    attribute `by` tells which one it is. The answers are the same."""

    def __init__(self, nodes, distance=None, run_limit=None, program=None, names=None, by=None):
        if isinstance(nodes, str):
            machine = machine_said(nodes)
        else:
            nodes = arguments.items("nodes", nodes, "a list of numbers of frames, or a text such as \"2x1200 + cxl 4096\"")
            machine = {"nodes": nodes, "distance": tier_distances([0] * len(nodes))}
        if distance is not None:
            machine["distance"] = [arguments.items("distance", row, "a list of rows") for row in arguments.items("distance", distance, "a list of rows")]
        if names is not None:
            machine["names"] = [name_or_none("names", name) for name in arguments.items("names", names, "a name for each node")]
        version = {"version": 1} if run_limit is None else {"version": 2, "run_limit": run_limit}
        self._begin({**version, "machine": machine, "steps": []}, program, by)

    @classmethod
    def of_trace(cls, path, program=None, by=None):
        """The machine that a trace or a file in the notation has, on which no call is made yet."""
        machine = cls.__new__(cls)
        machine._begin(head_of(Form(), load(str(path)).check().top), program, by)
        return machine

    def _begin(self, top, program, by):
        self._top, self._form = top, Form()
        for fault in machine_faults(self._form, top):
            raise Bad(fault.text)
        self._words = arguments.Words(node_names(top))
        self._lines, self._notes, self._beside = [], [], None
        self._next, self._pid = FIRST_ADDRESS, 0
        self.processes = []
        self._session = session_by(top, program, by)
        self.by = self._session.by

    def __exit__(self, *kind):
        self._session.__exit__(*kind)

    def close(self):
        """Ends the program. What was played can still be looked at and saved."""
        self._session.close()

    def __repr__(self):
        return f"<machine of {len(self._top['machine']['nodes'])} nodes after {len(self._lines):,} steps>"

    # ---- steps

    def _record(self, steps):
        """Notes steps with the line of the script that made them, and the notes before them."""
        frame = sys._getframe(2)
        while frame.f_back and frame.f_code.co_filename.startswith(HERE):
            frame = frame.f_back
        at = f"{frame.f_code.co_filename}:{frame.f_lineno}"
        noted = {"note": "\n".join(self._notes)} if self._notes else {}
        self._notes = []
        self._top["steps"] += [{**step, **(noted if k == 0 else {}), "at": at} for k, step in enumerate(steps)]

    def _no_step(self, step):
        """What is wrong with something that is no step."""
        faults = step_faults(self._form, step, self._top.get("run_limit", MOST_ENTRIES))
        return Bad(faults[0].text if faults else f"{step['op']}: the program takes it for no step")

    def _step(self, op, named=None, **keys):
        """Makes a call, and returns its answer; `named` has keys for people."""
        step = {"op": op, **keys}
        self._session.check()
        try:
            lines = self._session.step(step)
        except Fault:
            raise self._no_step(step) from None
        except BaseException:
            self._record([step])
            raise
        self._record([{**step, **named} if named else step])
        return self._answered(lines)

    def _steps(self, steps):
        """Makes several calls, which are sent in blocks, and returns their answers; raises what is wrong with the first that is
        none, or else the first refusal, when all are made."""
        self._session.check()
        try:
            replies = self._session.steps(steps)
        except BaseException:
            self._record(steps)
            raise
        self._record([step for step, lines in zip(steps, replies) if not isinstance(lines, Fault)])
        found, wrong, refusals = [], [], []
        for step, lines in zip(steps, replies):
            try:
                if isinstance(lines, Fault):
                    wrong.append(self._no_step(step))
                else:
                    found.append(self._answered(lines))
            except Refused as refusal:
                refusals.append(refusal)
        for error in [*wrong, *refusals]:
            raise error
        return found

    def _answered(self, lines):
        """Notes the lines of a step, and returns its answer."""
        number = len(self._lines)
        self._lines.append(lines)
        answer = answers.answer_of(answers.line_of(0, lines))
        if isinstance(answer, answers.Refusal):
            raise refused(answer.errno, self, number)
        answer.step = number
        return answer

    def _place(self, pages, addr):
        """Where a new area goes."""
        address = self._next if addr is None else addr
        self._next = next_free(address, pages, self._next)
        return address

    # ---- calls

    def spawn(self, name=None, home=0, uid=1000, allowed=None, privileged=False, pid=None):
        """A process, which may use the nodes `allowed`, by default all."""
        named = {"name": name} if name_or_none("spawn: name", name) else {}
        number = self._pid + 1 if pid is None else whole("spawn: pid", pid)
        nodes = list(range(len(self._top["machine"]["nodes"]))) if allowed is None else self._words.nodes("spawn: allowed", allowed)
        more = {"privileged": True} if truth("spawn: privileged", privileged) else {}
        self._step("spawn", named, pid=number, uid=whole("spawn: uid", uid), home=self._words.node("spawn: home", home), allowed=nodes, **more)
        self._pid = max(self._pid, number)
        self.processes.append(Process(self, number, name, nodes))
        return self.processes[-1]

    def move_pages(self, process, pages, node=None, nodes=None, caller=None, flags=MOVE, during=None):
        """A batch: pages of a process to one node, or to several in turn, or with `nodes` each to its own. An element of during is
        (run, process, address, what), where what is the bytes to write or the length of a read."""
        target = self._target(process, caller)
        pages = addresses("move_pages: pages", pages)
        if nodes is None:
            turns = self._words.nodes("move_pages: node", node, process.allowed)
            if not turns:
                raise ValueError("move_pages: node is an empty set of nodes, which cannot be a target")
            nodes = turns * len(pages) if len(turns) == 1 else [turns[k % len(turns)] for k in range(len(pages))]
        else:
            nodes = self._words.nodes("move_pages: nodes", nodes, process.allowed)
        more = {} if during is None else {"during": [self._flight(*access) for access in during]}
        return self._step("move_pages", **target, pages=pages, nodes=nodes,
                          flags=self._words.flags("move_pages: flags", flags), **more)

    @staticmethod
    def _flight(run, process, addr, what):
        read = not isinstance(what, (bytes, bytearray, memoryview))
        more = {"op": "read", "len": whole("during: what", what)} if read else {"op": "write", "data": bytes(what).hex()}
        return {"run": whole("during: run", run), "pid": process.pid, "addr": whole("during: address", addr), **more}

    @staticmethod
    def _target(process, caller):
        for what, one in (("process", process), ("caller", caller)):
            if one is not None and not isinstance(one, Process):
                raise TypeError(f"{what} is {arguments.shown(one)}: expected a process, as spawn returns it")
        same = caller is None or caller is process
        return {"caller": process.pid if same else caller.pid, "pid": 0 if same else process.pid}

    def query(self, process, pages, caller=None, flags=0):
        """The node of each page, or its status."""
        return self._step("query", **self._target(process, caller), pages=addresses("query: pages", pages),
                          flags=self._words.flags("query: flags", flags))

    def where(self, process, pages):
        """The node of each of many pages, as a list; -2 for a page that was not touched, -14 for the page of zeros."""
        places, found = addresses("where: pages", pages), []
        for first in range(0, len(places), MOST_ENTRIES):
            found += self.query(process, places[first:first + MOST_ENTRIES]).statuses
        return found

    def migrate_pages(self, process, old, new, caller=None):
        target = self._target(process, caller)
        return self._step("migrate_pages", **target, old=self._words.nodes("migrate_pages: old", old, process.allowed),
                          new=self._words.nodes("migrate_pages: new", new, process.allowed))

    def offline(self, node):
        return self._step("offline", node=self._words.node("offline: node", node))

    def online(self, node):
        return self._step("online", node=self._words.node("online: node", node))

    def free(self, node):
        return self._step("free", node=self._words.node("free: node", node))

    def vmstat(self):
        return self._step("vmstat")

    # ---- marks and looks

    def note(self, text):
        """Marks this place of the trace with a text, for people."""
        if not isinstance(text, str):
            raise TypeError(f"note: text is {arguments.shown(text)}: expected a text")
        self._notes.append(text)

    def look(self):
        """Looks at everything, for pictures: `free` of each node, then `pagemap` and `numa_maps` of each process."""
        for node in range(len(self._top["machine"]["nodes"])):
            self.free(node)
        for process in self.processes:
            process.pagemap()
            process.numa_maps()

    # ---- reasons

    def _reasons(self, number):
        """The reasons of a step, by the plain model; None where the model says other lines."""
        if self._beside is None:
            self._beside = Beside(self._top)
        return self._beside.reasons(self._top["steps"], self._lines, number)

    def why(self, answer):
        """Why an answer is what it is: of a batch or a query the reason of each status, of a refusal what refused it, and otherwise
        a list of reasons."""
        if not isinstance(getattr(answer, "step", None), int):
            raise TypeError(f"answer is {arguments.shown(answer)}: expected an answer or a refusal of this machine")
        told = self._reasons(answer.step)
        if isinstance(answer, Refused):
            what = self._top["steps"][answer.step]["op"]
            return refusal_text(what, answer.name, next((one.text for one in told or () if one.about is None), "no reason is known"))
        if isinstance(answer, (answers.Moved, answers.Queried)):
            texts = {one.about: one.text for one in told or ()}
            return [texts.get(place) for place in range(len(answer.statuses))]
        return [one.text for one in told or ()]

    # ---- the whole

    def report(self):
        """The program's report on all calls so far."""
        return "".join(line + "\n" for lines in self._lines for line in lines)

    def play(self, program=None):
        """Has the program numatrace play the calls so far as one trace, and returns its report. A RuntimeError says where it differs
        from the answers here."""
        data = json_text(self._top).encode()
        report = played(Trace("the machine's trace", data, self._top), program).decode("ascii")
        if report != self.report():
            mine, its = self.report().split("\n"), report.split("\n")
            other = next((k for k, pair in enumerate(zip(mine, its)) if pair[0] != pair[1]), min(len(mine), len(its)) - 1)
            raise Failed(f"line {other + 1} of the report is {its[other]!r}, and the answer here was {mine[other]!r}")
        return report

    def trace(self):
        """The calls so far as a trace, with the notes after them."""
        return {**self._top, "note_at_end": "\n".join(self._notes)} if self._notes else self._top

    def save(self, path):
        """Writes the calls so far as a trace, or as notation where the path ends in .nt."""
        write_file(str(path), notation_of(self._form, self.trace()) if str(path).endswith(".nt") else json_text(self.trace()))

    def picture(self, path):
        """Draws the calls so far: a page with a slider where the path ends in .html, and otherwise an SVG of what was looked at."""
        name, report = os.path.basename(str(path)), self.report().encode()
        if not name.endswith((".html", ".htm")):
            write_file(str(path), picture_of(report, name, self.trace()))
            return
        try:
            write_file(str(path), page_of(name, self.trace(), read_report(report, name)))
        except Differs as differs:
            raise Failed(f"the plain model's answer to step {differs} differs, so there is no page") from None

"""The machine as a policy's run has it: steps of the program numatrace_session, their answers as values, and the trace of them all.

This is the only module of the package that speaks to a session."""
import json

from ..answers import answer_of, line_of
from ..faults import MOST_ENTRIES
from ..program import Failed
from ..report import node_ranges
from ..session import Session
from ..traces import Bad
from ..words import PAGE

# The administrator makes the calls about other processes; workloads and the machine's file may have processes of any other pid.
ADMINISTRATOR_UID = 0


class Machine:
    """A machine on which a workload's processes are, with their regions mapped and no page touched."""

    def __init__(self, setup, workload, program=None, keep=False):
        self.setup, self.workload, self.made, self.kept = setup, workload, 0, [] if keep else None
        self.node_at = [node for node, frames in enumerate(node_ranges(setup.top)) for _ in frames]
        self.session = Session({**setup.top, "steps": []}, program)
        try:
            self.begin()
        except BaseException:
            self.abandon()
            raise

    def begin(self):
        """Plays the machine's own steps, and makes the processes and their regions."""
        for step in self.setup.top["steps"]:
            self.make(step)
        taken = {step["pid"] for step in self.setup.top["steps"] if step["op"] == "spawn"}
        self.pids = []
        for process in self.workload.processes:
            pid = process.pid if process.pid not in taken else max(taken) + 1
            taken.add(pid)
            self.pids.append(pid)
            self.must("spawn", pid=pid, uid=1000, home=process.home, allowed=process.allowed)
        self.administrator = max(taken) + 1 if max(taken) < (1 << 32) - 1 else next(pid for pid in range(1, 2000) if pid not in taken)
        self.must("spawn", pid=self.administrator, uid=ADMINISTRATOR_UID, home=0, allowed=list(self.setup.nodes), privileged=True)
        for region in self.workload.regions:
            self.map(region)
        self.index = Index(self.workload)

    def map(self, region):
        """Maps a region: a segment of one process, or one that several share."""
        first, *others = region.processes
        shared = {"shared": True} if others else {}
        segment = self.must("map", pid=self.pids[first], addr=region.address, pages=region.pages, **shared)["segment"]
        for process in others:
            self.must("attach", pid=self.pids[process], addr=region.address, segment=segment, offset=0, pages=region.pages)

    # ---- steps

    def make(self, step):
        """Makes a step, and returns its answer as an object of JSON."""
        return answer_of(line_of(1, self.lines(step))).as_object()

    def lines(self, step):
        """Makes a step, and returns its lines of the report."""
        lines = self.session.step(step)
        self.made += 1
        if self.kept is not None:
            self.kept.append(json.dumps(step, separators=(",", ":")))
        return lines

    def step(self, op, **keys):
        return self.make({"op": op, **keys})

    def must(self, op, **keys):
        """Makes a step of the workload's that has to succeed."""
        answer = self.step(op, **keys)
        if "error" in answer:
            raise Bad(f"the machine refuses the workload: {op} {json.dumps(keys)}: {answer['error']}")
        return answer

    def close(self):
        self.session.close()

    def abandon(self):
        """Ends the program where something else has gone wrong, which is what is told."""
        try:
            self.session.close()
        except (Bad, Failed):
            pass

    def trace(self, note):
        """All steps as a trace in JSON, if they were kept."""
        top = {key: value for key, value in self.setup.top.items() if key not in ("steps", "note")}
        front = json.dumps({**top, "note": note}, separators=(",", ":"))[:-1]
        return front + ',"steps":[\n' + ",\n".join(self.kept) + "]}\n"

    # ---- looks and touches

    def free(self):
        """How many frames are free on each node: the number before each list."""
        return [int(self.lines({"op": "free", "node": node})[0].split(":")[0].split()[-1]) for node in self.setup.nodes]

    def pages_moved(self):
        return self.step("vmstat")["pgmigrate_success"]

    def touch(self, page, process):
        """The first access of a process to a page; whether a frame was found."""
        if "error" in self.step("write", pid=self.pids[process], addr=self.index.address(page), data="01"):
            return False
        self.index.note_touch(page, process)
        return True

    def pin(self, page, process):
        self.must("pin", pid=self.pids[process], addr=self.index.address(page))

    def look(self, nodes):
        """Asks where every page is, and enters the node of each in a list by the pages' numbers."""
        for pages, pid in zip(self.index.pages, self.pids):
            for entry in self.lines({"op": "pagemap", "pid": pid})[0].partition(":")[2].split():
                address, frame = entry.split("=")
                nodes[pages[address]] = self.node_at[int(frame)]

    # ---- calls about pages

    def move_pages(self, pages, nodes, flags):
        """Moves pages, of whichever processes; the statuses in their order, or the error of the first call that is refused."""
        parts = {}
        for place, page in enumerate(pages):
            parts.setdefault(self.index.owner(page), []).append(place)
        statuses, failed, error = [None] * len(pages), 0, None
        for process, places in parts.items():
            for start in range(0, len(places), MOST_ENTRIES):
                part = places[start : start + MOST_ENTRIES]
                answer = self.step("move_pages", caller=self.administrator, pid=self.pids[process], flags=flags,
                                   pages=[self.index.address(pages[place]) for place in part], nodes=[nodes[place] for place in part])
                if "error" in answer:
                    error = error or answer["error"]
                    continue
                failed += answer["answer"]
                for place, status in zip(part, answer["statuses"]):
                    statuses[place] = status
        return statuses, failed, error

    def migrate_pages(self, process, old, new):
        return self.step("migrate_pages", caller=self.administrator, pid=self.pids[process], old=sorted(old), new=sorted(new))

    def mbind(self, process, address, pages, mode, nodes, flags):
        return self.step("mbind", caller=self.pids[process], addr=address, len=pages * PAGE, mode=mode, nodes=sorted(nodes), flags=flags)


class Index:
    """Pages by their numbers, and for each process its pages by their addresses, as `pagemap` writes them."""

    def __init__(self, workload):
        self.regions, self.addresses, self.owners, self.pages = [], [], [], [{} for _ in workload.processes]
        self.there = set()
        for region in workload.regions:
            first = len(self.addresses)
            self.regions.append((first, region))
            for k in range(region.pages):
                address = region.address + k * PAGE
                self.addresses.append(address)
                self.owners.append(region.processes[0])
                for process in region.processes:
                    self.pages[process][f"{address:08x}"] = first + k

    def address(self, page):
        return self.addresses[page]

    def owner(self, page):
        """The process that calls about a page name: the first that touched it."""
        return self.owners[page]

    def note_touch(self, page, process):
        if page not in self.there:
            self.there.add(page)
            self.owners[page] = process

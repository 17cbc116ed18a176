"""Why each answer is what it is: the plain model, which says at each step which rule decided, and from what.

The model is not the program, and nothing of it is proved: its reasons count only where its whole report is the program's."""
from collections import namedtuple

from . import model
from .names import Names
from .refusals import refusal
from .words import FLAGS, PAGE, counted, status_text

ZERO = model.ZERO
ORDINALS = ["first", "second", "third", "fourth", "fifth", "sixth", "seventh", "eighth"]
MOST_NAMED = 4

# What a reason is about: the step (None), an entry of its batch (its index), or an access in flight (its index, as text); its text; and
# for the pages of a call that names no entries the place, as a process and an address, with the rest of the text.
Reason = namedtuple("Reason", "about text place rest")


def ordinal(place):
    return ORDINALS[place] if place < len(ORDINALS) else f"number {place + 1}"


def joined(items):
    """Items as a sentence has them: 0, 1 and 2."""
    items = [str(item) for item in items]
    return items[0] if len(items) == 1 else ", ".join(items[:-1]) + " and " + items[-1]


class Explained(model.Machine):
    """The plain model, with reasons. Its answers are the model's own."""

    def __init__(self, trace, wordy=True):
        super().__init__(trace)
        self.wordy = wordy  # whether statuses and accesses have reasons as well, and not only refusals
        self.ended, self.seers, self.reasons, self.step = set(), None, [], None
        self.names = Names(trace)
        self.entry = self.flight = None

    def explain(self, step):
        """The lines of the next step, and their reasons."""
        self.reasons, self.step, self.entry, self.flight = [], step, 0, None
        self.accesses = {id(access): str(j) for j, access in enumerate(step.get("during", []))} if step["op"] == "move_pages" else {}
        alive = step["op"] == "exit" and step["pid"] in self.processes
        lines = self.play(step)
        answer = lines[0].split(" ", 2)[2]
        if answer.startswith("error "):
            self.refused(None, step, answer[6:])
        else:
            self.names.made(step)
            if alive:
                self.ended.add(step["pid"])
        return lines, self.reasons

    def tell(self, about, text):
        if self.wordy:
            self.reasons.append(Reason(about, text, None, text))

    def refused(self, about, step, error):
        found, text = refusal(self, step)
        text = text if found == error else f"(the rules known here say {found}: {text})"
        self.reasons.append(Reason(about, text, None, text))

    # ---- texts

    @staticmethod
    def some(items, text):
        """The texts of the first of some items, and how many more there are."""
        more = f"; and {len(items) - MOST_NAMED:,} more" if len(items) > MOST_NAMED else ""
        return "; ".join(text(item) for item in items[:MOST_NAMED]) + more

    def order_text(self, process, policy, order):
        """The order in which nodes are asked for a frame."""
        why = {"default": f"home {process.home}", "local": f"home {process.home}"}.get(policy.kind, model.policy_text(policy))
        return f"the order {' '.join(map(str, order))} ({why})" if order else f"no nodes to take from ({why})"

    def page_text(self, page):
        """A page by where it is seen first, and why it may stay."""
        pins = self.pins.get(page, 0)
        where = next((f"{self.names.place(pid, number * PAGE)} of {self.names.process_text(pid)}" for pid, process in sorted(self.processes.items())
                      for number, seen in sorted(process.seen.items()) if seen == page), f"page {page[1]} of segment {page[0]}")
        return where + (" is pinned" if pins else " found no free frame")

    def node_text(self, page):
        """The node that a page is on."""
        return self.names.node_text(self.node(page))

    def asked_text(self, step):
        """The policy that mbind asks for."""
        return model.policy_text(self.policy_asked(self.processes[step["caller"]], step))

    def strays(self, step, first, end):
        """The pages in the range of mbind that do not follow its policy."""
        policy = self.policy_asked(self.processes[step["caller"]], step)
        seen = self.processes[step["caller"]].pages_seen(first, end)
        return [(number, page) for number, page in seen if not model.follows(policy, self.node(page))]

    # ---- who sees a page, found once and kept until that changes

    def sharers(self, page):
        if self.seers is None:
            self.seers = {}
            for pid, process in self.processes.items():
                for seen in process.seen.values():
                    self.seers.setdefault(seen, set()).add(pid)
        return self.seers.get(page, set())

    def remove(self, process, first, end):
        self.seers = None
        super().remove(process, first, end)

    # ---- memory

    def touch(self, process, area, number, write):
        """Also says what the touch finds."""
        before = process.seen.get(number)
        if before not in (None, ZERO):
            page = super().touch(process, area, number, write)
            self.tell_access(f"the page is in frame {self.place[page]}, on {self.node_text(page)}")
            return page
        had = area.page(number) in self.place
        page = super().touch(process, area, number, write)
        self.seers = None
        if page == ZERO:
            self.tell_access("the page of zeros: private memory that was never written")
        elif had and self.segments[area.segment].shared:
            self.tell_access(f"page {page[1]} of segment {page[0]} was touched before: it is in frame {self.place[page]}, on {self.node_text(page)}")
        return page

    def take_frame(self, process, policy, page):
        order = self.order(process, policy, page[1])
        full = [node for node in order if not self.free[node]]
        super().take_frame(process, policy, page)
        node = self.node(page)
        place, full = order.index(node), full[: order.index(node)]
        text = f"a new page, frame {self.place[page]}: {self.names.node_text(node)}, {ordinal(place)} in {self.order_text(process, policy, order)}"
        self.tell_access(text + (f"; {joined(full)} {'is' if len(full) == 1 else 'are'} full" if full else ""))

    def tell_access(self, text):
        self.tell(self.flight, text)

    def access(self, step, held=()):
        answer = super().access(step, held)
        if answer == "held":
            page = self.processes[step["pid"]].area(step["addr"] // PAGE).page(step["addr"] // PAGE)
            self.tell_access(f"its run moves the page from frame {held[page]} to {self.place[page]}")
        return answer

    def in_flight(self, access, held):
        self.flight = self.accesses[id(access)]
        answer = super().in_flight(access, held)
        if answer.startswith("error "):
            self.refused(self.flight, access, answer[6:])
        self.flight = None
        return answer

    # ---- moves

    def status_of_number(self, run, pid, number, target, everyone):
        at = self.processes[pid].seen.get(number)
        frame = self.place.get(at)
        status = super().status_of_number(run, pid, number, target, everyone)
        if self.wordy:
            text = self.why_status(pid, number, target, status, frame, len(run))
            if self.step["op"] == "move_pages":
                self.tell(self.entry, text)
            else:
                rest = f"to {self.names.node_number(target)}: {status_text(status)}: {text}"
                self.reasons.append(Reason(None, f"{self.names.place(pid, number * PAGE)} {rest}", (pid, number * PAGE), rest))
        self.entry += 1
        return status

    def why_status(self, pid, number, target, status, frame, taken=0):
        """Why an entry that names a page number of a process has its status; the page was in that frame, if it had one, and its
        run has taken that many frames."""
        if status == -14 and self.processes[pid].area(number) is None:
            return "no area covers this address"
        if status == -14:
            return "the page of zeros: it was read but never written"
        if status == -2:
            return "nothing has been touched there"
        page = self.processes[pid].seen[number]
        if status == -13:
            others = sorted(self.sharers(page) - {pid})
            if len(others) == 1:
                return f"{self.names.process_text(others[0])} sees it too"
            return f"processes {joined(self.names.process(one) for one in others[:MOST_NAMED])} see it too"
        if status == -16:
            return f"it has {self.pins[page]} pin" + ("s" if self.pins[page] > 1 else "")
        if status == -12:
            return f"{self.names.node_text(target)} has no free frame" + (f" left: its run took {counted(taken, 'frame')}" if taken else "")
        if self.place[page] == frame:
            return f"it is already there, in frame {frame}"
        return (f"it moved from frame {frame} on {self.names.node_text(self.owner[frame])} to frame {self.place[page]}, "
                f"the front of node {target}'s list")

    def query(self, step):
        lines = super().query(step)
        pid = step["pid"] or step["caller"]
        for place, address in enumerate(step["pages"] if self.wordy else []):
            number = address // PAGE
            page = self.processes[pid].seen.get(number)
            status = -14 if self.processes[pid].area(number) is None or page == ZERO else -2 if page is None else 0
            self.tell(place, f"it is in frame {self.place[page]}" if status == 0 else self.why_status(pid, number, 0, status, None))
        return lines

    def migrate_pages(self, step):
        answer = super().migrate_pages(step)
        if self.wordy:
            process = self.processes[step["pid"] or step["caller"]]
            told = model.pairs(set(step["old"]), self.usable(step["new"], process))
            number = self.names.node_number
            text = "pairs of nodes: " + (", then ".join(f"{number(source)} to {number(target)}" for source, target in told) or "none")
            self.reasons.insert(0, Reason(None, text, None, text))
        return answer

    def mbind(self, step):
        answer = super().mbind(step)
        if self.wordy and step["flags"] & model.STRICT and step["len"]:
            process, first = self.processes[step["caller"]], step["addr"] // PAGE
            seen = process.pages_seen(first, first + (step["len"] + PAGE - 1) // PAGE)
            late = " after the moves" if step["flags"] & (model.MOVE | model.MOVE_ALL) else ""
            text = f"all {counted(len(seen), 'page')} that the process sees there follow" if len(seen) > 1 else "the one page that the process sees there follows"
            self.tell(None, f"{FLAGS[model.STRICT]}: {text} {self.asked_text(step)}{late}" if seen else
                      f"{FLAGS[model.STRICT]}: the process sees no page there that could be elsewhere")
        return answer

    def offline(self, step):
        listed = [page for page in sorted(self.place) if self.node(page) == step["node"]] if self.wordy else []
        before = {page: self.place[page] for page in listed}
        try:
            return super().offline(step)
        finally:
            # Even where a page stays and the call is refused, what has moved stays moved.
            for page in listed:
                if self.place[page] != before[page]:
                    self.tell(None, f"page {page[1]} of segment {page[0]}: frame {before[page]} to frame {self.place[page]}, "
                                    f"on {self.node_text(page)}")


def explained(top, progress=None, wordy=True):
    """For each step of a good trace its lines by the model, and their reasons."""
    machine, total = Explained(top, wordy), len(top["steps"])
    for k, step in enumerate(top["steps"]):
        if progress and k % 64 == 0:
            progress.at(k, total)
        yield machine.explain(step)


class Beside:
    """The plain model beside a program that plays the same steps: their reasons, as long as both say the same."""

    def __init__(self, top):
        self.machine, self.told = Explained(top), []

    def reasons(self, steps, lines, number):
        """The reasons of a step, or None where the model says other lines up to it."""
        while self.told is not None and len(self.told) <= number:
            own, reasons = self.machine.explain(steps[len(self.told)])
            if own != lines[len(self.told)]:
                self.told = None
            else:
                self.told.append(reasons)
        return self.told and self.told[number]


def refusal_text(what, name, text):
    return f"{what} is refused, {name}: {text}"


def hints(top, progress=None):
    """For each step that the model refuses, and each such access in flight: the number, what it is about, and why."""
    for k, (lines, reasons) in enumerate(explained(top, progress, False)):
        if reasons:
            errors = {None: lines[0], **{line.split(" ")[0].split(".")[1]: line for line in lines[1:] if "." in line.split(" ")[0]}}
            for about, text, *_ in reasons:
                name = errors[about].rsplit(" ", 1)[1]
                what = top["steps"][k]["op"] if about is None else f"access {about} in flight"
                yield k, about, refusal_text(what, name, text)

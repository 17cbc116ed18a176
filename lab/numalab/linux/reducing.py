"""Making a trace shorter for as long as a kernel still answers a step in a way that is not expected. All candidates of a round are
played together, in one guest."""
from collections import namedtuple

from .. import model
from ..traces import Bad, Trace, json_text
from .instructions import Instructions
from .kernel import BOTH
from .replayed import read_replayed
from .worlds import Prediction

PARTS = 8  # into how many parts a trace is cut at first
BATCHES = ("move_pages", "query")

# A step that a kernel answers in a way that is not expected: the trace up to there, and both answers.
Find = namedtuple("Find", "trace step expected told")


def find_in(trace, text, version, privilege=BOTH):
    """The first step of a replay that is not as expected, or None; and how many steps fit."""
    told = read_replayed(text, trace.name)
    prediction, fit = Prediction(trace.top, version, privilege), 0
    for place, step in enumerate(trace.steps):
        expected, lines = prediction.give(step).lines, told.steps[place] if place < len(told.steps) else ["(nothing)"]
        if prediction.settle(lines) is not None:
            fit += 1
        elif place not in told.compacted:
            return Find(trace, place, [str(line) for line in expected], lines), fit
    return None, fit


class Part:
    """A trace while it is made shorter: its steps, with the map that each attach is about, so that segments keep their numbers."""

    def __init__(self, top, steps=None):
        self.top = top
        self.steps = self.with_maps() if steps is None else steps

    def with_maps(self):
        """Each step with its place, and an attach with the place of its segment's map."""
        machine, maps, found = model.Machine(self.top), {}, []
        for place, step in enumerate(self.top["steps"]):
            made = machine.segments_made
            machine.play(step)
            if machine.segments_made > made:
                maps[made] = place
            found.append((place, maps.get(step["segment"]) if step["op"] == "attach" else None, step))
        return found

    def without(self, gone):
        """The part without some steps, by their places here."""
        return Part(self.top, [step for place, step in enumerate(self.steps) if place not in gone])

    def with_step(self, place, step):
        head, (name, of, _), tail = self.steps[:place], self.steps[place], self.steps[place + 1 :]
        return Part(self.top, [*head, (name, of, step), *tail])

    def trace(self, name):
        """The part as a trace, in which segments have the numbers that they have here."""
        top = {**self.top, "steps": []}
        machine, numbers = model.Machine(top), {}
        for place, of, step in self.steps:
            if of is not None:
                if of not in numbers:
                    continue
                step = {**step, "segment": numbers[of]}
            made = machine.segments_made
            machine.play(step)
            if machine.segments_made > made:
                numbers[place] = made
            top["steps"].append(step)
        return Trace(name, json_text(top).encode(), top)


class Reducer:
    """Makes a find shorter. `play` takes traces, which it may name anew, and returns what a kernel tells of each, or a Bad."""

    def __init__(self, play, version, privilege=BOTH):
        self.play, self.version, self.privilege = play, version, privilege
        self.find = None

    def finds(self, parts):
        """For each part what is found in it, in a step of the same call, or None."""
        traces = []
        for place, part in enumerate(parts):
            trace = part.trace(f"part-{place}")
            try:
                Instructions(trace, privilege=self.privilege)
            except Bad:
                continue
            traces.append((place, trace))
        found = [None] * len(parts)
        for (place, trace), text in zip(traces, self.play([trace for _, trace in traces]) if traces else []):
            if isinstance(text, Bad):
                continue
            find, _ = find_in(trace, text, self.version, self.privilege)
            if find and find.trace.steps[find.step]["op"] == self.op:
                found[place] = find
        return found

    @property
    def op(self):
        return self.find.trace.steps[self.find.step]["op"]

    def kept(self, part):
        """The steps of the find, as a part that ends with the step that differs."""
        return Part({**part.top, "steps": self.find.trace.steps[: self.find.step + 1]})

    def try_all(self, part, choices, make):
        """Tries each choice, and then several together; returns the shortest part that is still a find, or None."""
        found = self.finds([make(part, [choice]) for choice in choices])
        good = [choice for choice, find in zip(choices, found) if find]
        if not good:
            return None
        best = next(find for find in found if find)
        if len(good) > 1:
            sets = [good, good[: len(good) // 2], good[len(good) // 2 :], good[::2], good[1::2], *(good[:count] for count in range(len(good) - 1, 1, -1))]
            together = self.finds([make(part, chosen) for chosen in sets])
            best = min([best, *filter(None, together)], key=lambda find: (find.step, sum(len(str(step)) for step in find.trace.steps[: find.step])))
        self.find = best
        return self.kept(part)

    def reduced(self, find):
        """The shortest find that is found."""
        self.find = find
        part, count = self.kept(Part(find.trace.top)), PARTS
        while True:
            most = len(part.steps) - 1
            size = max(1, -(-most // count))
            chunks = [range(first, min(first + size, most)) for first in range(0, most, size)]
            shorter = self.try_all(part, chunks, lambda whole, chosen: whole.without({place for chunk in chosen for place in chunk}))
            if shorter is not None:
                part = shorter
            elif size > 1:
                count *= 2
            else:
                break
        self.fewer_entries(part)
        return self.find

    def fewer_entries(self, part):
        """Leaves out entries of batches."""
        while True:
            choices = [(place, entry) for place, (_, _, step) in enumerate(part.steps) if step["op"] in BATCHES for entry in range(len(step["pages"]))]
            shorter = self.try_all(part, choices, without_entries) if choices else None
            if shorter is None:
                return
            part = shorter


def without_entries(part, chosen):
    """A part without some entries of its batches."""
    for place in {place for place, _ in chosen}:
        step, gone = part.steps[place][2], {entry for other, entry in chosen if other == place}
        lists = {key: [value for entry, value in enumerate(step[key]) if entry not in gone] for key in ("pages", "nodes") if key in step}
        part = part.with_step(place, {**step, **lists})
    return part

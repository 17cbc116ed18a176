"""All that a kernel may answer to a trace. What the rules do not determine, such as the number of an inode, can go in several ways:
each is a world, a kernel of its own. Where worlds answer differently, the answer that is expected has ?. What a kernel has answered
leaves the worlds that answer so."""
import re

from .. import model
from .instructions import is_said
from .kernel import BOTH, WEIGHTED, Given, Kernel

MOST_WORLDS = 64
# The rows because of which there may be more.
LOST = ["touch-interleave-shared", "move-room-made"]
NODES = re.compile(r"(?: N\d+=\d+)+")
MARK = re.compile(r"(?<==)\?| \?(?= |$)")


def fits(expected, told):
    """Whether lines are as expected, where ? is what is not known."""
    if len(expected) == 1 and re.fullmatch(r"\d+ [a-z_]+ \?", str(expected[0])):
        return bool(told) and told[0].split(" ")[:2] == expected[0].split(" ")[:2]
    if len(expected) != len(told):
        return False
    for line, other in zip(expected, told):
        form = [re.escape(part) for part in MARK.split(str(line))]
        marks = [r"\d+" if mark == "?" else r"(?: -?\d+| N\d+=\d+)+" for mark in MARK.findall(str(line))]
        if not re.fullmatch("".join(part + mark for part, mark in zip(form, [*marks, ""])), other):
            return False
    return True


def merged_line(lines):
    """A line with ? where several differ, or None where they differ in more than numbers and nodes."""
    if len(set(lines)) == 1:
        return lines[0]
    rows = [NODES.sub(" ?", line).split(" ") if re.match("[0-9a-f]{8,} ", line) else line.split(" ") for line in lines]
    if len({len(row) for row in rows}) > 1:
        return None
    words = []
    for place, found in enumerate(zip(*rows)):
        if len(set(found)) == 1:
            words.append(found[0])
        elif len({word.split("=")[0] for word in found}) == 1 and all("=" in word for word in found) and not found[0].startswith("mapmax"):
            words.append(found[0].split("=")[0] + "=?")
        elif place > 1 and all(re.fullmatch(r"-?\d+", word) for word in found):
            words.append("?")
        else:
            return None
    return " ".join(words)


def merged(answers):
    """The lines of several answers to a step as one, with ? where they differ."""
    first = [str(line) for line in answers[0]]
    if all([str(line) for line in lines] == first for lines in answers):
        return answers[0]
    found = [merged_line([str(line) for line in told]) for told in zip(*answers)]
    if len({len(lines) for lines in answers}) > 1 or None in found:
        return [" ".join([*first[0].split(" ")[:2], "?"])]
    return found


class Prediction:
    """What a kernel is expected to answer, step by step. Beside the worlds the model plays, which decides what the player makes: which
    nodes are full, and which calls are the model's own."""

    def __init__(self, top, version, privilege=BOTH):
        self.plain, self.worlds = model.Machine(top), [Kernel(top, version, privilege)]
        self.lost, self.given = False, []
        turns = any(step["op"] == "mbind" and step["mode"] & 7 in (3, WEIGHTED) for step in top["steps"])
        self.open = turns and any(step.get("shared") for step in top["steps"])

    def give(self, step):
        """What is expected of the next step: its lines, and the rows that decided."""
        full = frozenset(node for node in self.plain.nodes if not self.plain.free[node])
        process = self.plain.processes.get(step["pid"]) if step["op"] in ("pin", "unpin") else None
        page = process.seen.get(step["addr"] // model.PAGE) if process else None
        own = self.plain.play(step)
        if is_said(step["op"], str(own[0]).split(" ", 2)[2]):
            for world in self.worlds:
                world.steps += 1
            self.given = [(world, Given(own, [])) for world in self.worlds]
            return Given(own, [])
        for world in self.worlds:
            world.page_meant = page
            if step["op"] == "map":
                world.segments_made = self.plain.segments_made - 1
        if not self.lost:
            self.given = [given for world in self.worlds for given in self.ways(world, step, full)]
            self.worlds = [world for world, _ in self.given]
        if self.lost or len(self.worlds) > MOST_WORLDS:
            self.lost, self.worlds, self.given = True, [], []
            return Given([f"{self.plain.steps - 1} {step['op']} ?"], LOST)
        rows = []
        for _, given in self.given:
            rows += [row for row in given.rows if row not in rows]
        return Given(merged([given.lines for _, given in self.given]), rows)

    def ways(self, world, step, full):
        """The ways in which a step can go."""
        turns, room = self.open and step["op"] in ("read", "write", "mbind"), full and step["op"] in ("move_pages", "migrate_pages", "mbind")
        if not turns and not room:
            return [(world, world.give(step, full))]
        found, pending = [], [()]
        while pending and len(found) <= MOST_WORLDS:
            choices, twin = pending.pop(), world.copied()
            found.append((twin, twin.give(step, full, choices)))
            asked = twin.asked
            for place in range(len(choices), len(asked)):
                taken = (*choices, *[0] * (place - len(choices)))
                pending += [(*taken, other) for other in range(1, asked[place])]
        return found

    def settle(self, told):
        """Keeps the worlds that answered the last step as the kernel did; returns the rows that decided there, or None."""
        if self.lost:
            return LOST
        fitting = [(world, given) for world, given in self.given if fits([str(line) for line in given.lines], told)]
        if not fitting:
            return None
        self.worlds = [world for world, _ in fitting]
        return next((given.rows for _, given in fitting if given.rows), [])


def given(top, version, privilege=BOTH):
    """What a kernel is expected to answer to each step of a trace."""
    prediction = Prediction(top, version, privilege)
    return [prediction.give(step) for step in top["steps"]]


def report(top, version, privilege=BOTH):
    """The same as a report, in the form of a replay."""
    lines = [line for one in given(top, version, privilege) for line in one.lines]
    return "".join(f"{line}\n" for line in [f"# Linux {version}", *lines, "# end"])

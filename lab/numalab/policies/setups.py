"""The machine on which policies are compared, as a file describes it: nodes with their names and tiers, distances, and steps that
are played before anything else."""
import copy
import json
import re

from ..faults import verdict
from ..notation import Numbers, Word, Wrong
from ..traces import Bad, is_notation, json_text, read_file
from ..translate import File

MOST_BYTES = 16777216


class Setup:
    """A machine. `tiers` has the tier of each node where the notation says it, else None."""

    def __init__(self, top, names=None, tiers=None):
        self.top, self.names, self.tiers = top, names or {}, tiers

    @property
    def frames(self):
        return self.top["machine"]["nodes"]

    @property
    def distance(self):
        return self.top["machine"]["distance"]

    @property
    def nodes(self):
        return range(len(self.frames))

    def node_list(self, text, what):
        """A set of nodes, as the notation has it: 0-2,5, names, all, !1."""
        numbers = Numbers()
        numbers.nodes, numbers.node_names = self.frames, self.names
        try:
            found = numbers.node_list(Word(text, 1))
        except Wrong as wrong:
            raise Bad(f"{what}: {wrong.text}") from None
        if not found or any(node not in self.nodes for node in found):
            raise Bad(f"{what}: {text} names {'a node that is not there' if found else 'no node'}: the machine has 0 to {len(self.frames) - 1}")
        return found

    def name_of(self, node):
        """A node's number, with its name if it alone has one."""
        return next((f"{node} {name}" for name, nodes in self.names.items() if nodes == [node]), str(node))

    def first_tier(self):
        """The nodes of the first tier, if the machine has several."""
        return [node for node in self.nodes if self.tiers[node] == 0] if self.tiers and len(set(self.tiers)) > 1 else None

    def with_frames(self, word, frames):
        """The same machine with another number of frames on a node, or on those of a name; None if no node has this name."""
        match = re.fullmatch("node([0-9]{1,2})", word)
        nodes = self.names.get(word) or ([int(match[1])] if match and int(match[1]) in self.nodes else None)
        if nodes is None:
            return None
        top = copy.deepcopy(self.top)
        for node in nodes:
            top["machine"]["nodes"][node] = frames
        return Setup(top, self.names, self.tiers).check(f"{word}={frames}")

    def check(self, name):
        """Refuses a bad machine."""
        line = verdict(json_text(self.top).encode())
        if line != "good":
            raise Bad(f"{name}: {line}")
        return self


def setup_of(path):
    """The machine in a file: a trace, in JSON or the notation, or only its machine object."""
    data = read_file(path, MOST_BYTES + 1)
    if is_notation(path):
        file = File(data, path)
        if file.faults:
            line, column, text = sorted(file.faults)[0]
            raise Bad(f"{path}:{line}:{column}: {text}")
        return Setup(file.made.top, file.made.node_names, None if file.made.rows else file.made.tiers).check(path)
    try:
        top = json.loads(data)
    except ValueError:
        raise Bad(f"{path}: not JSON") from None
    if isinstance(top, dict) and "machine" not in top:
        top = {"version": 1, "machine": {key: top[key] for key in ("nodes", "distance") if key in top}}
    return Setup({"steps": [], **top} if isinstance(top, dict) else top).check(path)

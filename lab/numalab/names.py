"""The names that people gave to processes, areas and nodes, as a trace carries them under keys that the program ignores."""
import re

from .words import PAGE

NAME = re.compile(r"[A-Za-z_][A-Za-z0-9_.-]*")
# Words that stand for sets in the notation.
TAKEN = ("all", "none")
MOST_NAMED = 1 << 35


def is_name(text):
    """Whether something is a name in the notation."""
    return isinstance(text, str) and NAME.fullmatch(text) is not None and text not in TAKEN


def node_names(top):
    """For each node of a trace its name, or None."""
    names = top["machine"].get("names")
    names = names if isinstance(names, list) else []
    return [name if is_name(name) else None for name in names[: len(top["machine"]["nodes"])]] + [None] * (len(top["machine"]["nodes"]) - len(names))


def notes_of(part, key="note"):
    """The lines of a note of a step or of a trace."""
    text = part.get(key)
    return text.split("\n") if isinstance(text, str) else []


class Names:
    """Names as they are known after some steps."""

    def __init__(self, top):
        self.nodes = node_names(top)
        # The name of a process by its pid, those that have ended, and the areas of each, the latest first, as (name, address, pages).
        self.processes, self.gone, self.areas = {}, set(), {}

    def made(self, step):
        """Notes a step that was made."""
        if step["op"] == "spawn":
            self.gone.discard(step["pid"])
            self.areas.pop(step["pid"], None)
            self.processes[step["pid"]] = step["name"] if is_name(step.get("name")) else None
        elif step["op"] == "exit":
            self.gone.add(step["pid"])
        elif step["op"] in ("map", "attach"):
            name = step["name"] if is_name(step.get("name")) else None
            # (an area without a name counts only where it may cover one that has a name)
            if (name or step["pid"] in self.areas) and step["pages"] < MOST_NAMED and step["addr"] % PAGE == 0:
                self.areas.setdefault(step["pid"], []).insert(0, (name, step["addr"], step["pages"]))

    def process(self, pid):
        """A process by its name, with the number where another has the same name; or by its number alone."""
        name = self.processes.get(pid)
        if name is None:
            return str(pid)
        others = [other for other, one in self.processes.items() if one == name and other != pid and other not in self.gone]
        return f"{name} ({pid})" if others else name

    def process_text(self, pid):
        """A process in a sentence."""
        name = self.processes.get(pid)
        return f"{name} (process {pid})" if name else f"process {pid}"

    def node_text(self, node):
        """A node in a sentence, with its name where it has one."""
        name = self.nodes[node] if node < len(self.nodes) else None
        return f"node {node} ({name})" if name else f"node {node}"

    def node_number(self, node):
        """The same without the word."""
        return self.node_text(node)[len("node "):]

    def area_at(self, pid, address):
        """The latest area of a process that covers an address, if it has a name that no later area of the process has."""
        seen = set()
        for area in self.areas.get(pid, ()):
            if area[1] <= address < area[1] + area[2] * PAGE:
                return area if area[0] and area[0] not in seen else None
            seen.add(area[0])
        return None

    def place(self, pid, address):
        """An address by its area, or in hexadecimal."""
        area = self.area_at(pid, address)
        if area is None:
            return hex(address)
        page, offset = divmod(address - area[1], PAGE)
        return f"{area[0]}[{page}]" + (f"+{offset}" if offset else "")

"""From a trace back to the notation: the text of a machine, and of each step."""
import json

from .names import MOST_NAMED, is_name, node_names, notes_of
from .notation import FARTHER, FIRST_ADDRESS, NEAR, PAGE, next_free
from .statements import tier_distances
from .words import flags_text, mode_text, nodes_text

# Pages farther apart than this are not written as one stretch.
MOST_APART = 16 * PAGE
LETTERS = "ABCDEFGHIJKLMNOPQRSTUVWXYZ"
# The keys for people that the notation says in its own way.
SAID = ("name", "names", "note", "note_at_end")
# Steps that differ in their address alone are one statement over several pages.
BY_PAGE = ("read", "write", "pin", "unpin")


def area_name(number):
    """A, B, .. Z, A1, B1 .."""
    return LETTERS[number % 26] + (str(number // 26) if number >= 26 else "")


def data_text(data):
    """Bytes as text where that says the same, or as hexadecimal digits."""
    plain = bytes.fromhex(data)
    if data == data.lower() and all(32 <= byte < 127 for byte in plain):
        return json.dumps(plain.decode("ascii"))
    return data


def stretches(values, may_join):
    """Splits a list into its longest stretches: a value joins those before it where it may."""
    found = []
    for value in values:
        if found and may_join(found[-1], value):
            found[-1].append(value)
        else:
            found.append([value])
    return found


def tiers_of(rows):
    """The tier of each node where the distances are those of the short form, or None."""
    nearest = [(min(row[to] for to in range(len(row)) if to != own) - NEAR) // FARTHER if len(row) > 1 else 0 for own, row in enumerate(rows)]
    # A node that is alone in the first tier is as far from all others as they are from each other.
    for tiers in (nearest, [0, *nearest[1:]]):
        if tiers == sorted(tiers) and tier_distances(tiers) == rows and sorted(set(tiers)) == list(range(tiers[-1] + 1)):
            return tiers
    return None


def node_labels(top):
    """For each node what a picture calls it: its number, and its name, or its tier where that is not the first."""
    tiers = tiers_of(top["machine"]["distance"])
    names = [name or (f"tier {tiers[node] + 1}" if tiers and tiers[node] else None) for node, name in enumerate(node_names(top))]
    return [f"node {node}" + (f" ({name})" if name else "") for node, name in enumerate(names)]


class Notator:
    """Writes steps in the notation, one after another, with the names that processes and areas have, or new ones. Where it is
    brief, it leaves out defaults."""

    def __init__(self, top, brief=True):
        self.top, self.count, self.brief = top, len(top["machine"]["nodes"]), brief
        # The names of processes by pid, those that have ended, and the areas of each, the latest first, as (name, address, pages).
        self.pids, self.gone, self.areas = {}, set(), {}
        self.most_pid, self.named, self.next_address = 0, 0, FIRST_ADDRESS
        self.node_names = node_names(top)

    def unless(self, usual, text):
        """A text with a space before it, or nothing for what is usual."""
        return "" if self.brief and usual else " " + text

    # ---- the machine

    def machine(self):
        """The lines that describe the machine."""
        sizes, rows = self.top["machine"]["nodes"], self.top["machine"]["distance"]
        short = tiers_of(rows)
        tiers = short or [0] * len(sizes)
        groups = stretches(list(zip(sizes, tiers, self.node_names)), lambda group, node: group[-1] == node)
        text = ""
        for k, group in enumerate(groups):
            size, tier, name = group[0]
            text += ("" if k == 0 else ", " if groups[k - 1][0][1] == tier else " + ") + (f"{name} " if name else "")
            text += f"{len(group)}x{size}" if len(group) > 1 else str(size)
        lines = [f"run_limit {self.top['run_limit']}"] if self.top["version"] == 2 else []
        return lines + [f"nodes {text}"] + ([] if short else ["distance " + " ".join(map(str, row)) for row in rows])

    # ---- small things

    def process(self, pid):
        return self.pids.get(pid, str(pid))

    def set(self, nodes):
        """A set of nodes: all, those of a name, or numbers."""
        if nodes == list(range(self.count)):
            return "all"
        name = self.node_names[nodes[0]] if nodes and nodes[0] < self.count else None
        return name if name and nodes == [node for node in range(self.count) if self.node_names[node] == name] else nodes_text(nodes)

    @staticmethod
    def free_name(step, usual, taken):
        """The name that a step gives to something new, or the usual one, with a number where something else has it."""
        name = step["name"] if is_name(step.get("name")) else usual
        return next(one for one in [name, *(f"{name}_{k}" for k in range(2, len(taken) + 3))] if one not in taken)

    def area_at(self, pid, address):
        """The name, address and pages of the latest area of a process that covers an address, or None."""
        return next((area for area in self.areas.get(pid, []) if area[1] <= address < area[1] + area[2] * PAGE), None)

    def address(self, pid, address):
        """An address, by its area where it has one."""
        area = self.area_at(pid, address)
        if not area:
            return hex(address)
        page, offset = divmod(address - area[1], PAGE)
        return f"{area[0]}[{page}]" + (f"+{offset}" if offset else "")

    def pages(self, pid, addresses):
        """Addresses with one distance, in whole pages, between each and the next."""
        if len(addresses) == 1:
            return self.address(pid, addresses[0])
        step, area = (addresses[1] - addresses[0]) // PAGE, self.area_at(pid, addresses[0])
        base = area[1] if area else addresses[0]
        first, end = (addresses[0] - base) // PAGE, (addresses[-1] - base) // PAGE + 1
        if area and step == 1 and (first, end) == (0, area[2]):
            return f"{area[0]}[*]"
        return f"{area[0] if area else hex(base)}[{first}:{end}" + (f":{step}]" if step > 1 else "]")

    def joins(self, pid, before, address):
        """Whether an address continues those before it: whole pages, one distance, one area."""
        step = address - before[-1]
        if not 0 < step <= MOST_APART or step % PAGE or address % PAGE or len(before) > 1 and step != before[-1] - before[-2]:
            return False
        return self.area_at(pid, before[-1]) == self.area_at(pid, address)

    def entries(self, pid, step):
        """The entries of a batch, those with one target together."""
        pairs = list(zip(step["pages"], step.get("nodes", [None] * len(step["pages"]))))
        groups = stretches(pairs, lambda group, pair: group[-1][1] == pair[1] and self.joins(pid, [at for at, _ in group[-2:]], pair[0]))
        texts = [(self.pages(pid, [at for at, _ in group]), group[0][1]) for group in groups]
        told = []
        for k, (text, node) in enumerate(texts):
            last = k + 1 == len(texts) or texts[k + 1][1] != node
            told.append(text + (f" to {self.set([node])}" if node is not None and last else ""))
        return ", ".join(told) or "none"

    # ---- steps

    def text(self, step):
        """The statement of a step; that of a batch with accesses in flight has several lines."""
        op = step["op"]
        if hasattr(self, "tell_" + op):
            return f"{op} " + getattr(self, "tell_" + op)(step)
        if op in ("offline", "online", "free"):
            return f"{op} {self.set([step['node']])}"
        return op if op == "vmstat" else f"{op} {self.process(step['pid'])}"

    def tell_spawn(self, step):
        pid, usual = step["pid"], self.most_pid + 1
        if pid in self.gone:
            self.areas.pop(pid, None)
        self.gone.discard(pid)
        name = self.free_name(step, f"p{pid}", [name for other, name in self.pids.items() if other != pid and other not in self.gone])
        self.pids = {**{other: one for other, one in self.pids.items() if one != name}, pid: name}
        self.most_pid = max(pid, self.most_pid)
        flag = {True: " privileged", False: " unprivileged", None: ""}[step.get("privileged")]
        allowed = self.set(step["allowed"])
        return (self.process(pid) + self.unless(pid == usual, f"pid {pid}") + f" uid {step['uid']} home {step['home']}" +
                self.unless(allowed == "all", f"allowed {allowed}") + flag)

    def new_area(self, step):
        """Gives an area a name."""
        name = self.free_name(step, area_name(self.named), [area[0] for area in self.areas.get(step["pid"], ())])
        self.named += name == area_name(self.named)
        if step["pages"] < MOST_NAMED and step["addr"] % PAGE == 0:
            self.areas.setdefault(step["pid"], []).insert(0, (name, step["addr"], step["pages"]))
        self.usual_place = step["addr"] == self.next_address
        self.next_address = next_free(step["addr"], step["pages"], self.next_address)
        return name

    def tell_map(self, step):
        flag = {True: " shared", False: " private", None: ""}[step.get("shared")]
        name = self.new_area(step)
        place = self.unless(self.usual_place, f"at {step['addr']:#x}")
        return f"{self.process(step['pid'])} {name} {step['pages']}{place}{flag}"

    def tell_attach(self, step):
        name = self.new_area(step)
        place = self.unless(self.usual_place, f"at {step['addr']:#x}")
        return f"{self.process(step['pid'])} {name} segment {step['segment']} offset {step['offset']} pages {step['pages']}{place}"

    def tell_exit(self, step):
        self.gone.add(step["pid"])
        return self.process(step["pid"])

    def tell_unmap(self, step):
        area = self.area_at(step["pid"], step["addr"])
        if area and step["addr"] % PAGE == 0 and 0 < step["pages"] <= area[2] - (step["addr"] - area[1]) // PAGE:
            text = f"{self.process(step['pid'])} " + self.stretch(step["pid"], step["addr"], step["pages"])
            if area[1:] == (step["addr"], step["pages"]):
                self.areas[step["pid"]].remove(area)
            return text
        return f"{self.process(step['pid'])} {step['addr']:#x} pages {step['pages']}"

    def stretch(self, pid, address, pages):
        """Adjacent pages inside an area."""
        name, base, most = self.area_at(pid, address)
        first = (address - base) // PAGE
        if (first, pages) == (0, most):
            return f"{name}[*]"
        return f"{name}[{first}]" if pages == 1 else f"{name}[{first}:{first + pages}]"

    def access(self, step, addresses):
        more = self.unless(step["len"] == 1, f"len {step['len']}") if step["op"] == "read" else " " + data_text(step["data"])
        return f"{self.process(step['pid'])} {self.pages(step['pid'], addresses)}{more}"

    def tell_pin(self, step):
        return f"{self.process(step['pid'])} {self.address(step['pid'], step['addr'])}"

    tell_unpin = tell_pin

    def tell_read(self, step):
        return self.access(step, [step["addr"]])

    tell_write = tell_read

    def flags(self, step, usual):
        return self.unless(step["flags"] == usual, f"flags {flags_text(step['flags'])}")

    def target(self, step):
        """The caller, and the process whose pages are asked for where it is named."""
        return self.process(step["caller"]) + (f" of {self.process(step['pid'])}" if step["pid"] else "")

    def tell_move_pages(self, step):
        text = f"{self.target(step)} {self.entries(step['pid'] or step['caller'], step)}" + self.flags(step, 2)
        if "during" not in step:
            return text
        lines = [f"    run {access['run']} {access['op']} {self.access(access, [access['addr']])}" for access in step["during"]]
        return "\n".join([text + " during", *lines, "end"])

    def tell_query(self, step):
        return f"{self.target(step)} {self.entries(step['pid'] or step['caller'], step)}" + self.flags(step, 0)

    def tell_migrate_pages(self, step):
        return f"{self.target(step)} from {self.set(step['old'])} to {self.set(step['new'])}"

    def tell_mbind(self, step):
        pid, address, pages = step["caller"], step["addr"], step["len"] // PAGE
        area = self.area_at(pid, address)
        inside = area and address % PAGE == step["len"] % PAGE == 0 and 0 < pages <= area[2] - (address - area[1]) // PAGE
        place = self.stretch(pid, address, pages) if inside else f"{self.address(pid, address)} len {step['len']}"
        nodes = f" {self.set(step['nodes'])}" if step["nodes"] else ""
        return f"{self.process(pid)} {place} {mode_text(step['mode'])}{nodes}" + self.flags(step, 0)

    # ---- whole traces

    def may_merge(self, group, step):
        """Whether a step can be written together with those before it."""
        first = {key: value for key, value in group[0].items() if key != "note"}
        if "note" in step:
            return False
        if first["op"] == step["op"] == "free":
            return True
        if step["op"] not in BY_PAGE or {**first, "addr": 0} != {**step, "addr": 0}:
            return False
        return self.joins(step["pid"], [before["addr"] for before in group[-2:]], step["addr"]) and first["addr"] % PAGE == 0

    def merged(self, group):
        """The statement of steps that are written together."""
        if len(group) == 1:
            return self.text(group[0])
        if group[0]["op"] == "free":
            return "free " + self.set([step["node"] for step in group])
        addresses = [step["addr"] for step in group]
        if group[0]["op"] in ("pin", "unpin"):
            return f"{group[0]['op']} {self.process(group[0]['pid'])} {self.pages(group[0]['pid'], addresses)}"
        return f"{group[0]['op']} {self.access(group[0], addresses)}"

    def whole(self):
        """The text of the trace."""
        lines, group = self.machine(), []
        for step in self.top["steps"]:
            if group and not self.may_merge(group, step):
                lines.append(self.merged(group))
                group = []
            lines += notes_said(notes_of(step))
            group.append(step)
        lines += [self.merged(group)] if group else []
        return "\n".join(lines + notes_said(notes_of(self.top, "note_at_end"))) + "\n"


def notes_said(notes):
    """The statements of notes."""
    return [f"note {json.dumps(note)}" for note in notes]


def known_keys(form, top, said=()):
    """The trace without the keys that the program ignores, except for those that are `said` in the notation as well."""
    def kept(value, schema, more=()):
        return {key: part for key, part in value.items() if key in schema["properties"] or key in more or key in said}

    accesses, steps = form.ops(form.top["$defs"]["access"]), []
    for step in top["steps"]:
        step = kept(step, form.steps[step["op"]])
        if "during" in step:
            step["during"] = [kept(access, accesses[access["op"]]) for access in step["during"]]
        steps.append(step)
    limit = ("run_limit",) if top["version"] == 2 else ()
    return {**kept(top, form.top, limit), "machine": kept(top["machine"], form.top["properties"]["machine"]), "steps": steps}


def head_of(form, top):
    """The machine of a good trace, with names, as a trace without steps."""
    return known_keys(form, {**top, "steps": []}, ("names",))


def notation_of(form, top):
    """The notation of a good trace, which gives the same trace again, except for keys that the program ignores."""
    return Notator(known_keys(form, top, SAID)).whole()

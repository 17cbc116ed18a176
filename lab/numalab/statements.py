"""What each statement of the notation means: the steps of a trace."""
import re

from .faults import MOST_BYTES, MOST_ENTRIES, Form, step_faults
from .names import NAME, is_name
from .notation import (FARTHER, FIRST_ADDRESS, LEAST_STEP, MOST, NEAR, NUMBER, PAGE, Area, Numbers, Word, Words, Wrong, count,
                       data_of, guessed, next_free, text_of)
from .traces import Bad

U32 = (1 << 32) - 1
MOST_STEPS = MOST_BYTES // LEAST_STEP
# Steps with sets, nodes or runs that may be out of range; the numbers of all other steps are checked as they are read.
WITH_LISTS = ("spawn", "move_pages", "migrate_pages", "mbind")


def tier_distances(tiers):
    """The rows of the short form: 10 from a node to itself, 20 between two nodes of the first tier, and 10 more for each tier
    that the farther of the two nodes is behind the first."""
    return [[10 if own == to else NEAR + FARTHER * max(tiers[own], tiers[to]) for to in range(len(tiers))] for own in range(len(tiers))]


def machine_said(text):
    """The machine that a text describes, as what follows `nodes` in the notation."""
    made, words = Translation("nodes"), Words("nodes " + text)
    words.next("nodes")
    try:
        made.say_nodes(words)
    except Wrong as wrong:
        raise Bad(f"nodes is {text!r}: {wrong.text}") from None
    return made.top["machine"]


def parts_of(word):
    """Pages that are joined by commas without spaces, each with its column."""
    column = word.column
    for part in word.text.split(","):
        yield part, column
        column += len(part) + 1


class Translation(Numbers):
    """A file in the notation, statement by statement, and the trace that it makes."""

    def __init__(self, name):
        super().__init__()
        self.name, self.line, self.form = name, 0, Form()
        self.tiers, self.rows, self.run_limit = [], [], None
        self.steps, self.alive, self.maps, self.next_address = [], [], 0, FIRST_ADDRESS
        self.most_pid, self.notes = 0, []  # the notes that no step follows yet
        self.allowed = {}  # by pid: the nodes that the process may use

    @property
    def top(self):
        """The trace."""
        version = {"version": 1} if self.run_limit is None else {"version": 2, "run_limit": self.run_limit}
        rows = self.rows or tier_distances(self.tiers)
        names = {node: name for name, nodes in self.node_names.items() for node in nodes}
        named = {"names": [names.get(node) for node in range(len(self.nodes))]} if names else {}
        noted = {"note_at_end": "\n".join(self.notes)} if self.notes else {}
        return {**version, "machine": {"nodes": self.nodes, "distance": rows, **named}, **noted, "steps": self.steps}

    def at(self):
        return {"at": f"{self.name}:{self.line}"}

    def step(self, **keys):
        if len(self.steps) >= MOST_STEPS:
            raise Wrong(f"the trace would have more than {MOST_BYTES:,} bytes", 1)
        step = {**keys, **self.at()}
        if self.notes:
            step["note"], self.notes = "\n".join(self.notes), []
        if keys["op"] in WITH_LISTS:
            for fault in step_faults(self.form, step, self.run_limit or MOST_ENTRIES):
                raise Wrong(fault.text, 1)
        self.steps.append(step)

    def new_name(self, words, what):
        """A name for something new."""
        word = words.next(what)
        if not is_name(word.text):
            raise Wrong(f"{word.text} is not a name", word.column)
        return word.text

    # ---- the machine

    def say_nodes(self, words):
        self.before_steps(words)
        if self.nodes:
            raise Wrong("nodes are already given", 1)
        tier = 0
        while True:
            name = words.next("a number of frames").text if words.peek() and NAME.fullmatch(words.peek()) else None
            word = words.next("a number of frames, such as 1200 or 2x1200")
            match = re.fullmatch(r"(?:([0-9]{1,5})x)?([0-9]{1,10}[KMG]?)", word.text)
            if not match:
                raise Wrong(f"{word.text} is not a number of frames, such as 1200 or 2x1200", word.column)
            first, many = len(self.nodes), int(match[1] or 1)
            if not 1 <= many or first + many > 64:
                raise Wrong(f"{word.text} makes {first + many} nodes, where 1 to 64 are allowed", word.column)
            self.nodes += [self.page_count(Word(match[2], word.column))] * many
            self.tiers += [tier] * many
            if name:
                self.node_names.setdefault(name, []).extend(range(first, first + many))
            joined = words.has("+", ",")
            if not joined:
                break
            tier += joined == "+"
        words.done("+")

    def before_steps(self, words):
        if self.steps:
            raise Wrong(f"{words.words[0].text} must come before all steps", words.words[0].column)

    def say_distance(self, words):
        self.before_steps(words)
        row = []
        while words.peek() is not None:
            if words.has("/"):
                self.rows.append(row)
                row = []
            else:
                row.append(self.number(words.next("a distance"), 255))
        self.rows.append(row)

    def say_run_limit(self, words):
        self.before_steps(words)
        self.run_limit = self.number(words.next("a number of entries"))
        words.done()

    # ---- processes and areas

    def say_spawn(self, words):
        word, keys, named = words.next("a name"), {}, {}
        if not NUMBER.fullmatch(word.text):
            words.taken -= 1
            named = {"name": self.new_name(words, "a name")}
        while words.peek() is not None:
            option = words.has("pid", "uid", "home", "allowed", "privileged", "unprivileged")
            if option in ("pid", "uid"):
                keys[option] = self.number(words.next("a number"), U32)
            elif option == "home":
                keys["home"] = self.node_list(words.next("a node"), True)[0]
            elif option == "allowed":
                keys["allowed"] = self.node_list(words.next("a set of nodes"))
            elif option:
                keys["privileged"] = option == "privileged"
            else:
                words.done("pid", "uid", "home", "allowed", "privileged", "unprivileged")
        alive = self.processes.get(word.text)
        if alive in self.alive and "pid" not in keys and named:
            raise Wrong(f"{word.text} is a process already, with pid {alive}: give this one another name, or the pid that it has", word.column)
        pid = keys.get("pid", self.number(word, U32) if NUMBER.fullmatch(word.text) else self.free_pid())
        self.processes[word.text], self.most_pid = pid, max(pid, self.most_pid)
        flag = {"privileged": keys["privileged"]} if "privileged" in keys else {}
        self.step(op="spawn", pid=pid, uid=keys.get("uid", 1000), home=keys.get("home", 0),
                  allowed=keys.get("allowed", list(range(len(self.nodes)))), **flag, **named)
        if pid not in self.alive:
            self.alive.append(pid)
            self.allowed[pid] = self.steps[-1]["allowed"]
            self.own_areas = {key: area for key, area in self.own_areas.items() if key[0] != pid}

    def free_pid(self):
        return min(self.most_pid + 1, U32)

    def area_options(self, words, more):
        """What may follow a new area."""
        keys, known = {}, ("at", *more)
        while words.peek() is not None:
            option = words.has(*known)
            if option in ("shared", "private"):
                keys["shared"] = option == "shared"
            elif option == "pages":
                keys["pages"] = self.page_count(words.next("a number of pages"))
            elif option:
                keys[option] = self.number(words.next("a number"))
            else:
                words.done(*known)
        return keys

    def new_area(self, pid, name, keys, area):
        """Gives an area of a process its name and its address, which is a new one where none is given."""
        address, pages = keys.get("at", self.next_address), area.pages
        self.areas[name] = self.own_areas[pid, name] = area._replace(address=address)
        self.next_address = next_free(address, pages, self.next_address)
        return address

    def say_map(self, words):
        pid, name = self.pid(words.next("a process")), self.new_name(words, "a name for the area")
        pages = self.page_count(words.next("a number of pages, or a size"))
        words.has("pages")
        keys = self.area_options(words, ("shared", "private"))
        flag = {"shared": keys["shared"]} if "shared" in keys else {}
        self.step(op="map", pid=pid, addr=self.new_area(pid, name, keys, Area(0, pages, self.maps, 0)), pages=pages, **flag, name=name)
        self.maps += 1

    def say_attach(self, words):
        pid, name = self.pid(words.next("a process")), self.new_name(words, "a name for the area")
        if words.has("of"):
            word = words.next("an area, or pages of one")
            area, (address, pages) = self.areas.get(word.text.split("[")[0]), self.stretch(word)
            if area is None:
                raise Wrong(f"{word.text} is not an area with a name", word.column)
            segment, offset = area.segment, area.offset + (address - area.address) // PAGE
            keys = self.area_options(words, ())
        else:
            words.need("segment")
            segment = self.number(words.next("the number of a segment"))
            keys = self.area_options(words, ("offset", "pages"))
            offset, pages = keys.get("offset", 0), keys.get("pages", 1)
        address = self.new_area(pid, name, keys, Area(0, pages, segment, offset))
        self.step(op="attach", pid=pid, addr=address, segment=segment, offset=offset, pages=pages, name=name)

    def say_unmap(self, words):
        pid = self.pid(words.next("a process"))
        word = words.next("pages")
        if words.has("pages"):
            place = self.place(word, pid)
            address, pages = place.address + place.numbers.start * PAGE, self.page_count(words.next("a number of pages"))
        else:
            address, pages = self.stretch(word, pid)
        words.done("pages")
        self.step(op="unmap", pid=pid, addr=address, pages=pages)

    def say_exit(self, words):
        pid = self.pid(words.next("a process"))
        words.done()
        self.step(op="exit", pid=pid)
        if pid in self.alive:
            self.alive.remove(pid)

    # ---- single pages

    def each(self, pages, column, **keys):
        """A step for each page."""
        if count(pages) > MOST_STEPS:
            raise Wrong(f"the trace would have more than {MOST_BYTES:,} bytes", column)
        for number in pages.numbers:
            self.step(**{key: pages.address + number * PAGE if key == "addr" else value for key, value in keys.items()})

    def say_pin(self, words):
        op, pid, word = words.words[0].text, self.pid(words.next("a process")), words.next("a page")
        words.done()
        self.each(self.place(word, pid), word.column, op=op, pid=pid, addr=0)

    def access(self, op, words):
        """The keys of a read or a write without its address, and its pages."""
        pid, word = self.pid(words.next("a process")), words.next("a page")
        pages = self.place(word, pid)
        if op == "read":
            more = {"len": self.number(words.next("a number of bytes")) if words.has("len") else 1}
        else:
            more = {"data": data_of(words.next('bytes, such as 61 or "a"'))}
        words.done("len")
        return {"op": op, "pid": pid, "addr": 0, **more}, pages, word

    def say_access(self, words):
        keys, pages, word = self.access(words.words[0].text, words)
        self.each(pages, word.column, **keys)

    # ---- batches

    def target(self, words):
        """The caller and the pid of a call on a process: 0 where it is the caller's own."""
        caller = self.pid(words.next("a process"))
        return caller, self.pid(words.next("a process")) if words.has("of") else 0

    def entries(self, words, targets, pid=None):
        """The addresses of a batch, and their nodes where it has targets; the pages are those of a process."""
        addresses, nodes = [], []
        if words.has("none"):
            return addresses, nodes
        while True:
            word = words.next("a page")
            for part, column in parts_of(word):
                addresses += self.addresses(Word(part, column), pid)
            if targets and words.has("to"):
                found = self.node_list(words.next("a node"), allowed=self.allowed.get(pid))
                if not found:
                    raise Wrong("an empty set of nodes cannot be a target", words.words[words.taken - 1].column)
                nodes += [found[k % len(found)] for k in range(len(addresses) - len(nodes))]
            if not words.has(","):
                break
        if targets and len(nodes) < len(addresses):
            words.need("to")
        if len(addresses) > MOST_ENTRIES:
            raise Wrong(f"the batch has {len(addresses):,} entries, and at most {MOST_ENTRIES:,} are allowed", word.column)
        return addresses, nodes

    def say_move_pages(self, words, during=None):
        caller, pid = self.target(words)
        pages, nodes = self.entries(words, True, pid or caller)
        flags = self.flags(words.next("flags")) if words.has("flags") else 2
        words.has("during")
        words.done("flags", "during")
        more = {} if during is None else {"during": during}
        self.step(op="move_pages", caller=caller, pid=pid, pages=pages, nodes=nodes, flags=flags, **more)

    def flight(self, words):
        """The accesses in flight of a line of a `during` block."""
        run = self.number(words.next("the number of a run")) if words.has("run") else 0
        op = words.next("read or write")
        if op.text not in ("read", "write"):
            raise Wrong(f"{op.text} is neither read nor write{guessed(op.text, ['read', 'write'])}", op.column)
        keys, pages, _ = self.access(op.text, words)
        addresses = [pages.address + number * PAGE for number in pages.numbers[:MOST_ENTRIES]]
        return [{"run": run, **keys, "addr": address, **self.at()} for address in addresses]

    def say_query(self, words):
        caller, pid = self.target(words)
        pages, _ = self.entries(words, False, pid or caller)
        flags = self.flags(words.next("flags")) if words.has("flags") else 0
        words.done("flags")
        self.step(op="query", caller=caller, pid=pid, pages=pages, flags=flags)

    def say_migrate_pages(self, words):
        caller, pid = self.target(words)
        allowed = self.allowed.get(pid or caller)
        words.need("from")
        old = self.node_list(words.next("a set of nodes"), allowed=allowed)
        words.need("to")
        new = self.node_list(words.next("a set of nodes"), allowed=allowed)
        words.done()
        self.step(op="migrate_pages", caller=caller, pid=pid, old=old, new=new)

    def say_mbind(self, words):
        caller, word = self.pid(words.next("a process")), words.next("pages")
        if words.has("len"):
            pages = self.place(word, caller)
            if not pages.single:
                raise Wrong(f"{word.text} is more than one page: len takes a single address", word.column)
            address, length = pages.address + pages.numbers[0] * PAGE, self.number(words.next("a number of bytes"))
        else:
            address, length = self.stretch(word, caller)
            length *= PAGE
            if length > MOST:
                raise Wrong(f"{word.text} has more than 2^64 bytes", word.column)
        mode = self.mode(words.next("a mode, such as MPOL_BIND"))
        nodes = self.node_list(words.next("a set of nodes"), allowed=self.allowed.get(caller)) if words.peek() not in (None, "flags") else []
        flags = self.flags(words.next("flags")) if words.has("flags") else 0
        words.done("flags")
        self.step(op="mbind", caller=caller, addr=address, len=length, mode=mode, nodes=nodes, flags=flags)

    # ---- nodes, and looking

    def say_node(self, words):
        op, nodes = words.words[0].text, self.node_list(words.next("a node"))
        words.done()
        for node in nodes:
            self.step(op=op, node=node)

    def say_process(self, words):
        op = words.words[0].text
        pids = list(self.alive) if words.has("all") else [self.pid(words.next("a process, or all"))]
        words.done()
        for pid in pids:
            self.step(op=op, pid=pid)

    def say_note(self, words):
        word = words.next('a text, such as "the second phase"')
        if not word.text.startswith('"'):
            raise Wrong(f'{word.text} is not a text in quotes, such as "the second phase"', word.column)
        words.done()
        text = text_of(word)
        for name, number in self.variables.items():
            text = text.replace("{" + name + "}", str(number))
        self.notes.append(text)

    def say_vmstat(self, words):
        words.done()
        self.step(op="vmstat")

    def say_look(self, words):
        words.done()
        for node in range(len(self.nodes)):
            self.step(op="free", node=node)
        for pid in self.alive:
            self.step(op="pagemap", pid=pid)
            self.step(op="numa_maps", pid=pid)


MACHINE = {"nodes": Translation.say_nodes, "distance": Translation.say_distance, "run_limit": Translation.say_run_limit}
STEPS = {
    "spawn": Translation.say_spawn, "map": Translation.say_map, "attach": Translation.say_attach, "unmap": Translation.say_unmap,
    "exit": Translation.say_exit, "pin": Translation.say_pin, "unpin": Translation.say_pin, "read": Translation.say_access,
    "write": Translation.say_access, "move_pages": Translation.say_move_pages, "query": Translation.say_query,
    "migrate_pages": Translation.say_migrate_pages, "mbind": Translation.say_mbind, "offline": Translation.say_node,
    "online": Translation.say_node, "free": Translation.say_node, "pagemap": Translation.say_process,
    "numa_maps": Translation.say_process, "vmstat": Translation.say_vmstat, "look": Translation.say_look, "note": Translation.say_note,
}
BLOCKS = ("repeat", "end")

#!/usr/bin/env python3
"""Counts the functions that a call of move_pages goes through, from `play_calls` of nm_trace on, without those for accesses in flight,
and the files that they are in. Arguments are other functions to begin with, CRATE::NAME each. With --list it names them, with -v also
the calls whose function it cannot tell; they count as calls of each function that they may mean.

It reads the sources alone: what a name means follows from the types that signatures, fields and constructors give. The crates below
these, such as nm_tables and nm_frames, are not counted."""
import argparse
import os
import re
import sys

ROOT = os.path.dirname(os.path.dirname(os.path.abspath(__file__)))
sys.dont_write_bytecode = True
sys.path.insert(0, os.path.join(ROOT, "tools"))
from rounds.functions import blanked, functions_of  # noqa: E402

# The crates that a call goes through, lowest first.
CRATES = ("nm_runs", "nm_plan", "nm_pool", "nm_spaces", "nm_crew", "nm_threads", "nm_engine", "nm_passes", "nm_calls", "nm_trace")
# What is for accesses in flight, for refusals or for other calls.
LEFT_OUT = {"touch_each", "answer_each", "by_run", "in_order", "push_flights", "push_refusal", "give_back"}
# Of these functions, which choose by the kind of a call, an answer or what is asked for, only these calls are made.
ONLY = {
    "nm_calls::System::call": {"move_pages"},
    "nm_trace::push_answer": {"push_statuses"},
    "nm_trace::word": set(),
    "nm_runs::class_of": {"class_of_look", "seen"},
}
# Crews that the program does not have.
NOT_THESE = {"Alone"}
OUTER = r"(?:&\s*)?(?:'\w+\s+)?(?:mut\s+)?"
BOXES = ("Box", "Result", "Option", "Vec", "CowSlice", "Snapshot")


# A `let`, its pattern and its value; or the pattern of a `for`.
BOUND = re.compile(r"\blet\s+(?:(?:Ok|Some)\(\s*)?(.+?)\s*=(?!=)\s*([^;{]+?)\s*(?:;|\{|\belse\b)|\bfor\s+(.+?)\s+in\s", re.S)
# What is no type of these crates.
ELSEWHERE = "elsewhere"


def inner(text):
    """The name of the type that a text gives, without references, boxes and what else holds it."""
    text = re.sub(r"^" + OUTER, "", text.strip())
    if text.startswith(("[", "(")):
        return ELSEWHERE
    found = re.match(r"(?:\w+::)*(\w+)\s*(?:<(.*))?", text, re.S)
    if not found:
        return ""
    if found[1] in BOXES and found[2]:
        return inner(found[2])
    return found[1]


def listed(header):
    """What a function's header has between the brackets of its parameters."""
    depth = angle = 0
    begin = None
    for at, letter in enumerate(header):
        if begin is None:
            angle += (letter == "<") - (letter == ">" and header[at - 1] != "-")
            if letter == "(" and angle == 0:
                begin = at + 1
                depth = 1
        else:
            depth += (letter == "(") - (letter == ")")
            if depth == 0:
                return header[begin:at]
    return ""


class Function:
    """A function with its crate, the types of its parameters, and what it returns."""

    def __init__(self, crate, path, found, code):
        self.crate, self.path, self.name, self.type = crate, path, found.name, found.owner.type
        self.trait = found.owner.trait
        header = code[found.start : found.body]
        self.body = code[found.body : found.end]
        self.params = dict(re.findall(r"\b(\w+)\s*:\s*((?:<[^<>]*(?:<[^<>]*>[^<>]*)*>|[^,<])+)", listed(header)))
        self.bounds = dict(re.findall(r"\b([A-Z]\w*)\s*:\s*(\w+)", header))
        returned = re.search(r"\)\s*->\s*(.*?)(?=\s+(?:requires|ensures|where)\b|\s*$)", header, re.S)
        self.returned = returned[1] if returned else ""

    @property
    def key(self):
        return "::".join(each for each in (self.crate, self.type, self.name) if each)


class Sources:
    """The functions and the fields of all crates that are counted."""

    def __init__(self):
        self.functions, self.fields, self.named = [], {}, {}
        for crate in CRATES:
            for top, _, files in sorted(os.walk(f"{ROOT}/crates/{crate}/src")):
                for file in sorted(files):
                    self.read(crate, os.path.relpath(os.path.join(top, file), f"{ROOT}/crates/{crate}"))
        for each in self.functions:
            self.named.setdefault(each.name, []).append(each)

    def read(self, crate, path):
        with open(f"{ROOT}/crates/{crate}/{path}", encoding="utf-8") as file:
            text = file.read()
        code = blanked(text)
        self.functions += [Function(crate, f"{crate}/{path}", each, code) for each in functions_of(path, text)]
        for struct in re.finditer(r"\bstruct\s+(\w+)[^{;]*\{(.*?)^\}", code, re.S | re.M):
            self.fields[struct[1]] = dict(re.findall(r"^\s*(?:pub(?:\([^)]*\))?\s+)?(\w+)\s*:\s*(.+?),?$", struct[2], re.M))

    def of_type(self, name, kind):
        """The functions of a name that a type has, or, of a crew or another trait, those of whoever is that."""
        kinds = {"RunCrew": ("Crew", "Looks"), "PageView": ("AddressSpaces",)}.get(kind, (kind,))
        found = [each for each in self.named.get(name, []) if each.type in kinds or each.trait in kinds]
        return [each for each in found if each.type not in NOT_THESE]


class Way:
    """What is reached from some functions."""

    def __init__(self, sources):
        self.sources, self.reached, self.unsure = sources, {}, []

    def type_of(self, text, function, bound, at):
        """The type of what an expression, a chain of names and calls, stands for at a place of a body."""
        text = re.sub(r"^[&*\s]*(?:mut\s+)?[*&]*", "", text.strip()).rstrip("?")
        parts = re.split(r"\.(?![^(]*\))", text)
        head = parts[0]
        called = re.match(r"((?:\w+::)*)(\w+)\s*(?:::<.*>)?\(", head)
        if head == "self":
            now = function.type or function.trait
        elif called:
            now = self.returned_by(called[1].rstrip(":"), called[2], function)
        elif re.match(r"\d|\[|\(", head):
            now = ELSEWHERE
        else:
            before = [kind for place, name, kind in bound if name == head and place < at]
            now = before[-1] if before else ""
        for part in parts[1:]:
            now = self.step(now, part)
        return now

    def step(self, now, part):
        """The type of a field, or of what a method returns."""
        called = re.match(r"(\w+)\s*\(", part)
        if not called:
            return inner(self.sources.fields.get(now, {}).get(part, "")) or (ELSEWHERE if now else "")
        found = self.sources.of_type(called[1], now)
        if found:
            return self.resolved(inner(found[0].returned), found[0].type)
        return now if called[1] in ("as_ref", "as_mut", "clone") else ELSEWHERE if now else ""

    @staticmethod
    def resolved(name, own):
        return own if name == "Self" else name

    def returned_by(self, path, name, function):
        found = self.free(path, name, function)
        return self.resolved(inner(found[0].returned), found[0].type) if found else ""

    def free(self, path, name, function):
        """The functions that a call by a path may mean."""
        last = path.split("::")[-1] if path else ""
        if last == "Self":
            last = function.type
        if last[:1].isupper():
            return self.sources.of_type(name, function.bounds.get(last, last))
        found = [each for each in self.sources.named.get(name, []) if not each.type and not each.trait]
        if last.startswith("nm_"):
            return [each for each in found if each.crate == last]
        same = [each for each in found if each.path == function.path] or [each for each in found if each.crate == function.crate]
        return same or found

    def bound_in(self, function):
        """What a body binds, in order: a place, a name, and the type, as far as it can be told."""
        found = [(-1, name, function.bounds.get(inner(kind), inner(kind))) for name, kind in function.params.items()]
        for let in BOUND.finditer(function.body):
            pattern = (let[1] or let[3]).strip()
            named = re.match(r"(\w+)\s*\{(.*)\}$", pattern, re.S)
            if let[3]:
                found += [(let.end(), name, ELSEWHERE) for name in re.findall(r"\b[a-z_]\w*", pattern)]
            elif named:
                fields = self.sources.fields.get(named[1], {})
                found += [(let.end(), name, inner(fields.get(name, "")) or ELSEWHERE) for name in re.findall(r"\b(?!mut\b)([a-z_]\w*)", named[2])]
            elif pattern.startswith("("):
                found += self.pair_of(pattern, let[2], function, found, let)
            else:
                name = re.sub(r"\bmut\s+", "", pattern).split(":")[0].rstrip(") ").strip()
                found.append((let.end(), name, self.type_of(let[2], function, found, let.start())))
        return found

    def pair_of(self, pattern, text, function, bound, let):
        """The names of a pair, with the types of what a call returns."""
        names = [re.sub(r"\bmut\s+", "", each).strip(" ()") for each in pattern.split(",")]
        called = re.match(r"(?:([\w.]+)\.)?(\w+)\s*\(", text)
        every = []
        if called:
            every = (self.sources.of_type(called[2], self.type_of(called[1], function, bound, let.start())) if called[1]
                     else self.free("", called[2], function))
        kinds = re.split(r",(?![^<]*>)", re.sub(r"^\s*\(|\)\s*$", "", every[0].returned)) if every else []
        kinds = [self.resolved(inner(kind), every[0].type) for kind in kinds] + [ELSEWHERE if called else ""] * len(names)
        return [(let.end(), name, kind) for name, kind in zip(names, kinds)]

    def callees(self, function):
        """The functions that a body calls."""
        bound = self.bound_in(function)
        found = []
        for call in re.finditer(r"(?<![\w.:])((?:\w+::)*)(\w+)\s*(?:::<[^()]*>)?\(", function.body):
            found += self.free(call[1].rstrip(":"), call[2], function)
        for call in re.finditer(r"((?:[\w*&]+(?:\([^()]*\))?\??\s*\.\s*)+)(\w+)\s*(?:::<[^()]*>)?\(", function.body):
            receiver = re.sub(r"\s+", "", call[1]).rstrip(".")
            every = [each for each in self.sources.named.get(call[2], []) if each.type or each.trait]
            kind = self.type_of(receiver, function, bound, call.start())
            known = self.sources.of_type(call[2], kind)
            if not known and not kind and every:
                self.unsure.append((function.key, f"{receiver}.{call[2]}", [each.key for each in every]))
            found += known or ([] if kind else every)
        names = {name for _, name, _ in bound}
        # A function that is handed on by its name alone.
        for name in re.findall(r"[(,]\s*([a-z_]\w*)\s*[,)]", function.body):
            if name not in names:
                found += [each for each in self.free("", name, function) if each.crate == function.crate]
        only = ONLY.get(function.key)
        return [each for each in found if each.name not in LEFT_OUT and (only is None or each.name in only)]

    def follow(self, function):
        waiting = [function]
        while waiting:
            now = waiting.pop()
            if now.key + now.trait in self.reached:
                continue
            self.reached[now.key + now.trait] = now
            waiting += self.callees(now)


def main():
    words = argparse.ArgumentParser(description=__doc__)
    words.add_argument("start", nargs="*", default=["nm_trace::play_calls"], metavar="CRATE::NAME")
    words.add_argument("--list", action="store_true", help="name the functions, by file")
    words.add_argument("-v", "--verbose", action="store_true", help="also the calls whose function is not known")
    given = words.parse_args()
    sources = Sources()
    way = Way(sources)
    for start in given.start:
        found = [each for each in sources.functions if each.key == start]
        if not found:
            sys.exit(f"tools/way.py: there is no function {start}")
        for each in found:
            way.follow(each)
    by_file = {}
    for each in way.reached.values():
        by_file.setdefault(each.path, []).append(each.key.split("::", 1)[1])
    if given.list:
        for path in sorted(by_file, key=lambda path: (-CRATES.index(path.split("/")[0]), path)):
            print(f"{path}: {', '.join(sorted(by_file[path]))}")
    if given.verbose:
        for of, call, may in way.unsure:
            print(f"{of}: {call} may be {', '.join(may)}", file=sys.stderr)
    print(f"{len(way.reached)} functions in {len(by_file)} files")


if __name__ == "__main__":
    main()

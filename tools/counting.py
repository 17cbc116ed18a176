"""Follows the names that a public contract cites: what whoever relies on it must believe.

A definition is what a specification states outside lemmas: a record, a data type, a function, an abbreviation. Its lines are
counted without comments, imports and blank lines. Types of the code that definitions name are counted separately, and what the
kit defines is not counted. `tools/definitions.py --count` prints the sums."""
import collections
import os
import re
import sys

ROOT = os.path.dirname(os.path.dirname(os.path.abspath(__file__)))
CRATES = os.path.join(ROOT, "crates")
WORDS = r"(?:(?:abbrev|unfoldable|opaque) )*"
HEAD = re.compile(rf"^{WORDS}(?:pub )?(?:(record|data|mutual|module|infix[lr]?)\b ?)?([^\s({{:;]*)")
MEMBER = re.compile(rf"^ +{WORDS}(?:pub )?(?:(?:record|data) )?([^\s({{:]+) *[:(]")
CONSTRUCTOR = re.compile(r"^  ([A-Z]\S*) :")
IMPORT = re.compile(r"^\s*(pub )?use Rattle\.([^\s{]+?)(?:\.\{(.*?)\})?(?: as (\S+))?;?\s*$")
COMMENT = re.compile(r"(^|\s)--( .*|-*)?$")


class Module:
    """A file of specifications: the lines of its items, which item has which name, and what it imports."""

    def __init__(self, path, text):
        self.path, self.items, self.owner = path, {}, {}
        self.imports, self.aliases, self.handed = {}, {}, {}
        item = None
        for line in text.split("\n"):
            bare = COMMENT.sub("", line).rstrip()
            if bare.strip() and not bare.lstrip().startswith("pub mod "):
                item = self.take(bare, item)

    def take(self, line, item):
        """Reads a line, and returns the item that it belongs to."""
        match = IMPORT.match(line)
        if match:
            self.take_import(*match.groups())
            return None
        if not line.startswith(" "):
            item = self.begin(*HEAD.match(line).groups(), item)
        elif item and item.startswith("mutual"):
            inner = MEMBER.match(line)
            if inner and len(line) - len(line.lstrip()) <= 4:
                self.owner.setdefault(inner[1], item)
        if item:
            self.items[item].append(line)
            constructor = CONSTRUCTOR.match(line)
            if constructor and "data " in self.items[item][0]:
                self.owner.setdefault(constructor[1], item)
        return item

    def begin(self, kind, name, item):
        """The item that a line at the margin begins or continues."""
        if kind == "mutual":
            name = f"mutual {len(self.items)}"
        elif kind and kind.startswith("infix"):
            return None
        elif kind is None and name in self.owner:
            return self.owner[name]
        if not name:
            return item
        self.items.setdefault(name, [])
        self.owner[name] = name
        return name

    def take_import(self, public, path, names, alias):
        if names is None:
            self.aliases[alias or path.split(".")[-1]] = path
            return
        for part in filter(None, (part.strip() for part in names.split(","))):
            own, _, given = part.partition(" as ")
            self.imports[given or own] = (path, own)
            if public:
                self.handed[given or own] = (path, own)


def modules():
    """Every file of specifications, by the path that imports name it with."""
    found = {}
    for crate in sorted(os.listdir(CRATES)):
        for at, _, files in os.walk(os.path.join(CRATES, crate, "specs")):
            for file in files:
                if file.endswith(".antt"):
                    path = os.path.relpath(os.path.join(at, file), CRATES)
                    with open(os.path.join(CRATES, path), encoding="utf-8") as handle:
                        found[path[:-5].replace("/", ".")] = Module(path, handle.read())
    return found


class Follower:
    """Goes from definition to definition by the names that they cite."""

    def __init__(self, known):
        self.modules, self.seen, self.declared = known, set(), set()

    def resolve(self, path, name):
        """The module and item that a path and a name mean; none where the kit or the code has it."""
        if ".declared." in path:
            self.declared.add(path.split(".TheVariants")[0].replace(".specs.declared", ""))
            return []
        module = self.modules.get(path)
        if module and name in module.owner:
            return [(path, module.owner[name])]
        if module and name in module.handed:
            return self.resolve(*module.handed[name])
        return []

    def cited(self, module, path, text):
        """What a text of a module cites."""
        for word in re.findall(r"[^\s(){}\[\],;λ\"]+", text):
            parts = word.split(".")
            if len(parts) > 1 and parts[0] in module.aliases:
                yield from self.resolve(module.aliases[parts[0]], parts[1])
                if len(parts) > 2:
                    yield from self.resolve(f"{module.aliases[parts[0]]}.{parts[1]}", parts[2])
            for name in (parts[0], f"◌{parts[0]}◌"):
                if name in module.owner:
                    yield path, module.owner[name]
                elif name in module.imports:
                    yield from self.resolve(*module.imports[name])

    def follow(self, found):
        stack = list(found)
        while stack:
            at = stack.pop()
            if at not in self.seen:
                self.seen.add(at)
                module = self.modules[at[0]]
                stack += self.cited(module, at[0], " ".join(module.items[at[1]]))


def contracts(function):
    """For each public function of that name: the imports of its file, and the clauses of its contract."""
    for crate in sorted(os.listdir(CRATES)):
        for at, _, files in os.walk(os.path.join(CRATES, crate, "src")):
            for file in (file for file in files if file.endswith(".rt")):
                with open(os.path.join(at, file), encoding="utf-8") as handle:
                    text = handle.read()
                match = re.search(rf"^\s*pub fn {re.escape(function)}\b.*?^\s*\{{", text, re.M | re.S)
                if match:
                    ghost = [line.replace("ghost use", "use", 1) for line in text.split("\n") if "ghost use" in line]
                    clauses = re.findall(r"^\s*(?:requires|ensures)\b.*(?:\n\s*×.*)*", match[0], re.M)
                    yield Module(file, "\n".join(ghost)), " ".join(clauses)


def rest_of(function):
    """What the contracts of a public function rest on: the items by file with their lines, and types of the code."""
    follower = Follower(modules())
    found = list(contracts(function))
    if not found:
        sys.exit(f"tools/definitions.py: there is no public function {function}")
    for ghost, clauses in found:
        follower.follow(list(follower.cited(ghost, "", clauses)))
    files = collections.defaultdict(list)
    for path, item in sorted(follower.seen):
        files[follower.modules[path].path].append((item, len(follower.modules[path].items[item])))
    return files, follower.declared


def sentence(function):
    """The sums as a sentence."""
    files, declared = rest_of(function)
    sizes = [lines for items in files.values() for _, lines in items]
    return (f"`{function}` rests on {len(sizes)} definitions, {sum(sizes):,} lines, in {len(files)} files, "
            f"and on {len(declared)} types of the code.")


def count(words):
    """Prints what the contract of a public function rests on."""
    if not words or words[1:] not in ([], ["--list"]):
        sys.exit("tools/definitions.py: --count needs the name of a public function, and may be followed by --list")
    if words[1:]:
        for path, items in sorted(rest_of(words[0])[0].items()):
            print(f"{path}: {sum(lines for _, lines in items)} lines: {', '.join(item for item, _ in items)}")
    print(sentence(words[0]))
    return 0

"""The functions of a crate's sources: where the body of each is, and by which name a check's log calls it."""
import bisect
import os
import re

NOT_CODE = re.compile(r"""//[^\n]*|/\*.*?\*/|b?r(\#*)".*?"\1|b?"(?:\\.|[^"\\])*"|b?'(?:\\.[^']*|[^'\\\n])'""", re.S)
CLAUSE = re.compile(r"(?:^|\s)(?:requires|ensures|decreases|ghost)\*?(?:\s+[\w-]+)?:?\s*$")
NAMED = re.compile(r"\bfn\s+(\w+)")
BLOCK = re.compile(r"\b(mod|trait)\s+(\w+)")
IMPL = re.compile(r"(?:^|\s)impl\b")


def blanked(text):
    """The text with spaces for what is a comment, a string or a character, so that its braces are those of the code."""
    return NOT_CODE.sub(lambda found: re.sub(r"[^\n]", " ", found[0]), text)


def without_brackets(text):
    """The text without what is in < and >."""
    text = text.replace("->", "  ")
    while re.search(r"<[^<>]*>", text):
        text = re.sub(r"<[^<>]*>", "", text)
    return text


def last_name(text):
    """The last part of the first path in the text, as Block of crate::block::Block."""
    found = re.search(r"(?:\w+::)*(\w+)", text)
    return found[1] if found else ""


class Owner:
    """What the functions of an impl or a trait belong to: a type and a trait, each maybe empty, and all words that their paths have."""

    def __init__(self, type_name="", trait="", words=(), arguments=""):
        self.type, self.trait, self.words, self.arguments = type_name, trait, set(words), arguments

    def fits(self, middle):
        """How well the part between modules and function of a log's name fits: Type, or TypeTrait of a trait's method; 0 for not."""
        if self.trait in ("", "Drop"):
            return 99 * (middle == self.type)
        if self.trait not in middle or self.type.lower() not in middle.lower():
            return 0
        return 1 + 2 * (middle == self.trait) + sum(word.lower() in middle.lower() for word in self.words)


def owner_of(header):
    """The owner that the header of an impl names."""
    head = re.sub(r"'\w+", " ", IMPL.split(header, maxsplit=1)[1]).split(" where ")[0].replace("->", "  ").strip()
    if head.startswith("<"):
        head = head[closing(head) :]
    trait, is_trait, target = head.rpartition(" for ")
    words = re.findall(r"[A-Za-z]\w+", head)
    plain = without_brackets(target).replace("&", " ").replace("mut ", " ")
    arguments = "".join(re.findall(r"\b[A-Z]\w+", trait.partition("<")[2]))
    return Owner(last_name(plain), last_name(without_brackets(trait)) if is_trait else "", words, arguments)


def closing(text):
    """Where the < that a text begins with is closed."""
    depth = 0
    for at, letter in enumerate(text):
        depth += (letter == "<") - (letter == ">")
        if not depth:
            return at + 1
    return len(text)


class Function:
    """A function of a file: its module's names, its owner, and where its attributes, it, its body and its end are in the text."""

    def __init__(self, file, path, owner, name, begin, start, header):
        self.file, self.modules, self.owner, self.name, self.begin, self.start = file, path, owner, name, begin, start
        self.is_public = bool(re.search(r"\bpub\s+(?:(?:const|unsafe|final|default|extern\s+\S+)\s+)*fn\b", header)) or bool(owner.trait)
        cycle = re.search(r"#\[cycle\((\w+)\)", header)
        self.cycle = cycle[1] if cycle else ""
        self.body = self.end = None

    @property
    def key(self):
        """A name for people: modules, type and name."""
        return "::".join([*self.modules, *(each for each in [self.owner.type + self.owner.trait] if each), self.name])

    def proofs(self, crate):
        """The names of proofs that are its own besides that of its name: that of the cycle of calls that it is in, if it is in one."""
        return [f"{crate}::{'::'.join([*self.modules, '+' + self.cycle])}"] if self.cycle else []

    def path(self):
        """What names it to `--only` before a log has its name, or None: of a method the end of its name, as its type may be of another module;
        of one of a trait its module, as several of that name may end so."""
        of, trait = self.owner.type, self.owner.trait.replace("Drop", "")
        if trait:
            return "::".join(self.modules) or None
        return f"{of}{self.owner.arguments}::{self.name}" if of else "::".join([*self.modules, self.name])

    def fits(self, crate, name):
        """How well a check's name of a function, crate::modules::Owner::name, fits this one; 0 for not at all."""
        *inside, last = name.split("::")
        here = [crate, *self.modules]
        if last != self.name:
            return 0
        if not self.owner.type and not self.owner.trait:
            return 1 if inside == here else 0
        fit = self.owner.fits(inside[-1])
        return fit + 0.5 * (inside[:-1] == here) if fit else 0


def outer(name):
    """The name of the function that a closure, crate::modules::fn::Owner::function::callee, is in; of any other function its own."""
    head, is_closure, tail = name.partition("::fn::")
    if not is_closure:
        return name
    return "::".join([head, *re.split(r"::fn::|\+", tail)[0].split("::")[:-1]])


def names_of(crate, functions, names):
    """For each function the names that a check's log has of it and of its closures."""
    found = {each: [] for each in functions}
    for name in names:
        fits = [(each.fits(crate, outer(name)), -number) for number, each in enumerate(functions)]
        best, number = max(fits, default=(0, 0))
        if best:
            found[functions[-number]].append(name)
    return found


def module_of(file):
    """The modules that a file of src/ stands for."""
    parts = os.path.splitext(file)[0].split("/")[1:]
    return parts[:-1] if parts[-1] in ("lib", "main", "mod") else parts


class Scan:
    """One way through a file, brace by brace."""

    def __init__(self, file, text):
        self.file, self.found, self.stack, self.pending = file, [], [], None
        code, depth, self.begin = blanked(text), 0, 0
        for token in re.finditer(r"[{}();\[\]]", code):
            what, at = token[0], token.start()
            if what in "([":
                depth += 1
            elif what in ")]":
                depth -= 1
            elif what == "{":
                self.open(code[self.begin : at], at, depth)
                depth, self.begin = 0, at + 1
            elif what == "}":
                depth = self.close(at, depth)
                self.begin = at + 1
            elif depth == 0:
                self.pending = self.pending if self.is_inside() else None
                self.begin = at + 1

    def is_inside(self):
        """Whether this is in a function's body, or in one of its clauses."""
        return any(kind in ("body", "clause") for kind, _, _ in self.stack)

    def open(self, header, at, depth):
        """A block begins, after what its header says."""
        kind, value = "block", None
        if not self.is_inside():
            named = NAMED.search(header)
            if named:
                begin = self.begin + len(header) - len(header.lstrip())
                self.pending = Function(self.file, self.path(), self.owner(), named[1], begin, self.begin + named.start(), header)
            kind, value = self.kind_of(header)
        self.stack.append((kind, value, depth))
        if kind == "body":
            self.pending.body = at

    def kind_of(self, header):
        if self.pending:
            return ("clause", None) if CLAUSE.search(header) else ("body", None)
        if IMPL.search(header):
            return "owner", owner_of(header)
        block = BLOCK.search(header)
        if block:
            return ("mod", block[2]) if block[1] == "mod" else ("owner", Owner(trait=block[2], words=[block[2]]))
        return "block", None

    def close(self, at, depth):
        """A block ends: the depth of brackets around it is returned."""
        if not self.stack:
            return depth
        kind, _, depth = self.stack.pop()
        if kind == "body":
            self.pending.end = at + 1
            self.found.append(self.pending)
            self.pending = None
        return depth

    def path(self):
        return [*module_of(self.file), *(value for kind, value, _ in self.stack if kind == "mod")]

    def owner(self):
        return next((value for kind, value, _ in reversed(self.stack) if kind == "owner"), Owner())


def functions_of(file, text):
    """The functions of a file of src/, in their order."""
    return Scan(file, text).found


class Sources:
    """The functions of a crate, by the places in its files."""

    def __init__(self, text_of):
        self.text_of, self.files, self.lines = text_of, {}, {}

    def all(self, files):
        """The functions of these files."""
        return [each for file in files for each in self.functions(file)]

    def functions(self, file):
        """The functions of a file."""
        if file not in self.files:
            self.files[file] = functions_of(file, self.text_of(file) or "") if file.startswith("src/") else []
        return self.files[file]

    def at(self, file, begin, end):
        """The function whose body has this part of the file, or None."""
        return next((each for each in self.functions(file) if each.body < begin and end < each.end), None)

    def starts(self, file):
        """Where each line of a file begins."""
        if file not in self.lines:
            self.lines[file] = [0, *(at.end() for at in re.finditer("\n", self.text_of(file) or ""))]
        return self.lines[file]

    def span(self, function):
        """The first and the last line of a function, its attributes and its contract included."""
        return tuple(bisect.bisect_right(self.starts(function.file), at) for at in (function.begin, function.end - 1))

    def at_line(self, file, line):
        """The function that has this line of the file, or None."""
        return next((each for each in self.functions(file) if self.span(each)[0] <= line <= self.span(each)[1]), None)

    def edited(self, edit):
        """The functions whose bodies an edit changes, or None where it changes something else."""
        found = [self.at(*place) for place in edit.places(self.text_of)]
        return None if None in found else list(dict.fromkeys(found))

#!/usr/bin/env python3
"""Lists what each crate promises, from its sources: the part of docs/PROVED.md that stands between two lines that say so.

    tools/proved.py                        writes that part of the page anew
    tools/proved.py --check                writes nothing, and ends with status 1 where the page is not what the sources say
    tools/proved.py --whole CRATE [NAME]   prints each function of a crate that has a contract, or those of a type or a name, with the
                                           whole comment and the clauses

Of a library these are the functions and types that it hands out, of a program all of its functions; those without a contract are left
out. A law has its comment, a type the first sentence of it, and each function the names of what it ensures."""
import os
import re
import sys
import textwrap

ROOT = os.path.dirname(os.path.dirname(os.path.abspath(__file__)))
PAGE = os.path.join(ROOT, "docs/PROVED.md")
BEGINS, ENDS = "<!-- made by tools/proved.py from the sources -->", "<!-- the end of what is made -->"
ITEM = re.compile(r"(?P<pad> *)(?:pub(?:\(crate\))? )?(?:final |const |unsafe )*(?P<kind>fn|struct|enum|trait|impl)\b(?P<rest>.*)")
CLAUSE = re.compile(r"(?P<pad> *)(?P<kind>requires|ensures)\*? *(?P<name>\w+)? *\{")
COVERED = re.compile(r"\bpub (?:use [\w:]+::(?:\{(?P<many>[^}]*)\}|(?P<one>\w+))|mod (?P<mod>\w+));")


def read(path):
    with open(os.path.join(ROOT, path), encoding="utf-8") as file:
        return file.read()


def crates():
    """The crates in the order of crates.txt, lowest first."""
    return [line.split(":")[0].split()[0] for line in read("crates.txt").split("\n") if ":" in line and not line.startswith("#")]


def sentence(text):
    """The first sentence of a comment."""
    return re.split(r"(?<=[.:]) (?=[A-Z`])", text + " ", maxsplit=1)[0].strip()


class Function:
    """A function with a contract: its name, its type if it has one, its comment and its clauses as they are written."""

    def __init__(self, owner, name, comment, line):
        self.owner, self.name, self.comment, self.line = owner, name, comment, line
        self.clauses, self.named = [], []

    @property
    def whole(self):
        return f"{self.owner}::{self.name}" if self.owner else self.name


def owner_of(rest):
    """The type that an `impl` is for."""
    head = re.sub(r"<[^<>]*>", "", re.sub(r"<[^<>]*>", "", re.sub(r"<[^<>]*>", "", rest))).split("{")[0].split(" where ")[0].strip()
    return re.split(r" for ", head)[-1].strip().lstrip("&").split("::")[-1]


def functions_of(path):
    """The functions of a file that have a contract, and the comments of its types."""
    found, types, comment, owner, pad, now, clause = [], {}, [], "", None, None, None
    for line in read(path).split("\n"):
        bare = line.strip()
        if bare.startswith("#[cfg(test)]"):
            break
        if bare.startswith("///"):
            comment.append(bare[3:].strip())
            continue
        if now and (bare == "{" or bare.endswith(";") and clause is None):
            now, clause = None, None
        item = ITEM.match(line) if now is None else None
        part = CLAUSE.match(line) if now else None
        if item:
            kind, rest = item["kind"], item["rest"].strip()
            text = " ".join(comment).strip()
            if kind == "fn":
                name = re.match(r"\w+", rest)[0]
                is_in = pad is not None and len(item["pad"]) > pad
                now = Function(owner if is_in else "", name, text, line)
                found.append(now)
                if bare.endswith(("{", "{}", ";")):
                    now = None
            else:
                owner, pad = (owner_of(rest) if kind == "impl" else re.match(r"\w+", rest)[0]), len(item["pad"])
                if kind != "impl":
                    types[owner] = text
        elif part:
            clause = [line]
            now.clauses.append(clause)
            if part["kind"] == "ensures" and part["name"]:
                now.named.append(part["name"])
        elif now and clause is not None and bare and not bare.startswith("//"):
            clause.append(line)
        if bare and not bare.startswith("#["):
            comment = []
        if now and clause is not None and bare.endswith(("};", "{}")):
            now, clause = None, None
    return [one for one in found if one.clauses], types


def sources(crate):
    """The sources of a crate, without its tests."""
    for at, folders, files in os.walk(os.path.join(ROOT, "crates", crate, "src")):
        folders.sort()
        for file in sorted(files):
            if file.endswith(".rt") and file != "tests.rt":
                yield os.path.relpath(os.path.join(at, file), ROOT)


def root_of(crate):
    lib = f"crates/{crate}/src/lib.rt"
    return lib if os.path.exists(os.path.join(ROOT, lib)) else f"crates/{crate}/src/main.rt"


def handed_out(crate):
    """The names that a library hands out, and its modules that are public; of a program None."""
    if root_of(crate).endswith("main.rt"):
        return None
    names = set()
    for covered in COVERED.finditer(read(root_of(crate))):
        names.update(part.strip() for part in (covered["many"] or "").split(","))
        names.update(filter(None, (covered["one"], covered["mod"])))
    return names


def promises(crate):
    """The functions of a crate that others see, by file, and the comments of its types."""
    names, found, types = handed_out(crate), [], {}
    for path in sources(crate):
        functions, comments = functions_of(path)
        types.update(comments)
        module = os.path.basename(path)[:-3]
        for one in functions:
            is_public = re.match(r" *pub (?!\()", one.line) or one.owner and is_trait(path, one.owner)
            if names is None or is_public and (one.owner in names or one.name in names and not one.owner or module in names or path == root_of(crate)):
                found.append((module, one))
    return found, types


def is_trait(path, name):
    return re.search(rf"\bpub trait {name}\b", read(path)) is not None


def about(crate):
    """The first sentence of a crate's comment."""
    lines = []
    for line in read(root_of(crate)).split("\n"):
        if not line.startswith("//!") or line == "//!":
            break
        lines.append(line[3:].strip())
    return sentence(" ".join(lines))


def shown(one):
    return f"`{one.name}`" + (f" ({', '.join(one.named)})" if one.named else "")


def is_worked(row):
    """Whether a law is of worked examples."""
    return re.match(r"`\w+`: (?:A worked|Worked)\b", row) is not None


def listed():
    """What the page says of all crates."""
    text = []
    for crate in crates():
        found, types = promises(crate)
        text.append(f"### {crate}\n\n{about(crate)}\n")
        rows = {}
        for module, one in found:
            if module in ("laws", "examples"):
                key = f"*{module.capitalize()}*"
                rows.setdefault(key, []).append(f"`{one.name}`: {one.comment.rstrip('.:')}")
            else:
                rows.setdefault(one.owner, []).append(shown(one))
        for owner in sorted(rows, key=lambda name: (name.startswith("*"), name == "", name)):
            if owner.startswith("*"):
                worked = [row.split(":")[0] for row in rows[owner] if is_worked(row)]
                text += [f"- {row}." for row in rows[owner] if not is_worked(row)]
                text += [f"- Worked examples: {', '.join(worked)}."] if worked else []
                continue
            said = sentence(types.get(owner, "")).rstrip(".:")
            head = f"`{owner}`{f' ({said[0].lower() + said[1:]})' if said else ''}: " if owner else ""
            text.append(f"- {head}{', '.join(rows[owner])}.")
        if rows:
            text.append("")
    return "\n".join(text).rstrip("\n")


def page_with(text):
    """The page with what is made put into its place."""
    page = read("docs/PROVED.md")
    before, rest = page.split(BEGINS, 1)
    return before + BEGINS + "\n\n" + text + "\n\n" + ENDS + rest.split(ENDS, 1)[1]


def tell(crate, name):
    """Prints the whole comments and clauses."""
    for _, one in promises(crate)[0]:
        if name in ("", one.owner, one.name, one.whole):
            print(one.whole)
            print(textwrap.fill(one.comment, 120, initial_indent="    ", subsequent_indent="    "))
            for clause in one.clauses:
                print("\n".join("    " + line.strip() if k == 0 else "        " + line.strip() for k, line in enumerate(clause)))
            print()


def main():
    words = sys.argv[1:]
    if words[:1] == ["--whole"] and 2 <= len(words) <= 3:
        if words[1] not in crates():
            sys.exit(f"tools/proved.py: there is no crate {words[1]}")
        tell(words[1], (words + [""])[2])
        return 0
    if words not in ([], ["--check"]):
        sys.exit("tools/proved.py: it takes no argument other than --check and --whole CRATE [NAME]")
    made = page_with(listed())
    if words and made != read("docs/PROVED.md"):
        print("docs/PROVED.md is not what the sources say: tools/proved.py writes it anew")
        return 1
    if not words:
        with open(PAGE, "w", encoding="utf-8") as file:
            file.write(made)
    return 0


if __name__ == "__main__":
    sys.exit(main())

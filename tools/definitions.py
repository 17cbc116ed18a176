#!/usr/bin/env python3
"""Lists every public definition of the specifications, each with its file and the comment above it.

    tools/definitions.py                             writes the list to docs/DEFINITIONS_ALL.md, which git does not keep
    tools/definitions.py --to FILE                   writes it to a file, as ./release does
    tools/definitions.py --check                     writes nothing, and ends with status 1 where docs/DEFINITIONS.md names a definition
                                                     that is not in the file that it says, or more than 45, or does not say what the
                                                     contract of run_trace rests on
    tools/definitions.py --count run_trace           how many definitions, lines and files the contract of run_trace rests on
    tools/definitions.py --count run_trace --list    those definitions too, by file"""
import os
import re
import sys

import counting

ROOT = os.path.dirname(os.path.dirname(os.path.abspath(__file__)))
LIST = os.path.join(ROOT, "docs/DEFINITIONS_ALL.md")
PAGE = os.path.join(ROOT, "docs/DEFINITIONS.md")
# The contents of a module with arguments are indented, where a field of a record and a lemma look alike: only its abbreviations,
# what does not unfold by itself, records and data types are listed, as all definitions there are one of these. In a block of
# definitions that name one another every public name is a definition.
DEFINES = re.compile(r"^(?:\s*(?:abbrev|unfoldable|opaque) |\s+(?=pub (?:record|data) ))?pub (?:(?:record|data) )?([^\s({:]+)")
MUTUAL = re.compile(r"^(?:(?:abbrev|unfoldable|opaque) )?mutual$")
MEMBER = re.compile(r"^ +pub ([^\s({:]+) :")
HEAD = """# All definitions

Every public definition of the specifications, by crate and file, with the comment above it, as `tools/definitions.py` finds them. `docs/DEFINITIONS.md` has those to read first.
"""


def crates():
    """The crates in the order of crates.txt, lowest first."""
    with open(os.path.join(ROOT, "crates.txt"), encoding="utf-8") as file:
        lines = [line.split("#")[0] for line in file]
    return [line.split(":")[0].split()[0] for line in lines if ":" in line]


def definitions(path):
    """The names that a file defines for others, each with the comment in front of it."""
    found, said, is_mutual = [], [], False
    with open(path, encoding="utf-8") as file:
        for line in file.read().split("\n"):
            if line.startswith("-- ----"):
                said = []
            elif line.lstrip().startswith("--"):
                said.append(line.lstrip()[2:].strip())
            elif not line.strip():
                said = []
            elif MUTUAL.match(line):
                # (the comment above it belongs to its first)
                is_mutual = True
            elif not line.startswith("infix"):
                is_mutual = is_mutual and line.startswith(" ")
                name = MEMBER.match(line) if is_mutual else DEFINES.match(line)
                if name and not line.startswith(("pub use", "pub mod")):
                    found.append((name[1], " ".join(said)))
                said = []
    return found


def sentence(text):
    """A comment as a sentence."""
    text = text.strip()
    if not text:
        return ""
    text = text[0].upper() + text[1:]
    return text if text.endswith((".", ":")) else text + "."


def listed():
    """The text of the list, and for each file the names that it defines."""
    text, names = [HEAD], {}
    for crate in crates():
        folder = os.path.join(ROOT, "crates", crate, "specs")
        if not os.path.isdir(folder):
            continue
        rows = []
        for at, folders, files in os.walk(folder):
            folders.sort()
            for file in sorted(files):
                path = os.path.join(at, file)
                short = os.path.relpath(path, os.path.join(ROOT, "crates"))
                found = definitions(path) if file.endswith(".antt") else []
                names[short] = {name for name, _ in found}
                rows += [f"| `{name}` | `{short}` | {sentence(said)} |" for name, said in found]
        if rows:
            text += [f"## {crate}\n", "| Name | File | What it says |\n|---|---|---|"] + rows + [""]
    return "\n".join(text), names


def faults(names):
    """What is wrong with the page of those to read first."""
    with open(PAGE, encoding="utf-8") as file:
        page = file.read()
    if counting.sentence("run_trace") not in page:
        yield f"docs/DEFINITIONS.md is to say: {counting.sentence('run_trace')}"
    rows = re.findall(r"^\| `([^`]+)` \| `([^`]+)` \|", page, re.M)
    if len(rows) > 45:
        yield f"docs/DEFINITIONS.md lists {len(rows)} definitions, and should have at most 45 to read first"
    for name, path in rows:
        if name not in names.get(path, ()):
            yield f"docs/DEFINITIONS.md: there is no {name} in {path}"


def main():
    if sys.argv[1:2] == ["--count"]:
        return counting.count(sys.argv[2:])
    is_given = sys.argv[1:2] == ["--to"] and len(sys.argv) == 3
    if not is_given and sys.argv[1:] not in ([], ["--check"]):
        sys.exit("tools/definitions.py: it takes no argument other than --to FILE, --check and --count")
    text, names = listed()
    if sys.argv[1:] == ["--check"]:
        said = list(faults(names))
        print("\n".join(said), end="\n" if said else "")
        return 1 if said else 0
    with open(sys.argv[2] if is_given else LIST, "w", encoding="utf-8") as file:
        file.write(text)
    return 0


if __name__ == "__main__":
    sys.exit(main())

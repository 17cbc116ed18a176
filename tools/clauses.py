#!/usr/bin/env python3
"""Lists the clauses of functions that differ between two commits, or between a commit and the files as they are.

    tools/clauses.py BEFORE [AFTER] [CRATE ..]

For each function of the crates (by default all) it compares its `requires` and `ensures`, white space aside, and prints those that
went (-) and those that came (+), by file and function. A function that only one side has is printed with one line, and with its
clauses where --whole is given. Parameters and bounds are no clauses. It shows that a change of names or of layers keeps what was
promised, and what it promises less."""
import argparse
import os
import re
import subprocess
import sys

ROOT = os.path.dirname(os.path.dirname(os.path.abspath(__file__)))
FUNCTION = re.compile(r"\bfn (\w+)")
CLAUSE = re.compile(r"(?<![\w.])(requires|ensures)\*?\s*(\w+)?\s*\{")


def sources_at(commit):
    """The files of crates' src/ at a commit, or as they are where there is none: path and text."""
    if commit is None:
        listed = subprocess.run(["git", "ls-files", "-co", "--exclude-standard", "crates"], cwd=ROOT, capture_output=True, text=True, check=True)
    else:
        listed = subprocess.run(["git", "ls-tree", "-r", "--name-only", commit, "crates"], cwd=ROOT, capture_output=True, text=True, check=True)
    for path in listed.stdout.splitlines():
        if re.fullmatch(r"crates/\w+/src/.*\.rt", path) and not path.endswith("tests.rt"):
            yield path, text_at(commit, path)


def text_at(commit, path):
    if commit is not None:
        return subprocess.run(["git", "show", f"{commit}:{path}"], cwd=ROOT, capture_output=True, text=True, check=True).stdout
    try:
        with open(os.path.join(ROOT, path), encoding="utf-8") as file:
            return file.read()
    except FileNotFoundError:
        return ""


def closed(text, start):
    """The place after the brace that closes the one at `start`."""
    depth = 0
    for place in range(start, len(text)):
        depth += {"{": 1, "}": -1}.get(text[place], 0)
        if depth == 0:
            return place + 1
    return len(text)


def clauses_of(text):
    """The clauses of each function of a file, those of its closures included: name to a list."""
    text = re.sub(r"//[^\n]*", "", text)
    names = [(found.start(), found[1]) for found in FUNCTION.finditer(text)]
    clauses, place = {name: [] for _, name in names}, 0
    for found in CLAUSE.finditer(text):
        if found.start() < place:
            continue
        place = closed(text, found.end() - 1)
        owner = [name for start, name in names if start < found.start()]
        if owner:
            body = re.sub(r"\s+", " ", text[found.end(): place - 1]).strip()
            clauses[owner[-1]].append(" ".join(filter(None, [found[1], found[2], "{ " + body + " }"])))
    return clauses


def all_clauses(commit, crates):
    """The clauses of all functions, by crate and name; those of functions of one name in a crate are put together."""
    found = {}
    for path, text in sources_at(commit):
        crate = path.split("/")[1]
        if crates and crate not in crates:
            continue
        for name, clauses in clauses_of(text).items():
            found.setdefault((crate, name), []).extend(clauses)
    return found


def difference(mine, others):
    """What is in one list more often than in the other."""
    left = list(others)
    for clause in mine:
        if clause in left:
            left.remove(clause)
        else:
            yield clause


def main():
    words = argparse.ArgumentParser(description=__doc__, formatter_class=argparse.RawDescriptionHelpFormatter)
    words.add_argument("before")
    words.add_argument("after", nargs="?")
    words.add_argument("crates", nargs="*")
    words.add_argument("--whole", action="store_true")
    given = words.parse_args()
    if given.after and subprocess.run(["git", "rev-parse", "-q", "--verify", given.after + "^{commit}"], cwd=ROOT, capture_output=True).returncode:
        given.crates, given.after = [given.after, *given.crates], None
    before, after = (all_clauses(commit, given.crates) for commit in (given.before, given.after))
    differs = False
    for key in sorted(before.keys() | after.keys()):
        gone = list(difference(before.get(key, []), after.get(key, [])))
        come = list(difference(after.get(key, []), before.get(key, [])))
        if key not in before or key not in after:
            print("%s %s: only %s" % (*key, "before" if key in before else "after"))
        if gone + come and (given.whole or key in before and key in after):
            print("%s %s" % key if key in before and key in after else "", *[f"  - {one}" for one in gone], *[f"  + {one}" for one in come], sep="\n")
        differs = differs or bool(gone or come or (key in before) != (key in after))
    return int(differs)


if __name__ == "__main__":
    sys.exit(main())

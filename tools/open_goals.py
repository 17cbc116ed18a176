#!/usr/bin/env python3
"""Lists the goals that the edits of a crate leave open and that no file of proofs/ answers. The prover refuses an edit at once
where the goal that it breaks has an answer, and searches to its limits twice where it has none (docs/PROVING.md).

tools/open_goals.py CRATE [EDIT ..] applies the crate's edits, or those that are named, together to a copy, as far as each still finds
its text, and checks the copy. Callers of a function that is not proved are not checked: name their edits alone."""
import os
import re
import shutil
import subprocess
import sys
import tempfile

ROOT = os.path.dirname(os.path.dirname(os.path.abspath(__file__)))
sys.dont_write_bytecode = True
sys.path.insert(0, os.path.join(ROOT, "tools"))
from rounds.choice import edits_of  # noqa: E402
from rounds.texts import reader  # noqa: E402

OPEN = re.compile(r"note: (src/\S+?:\d+):\d+: it is not proved .*\(`([^`]+)`\)")
REFUSED = re.compile(r"(?:\./)?(proofs/\S+?:\d+):\d+: error: `([^`]+)`")
WAITS = re.compile(r"fn (\S+): no proof: it calls (.*)")


def apply(edit, folder):
    """Applies an edit to the crate in a folder, and says whether each of its texts occurred there once."""
    texts, _ = edit.applied(reader(folder))
    for file, text in (texts or {}).items():
        with open(os.path.join(folder, file), "w", encoding="utf-8") as source:
            source.write(text)
    return texts is not None


def checked(crate, edits):
    """What a check of a copy of the crate says, with these edits."""
    with tempfile.TemporaryDirectory() as room:
        shutil.copytree(os.path.join(ROOT, "crates"), os.path.join(room, "crates"), ignore=shutil.ignore_patterns("out", "must-fail"))
        for name in ("crates.txt", "HANDLES"):
            shutil.copy(os.path.join(ROOT, name), room)
        folder = os.path.join(room, "crates", crate)
        for edit in edits:
            if not apply(edit, folder):
                print("left out, because another edit changes its text: %s" % edit.name)
        ran = subprocess.run(["rt", "check"], cwd=folder, capture_output=True, text=True, errors="replace")
        return (ran.stdout + ran.stderr).split("\n")


def main():
    if not sys.argv[1:]:
        sys.exit("tools/open_goals.py: name a crate")
    crate, names = sys.argv[1], sys.argv[2:]
    chosen = [edit for edit in edits_of(ROOT, crate) if not names or edit.name in names]
    if not chosen:
        sys.exit("tools/open_goals.py: %s has no such edit" % crate)
    for line in checked(crate, chosen):
        for what, form in (("open", OPEN), ("refused by an answer", REFUSED), ("not checked", WAITS)):
            found = form.match(line)
            if found:
                print("%s: %s %s" % (what, found[1], found[2]))


if __name__ == "__main__":
    main()

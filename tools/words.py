#!/usr/bin/env python3
"""Checks the names of the sources, and prints each that breaks a rule; silent, with status 0, where none does.

- No definition of the specifications and no function is named by a bare participle, except the subject's own words (OWN).
- No name stands for two definitions in one crate, or in two crates one of which stands on the other.
- No definition, function or edit that must fail has a word in its name in place of which docs/WORDS.md has another (GONE).
- The label of a clause is one of those that docs/WORDS.md lists, or a word of the clause or of its function's signature, and
  `allocates` is the label of clauses on errors alone."""
import collections
import glob
import os
import re
import sys

import definitions

ROOT = os.path.dirname(os.path.dirname(os.path.abspath(__file__)))
# Nouns and verbs that are spelled like participles, and the subject's own words: what is wanted, what was moved; a look at pages says
# what is seen, and where it is placed.
OWN = set("read run set cut put split let seen placed Wanted Moved Held Refused Given".split())
# Participles that do not end in -ed.
IRREGULAR = set("""begun bound bought broken built caught come dealt done drawn driven fed felt flown found given gone grown hidden kept
    known laid left lent lost made meant met paid put ran run seen sent set shown sold split spoken stolen swept taken thrown told
    torn undone understood unseen withdrawn won written""".split())
# Words of names in place of which others stand.
GONE = set("told tell midway meanwhile flown".split())
# What a clause has that says when memory is allocated.
ERRORS = re.compile(r"\b(?:OnErr|Err|AllocatesOnlyIf|AsksLast)\b")
CLAUSE = re.compile(r"\b(?:ensures|requires) ([a-z_0-9]+) \{")


def is_participle(name):
    """Whether a name is one word that is a participle."""
    word = name.lower()
    return re.fullmatch(r"[A-Z]?[a-z]+", name) and (word in IRREGULAR or re.fullmatch(r"[a-z]{2,}[^e]ed", word)) and name not in OWN


def stands_on():
    """For each crate those that it stands on, itself among them."""
    below = {}
    with open(os.path.join(ROOT, "crates.txt"), encoding="utf-8") as file:
        for line in file:
            head, found, tail = line.split("#")[0].partition(":")
            if found:
                below[head.split()[0]] = tail.split()
    found = {}

    def of(crate):
        if crate not in found:
            found[crate] = {crate}.union(*(of(one) for one in below.get(crate, ())))
        return found[crate]

    return {crate: of(crate) for crate in below}


def all_definitions():
    """Each definition of the specifications: its name, crate and file. Operators are no names."""
    for path in sorted(glob.glob(os.path.join(ROOT, "crates/*/specs/**/*.antt"), recursive=True)):
        for name, _ in definitions.definitions(path):
            if "◌" not in name:
                local = os.path.relpath(path, ROOT)
                yield name, local.split("/")[1], local


def sources():
    """Each file of the sources, with its text."""
    for path in sorted(glob.glob(os.path.join(ROOT, "crates/*/src/**/*.rt"), recursive=True)):
        with open(path, encoding="utf-8") as file:
            yield os.path.relpath(path, ROOT), file.read()


def edits():
    """The path of each edit that must fail."""
    for folder in ("crates/*/must-fail", "tests/edits/*"):
        for path in sorted(glob.glob(os.path.join(ROOT, folder, "*.edit"))):
            yield os.path.relpath(path, ROOT)


def closed(text, start):
    """Where the brace that opens at `start` is closed."""
    depth = 0
    for at in range(start, len(text)):
        depth += {"{": 1, "}": -1}.get(text[at], 0)
        if not depth:
            return at
    return len(text)


def words_of(text):
    """The words that the names in a text are made of, each also without a plural's s."""
    apart = re.sub(r"(?<=[a-z])(?=[A-Z])|(?<=[A-Z])(?=[A-Z][a-z])", " ", text).replace("_", " ").lower()
    found = set(re.findall(r"[a-z0-9]+", apart))
    return found | {word.rstrip("s") for word in found}


def labels_of(text):
    """Each label of a clause, with its function's name, the clause, and the words that the label may be without a list."""
    for found in CLAUSE.finditer(text):
        start = text.rfind("fn ", 0, found.start())
        signature = re.split(r"\b(?:ensures|requires)\b", text[start:found.start()], maxsplit=1)[0]
        clause = text[found.end():closed(text, found.end() - 1)]
        yield found[1], re.match(r"fn (\w+)", text[start:])[1], clause, words_of(signature) | words_of(clause)


def listed_labels():
    """The labels in the table of docs/WORDS.md."""
    with open(os.path.join(ROOT, "docs/WORDS.md"), encoding="utf-8") as file:
        part = file.read().split("## Labels", 1)[1]
    return {name for row in re.findall(r"^\| (.*?) \|", part, re.M) for name in re.findall(r"`([a-z_]+)`", row)}


def main():
    faults = []
    places = collections.defaultdict(set)
    for name, crate, path in all_definitions():
        if is_participle(name):
            faults.append(f"{path}: the definition {name} is named by a participle")
        if words_of(name) & GONE:
            faults.append(f"{path}: the definition {name} has a word in its name in place of which docs/WORDS.md has another")
        places[name].add((crate, path))
    known = listed_labels()
    for path, text in sources():
        for name in re.findall(r"^\s*(?:pub(?:\([a-z]+\))? )?(?:const )?fn ([a-z_0-9]+)", text, re.M):
            if is_participle(name):
                faults.append(f"{path}: the function {name} is named by a participle")
            if words_of(name) & GONE:
                faults.append(f"{path}: the function {name} has a word in its name in place of which docs/WORDS.md has another")
        for label, function, clause, words in labels_of(text):
            if label not in known and not all(part.rstrip("s") in words or part in words for part in label.split("_")):
                faults.append(f"{path}: {function} has the label {label}, which docs/WORDS.md does not list")
            if label == "allocates" and not ERRORS.search(clause):
                faults.append(f"{path}: {function} has a clause allocates that speaks of no error")
    for path in edits():
        if words_of(os.path.basename(path)) & GONE:
            faults.append(f"{path} has a word in its name in place of which docs/WORDS.md has another")
    below = stands_on()
    for name, found in sorted(places.items()):
        found = sorted(found)
        for i, (crate, path) in enumerate(found):
            for other, there in found[i + 1:]:
                if other in below[crate] or crate in below[other]:
                    faults.append(f"{path}: {there} has another {name}")
    print("\n".join(faults), end="\n" if faults else "")
    return 1 if faults else 0


if __name__ == "__main__":
    sys.exit(main())

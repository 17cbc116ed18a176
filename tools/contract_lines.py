#!/usr/bin/env python3
"""Counts the lines of contracts.

    tools/contract_lines.py [-v] [CRATE ..]

For each crate (by default all) it prints how many lines the `requires` and `ensures` of its functions take in src/, those of closures
included, and how many clauses they are. -v prints the same for each function too, the longest first. Comments, blank lines and
tests are not counted."""
import argparse
import collections
import os

from clauses import CLAUSE, FUNCTION, ROOT, closed, sources_at


def lines_of(text):
    """What the contract of each function of a file takes: name to lines and clauses."""
    text = "\n".join(line.split("//")[0] for line in text.split("\n"))
    names = [(found.start(), found[1]) for found in FUNCTION.finditer(text)]
    counts, place = collections.defaultdict(lambda: [0, 0]), 0
    for found in CLAUSE.finditer(text):
        if found.start() < place:
            continue
        place = closed(text, found.end() - 1)
        owner = [name for start, name in names if start < found.start()]
        count = counts[owner[-1] if owner else "-"]
        count[0] += text.count("\n", found.start(), place) + 1
        count[1] += 1
    return counts


def main():
    parser = argparse.ArgumentParser(description=__doc__, formatter_class=argparse.RawDescriptionHelpFormatter)
    parser.add_argument("crates", nargs="*", metavar="CRATE")
    parser.add_argument("-v", "--verbose", action="store_true")
    args = parser.parse_args()
    crates = collections.defaultdict(dict)
    for path, text in sources_at(None):
        crate = path.split(os.sep)[1]
        if not args.crates or crate in args.crates:
            for name, count in lines_of(text).items():
                crates[crate][f"{path.split('/src/')[1]} {name}"] = count
    for crate, counts in sorted(crates.items()):
        print(f"{crate}: {sum(c[0] for c in counts.values())} lines, {sum(c[1] for c in counts.values())} clauses")
        if args.verbose:
            for name, (lines, clauses) in sorted(counts.items(), key=lambda item: -item[1][0]):
                print(f"  {lines:4} lines, {clauses:3} clauses: {name}")


if __name__ == "__main__":
    main()

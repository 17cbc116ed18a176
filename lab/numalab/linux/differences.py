"""The rows that say where the model and Linux answer differently, and the tables of docs/LINUX.md, which are made from them.

A row of differences.json has an id, the table that it is in, the calls that it is about, the situation, what the model answers, what
kernels answer (or what a document says), the reason, and the kernel's functions. What kernels answer goes by the series of Linux from
which on they do; series before the first of these answer as the model does, and so do those after the one that is the row's `until`,
if it has one. Run as a script with the path of the page, this module rewrites its tables."""
import functools
import json
import os
import re
import sys

HERE = os.path.dirname(os.path.abspath(__file__))
# The series whose answers to all scenarios are kept, and all that were asked. A series that was not is expected to answer as the last
# before it that was, and those before all of them as the first.
KERNELS = ("6.1", "6.12")
ASKED = (*KERNELS, "6.16", "6.18", "7.1", "7.3")
MARK = re.compile(r"<!-- differences: (.+) -->\n(?:\|.*\n)*")


def numbers_of(version):
    """A version such as 6.12 as two numbers."""
    first, second = version.split(".")[:2]
    return int(first), int(second)


@functools.lru_cache(maxsize=None)
def rows():
    """All rows, in their order."""
    with open(os.path.join(HERE, "differences.json"), encoding="utf-8") as file:
        return json.load(file)


def row_of(name):
    return next(row for row in rows() if row["id"] == name)


def asked_for(version):
    """The series that was asked and whose rows apply to a version."""
    return max((series for series in ASKED if numbers_of(series) <= numbers_of(version)), key=numbers_of, default=ASKED[0])


def since(row, version):
    """The series from which on kernels answer as a row says of a version, or None where it does not hold of it."""
    asked = numbers_of(asked_for(version))
    if "document" in row["kernels"] or "until" in row and asked > numbers_of(row["until"]):
        return None
    return max((series for series in row["kernels"] if numbers_of(series) <= asked), key=numbers_of, default=None)


@functools.lru_cache(maxsize=None)
def holding(version):
    """The rows that hold of a version, by their names, each with the series from which on kernels answer so."""
    found = {row["id"]: since(row, version) for row in rows()}
    return {name: series for name, series in found.items() if series}


def told_of(row, version):
    """What a row says of a version."""
    return row["kernels"].get("document") or row["kernels"].get(since(row, version)) or "as this model"


def span_of(row):
    """Of which of the series that were asked a row holds."""
    first, last = next(iter(row["kernels"])), row.get("until")
    if last is None:
        return "all" if first == ASKED[0] else f"from {first} on"
    return first if first == last else f"{first} to {last}"


def told(row):
    """What a row says of kernels, all together."""
    (_, first), *more = row["kernels"].items()
    return "; ".join([first, *(f"from {series} on {answer}" for series, answer in more)])


def table_text(name, found):
    """A table of the page."""
    table = [row for row in found if row["table"] == name]
    if not table:
        raise ValueError(f"the table {name} has no rows")
    document = any("document" in row["kernels"] for row in table)
    heads = ["Linux, by that document"] if document else ["Linux", "Series"]
    lines = [["Situation", "This model", *heads, "Why"], ["---"] * (len(heads) + 3)]
    lines += [[row["situation"], row["model"], told(row), *([] if document else [span_of(row)]), row["reason"]] for row in table]
    return "".join("|" + "|".join(cells_of_line(line)) + "|\n" for line in lines)


def cells_of_line(line):
    """Cells as they are between bars."""
    return line if line[0] == "---" else [f" {cell} " if cell else " " for cell in line]


def page_with_tables(page, found=None):
    """The text of the page with the table after each mark written anew."""
    found = rows() if found is None else found
    return MARK.sub(lambda match: f"<!-- differences: {match[1]} -->\n{table_text(match[1], found)}", page)


def main(path):
    with open(path, encoding="utf-8") as file:
        page = file.read()
    with open(path, "w", encoding="utf-8") as file:
        file.write(page_with_tables(page))


if __name__ == "__main__":
    main(*sys.argv[1:])

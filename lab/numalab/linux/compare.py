"""A report of the program and one of a kernel, step by step: the same, different as a row of differences.json says, or different.

A difference is one that rows explain where the plain model with the rules of these rows gives the kernel's line."""
import re
from collections import namedtuple

from .differences import asked_for, row_of, told_of
from .kernel import BOTH
from .replayed import by_step, frames_apart
from .worlds import Prediction, given

SAME, EXPLAINED, OTHER = "same", "differs", "DIFFERS"
# A step's number, how it compares, the rows that explain it, and the lines of the model, of the kernel, and of the rules.
Compared = namedtuple("Compared", "step kind rows model kernel expected")


def version_in(release):
    """The version in a release, such as 6.12."""
    found = re.match(r"\d+\.\d+", release)
    return found[0] if found else "0.0"


def rules_for(release):
    """The series whose rows apply to a release, and what there is to say about that."""
    name = asked_for(version_in(release))
    return name, "" if version_in(release) == name else f"there are no rows for Linux {release}: those of {name} are used"


def compared(top, report, replayed, privilege=BOTH):
    """Each step of a trace with the lines of the program's report and those of a replay."""
    own = [frames_apart(top, lines) for lines in by_step(report.decode().split("\n")[:-1], "the report")]
    prediction, last, found = Prediction(top, version_in(replayed.release), privilege), [], []
    for k, step in enumerate(top["steps"]):
        one, told = prediction.give(step), replayed.steps[k] if k < len(replayed.steps) else ["(nothing)"]
        rows = prediction.settle(told)
        last = rows or one.rows or last
        if told == own[k]:
            found.append(Compared(k, SAME, [], own[k], told, one.lines))
        elif rows is not None and last:
            found.append(Compared(k, EXPLAINED, last, own[k], told, one.lines))
        elif k in replayed.compacted:
            found.append(Compared(k, EXPLAINED, ["vmstat-compaction"], own[k], told, one.lines))
        else:
            found.append(Compared(k, OTHER, [], own[k], told, one.lines))
    return found


def words_of_row(name, version):
    """A row as text."""
    row = row_of(name)
    return f"{name}: {row['situation']}. This model: {row['model']}. Linux {version}: {told_of(row, version)}. Reason: {row['reason'] or 'none on record'}."


def lines_of(found, release):
    """What a comparison says, step by step, with each row once at the end."""
    version, note = rules_for(release)
    kernel, named = f"Linux {version_in(release)}", []
    if note:
        yield note
    for one in found:
        op = one.model[0].split(" ")[1]
        if one.kind == SAME:
            yield f"{one.step:6}  {op:14} same"
            continue
        as_rows = f"differs as documented: {', '.join(one.rows)}" if one.kind == EXPLAINED else "DIFFERS"
        yield f"{one.step:6}  {op:14} {as_rows}"
        for who, lines in [("this model", one.model), (kernel, one.kernel), *([("expected", one.expected)] if one.kind == OTHER else [])]:
            yield from (f"          {who + ':' if place == 0 else '':12} {line}" for place, line in enumerate(lines))
        named += [row for row in one.rows if row not in named]
    for name in named:
        yield words_of_row(name, version)


def tally(found):
    """How many steps compare in each way."""
    kinds = [one.kind for one in found]
    return {kind: kinds.count(kind) for kind in (SAME, EXPLAINED, OTHER)}


def worst(found):
    """How a whole trace compares."""
    kinds = {one.kind for one in found}
    return OTHER if OTHER in kinds else EXPLAINED if EXPLAINED in kinds else SAME


# Where a kernel is expected to answer a step differently: its lines, the rows, and both as text.
Parting = namedtuple("Parting", "lines rows texts")


def partings(top, report, version, privilege=BOTH):
    """By step, where a kernel is expected to differ from the model. For a trace with accesses in flight nothing is expected."""
    if any(step.get("during") for step in top["steps"]):
        return {}
    own = [frames_apart(top, lines) for lines in by_step(report.decode().split("\n")[:-1], "the report")]
    found, last = {}, []
    for k, one in enumerate(given(top, version, privilege)):
        last, lines = one.rows or last, [str(line) for line in one.lines]
        if lines != own[k]:
            reasons = [f"           {name}: {row_of(name)['reason'] or 'no reason is on record'}" for name in one.rows] or [
                f"           after {', '.join(last)}"]
            texts = [f"           on Linux {version}: {lines[0].split(' ', 2)[2]}", *(f"             {line}" for line in lines[1:]), *reasons]
            found[k] = Parting(lines, one.rows or last, texts)
    return found

"""How traces compare with a kernel's answers, as text, TAP, JUnit's XML or JSON."""
import json
import os
from collections import namedtuple
from xml.sax.saxutils import escape, quoteattr

from ..words import printable
from .compare import EXPLAINED, OTHER, SAME, lines_of, tally, worst

SKIPPED, STOPPED = "skipped", "stopped"
# A trace, the kernel's release, how its steps compare, and why there are none: no kernel can be made to play it, or a guest ended early.
Outcome = namedtuple("Outcome", "name release steps trouble skipped")


def kind_of(outcome):
    """same, differs, DIFFERS, skipped or stopped."""
    if outcome.trouble:
        return SKIPPED if outcome.skipped else STOPPED
    return worst(outcome.steps)


def fails(outcomes):
    return any(kind_of(one) in (OTHER, STOPPED) for one in outcomes)


def short(outcome):
    return os.path.basename(outcome.name)


def rows_of(outcome):
    """The rows that explain differences, each once."""
    rows = []
    for step in outcome.steps:
        rows += [row for row in step.rows if row not in rows]
    return rows


def unexplained(outcome):
    """The lines about the steps that differ without a reason."""
    return list(lines_of([one for one in outcome.steps if one.kind == OTHER], outcome.release))


def about(outcome):
    """What is said of a trace, in lines."""
    kind = kind_of(outcome)
    if outcome.trouble:
        return printable_lines(outcome.trouble)
    if kind == OTHER:
        return [line for one in unexplained(outcome) for line in printable_lines(one)]
    return [f"differs as documented: {', '.join(rows_of(outcome))}"] if kind == EXPLAINED else []


def printable_lines(text):
    return [printable(line) for line in text.split("\n")]


def by_release(outcomes):
    found = {}
    for one in outcomes:
        found.setdefault(one.release, []).append(one)
    return found


def text_of(outcomes, brief=False):
    """A line for each trace, or only for those that fail, with what is said of it; and the tallies of each kernel."""
    lines = []
    for one in outcomes:
        kind = kind_of(one)
        if kind in (OTHER, STOPPED) or not brief:
            lines += [f"{printable(short(one))} on Linux {one.release}: {kind}", *("  " + line for line in about(one))]
    for release, some in by_release(outcomes).items():
        version, kinds = ".".join(release.split(".")[:2]), [kind_of(one) for one in some]
        for what, counts in [("scenarios" if brief else "traces", [kinds.count(kind) for kind in (SAME, EXPLAINED, OTHER)]),
                             ("steps", [sum(tally(one.steps)[kind] for one in some) for kind in (SAME, EXPLAINED, OTHER)])]:
            same, explained, other = counts
            lines.append(f"Linux {version}: {sum(counts)} {what}: {same} the same, {explained} different as documented, {other} DIFFERENT")
        left = [f"{kinds.count(kind)} {kind}" for kind in (SKIPPED, STOPPED) if kind in kinds]
        lines += [f"Linux {version}: {', '.join(left)}"] if left else []
    return "".join(line + "\n" for line in lines)


def tap_of(outcomes):
    lines = ["TAP version 13", f"1..{len(outcomes)}"]
    for number, one in enumerate(outcomes, 1):
        kind, name = kind_of(one), f"{printable(short(one))} on Linux {one.release}".replace("#", "\\#")
        if kind == SKIPPED:
            lines.append(f"ok {number} - {name} # SKIP {' '.join(about(one))}")
            continue
        lines += [f"{'not ok' if kind in (OTHER, STOPPED) else 'ok'} {number} - {name}", *(f"# {line}" for line in about(one))]
    return "".join(line + "\n" for line in lines)


def junit_of(outcomes):
    lines = ['<?xml version="1.0" encoding="UTF-8"?>', "<testsuites>"]
    for release, some in by_release(outcomes).items():
        kinds = [kind_of(one) for one in some]
        lines.append(f'  <testsuite name={quoteattr(f"numalab compare on Linux {release}")} tests="{len(some)}" failures="{kinds.count(OTHER)}" '
                     f'errors="{kinds.count(STOPPED)}" skipped="{kinds.count(SKIPPED)}">')
        for one, kind in zip(some, kinds):
            head, told = f"    <testcase name={quoteattr(printable(short(one)))} classname={quoteattr(f'Linux {release}')}", "\n".join(about(one))
            tag = {OTHER: "failure", STOPPED: "error", SKIPPED: "skipped", EXPLAINED: "system-out"}.get(kind)
            message = f" message={quoteattr(told.split(chr(10))[0])}" if tag not in (None, "system-out") else ""
            lines.append(f"{head}/>" if tag is None else f"{head}><{tag}{message}>{escape(told)}</{tag}></testcase>")
        lines.append("  </testsuite>")
    return "\n".join([*lines, "</testsuites>"]) + "\n"


def json_of(outcomes):
    def step(one):
        head = {"step": one.step, "op": one.model[0].split(" ")[1], "result": one.kind}
        more = {"rows": one.rows, "model": one.model, "kernel": one.kernel, **({"expected": one.expected} if one.kind == OTHER else {})}
        return head if one.kind == SAME else {**head, **more}

    found = [{"trace": one.name, "linux": one.release, "result": kind_of(one), **({"why": one.trouble} if one.trouble else {}),
              "steps": [step(each) for each in one.steps]} for one in outcomes]
    return json.dumps(found, indent=1) + "\n"


FORMS = {"tap": tap_of, "junit": junit_of, "json": json_of}

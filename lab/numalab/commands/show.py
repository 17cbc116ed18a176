"""Shows each step of a trace and its answer side by side, addresses in hexadecimal and statuses with their names.

The report is the program's, which plays the trace, or the one that is named after the trace. With --why each status, access,
refusal and new page has its reason. Reasons come from a plain model of the machine, which is not proved; they are printed only
where the model's whole report is the one that is shown, and otherwise the status is 1. With --kernel as well, each step that a
kernel is expected to answer differently has its answer and the row of docs/LINUX.md that says why."""
import json
import sys

from ..answers import answer_of
from ..inputs import inputs_of, lines_of, out_for, with_report
from ..linux.compare import partings
from ..linux.differences import ASKED
from ..progress import Progress
from ..reasons import explained
from ..table import Table
from ..traces import Bad, opened

SUMMARY = "show steps and answers side by side, and why"


def arguments(words):
    words.add_argument("files", metavar="FILE", nargs="+", help="traces, .json or .nt, each followed by its report or not; - is standard input")
    words.add_argument("--why", action="store_true", help="say which rule decided each answer, and from what")
    words.add_argument("--kernel", metavar="VERSION", choices=ASKED, help=f"with --why, also show where Linux {', '.join(ASKED)} differs from the model")
    words.add_argument("--all", action="store_true", help="show all rows of a pagemap, not only 64")
    words.add_argument("--jsonl", action="store_true", help="print a JSON object for each step; so does an OUT that ends in .jsonl")
    words.add_argument("-o", metavar="OUT", dest="out", help="a file, or a folder; standard output if none is named")
    words.add_argument("--program", metavar="PATH", help="the path of the program numatrace")


def reasons_of(one):
    """For each step its reasons; None where the model's report differs."""
    found, lines, trace, data = [], [], one.trace, one.data
    with Progress("the model plays step") as progress:
        for played_lines, reasons in explained(trace.top, progress):
            lines += played_lines
            found.append(reasons)
    own = "".join(line + "\n" for line in lines).encode()
    if own == data or data and data.endswith(b"\n") and own.startswith(data):
        return found
    other = next(k for k, pair in enumerate(zip(own.split(b"\n"), data.split(b"\n"))) if pair[0] != pair[1])
    print(f"numalab: {one.name}: line {other + 1} of the plain model's report differs, so no reasons are given", file=sys.stderr)
    return None


def about_object(about):
    """What a reason is about: an entry, an access in flight, or the step."""
    return {} if about is None else {"entry": about} if isinstance(about, int) else {"access": int(about)}


def objects(trace, lines, reasons, parted):
    """Each step as a JSON object."""
    for k, line in enumerate(lines):
        step = trace.steps[k]
        told = {"step": k, "op": line.op, "arguments": {key: value for key, value in step.items() if key not in ("op", "at", "note", "name")}}
        if "at" in step:
            told["at"] = step["at"]
        told["answer"] = answer_of(line).as_object()
        for key in ("name", "note"):
            if key in step:
                told[key] = step[key]
        if reasons:
            told["why"] = [{**about_object(reason.about), "reason": reason.text} for reason in reasons[k]]
        if k in parted:
            told["kernel"] = {"lines": parted[k].lines, "rows": parted[k].rows}
        yield json.dumps(told, separators=(",", ":"))


def rows(trace, lines, reasons, parted, all_rows):
    for group, told in Table(trace.top, all_rows).groups(lines, reasons):
        yield from told
        for k in group:
            yield from parted[k].texts if k in parted else ()


def show(one, asked, file, jsonl):
    """Shows a trace and its report; returns the status."""
    lines = lines_of(one)
    reasons = reasons_of(one) if asked.why else None
    parted = partings(one.trace.top, one.data, asked.kernel) if asked.kernel and reasons is not None else {}
    told = objects(one.trace, lines, reasons, parted) if jsonl else rows(one.trace, lines, reasons, parted, asked.all)
    with Progress("row") as progress:
        for k, row in enumerate(told):
            file.write(row + "\n")
            if k % 256 == 0:
                progress.at(k, len(lines))
    return 1 if asked.why and reasons is None else 0


def run(asked):
    if asked.kernel and not asked.why:
        raise Bad("--kernel needs --why")
    found, status = inputs_of(asked.files), 0
    for one in found:
        if one.trace is None:
            raise Bad(f"{one.name}: a report can only be shown with its trace")
        jsonl = asked.jsonl or (asked.out or "").endswith(".jsonl")
        out = out_for(asked.out, one.trace.name, ".jsonl" if jsonl else ".txt", len(found) > 1 and asked.out is not None)
        one = with_report(one, asked.program)
        with opened(out) as file:
            if len(found) > 1 and not jsonl and out is None:
                file.write(f"{one.trace.name}:\n")
            status = max(status, show(one, asked, file, jsonl))
    return status

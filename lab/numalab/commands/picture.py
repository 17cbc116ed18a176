"""Draws where pages are: an SVG of the moments at which a trace looks, or with --html a page with a slider over all steps, which
needs no network.

FILE is a trace (.json, or .nt in the notation), which the program plays, or a report; a report named next to a trace is taken as
that trace's. From a report alone neither nodes nor processes are known. The output for several files goes to a folder. What the
page shows between two looks comes from a plain model of the machine, which is not proved; where the model's report differs there
is no page, and the status is 1."""
import argparse
import os
import re
import sys

from ..drawing import picture_of
from ..film import Differs
from ..inputs import inputs_of, lines_of, out_for, with_report
from ..page import page_of
from ..progress import Progress
from ..traces import Bad, write_file
from ..words import printable

SUMMARY = "draw where pages are, as SVG or as a page with a slider"


def step_range(text):
    """A range of steps, such as 5-20."""
    match = re.fullmatch("([0-9]{1,20})-([0-9]{1,20})", text)
    if not match:
        raise argparse.ArgumentTypeError("expected the numbers of two steps, such as 5-20")
    return int(match[1]), int(match[2])


def arguments(words):
    words.add_argument("files", metavar="FILE", nargs="+", help="traces and reports; - is standard input")
    words.add_argument("--html", action="store_true", help="make a page with a slider; so does an OUT that ends in .html")
    words.add_argument("--steps", metavar="A-B", type=step_range, help="draw only the steps from A to B, or the moments that look at one of them")
    words.add_argument("-o", metavar="OUT", dest="out", help="a file, .svg or .html, or a folder; standard output if none is named")
    words.add_argument("--program", metavar="PATH", help="the path of the program numatrace")


def page(one, asked):
    """The page for a trace and its report."""
    if one.trace is None:
        raise Bad(f"{one.name}: a page with a slider needs the trace")
    lines = lines_of(one)
    if asked.steps and not asked.steps[0] <= asked.steps[1] < len(lines):
        raise Bad(f"{one.name}: the report has the steps 0 to {len(lines) - 1}")
    with Progress("the model plays step") as progress:
        return page_of(printable(os.path.basename(one.trace.name)), one.trace.top, lines, asked.steps, progress)


def run(asked):
    found = inputs_of(asked.files)
    for one in found:
        html = asked.html or (asked.out or "").endswith((".html", ".htm"))
        out = out_for(asked.out, one.trace.name if one.trace else one.name, ".html" if html else ".svg", len(found) > 1)
        one = with_report(one, asked.program)
        try:
            write_file(out, page(one, asked) if html else picture_of(one.data, one.name, one.trace and one.trace.top, asked.steps))
        except Differs as differs:
            print(f"numalab: {one.name}: the plain model's answer to step {differs} differs from the report's, so there is no page", file=sys.stderr)
            return 1
    return 0

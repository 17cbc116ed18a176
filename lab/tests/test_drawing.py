"""What is drawn of reports, with and without their traces; that nothing overlaps or leaves the picture; that lab/docs/ has the
picture that is drawn now; and what is said of bad input."""
import glob
import json
import os
import re
import tempfile
import unittest
import xml.etree.ElementTree as ElementTree
from collections import Counter, namedtuple

from support import ROOT, fail, run
from numalab import drawing
from numalab.commands import picture
from numalab.traces import Bad, read_file, trace_of

NO_SQUARES = ("zeros", "flight", "counted")
SHOWN = "lab/docs/chain_of_nodes.svg", "examples/chain_of_nodes"
Box = namedtuple("Box", "left top right bottom")
Square = namedtuple("Square", "box kind tip")

# Reports written by hand, each with whether its trace is given, and the squares of its picture: column by column, by frame.
TWO_NODES = '{"version":1,"machine":{"nodes":[2,3],"distance":[[10,20],[20,10]]},"steps":[%s]}'
SPAWN = '{"op":"spawn","pid":%d,"uid":1,"home":0,"allowed":[0]}'
LOOKS = '{"op":"free","node":0},{"op":"free","node":1},{"op":"pagemap","pid":7},{"op":"pagemap","pid":8}'
DRAWN = [
    # A list makes the other frames of its node not free; a page of two processes; the page of zeros is no frame.
    ("0 free 1: 1\n1 free 2: 4 2\n2 pagemap 2: 00010000=3 00011000=zero\n3 pagemap 1: 7fffffffe000=3\n", LOOKS, [
        "taken frame 0: not free; no pagemap line here shows its page",
        "free frame 1: free, number 1 of its node's list",
        "free frame 2: free, number 2 of its node's list",
        "held frame 3: page 10 of process 7, page 7fffffffe of process 8",
        "free frame 4: free, number 1 of its node's list"]),
    # The same without the trace: frame 0 is not named, and frame 1 may be on the node of the others.
    ("0 free 1: 1\n1 free 2: 4 2\n2 pagemap 2: 00010000=3 00011000=zero\n3 pagemap 1: 7fffffffe000=3\n", None, [
        "free frame 1: free, number 1 of its node's list",
        "free frame 2: free, number 2 of its node's list",
        "held frame 3: page 10 of the process of step 2, page 7fffffffe of the process of step 3",
        "free frame 4: free, number 1 of its node's list"]),
    # A pagemap line alone shows its frames; nothing is carried from one column to the next.
    ("0 pagemap 1: 00010000=0\n1 write ok\n2 free 0:\n",
     '{"op":"pagemap","pid":7},{"op":"write","pid":7,"addr":0,"data":"61"},{"op":"free","node":0}', [
         "held frame 0: page 10 of process 7", "unknown frame 1: not known", "nothing",
         "taken frame 0: not free; no pagemap line here shows its page",
         "taken frame 1: not free; no pagemap line here shows its page", "nothing"]),
    # Looks, refusals and new areas do not end a moment; mbind's EIO does.
    ("0 free 2: 0 1\n1 map segment=0\n2 write error EFAULT\n3 vmstat pgmigrate_success 0 pgmigrate_fail 0\n4 free 3: 2 3 4\n"
     "5 mbind error EINVAL\n6 numa_maps 1\n00010000 default\n7 query 0: -2\n8 free 2: 0 1\n9 mbind error EIO\n10 free 2: 1 0\n", None, [
         "free frame 0: free, number 1 of its node's list", "free frame 1: free, number 2 of its node's list",
         "free frame 2: free, number 1 of its node's list", "free frame 3: free, number 2 of its node's list",
         "free frame 4: free, number 3 of its node's list",
         "free frame 0: free, number 2 of its node's list", "free frame 1: free, number 1 of its node's list", "nothing"]),
    # Lines of accesses in flight belong to their batch, and do not end a moment by themselves.
    ("0 free 2: 0 1\n1 move_pages 0: 1\n1.0 read held\n1.1 write ok\n1.2 read 0aff\n1.3 write error ENOMEM\n2 free 2: 1 0\n",
     '{"op":"free","node":0},{"op":"move_pages","caller":1,"pid":0,"pages":[0],"nodes":[1],"flags":2,"during":['
     '{"run":0,"op":"read","pid":1,"addr":0,"len":1},{"run":0,"op":"write","pid":1,"addr":0,"data":"61"},'
     '{"run":0,"op":"read","pid":1,"addr":0,"len":2},{"run":0,"op":"write","pid":1,"addr":0,"data":"61"}]},{"op":"free","node":0}', [
         "free frame 0: free, number 1 of its node's list", "free frame 1: free, number 2 of its node's list", "nothing",
         "free frame 0: free, number 2 of its node's list", "free frame 1: free, number 1 of its node's list", "nothing"]),
    # A page's number is in its square where there is room for it.
    ("0 pagemap 1: 7fffffffe000=16383\n", None, ["held frame 16383: page 7fffffffe of the process of step 0"]),
    # A refused look shows nothing.
    ("0 free error EINVAL\n1 pagemap error ESRCH\n", None, []),
    ("", None, []),
]

# What is not a report, and what is said of it.
BAD = [
    ("0 free 1: 1", "the last line has no line feed: the report was cut off"),
    ("1 free 1: 1\n", "line 1: expected the line of step 0"),
    ("00 free 1: 1\n", "line 1: expected the line of step 0"),
    ("0 free 1: 1\n0 free 1: 1\n", "line 2: expected the line of step 1"),
    ("0 fork ok\n", "line 1: expected the line of step 0"),
    ("0 spawn ok\r\n1 fork\r\n", "line 2: expected the line of step 1"),
    ("\n", "line 1: expected the line of step 0"),
    ("{\"version\":1}\n", "line 1: expected the line of step 0"),
    ("0 numa_maps 2\n00010000 default\n", "1 line of numa_maps is missing: the report was cut off"),
    ("0 numa_maps 9\n00010000 default\n", "8 lines of numa_maps are missing: the report was cut off"),
    ("0 numa_maps x\n", "line 1: expected a number of areas"),
    ("0 free 2: 1\n", "line 1: expected a list after the count of its items"),
    ("0 free 1:1\n", "line 1: expected a list after the count of its items"),
    ("0 free 1: 1 \n", "line 1: expected a list after the count of its items"),
    ("0 free ok\n", "line 1: expected a list after the count of its items"),
    ("0 free 1: 01\n", "line 1: 01 is not an item of this list"),
    ("0 free 1: 16384\n", "line 1: 16384 is not an item of this list"),
    ("0 free 1: zero\n", "line 1: zero is not an item of this list"),
    ("0 free 2: 3 3\n", "line 1: frame 3 occurs twice"),
    ("0 free 1: 3\n1 free 2: 4 3\n", "line 2: frame 3 occurs twice"),
    ("0 pagemap 1: 10000=1\n", "line 1: 10000=1 is not an item of this list"),
    ("0 pagemap 1: 00010000=99999\n", "line 1: 00010000=99999 is not an item of this list"),
    ("0 pagemap 1: 00010001=1\n", "line 1: 00010001=1 is not an item of this list"),
    ("0 pagemap 1: 0001000A=1\n", "line 1: 0001000A=1 is not an item of this list"),
    ("0 pagemap 2: 00011000=1 00010000=2\n", "line 1: the entries are not in ascending order"),
    ("0 pagemap 2: 00010000=1 00010000=2\n", "line 1: the entries are not in ascending order"),
    ("0 free 1: 3\n1 pagemap 1: 00010000=3\n", "steps 0 to 1: frame 3 is both free and held"),
    ("0.0 read held\n", "line 1: expected the line of step 0"),
    ("0 read 61\n0.0 read held\n", "line 2: expected the line of step 1"),
    ("0 migrate_pages 0\n0.0 read held\n", "line 2: expected the line of step 1"),
    ("0 move_pages error ENODEV\n0.0 read held\n", "line 2: expected the line of step 1"),
    ("0 move_pages 0: 1\n1.0 read held\n", "line 2: expected the line of step 1"),
    ("0 move_pages 0: 1\n0.1 read held\n", "line 2: expected the line of step 1"),
    ("0 move_pages 0: 1\n0.00 read held\n", "line 2: expected the line of step 1"),
    ("0 move_pages 0: 1\n0.0 read held\n0.0 read held\n", "line 3: expected the line of step 1"),
    ("0 move_pages 0: 1\n0.0 read held\n0.2 read held\n", "line 3: expected the line of step 1"),
    ("0 move_pages 0: 1\n0.0 read held\n1 vmstat x\n0.1 read held\n", "line 4: expected the line of step 2"),
    ("0 move_pages 0: 1\n0.0 read ok\n", "line 2: expected the line of step 1"),
    ("0 move_pages 0: 1\n0.0 read 6\n", "line 2: expected the line of step 1"),
    ("0 move_pages 0: 1\n0.0 read 6A\n", "line 2: expected the line of step 1"),
    ("0 move_pages 0: 1\n0.0 read \n", "line 2: expected the line of step 1"),
    ("0 move_pages 0: 1\n0.0 write 61\n", "line 2: expected the line of step 1"),
    ("0 move_pages 0: 1\n0.0 write held \n", "line 2: expected the line of step 1"),
    ("0 move_pages 0: 1\n0.0 pin ok\n", "line 2: expected the line of step 1"),
    ("0 move_pages 0: 1\n0.0 write error\n", "line 2: expected the line of step 1"),
]

FLIGHT = ('{"op":"move_pages","caller":1,"pid":0,"pages":[0],"nodes":[1],"flags":2,"during":[{"run":0,"op":"read","pid":1,"addr":0,"len":1},'
          '{"run":0,"op":"write","pid":1,"addr":0,"data":"61"}]}')
OTHERS = "line 1: the trace has different accesses in flight in step 0"

# Reports that are not of the trace beside them.
OTHER = [
    ("0 free 1: 1\n", '{"op":"pagemap","pid":1}', "line 1: the trace has a different step 0"),
    ("0 free 1: 1\n1 free 0:\n", '{"op":"free","node":0}', "line 2: the trace has a different step 1"),
    ("0 free 1: 1\n", '{"op":"free","node":1}', "line 1: frame 1 is not on node 1 of the trace"),
    ("0 free 1: 1\n", '{"op":"free","node":64}', "line 1: node 64 is not in the trace"),
    ("0 free 0:\n", '{"op":"free","node":2}', "line 1: node 2 is not in the trace"),
    ("0 pagemap 1: 00010000=5\n", '{"op":"pagemap","pid":1}', "line 1: frame 5 is not in the trace"),
    ("0 move_pages 0: 1\n0.0 write held\n", FLIGHT, OTHERS),
    ("0 move_pages 0: 1\n0.0 read held\n0.1 read held\n", FLIGHT, OTHERS),
    ("0 move_pages 0: 1\n0.0 read held\n0.1 write held\n0.2 write held\n", FLIGHT, OTHERS),
    ("0 move_pages 0: 1\n0.0 read held\n1 vmstat x\n", FLIGHT + ',{"op":"vmstat"}', OTHERS),
    ("0 move_pages 0: 1\n1 vmstat x\n", FLIGHT + ',{"op":"vmstat"}', OTHERS),
    ("0 move_pages 0: 1\n0.0 read held\n", FLIGHT.replace("during", "later"), OTHERS),
    ("0 free 0:\n", '{"op":"free"}', "TRACE: bad step 0: free: node is missing: expected a whole number from 0 to 4,294,967,295, "
     "in digits only"),
]


def picture_of(report, trace=None, steps=None):
    """The SVG of the report at a path, with the trace at another and a range of steps."""
    top = trace and trace_of(trace, read_file(trace)).check().top
    return drawing.picture_of(read_file(report), report, top, steps and picture.step_range(steps))


# ---- what a picture shows


def attribute(element, name):
    return float(element.get(name, "0"))


def box_of_rect(element):
    left, top = attribute(element, "x"), attribute(element, "y")
    return Box(left, top, left + attribute(element, "width"), top + attribute(element, "height"))


def box_of_text(element):
    """Room for a text: letters of this font are some 0.6 of its size wide."""
    size, x, y = attribute(element, "font-size"), attribute(element, "x"), attribute(element, "y")
    width = 0.6 * size * len(element.text)
    left = x - {"start": 0, "middle": width / 2, "end": width}[element.get("text-anchor")]
    return Box(left, y - 0.75 * size, left + width, y + 0.2 * size)


def named(element, name):
    return element.tag == "{http://www.w3.org/2000/svg}" + name


def squares_of(svg):
    """The squares of frames, and the boxes of which nothing is known."""
    groups = [element for element in svg if named(element, "g") and element.get("class") not in NO_SQUARES]
    boxes = [box_of_rect([part for part in group if named(part, "rect")][-1]) for group in groups]
    return [Square(box, group.get("class"), "" if named(group[0], "rect") else group[0].text) for box, group in zip(boxes, groups)]


def in_columns(squares):
    """The squares column by column, and in each by frame: a gap separates the squares of a column from those of others."""
    columns = []
    for square in sorted(squares, key=lambda square: square.box.left):
        if not columns or square.box.left > max(other.box.right for other in columns[-1]) + drawing.GAP / 2:
            columns.append([])
        columns[-1].append(square)
    return [square for column in columns for square in sorted(column, key=lambda square: (square.box.top, square.box.left))]


def check_apart(what, boxes):
    """No two boxes overlap. Each is put into the fields of a grid that it touches, and compared with those that are there."""
    fields = {}
    for box in boxes:
        across, down = range(int(box.left) // 40, int(box.right) // 40 + 1), range(int(box.top) // 40, int(box.bottom) // 40 + 1)
        met = {(x, y) for x in across for y in down}
        for other in {other for field in met for other in fields.get(field, ())}:
            both = Box(max(box.left, other.left), max(box.top, other.top), min(box.right, other.right), min(box.bottom, other.bottom))
            if both.right - both.left > 0.01 and both.bottom - both.top > 0.01:
                fail(f"{what}: {box} and {other} overlap")
        for field in met:
            fields.setdefault(field, []).append(box)


def check_geometry(what, svg):
    """Everything is inside the view box; no texts overlap, no squares overlap, and no other text is on a square."""
    width, height = (float(number) for number in svg.get("viewBox").split()[2:])
    texts = [box_of_text(element) for element in svg.iter() if named(element, "text")]
    free_texts = [box_of_text(element) for element in svg if named(element, "text")]
    squares = [square.box for square in squares_of(svg)]
    for box in texts + [box_of_rect(element) for element in svg.iter() if named(element, "rect")]:
        if box.left < 0 or box.top < 0 or box.right > width or box.bottom > height:
            fail(f"{what}: {box} is not inside {width} by {height}")
    check_apart(what, texts)
    check_apart(what, squares + free_texts)
    for group in svg:
        if named(group, "g") and group.get("class") not in NO_SQUARES:
            around = box_of_rect([part for part in group if named(part, "rect")][-1])
            for box in [box_of_text(part) for part in group if named(part, "text")]:
                if box.left < around.left or box.right > around.right or box.top < around.top or box.bottom > around.bottom:
                    fail(f"{what}: the text of {around} leaves it")


# ---- the checks


def written(there, name, text):
    path = os.path.join(there, name)
    with open(path, "w", encoding="utf-8") as file:
        file.write(text)
    return path


def check_drawn(there):
    for text, steps, wanted in DRAWN:
        report = written(there, "some.report", text)
        trace = written(there, "some.json", TWO_NODES % steps) if steps is not None else None
        svg = ElementTree.fromstring(picture_of(report, trace))
        check_geometry(text, svg)
        told = [f"{square.kind} {square.tip}".strip() for square in in_columns(squares_of(svg))]
        if told != wanted:
            fail(f"the picture of {text!r} is\n  {told}\nand not\n  {wanted}")
        words = " ".join(element.text for element in svg if named(element, "text"))
        if ("where pages are is not known" in words) != (not wanted):
            fail(f"of {text!r} is written {words}")


def told_by(path):
    """How often a report says of a frame what a square says of it, counted only from its lines: each moment counts a free
    frame, or a page of a frame, once."""
    found, moment = Counter(), set()
    with open(path, encoding="utf-8") as file:
        for line in file.read().split("\n"):
            k, op, answer = (line.split(" ", 2) + ["", "", ""])[:3]
            changes = op in ("unmap", "exit", "read", "write", "move_pages", "migrate_pages", "offline") and "error" not in answer
            if changes or (op, answer) == ("offline", "error EBUSY") or op == "mbind" and ("error" not in answer or answer == "error EIO"):
                found.update(moment)
                moment = set()
            if op == "free" and "error" not in answer:
                moment |= {("free", int(frame), place) for place, frame in enumerate(answer.split()[1:], 1)}
            if op == "pagemap" and "error" not in answer:
                entries = [entry.split("=") for entry in answer.split()[1:]]
                moment |= {("held", int(frame), int(address, 16) // 4096, int(k)) for address, frame in entries if frame != "zero"}
    found.update(moment)
    return found


def shown_by(svg):
    """The same, from the squares of a picture that was drawn without a trace."""
    found = Counter()
    for square in squares_of(svg):
        if square.kind == "free":
            frame, place = re.fullmatch(r"frame (\d+): free, number (\d+) of its node's list", square.tip).groups()
            found[("free", int(frame), int(place))] += 1
        if square.kind == "held":
            frame, pages = square.tip.split(": ")
            for page in pages.split(", "):
                number, step = re.fullmatch(r"page ([0-9a-f]+) of the process of step (\d+)", page).groups()
                found[("held", int(frame.removeprefix("frame ")), int(number, 16), int(step))] += 1
    return found


def check_reports():
    """Each report of the repository is drawn as it says, with and without its trace."""
    for path in sorted(glob.glob(os.path.join(ROOT, "examples/*.report")) + glob.glob(os.path.join(ROOT, "tests/traces/*.report"))):
        trace = path.removesuffix(".report") + ".json"
        plain, full = (ElementTree.fromstring(picture_of(path, given)) for given in (None, trace))
        check_geometry(path, plain)
        check_geometry(path + " with its trace", full)
        if shown_by(plain) != told_by(path):
            fail(f"{path} is not drawn as it says")
        kinds = [Counter(square.kind for square in squares_of(svg)) for svg in (plain, full)]
        kinds[1]["free"] += kinds[1]["offline"]
        if any(kinds[0][kind] != kinds[1][kind] for kind in ("free", "held")) or kinds[0]["taken"]:
            fail(f"{path} shows different frames with its trace: {kinds}")


def large(nodes, frames, processes):
    """A report and a trace in which frame f is free where f mod (processes + 1) is 0, and else held by process f mod (processes + 1)."""
    lines, steps = [], []
    for node in range(nodes - 1):
        free = [frame for frame in range(node * frames, (node + 1) * frames) if frame % (processes + 1) == 0]
        lines.append(f"{len(steps)} free {len(free)}:" + "".join(f" {frame}" for frame in free))
        steps.append({"op": "free", "node": node})
    for process in range(1, processes + 1):
        held = range(process, nodes * frames, processes + 1)
        lines.append(f"{len(steps)} pagemap {len(held)}:" + "".join(f" {(16 + at) << 12:08x}={frame}" for at, frame in enumerate(held)))
        steps.append({"op": "pagemap", "pid": process})
    rows = [[10 if own == to else 20 for to in range(nodes)] for own in range(nodes)]
    trace = {"version": 1, "machine": {"nodes": [frames] * nodes, "distance": rows}, "steps": steps}
    return "".join(line + "\n" for line in lines), json.dumps(trace)


def check_large(there):
    """Machines of many nodes and frames, with more processes than colours. The report does not show the last node's free frames."""
    for nodes, frames, processes in [(1, 1, 1), (4, 64, 3), (17, 9, 2), (64, 1, 3), (64, 16, 12), (64, 256, 3), (2, 8192, 1)]:
        report, trace = large(nodes, frames, processes)
        paths = written(there, "large.report", report), written(there, "large.json", trace)
        free = sum(frame % (processes + 1) == 0 for frame in range((nodes - 1) * frames))
        held = sum(frame % (processes + 1) != 0 for frame in range(nodes * frames))
        for given in (None, paths[1]):
            svg = ElementTree.fromstring(picture_of(paths[0], given))
            check_geometry(f"{nodes} nodes of {frames} frames", svg)
            kinds = Counter(square.kind for square in squares_of(svg))
            if (kinds["free"], kinds["held"], kinds["taken"]) != (free, held, 0):
                fail(f"{nodes} nodes of {frames} frames are drawn as {kinds}")
            if given and float(svg.get("height")) > 40 * nodes + 20 * nodes * frames / 16 + 200:
                fail(f"{nodes} nodes of {frames} frames take {svg.get('height')} points from top to bottom")


def said_of(report, trace):
    try:
        picture_of(report, trace)
    except Bad as fault:
        return str(fault)
    return None


def check_bad(there):
    """Each bad report and trace is reported."""
    for text, line in BAD:
        report = written(there, "bad.report", text)
        if said_of(report, None) != line:
            fail(f"{text!r} is called {said_of(report, None)}, and not {line}")
    for text, steps, line in OTHER:
        report, trace = written(there, "bad.report", text), written(there, "bad.json", TWO_NODES % steps)
        if said_of(report, trace) != line.replace("TRACE", trace):
            fail(f"{text!r} with {steps} is called {said_of(report, trace)}, and not {line}")


def check_steps(there):
    """--steps draws the moments that look at one of its steps, and a process keeps its colour."""
    text = "0 pagemap 1: 00010000=0\n1 write ok\n2 pagemap 1: 00010000=1\n3 free 1: 0\n4 read 00\n5 free 2: 0 1\n"
    report = written(there, "steps.report", text)
    trace = written(there, "steps.json", TWO_NODES % ",".join([
        '{"op":"pagemap","pid":7}', '{"op":"write","pid":8,"addr":0,"data":"61"}', '{"op":"pagemap","pid":8}', '{"op":"free","node":0}',
        '{"op":"read","pid":8,"addr":0,"len":1}', '{"op":"free","node":0}', '{"op":"vmstat"}']))
    for steps, heads in [("0-9", ["step 0", "steps 2 to 3", "step 5"]), ("1-2", ["steps 2 to 3"]), ("3-3", ["steps 2 to 3"]),
                         ("4-5", ["step 5"]), ("0-2", ["step 0", "steps 2 to 3"]), ("6-9", []), ("3-1", []), ("4-4", [])]:
        svg = ElementTree.fromstring(picture_of(report, trace, steps))
        check_geometry(f"steps {steps}", svg)
        words = [element.text for element in svg if named(element, "text")]
        if [word for word in words if re.fullmatch("step.* [0-9]+", word)] != heads:
            fail(f"for the steps {steps} the picture says {words}")
        if not any(word.startswith("The report covers 6 of the 7 steps of its trace.") for word in words):
            fail(f"the picture does not say that the report ends before its trace: {words}")
        fills = {part.get("fill") for group in svg if group.get("class") == "held" for part in group if named(part, "rect")}
        if steps == "1-2" and ("process 7" in words or "process 8" not in words):
            fail(f"the legend has other processes than the picture: {words}")
        if steps == "1-2" and fills != {"none", drawing.COLOURS[1]}:
            fail(f"a process changes its colour: {fills}")


def check_shared(there):
    """A square has a stripe for each process that sees its page, and a process that is looked at twice counts once."""
    text = "0 pagemap 1: 00010000=0\n1 pagemap 2: 00010000=0 00011000=zero\n2 pagemap 2: 00010000=0 00011000=zero\n"
    look = '{"op":"pagemap","pid":%d}'
    trace = written(there, "shared.json", TWO_NODES % ",".join([look % 7, look % 8, look % 8]))
    svg = ElementTree.fromstring(picture_of(written(there, "shared.report", text), trace))
    check_geometry("a shared page", svg)
    groups = {group.get("class"): group for group in svg if named(group, "g") and group.get("class") in ("held", "zeros")}
    fills = [part.get("fill") for part in groups["held"] if named(part, "rect")]
    if fills != [drawing.COLOURS[0], drawing.COLOURS[1], "none"]:
        fail(f"a page of two processes has the colours {fills}")
    told = [groups["held"][0].text] + [part.text for part in groups["zeros"]]
    if told != ["frame 0: page 10 of process 7, page 10 of process 8", "page 11 of process 8", "page of zeros: 1 entry"]:
        fail(f"a page of two processes and the page of zeros are described as {told}")


def check_flight(there):
    """A column counts the accesses in flight of the batch before it, and a tooltip lists 20 of them."""
    access = '{"run":0,"op":"read","pid":1,"addr":0,"len":40}'
    batch = '{"op":"move_pages","caller":1,"pid":0,"pages":[0],"nodes":[1],"flags":2,"during":[%s]}'
    looks = "".join(f"{k} free 2: 0 1\n{k + 1} move_pages 0: 1\n{lines}" for k, lines in [
        (0, "1.0 read held\n1.1 read held\n1.2 read " + 40 * "61" + "\n"), (2, ""), (4, "5.0 read error ESRCH\n"),
        (6, "".join(f"7.{j} read held\n" for j in range(1234)))])
    steps = ",".join('{"op":"free","node":0},' + batch % ",".join([access] * count) for count in (3, 0, 1, 1234))
    report = written(there, "flight.report", looks + "8 free 2: 0 1\n")
    wanted = [("in flight: 3, held: 2", "1.0 read held, 1.1 read held, 1.2 read " + 25 * "61" + "6.."),
              ("in flight: 1", "5.0 read error ESRCH"),
              ("in flight: 1234, held: 1234", ", ".join(f"7.{j} read held" for j in range(20)) + ", and 1,214 more")]
    for trace in (None, written(there, "flight.json", TWO_NODES % (steps + ',{"op":"free","node":0}'))):
        svg = ElementTree.fromstring(picture_of(report, trace))
        check_geometry("accesses in flight", svg)
        told = [(group[1].text, group[0].text) for group in svg if named(group, "g") and group.get("class") == "flight"]
        if told != wanted:
            fail(f"accesses in flight are described as {told}")
    front = written(there, "front.report", looks[: looks.index("1.1 ")])
    if len(squares_of(ElementTree.fromstring(picture_of(front, trace)))) == 0:
        fail("a report that ends among accesses in flight is not drawn")


def check_numa_maps(there):
    """A trace that looks only with numa_maps is drawn as far as that shows: how many pages of each process are on each node."""
    report = written(there, "maps.report", "0 numa_maps 2\n00010000 default anon=2 N0=1 N1=1 kernelpagesize_kB=4\n00020000 default anon=1 N1=1 "
                     "kernelpagesize_kB=4\n1 numa_maps 1\n00010000 local\n2 read 00\n3 numa_maps error ESRCH\n")
    looks = '{"op":"numa_maps","pid":7},{"op":"numa_maps","pid":8},{"op":"read","pid":7,"addr":0,"len":1},{"op":"numa_maps","pid":9}'
    svg = ElementTree.fromstring(picture_of(report, written(there, "maps.json", TWO_NODES % looks)))
    check_geometry("numa_maps alone", svg)
    told = [group[0].text for group in svg if named(group, "g") and group.get("class") == "counted"]
    if told != ["pages by numa_maps: process 7: 1", "pages by numa_maps: process 7: 2"]:
        fail(f"numa_maps is drawn as {told}")


def check_named(there):
    """Names, nodes that are offline and pins are drawn, also where the squares are."""
    text = "nodes 2 + cxl 2\nspawn app\nmap app heap 1\nwrite app heap 61\npin app heap\noffline cxl\nlook\n"
    report = ("0 spawn ok\n1 map segment=0\n2 write ok\n3 pin ok\n4 offline ok\n5 free 1: 1\n6 free 2: 2 3\n7 pagemap 1: 00010000=0\n"
              "8 numa_maps 1\n00010000 default anon=1 N0=1 kernelpagesize_kB=4\n")
    svg = ElementTree.fromstring(picture_of(written(there, "named.report", report), written(there, "named.nt", text)))
    check_geometry("names", svg)
    told = [f"{square.kind} {square.tip}" for square in in_columns(squares_of(svg))]
    if told != ["held frame 0: heap[0] of app (process 1); pinned", "free frame 1: free, number 1 of its node's list",
                "offline frame 2: free, number 1 of its node's list, but the node is offline",
                "offline frame 3: free, number 2 of its node's list, but the node is offline"]:
        fail(f"names, pins and nodes that are offline are drawn as {told}")
    texts = {element.text for element in svg.iter() if named(element, "text")}
    if not {"node 1 (cxl)", "app (process 1)", "free, of a node that is offline", "pinned"} <= texts:
        fail(f"the picture has the texts {texts}")
    if [len([part for part in group if named(part, "path")]) for group in svg if group.get("class") == "held"] != [1]:
        fail("a pinned page has no mark")


def check_most(there):
    """A picture has at most 200,000 squares."""
    text = "".join(f"{2 * k} free 1: {k}\n{2 * k + 1} write ok\n" for k in range(448))
    if said_of(written(there, "most.report", text), None) != (
            "the picture would have 200,704 squares, and at most 200,000 are drawn: pick moments with --steps"):
        fail("a picture of too many squares is drawn")


def check_names(there):
    """The picture has room for the name of its report."""
    report = written(there, 60 * "name" + ".report", "0 free 1: 1\n")
    check_geometry("a long name", ElementTree.fromstring(picture_of(report, None)))


def check_command(there):
    """Statuses and streams: one line and status 2 for what is bad, and nothing on standard output."""
    report = written(there, "a&b\n.report", "0 free 1: 1\n")
    status, out, err = run("picture", report)
    if (status, err) != (0, "") or "a&amp;b?.report" not in out or ElementTree.fromstring(out) is None:
        fail(f"a picture ends with {status} and {err}")
    bad, other = written(there, "bad.report", "0 free 2: 1\n"), os.path.join(there, "none\nsuch")
    bytes_in_it, trace = os.path.join(there, "bytes.report"), written(there, "bad.json", "{")
    with open(bytes_in_it, "wb") as file:
        file.write(b"0 spawn ok\n1 \xff\n")
    for words, line in [([bad, bad], "the output for several files goes to a folder: -o FOLDER/"), (["-", "-"], "standard input can be named only once"),
                        ([report, "--html"], f"{report}: a page with a slider needs the trace".replace("\n", "?")),
                        ([bad], "line 1: expected a list after the count of its items"),
                        ([bytes_in_it], f"{bytes_in_it}: byte 13 does not belong in a report"),
                        ([other], f"{other}: No such file or directory".replace("\n", "?")),
                        ([report, trace], f"{trace}: not JSON: line 1, column 2: expecting property name enclosed in double quotes")]:
        if run("picture", *words) != (2, "", f"numalab: {line}\n"):
            fail(f"the command ran with {words} as {run('picture', *words)}")
    for words in [[], [bad, "--trace"], [bad, "--size", bad], [report, "--steps", "5"], [report, "--steps", ""], [report, "--steps", "-1-5"]]:
        status, out, err = run("picture", *words)
        if (status, out) != (2, "") or not err.startswith("usage: numalab"):
            fail(f"the command ran with {words} as {(status, out, err)}")


def check_shown():
    """The picture in lab/docs/ is what is drawn."""
    path, example = (os.path.join(ROOT, name) for name in SHOWN)
    with open(path, encoding="utf-8") as file:
        if file.read() != picture_of(example + ".report", example + ".nt"):
            fail(f"{SHOWN[0]} is not what numalab picture draws of {SHOWN[1]}.report with its trace")


class Drawings(unittest.TestCase):
    """Each check in a folder of its own."""

    def test_with_files(self):
        for check in (check_drawn, check_bad, check_large, check_steps, check_shared, check_flight, check_numa_maps, check_named, check_most, check_names,
                      check_command):
            with self.subTest(check.__name__), tempfile.TemporaryDirectory() as there:
                check(there)

    def test_reports(self):
        check_reports()

    def test_shown(self):
        check_shown()


if __name__ == "__main__":
    unittest.main()

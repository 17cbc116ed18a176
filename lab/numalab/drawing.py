"""Draws where pages are, as a report says, as an SVG.

A column is a moment at which the report shows `free` or `pagemap` lines with nothing between them that moves a page or takes
or frees a frame; above it is how many accesses in flight the batch before it had, and how many were held. A band is a node,
and a square in it a frame: free, held by a page, or not known. A report alone gives neither the node of a `free` line nor the
process of a `pagemap` line; with its trace the picture has both, and all frames of the machine. What is not known is drawn as
not known."""
import html
import os
import textwrap
from collections import namedtuple
from itertools import groupby

from .notate import node_labels
from .report import Layout, moments_of, read_report
from .traces import Bad
from .words import PAGE, printable

MOST_SQUARES = 200000
MOST_TOLD, MOST_LETTERS = 20, 60  # how many accesses in flight a tooltip lists, and how much of each
LEFT, GAP, EDGE = 150, 24, 12
FONT = "DejaVu Sans, Verdana, sans-serif"
COLOURS = ["#7fb3e6", "#f2b35e", "#7fcf9f", "#e39ac4", "#cdb94f", "#a79be8", "#6fd0d6", "#e58f7b"]
UNTOLD, TAKEN, FREE, INK, PALE, PIN = "#9db8d2", "#c6c6c6", "#eef5e6", "#222222", "#6b6b6b", "#7a1fa2"
# The stripes of a frame that nobody can take, as its node is offline.
HATCHED = ('<defs><pattern id="offline" width="6" height="6" patternUnits="userSpaceOnUse" patternTransform="rotate(45)">'
           '<rect width="6" height="6" fill="#ececec"/><rect width="2" height="6" fill="#c4c4c4"/></pattern></defs>')

Band = namedtuple("Band", "name frames node")  # its frames in ascending order; the node is None where it is not known
Grid = namedtuple("Grid", "across width height")  # how many squares a row has, and how wide and high one is
DARK, DASHED = ' stroke="#444444"', ' stroke="#9a9a9a" stroke-dasharray="2 2"'
BORDERS = {"free": ' stroke="#7d8a70"', "offline": DARK, "held": DARK, "taken": DARK, "unknown": DASHED, "counted": DASHED}
ABOUT = (
    "A column is a moment at which the report looks, a square a frame. The number in a square is its page's: the address in "
    "hexadecimal without the last three digits; a plus marks further addresses. Point at a square for all that is known of it."
)
NO_TRACE = (
    "Only frames that the report names are shown. Without the trace neither nodes nor processes are known: a band \"one node\" "
    "has frames that lists of free frames show to be on one node, and two such bands may be the same node; the node of the "
    "others is not known."
)


# ---- bands


def spans_of(moments):
    """Stretches of frames that are on one node, since a node's frames are consecutive and lists of free frames meet there."""
    spans = []
    for low, high in sorted(ends for moment in moments for ends in moment.lists):
        if spans and low <= spans[-1][1]:
            spans[-1] = (spans[-1][0], max(high, spans[-1][1]))
        else:
            spans.append((low, high))
    return spans


def bands_of(moments, machine, labels):
    """The nodes of the trace; without one the frames that were named, by what is known of their nodes."""
    if machine:
        return [Band(labels[node], list(frames), node) for node, frames in enumerate(machine.ranges)]
    spans = spans_of(moments)
    named = sorted({frame for moment in moments for frame in [*moment.free, *moment.held]})
    groups = groupby(named, lambda frame: next((span for span in spans if span[0] <= frame <= span[1]), None))
    return [Band("one node" if span else "not known", list(frames), None) for span, frames in groups]


def grid_of(bands):
    """Squares are larger where there are fewer."""
    most = max((len(band.frames) for band in bands), default=1)
    if most <= 16 and len(bands) <= 16:
        return Grid(min(most, 8), 40, 28)
    return Grid(16, 20, 20) if most <= 64 else Grid(32, 12, 12)


# ---- what a square says


def page_text(pages):
    """The number of a square's page in hexadecimal, with a plus where it is seen at others as well."""
    numbers = sorted({number for _, number, _ in pages})
    return f"{numbers[0]:x}" + ("+" if len(numbers) > 1 else "")


def process_text(process, names):
    """A process in words, with its name where that is known."""
    return names.process_text(process) if names else f"process {process}"


def place_text(process, number, names):
    """A page by its area, where that has a name, or by its number."""
    named = names and names.area_at(process, number * PAGE)
    return names.place(process, number * PAGE) if named else f"page {number:x}"


def seen_texts(pages, names=None):
    """Where pages are seen, each once. With the trace, a process that the report looks at twice counts as one."""
    pages = sorted(set(pages), key=lambda page: (page[0] or 0, page[1], page[2] or 0))
    seen = [(place_text(process, number, names), f"the process of step {step}" if process is None else process_text(process, names))
            for process, number, step in pages]
    return ", ".join(f"{place} of {process}" for place, process in seen)


def square_of(moment, frame, node, names):
    """The class, the text and the tooltip of a frame's square."""
    if frame in moment.held:
        pinned = "; pinned" if frame in moment.pinned else ""
        return "held", page_text(moment.held[frame]), f"frame {frame}: " + seen_texts(moment.held[frame], names) + pinned
    if frame in moment.free:
        place = moment.free[frame]
        if node in moment.offline:
            return "offline", f"#{place}", f"frame {frame}: free, number {place} of its node's list, but the node is offline"
        return "free", f"#{place}", f"frame {frame}: free, number {place} of its node's list"
    if node in moment.nodes:
        return "taken", "", f"frame {frame}: not free; no pagemap line here shows its page"
    return "unknown", "?", f"frame {frame}: not known"


# ---- drawing


class Picture:
    """The elements of an SVG."""

    def __init__(self, processes, names=None):
        self.parts, self.names = [], names
        self.colours = {process: COLOURS[k % len(COLOURS)] for k, process in enumerate(processes)}
        self.colours[None] = UNTOLD

    def text(self, x, y, size, words, anchor="start", ink=INK):
        place = f'x="{x:g}" y="{y:g}" font-size="{size}" text-anchor="{anchor}"'
        self.parts.append(f'<text {place} fill="{ink}">{html.escape(words)}</text>')

    def rect(self, x, y, width, height, fill, more=""):
        self.parts.append(f'<rect x="{x:g}" y="{y:g}" width="{width:g}" height="{height:g}" fill="{fill}"{more}/>')

    def square(self, x, y, width, height, kind, processes=()):
        """A frame's square: a stripe for each process that sees its page, four at most."""
        fill = {"free": FREE, "taken": TAKEN, "counted": UNTOLD, "offline": "url(#offline)"}.get(kind, "#ffffff")
        stripes = list(processes)[:4]
        for k, process in enumerate(stripes):
            self.rect(x + k * width / len(stripes), y, width / len(stripes), height, self.colours[process])
        self.rect(x, y, width, height, "none" if stripes else fill, BORDERS[kind])

    def pin(self, x, y, side):
        """The corner of a square whose page is pinned."""
        self.parts.append(f'<path d="M{x - side:g} {y:g}H{x:g}V{y + side:g}Z" fill="{PIN}"/>')

    def frame(self, x, y, grid, frame, square, processes):
        """A frame with its tooltip, and its number and text where there is room."""
        kind, words, tip = square
        width, height, ink = grid.width - 2, grid.height - 2, INK if kind == "held" else PALE
        self.parts.append(f'<g class="{kind}"><title>{html.escape(tip)}</title>')
        self.square(x + 1, y + 1, width, height, kind, processes)
        if tip.endswith("; pinned"):
            self.pin(x + 1 + width, y + 1, min(width, height) / 2.5)
        if grid.width >= 40:
            self.text(x + 4, y + 10, 7, str(frame), ink=ink)
        size = 10 if grid.width >= 40 else 8
        if words and grid.width >= 20 and len(words) * size * 0.68 <= width:
            foot = y + grid.height - (6 if size == 10 else 7)
            self.text(x + grid.width / 2, foot, size, words, "middle", ink)
        self.parts.append("</g>")

    def whole(self, width, height, name):
        size = f'width="{width:g}" height="{height:g}"'
        space = f'xmlns="http://www.w3.org/2000/svg" viewBox="0 0 {width:g} {height:g}"'
        head = f'<svg {space} {size} font-family="{FONT}" role="img">'
        title = f"<title>{html.escape(name)}</title>"
        hatched = [HATCHED] if any("url(#offline)" in part for part in self.parts) else []
        return "\n".join([head, title, *hatched, f'<rect {size} fill="#ffffff"/>', *self.parts, "</svg>"]) + "\n"


def rows_in(band, grid):
    return -(-len(band.frames) // grid.across)


def draw_counts(picture, x, y, width, height, band, counts):
    """How many pages of each process numa_maps shows on a node whose frames are not known."""
    most = max(counts.values(), default=0)
    words = ", ".join(f"{process_text(process, picture.names)}: {count:,}" for process, count in sorted(counts.items())) or "no page"
    picture.parts.append(f'<g class="counted"><title>{html.escape("pages by numa_maps: " + words)}</title>')
    picture.rect(x + 1, y + 1, width - 2, height - 2, "none", BORDERS["unknown"])
    picture.rect(x + 1, y + 1, (width - 2) * min(1, most / len(band.frames)), height - 2, UNTOLD)
    letters = int(width / 5)
    picture.text(x + width / 2, y + height / 2 + 3, 8, words if len(words) <= letters else words[: letters - 2] + "..", "middle")
    picture.parts.append("</g>")


def draw_cell(picture, x, y, grid, band, moment):
    """The squares of a band at a moment, or a note that nothing is known."""
    squares = [square_of(moment, frame, band.node, picture.names) for frame in band.frames]
    if all(kind == "unknown" for kind, _, _ in squares):
        width, height = min(len(squares), grid.across) * grid.width, rows_in(band, grid) * grid.height
        if moment.counts:
            draw_counts(picture, x, y, max(width, 130), height, band, moment.counts.get(band.node, {}))
            return
        picture.parts.append('<g class="nothing">')
        picture.rect(x + 1, y + 1, max(width, 90) - 2, height - 2, "none", BORDERS["unknown"])
        picture.text(x + max(width, 90) / 2, y + height / 2 + 3, 8, "nothing is known", "middle", PALE)
        picture.parts.append("</g>")
        return
    for k, (frame, square) in enumerate(zip(band.frames, squares)):
        processes = sorted({process for process, _, _ in moment.held.get(frame, [])}, key=lambda process: process or 0)
        at = x + k % grid.across * grid.width, y + k // grid.across * grid.height
        picture.frame(*at, grid, frame, square, processes)


def draw_name(picture, y, grid, band):
    """The name of a band, and the first frame of each of its rows."""
    picture.text(EDGE, y + 10, 10, band.name)
    for row in range(rows_in(band, grid)):
        first = band.frames[row * grid.across]
        picture.text(LEFT - 8, y + (row + 0.5) * grid.height + 3, 8, f"frame {first}" if row == 0 else str(first), "end", PALE)


def draw_head(picture, x, y, moment):
    """Which steps look at this moment, and what was before."""
    first, last = moment.steps[0], moment.steps[-1]
    picture.text(x, y, 11, f"step {first}" if first == last else f"steps {first} to {last}")
    picture.text(x, y + 13, 8, f"after {moment.after[0]} {moment.after[1]}" if moment.after else "at the start", ink=PALE)


def draw_flight(picture, x, y, moment):
    """How many accesses in flight there were before this moment, and how many of them were held."""
    if moment.flight:
        told = [line if len(line) <= MOST_LETTERS else line[:MOST_LETTERS] + ".." for line in moment.flight[:MOST_TOLD]]
        more = [f"and {len(moment.flight) - MOST_TOLD:,} more"] if len(moment.flight) > MOST_TOLD else []
        held = sum(line.endswith(" held") for line in moment.flight)
        picture.parts.append(f'<g class="flight"><title>{html.escape(", ".join(told + more))}</title>')
        picture.text(x, y, 8, f"in flight: {len(moment.flight)}" + (f", held: {held}" if held else ""), ink=PALE)
        picture.parts.append("</g>")


def draw_zeros(picture, x, y, moment):
    """How many entries are the page of zeros, which has no square."""
    count = len(set(moment.zeros))
    if count:
        picture.parts.append(f'<g class="zeros"><title>{html.escape(seen_texts(moment.zeros, picture.names))}</title>')
        picture.text(x, y, 8, f"page of zeros: {count} " + ("entry" if count == 1 else "entries"))
        picture.parts.append("</g>")


def legend_of(moments, machine):
    """The kinds of squares, each with the processes of its stripes and its text."""
    items = [("free", (), "free; #1 is taken next")]
    if machine:
        items += [("held", (process,), machine.names.process_text(process)) for process in processes_of(moments)]
        items += [("taken", (), "not free, page not shown")]
        items += [("offline", (), "free, of a node that is offline")] if any(moment.offline for moment in moments) else []
        items += [("pinned", (), "pinned")] if any(moment.pinned for moment in moments) else []
    else:
        items += [("held", (None,), "held by a page")]
    counted = [("counted", (), "pages that numa_maps counts, of a node's frames")] if any(moment.counts for moment in moments) else []
    return items + counted + [("unknown", (), "not known")]


def draw_legend(picture, y, width, items):
    """The legend in as many rows as it needs; returns where it ends."""
    x = EDGE
    for kind, processes, words in items:
        room = 20 + len(words) * 6.4 + 16
        if x > EDGE and x + room > width - EDGE:
            x, y = EDGE, y + 20
        picture.square(x, y, 14, 14, "held" if kind == "pinned" else kind, processes)
        if kind == "pinned":
            picture.pin(x + 14, y, 6)
        picture.text(x + 20, y + 11, 10, words)
        x += room
    return y + 14


def notes_of(moments, machine, processes, count):
    """What the reader of a picture should know, as sentences, for a report on `count` steps."""
    notes = [ABOUT] if moments else ["No line of free or pagemap has a list: where pages are is not known."]
    if moments and not machine:
        notes += [NO_TRACE]
    if moments and len(processes) > len(COLOURS):
        notes += ["There are more processes than colours: a square's tooltip names its processes."]
    if machine and count < len(machine.steps):
        notes += [f"The report covers {count:,} of the {len(machine.steps):,} steps of its trace."]
    return notes


def processes_of(moments):
    """The processes whose pages are drawn, where they are known."""
    pages = [page for moment in moments for held in moment.held.values() for page in held]
    return sorted({process for process, _, _ in pages if process is not None})


def check_size(moments, bands):
    """Refuses a picture that no program could show."""
    count = len(moments) * sum(len(band.frames) for band in bands)
    if count > MOST_SQUARES:
        raise Bad(f"the picture would have {count:,} squares, and at most {MOST_SQUARES:,} are drawn: pick moments with --steps")


def drawing(name, moments, machine, labels, processes, count):
    """The SVG of some moments of a report on `count` steps."""
    picture, bands = Picture(processes, machine and machine.names), bands_of(moments, machine, labels) if moments else []
    check_size(moments, bands)
    grid = grid_of(bands)
    column = max(min(grid.across, max((len(band.frames) for band in bands), default=1)) * grid.width, 130)
    width = max(LEFT + len(moments) * (column + GAP) + EDGE, 2 * EDGE + len(name) * 10, 640)
    picture.text(EDGE, 26, 15, name)
    y = draw_legend(picture, 40, width, legend_of(moments, machine)) + 30 if moments else 50
    for k, moment in enumerate(moments):
        draw_head(picture, LEFT + k * (column + GAP), y, moment)
        draw_flight(picture, LEFT + k * (column + GAP), y + 25, moment)
    y += 36 if any(moment.flight for moment in moments) else 24
    for band in bands:
        draw_name(picture, y, grid, band)
        for k, moment in enumerate(moments):
            draw_cell(picture, LEFT + k * (column + GAP), y, grid, band, moment)
        y += rows_in(band, grid) * grid.height + 10
    for k, moment in enumerate(moments):
        draw_zeros(picture, LEFT + k * (column + GAP), y + 8, moment)
    y += 20 if any(moment.zeros for moment in moments) else 0
    letters = int((width - 2 * EDGE) / 6)
    notes = notes_of(moments, machine, processes, count)
    for line in [line for note in notes for line in textwrap.wrap(note, letters)]:
        picture.text(EDGE, y + 12, 9, line, ink=PALE)
        y += 14
    return picture.whole(width, y + 16, name)


def picked(moments, steps):
    """The moments that look at a step of a range, which is its first and last step."""
    return [moment for moment in moments if moment.steps[0] <= steps[1] and steps[0] <= moment.steps[-1]]


def picture_of(data, path, top=None, steps=None):
    """The SVG of a report, named after its path, with its trace and a range of steps where they are given."""
    layout, lines = top and Layout(top), read_report(data, path)
    if layout:
        layout.check(lines)
    moments = moments_of(lines, layout)
    name = printable(os.path.basename(path))
    return drawing(name, picked(moments, steps) if steps else moments, layout, top and node_labels(top), processes_of(moments), len(lines))

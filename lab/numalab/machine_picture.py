"""Draws a machine alone, as an SVG: its nodes by tiers, how large they are, and how far apart."""
from .drawing import EDGE, INK, PALE, Picture
from .notate import node_labels, tiers_of
from .words import counted

WIDTH, HIGH, GAP, CELL, LEFT = 760, 46, 10, 34, 150
LEAST = 92  # so that a node's name fits into its box
SHADES = ["#eef5e6", "#dbe9f6", "#f2e3c9", "#eadcf0", "#e2e2e2"]


def tiers_by_number(top):
    """For each node its tier, by distances or, where those have none, by names."""
    tiers = tiers_of(top["machine"]["distance"])
    if tiers:
        return tiers
    names = top["machine"].get("names") or [None] * len(top["machine"]["nodes"])
    kinds = list(dict.fromkeys(names))
    return [kinds.index(name) for name in names]


def size_text(frames):
    return counted(frames, "frame")


def draw_nodes(picture, y, top, labels):
    """The nodes of each tier in rows, as wide as they are large; returns where they end."""
    sizes, tiers = top["machine"]["nodes"], tiers_by_number(top)
    unit = (WIDTH - LEFT - EDGE) / max(sum(size for size, other in zip(sizes, tiers) if other == tier) for tier in set(tiers))
    for tier in sorted(set(tiers)):
        picture.text(EDGE, y + HIGH / 2 + 4, 11, f"tier {tier + 1}")
        x = LEFT
        for node in [node for node, other in enumerate(tiers) if other == tier]:
            wide = max(LEAST, sizes[node] * unit - GAP)
            if x > LEFT and x + wide > WIDTH - EDGE:
                x, y = LEFT, y + HIGH + GAP
            picture.rect(x, y, wide, HIGH, SHADES[tier % len(SHADES)], ' stroke="#444444"')
            picture.text(x + 8, y + 19, 11, labels[node])
            picture.text(x + 8, y + 35, 9, size_text(sizes[node]), ink=PALE)
            x += wide + GAP
        y += HIGH + GAP
    return y


def draw_distances(picture, y, rows):
    """The distances as a table, darker where they are greater; returns where it ends."""
    picture.text(EDGE, y + 12, 11, "distances")
    picture.text(EDGE, y + 26, 8, "from row to column", ink=PALE)
    most = max(max(row) for row in rows)
    for own, row in enumerate(rows):
        picture.text(LEFT + own * CELL + CELL / 2, y + 12, 9, str(own), "middle", PALE)
        picture.text(LEFT - 10, y + 20 + own * CELL / 1.5 + 14, 9, f"node {own}", "end", PALE)
        for to, distance in enumerate(row):
            light = 96 - 46 * (distance - 10) / max(1, most - 10)
            picture.rect(LEFT + to * CELL, y + 20 + own * CELL / 1.5, CELL - 2, CELL / 1.5 - 2, f"hsl(210 45% {light:.0f}%)")
            picture.text(LEFT + to * CELL + CELL / 2 - 1, y + 20 + own * CELL / 1.5 + 14, 9, str(distance), "middle", INK)
    return y + 20 + len(rows) * CELL / 1.5 + GAP


def picture_of(top, name, notes):
    """The SVG of the machine of a trace."""
    picture, rows = Picture([]), top["machine"]["distance"]
    picture.text(EDGE, 26, 15, f"{name}: {counted(len(rows), 'node')}, {counted(sum(top['machine']['nodes']), 'frame')}")
    y = draw_nodes(picture, 42, top, node_labels(top)) + GAP
    y = draw_distances(picture, y, rows)
    for note in notes:
        picture.text(EDGE, y + 10, 9, note, ink=PALE)
        y += 14
    return picture.whole(max(WIDTH, LEFT + len(rows) * CELL + EDGE), y + GAP, name)

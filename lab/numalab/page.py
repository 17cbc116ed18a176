"""The picture that moves: one page of HTML that needs no network."""
import json
import os

from .film import film_of

TEMPLATE = os.path.join(os.path.dirname(os.path.abspath(__file__)), "picture.html")


def page_of(name, top, lines, steps=None, progress=None):
    """The page for a trace and the lines of its report."""
    data = json.dumps(film_of(name, top, lines, steps, progress), separators=(",", ":"))
    with open(TEMPLATE, encoding="utf-8") as file:
        return file.read().replace("{{DATA}}", data.replace("<", "\\u003c").replace("\u2028", "\\u2028"))

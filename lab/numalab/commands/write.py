"""Writes a trace in JSON from the notation for people (docs/NOTATION.md), or with --from the notation from a trace.

Each step keeps where it was written under the key `at`, which the program ignores; faults point there. With -o the ending of
the file, .json or .nt, decides the form; with a folder, each FILE is written there under its own name."""
import os

from ..faults import Form
from ..inputs import out_for
from ..notate import notation_of
from ..traces import Trace, json_text, looks_like_json, read_file, write_file
from ..translate import trace_from

SUMMARY = "write a trace from the notation, or back"


def arguments(words):
    words.add_argument("files", metavar="FILE", nargs="*", default=["-"], help="notation, or traces with --from; - is standard input")
    words.add_argument("--from", dest="back", action="store_true", help="read traces in JSON, and write the notation")
    words.add_argument("--no-places", action="store_true", help="leave out where each step was written")
    words.add_argument("-o", metavar="OUT", dest="out", help="a file, .json or .nt, or a folder; standard output if none is named")


def without(keys, top):
    """The trace without some of the keys that are for people in its steps."""
    def bare(step):
        step = {key: value for key, value in step.items() if key not in keys}
        return {**step, "during": [bare(access) for access in step["during"]]} if "during" in step else step

    return {**top, "steps": [bare(step) for step in top["steps"]]}


def text_of(path, data, back, asked, ending):
    """The text to write for a file with these bytes."""
    top = Trace(path, data).check().top if back else trace_from(data, path)
    if ending == ".nt":
        return notation_of(Form(), top)
    return json_text(without(("at",), top) if asked.no_places else top)


def run(asked):
    for path in asked.files:
        data = read_file(path)
        back = asked.back or path.endswith(".json") or path == "-" and looks_like_json(data)
        ending = ".nt" if back else ".json"
        out = out_for(asked.out, path, ending, len(asked.files) > 1)
        if out and os.path.splitext(out)[1] in (".nt", ".json"):
            ending = os.path.splitext(out)[1]
        write_file(out, text_of(path, data, back, asked, ending))
    return 0

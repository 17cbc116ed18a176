"""Says what is wrong with the form of a trace: every fault with its place, FILE:LINE:COLUMN, or the line of the notation in
which the step was written. The text after the place begins as the program's own message does. Keys that the program does not
know, and so ignores, are warnings. In a good trace each refused step gets a hint why; hints come from a plain model of the
machine.

The status is 0 where all traces are good, and 2 where one is not."""
import json

from ..diagnosis import Diagnosis
from ..faults import MOST_BYTES, Form, strict_schema
from ..traces import read_file
from ..words import printable

SUMMARY = "say all that is wrong with a trace, and where"


def arguments(words):
    words.add_argument("files", metavar="FILE", nargs="*", default=["-"], help="traces; - is standard input, which is also the default")
    words.add_argument("--strict", action="store_true", help="treat a key that the program ignores as a fault")
    words.add_argument("--no-hints", action="store_true", help="do not play good traces on the model")
    words.add_argument("--schema", action="store_true", help="print the JSON Schema of traces (with --strict the strict one) and exit")


def run(asked):
    if asked.schema:
        schema = Form().top
        print(json.dumps(strict_schema(schema) if asked.strict else schema, indent=2))
        return 0
    status = 0
    for path in asked.files:
        told = Diagnosis(path, read_file(path, MOST_BYTES + 1), asked.strict, not asked.no_hints)
        for line in told.lines():
            print(printable(line))
        if not told.bad:
            print("good" if len(asked.files) == 1 else printable(f"{path}: good"))
        status = max(status, 2 if told.bad else 0)
    return status

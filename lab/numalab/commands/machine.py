"""Reads a machine as other tools describe it, and writes it as a line of the notation, or with an OUT that ends in .json as the head of a
trace. FILE is what `numactl -H` prints, the XML of hwloc (`lstopo --of xml`), a folder such as /sys/devices/system/node, or a trace; - is
standard input. Without one it is this machine's /sys/devices/system/node.

A trace has at most 16,384 frames, so one frame stands for N pages: the least power of two that does, or --scale N. Nodes without memory
are left out, and the others are numbered from 0; what was changed is said in comments. --picture draws nodes, tiers, sizes and distances."""
import os

from ..faults import MOST_FRAMES, Form, machine_faults
from ..machine_picture import picture_of
from ..machines import NODES, checked_scale, of_bytes, of_folder, scaled
from ..notate import Notator, head_of
from ..traces import Bad, json_text, looks_like_trace, read_file, trace_of, write_file

SUMMARY = "a trace's machine from numactl, hwloc or sysfs"


def arguments(words):
    words.add_argument("file", metavar="FILE", nargs="?", default=NODES, help=f"what describes the machine; {NODES} by default")
    words.add_argument("--scale", metavar="N", type=checked_scale, help="one frame stands for N pages")
    words.add_argument("--frames", metavar="M", type=checked_scale, default=MOST_FRAMES, help="at most so many frames together (16,384)")
    words.add_argument("--picture", metavar="SVG", help="draw the machine to this file; - is standard output, and then nothing else is written")
    words.add_argument("-o", metavar="OUT", dest="out", help="a file, .nt or .json; standard output, in the notation, if none is named")


def top_of(asked):
    """The machine as a trace without steps, and what there is to say of it."""
    if os.path.isdir(asked.file):
        machine, notes = scaled(of_folder(asked.file), asked.scale, asked.frames)
    else:
        data = read_file(asked.file)
        if looks_like_trace(asked.file, data) and not data.lstrip().startswith((b"available", b"node ")):
            top = trace_of(asked.file, data).check().top
            return head_of(Form(), top), []
        machine, notes = scaled(of_bytes(data, asked.file), asked.scale, asked.frames)
    top = {"version": 1, "machine": machine, "steps": []}
    for fault in machine_faults(Form(), top):
        raise Bad(f"{asked.file}: {fault.text}")
    return top, notes


def run(asked):
    top, notes = top_of(asked)
    if asked.picture:
        write_file(asked.picture, picture_of(top, "standard input" if asked.file == "-" else os.path.basename(asked.file.rstrip("/")), notes))
        if asked.out is None:
            return 0
    if (asked.out or "").endswith(".json"):
        noted = {"note": "; ".join(notes)} if notes else {}
        write_file(asked.out, json_text({**top, "machine": {**top["machine"], **noted}}))
    else:
        write_file(asked.out, "".join(f"# {note}\n" for note in notes) + "\n".join(Notator(top).machine()) + "\n")
    return 0

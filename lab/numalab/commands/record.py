"""Runs a command and its children under strace, and writes a trace of what they did about nodes: mmap, munmap, brk, mbind,
migrate_pages and move_pages, with the pages that were there at these calls as writes. A process that a call names and that was
there before has its areas and pages as /proc listed them.

Nodes and distances are this machine's, or those of --machine. What has no place in the model (files, huge pages, memory of a parent,
set_mempolicy and others) is listed on standard error, and in the trace under left_out. A trace's machine has at most 16,384 frames:
with more pages it is refused, or --scale N lets one frame stand for N pages."""
import sys

from ..faults import verdict
from ..linux import recorded, strace, watch
from ..traces import Bad, json_text, opened, read_file

SUMMARY = "a trace of what a program does about nodes"


def arguments(words):
    words.add_argument("words", metavar="COMMAND", nargs="*", help="after --: the command and its arguments")
    words.add_argument("-o", metavar="OUT", dest="out", help="the trace; standard output if none is named")
    words.add_argument("--machine", metavar="FILE", help="a trace in JSON, or an object with nodes and distance, in place of this machine's")
    words.add_argument("--scale", metavar="N", type=int, default=1, help="one frame of the trace stands for N pages")
    words.add_argument("--from", metavar="FILE", dest="source", help="what strace -f -X raw -e abbrev=none wrote, in place of a command")
    words.add_argument("--keep", metavar="FILE", help="keep what strace wrote")


def events_of(path):
    """The events in what strace wrote, with nothing seen in /proc."""
    reader = strace.Reader(path)
    text = read_file(path).decode("utf-8", "replace")
    if text and not text.endswith("\n"):
        raise Bad(f"{path}: the last line has no line feed: the output was cut off")
    return [(event, {}) for event in map(reader.read, text.splitlines()) if event]


def run(asked):
    if bool(asked.words) == bool(asked.source):
        raise Bad("name a command after --, or give --from FILE")
    if asked.scale < 1:
        raise Bad("--scale must be 1 or more")
    sizes, distance = watch.machine_asked(asked.machine) if asked.machine else watch.machine_here()
    status = 0
    if asked.source:
        events = events_of(asked.source)
    else:
        watcher, status = watch.watched(asked.words)
        events = watcher.events
        if asked.keep:
            with opened(asked.keep) as file:
                file.writelines(line + "\n" for line in watcher.lines)
    top = recorded.recorded(events, recorded.machine_of(sizes, distance, asked.scale), asked.scale)
    text = json_text(top)
    line = verdict(text.encode())
    if line != "good":
        raise Bad(f"{asked.machine or 'the recorded trace'}: {line}")
    with opened(asked.out) as file:
        file.write(text)
    for what in top["left_out"]:
        print(f"numalab: left out: {what}", file=sys.stderr)
    if status:
        print(f"numalab: the command ended with status {status}", file=sys.stderr)
    return 0

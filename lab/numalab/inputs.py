"""Traces and their reports as a command's arguments name them."""
import os
from collections import namedtuple

from .program import played
from .report import Layout, read_report
from .traces import Bad, looks_like_trace, name_without_ending, read_file, trace_of

# A trace, or None; the name of its report; and the report's bytes, or None where the program has to be asked for it.
Input = namedtuple("Input", "trace name data")


def inputs_of(files):
    """What some files are: traces, each with the report named before or after it if there is one, and reports alone."""
    if files.count("-") > 1:
        raise Bad("standard input can be named only once")
    read = [(path, read_file(path)) for path in files]
    kinds = [looks_like_trace(*one) for one in read]
    found, k = [], 0
    while k < len(read):
        pair = k + 1 < len(read) and kinds[k] != kinds[k + 1]
        named = {kind: one for kind, one in zip(kinds[k : k + 1 + pair], read[k : k + 1 + pair])}
        trace = trace_of(*named[True]) if True in named else None
        name, data = named.get(False, (trace and name_without_ending(trace.name) + ".report", None))
        found.append(Input(trace, name, data))
        k += 1 + pair
    return found


def with_report(one, program):
    """The same with its report: the program plays a trace that has none named with it."""
    if one.data is None:
        return one._replace(data=played(one.trace, program))
    if one.trace:
        one.trace.check()
    return one


def lines_of(one):
    """The lines of the report of a trace, by steps."""
    lines = read_report(one.data, one.name)
    Layout(one.trace.top).check(lines)
    return lines


def out_for(out, name, ending, several):
    """Where the output for a file goes: to OUT, or to a file with that ending in the folder OUT."""
    folder = out is not None and (os.path.isdir(out) or out.endswith(os.sep))
    if several and not folder:
        raise Bad("the output for several files goes to a folder: -o FOLDER/")
    path = os.path.join(out, os.path.basename(name_without_ending(name)) + ending) if folder else out
    if path and os.path.exists(path) and os.path.exists(name) and os.path.samefile(path, name):
        raise Bad(f"the output would overwrite {name}")
    return path

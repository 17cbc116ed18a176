"""Traces as commands take them: files or standard input, in JSON or in the notation for people."""
import json
import os
import sys
from contextlib import contextmanager

from .faults import MOST_BYTES, verdict


# How the names of traces end in a folder.
ENDINGS = (".nt", ".json")


class Bad(ValueError):
    """What is wrong with a trace, a report or an argument. The command ends with status 2."""


class EndedEarly(Bad):
    """A guest that ended early: what happened, and on further lines the end of its console."""


def read_file(path, most=-1):
    """The bytes of a file, or of standard input for -."""
    try:
        if path == "-":
            return sys.stdin.buffer.read(most)
        with open(path, "rb") as file:
            return file.read(most)
    except OSError as error:
        raise Bad(f"{path}: {error.strerror}") from error


@contextmanager
def opened(path):
    """A file to write text to, or standard output where there is no path."""
    if path is None or path == "-":
        yield sys.stdout
        return
    try:
        with open(path, "w", encoding="utf-8", newline="\n") as file:
            yield file
    except OSError as error:
        raise Bad(f"{path}: {error.strerror}") from error


def write_file(path, data):
    """Writes text to a file, or to standard output where there is no path."""
    with opened(path) as file:
        file.write(data)


def json_text(top):
    """A trace as JSON, a line for each step."""
    head = {key: value for key, value in top.items() if key != "steps"}
    front = json.dumps(head, separators=(",", ":"))[:-1]
    steps = ",\n".join(json.dumps(step, separators=(",", ":")) for step in top["steps"])
    return f'{front}{"," if head else ""}"steps":[\n{steps}]}}\n'


def left_out_of(top):
    """What a recorded trace says that it leaves out of what the program did."""
    told = top.get("left_out") if isinstance(top, dict) else None
    return [what for what in told if isinstance(what, str)] if isinstance(told, list) else []


class Trace:
    """A trace: its name, its bytes as JSON, and their value once it is needed."""

    def __init__(self, name, data, top=None):
        self.name, self.data, self._top = name, data, top

    @property
    def top(self):
        if self._top is None:
            self._top = json.loads(self.data)
        return self._top

    @property
    def steps(self):
        return self.top["steps"]

    def check(self):
        """Refuses a bad trace."""
        line = verdict(self.data)
        if line != "good":
            raise Bad(f"{self.name}: {line}")
        return self


def is_notation(path, data=b""):
    """Whether a file is in the notation: by the ending of its name, or on standard input by its first letter."""
    return path.endswith(".nt") or path == "-" and (data.lstrip()[:1].isalpha() or data.lstrip()[:1] == b"#")


def looks_like_json(data):
    return data.lstrip()[:1] in (b"{", b"[")


def looks_like_trace(path, data):
    """Whether a file is a trace, and not a report: a report begins with a digit."""
    return is_notation(path, data) or looks_like_json(data)


def trace_of(path, data):
    """The trace of the bytes of a file. JSON is not parsed yet."""
    if not is_notation(path, data):
        return Trace(path, data)
    from .translate import trace_from  # It imports this module.
    top = trace_from(data, path)
    text = json_text(top).encode()
    if len(text) > MOST_BYTES:
        raise Bad(f"{path}: the trace would have {len(text):,} bytes, and at most {MOST_BYTES:,} are read")
    return Trace(path, text, top)


def load(path):
    return trace_of(path, read_file(path, MOST_BYTES + 1))


def name_without_ending(path):
    return os.path.splitext(path)[0]


def is_trace_name(path):
    """Whether a name is that of a trace, or standard input."""
    return path == "-" or path.endswith(ENDINGS)


def traces_named(paths):
    """The paths of all traces, those of a folder by name."""
    found = []
    for path in paths:
        if os.path.isdir(path):
            there = sorted(name for name in os.listdir(path) if name.endswith(ENDINGS))
            if not there:
                raise Bad(f"{path}: there is no trace, whose name would end in {' or '.join(ENDINGS)}")
            found += [os.path.join(path, name) for name in there]
        else:
            found.append(path)
    return found

"""A session: steps one by one, each answered before the next, by the program numatrace_session.

    from numalab import Session
    with Session({"version": 1, "machine": {"nodes": [4, 4], "distance": [[10, 20], [20, 10]]}}) as session:
        for line in session.step({"op": "spawn", "pid": 1, "uid": 100, "home": 0, "allowed": [0, 1]}):
            print(line)

A reply is the step's lines of the report, so a script can choose its next step by them. What is no step is a Fault, and the
session goes on as it was. This is the thin layer under `Machine`, whose calls are methods and whose answers are values. Nothing
of this module is proved."""
import json
import os
import subprocess
import weakref
from contextlib import AbstractContextManager

from .library import InProcess, library
from .program import SESSION, Failed, found
from .traces import Bad

# A block of steps is at most as long as what any pipe takes at once: while it is written, nobody has to read the replies.
BLOCK = 4096


class Fault(Bad):
    """What the program says of something that is no step. It has changed nothing."""


def line_of(call):
    """A step as the program reads it."""
    return (json.dumps(call) + "\n").encode()


def told(lines):
    """The lines of a reply, or a Fault where they are one."""
    return Fault(lines[0][len("fault: "):]) if lines and lines[0].startswith("fault: ") else lines


def read_reply(stream):
    """The lines of a reply, without the empty one at its end; None if the stream ends before that."""
    reply = []
    for line in stream:
        if line == b"\n":
            return reply
        reply.append(line.rstrip(b"\n").decode("ascii", "replace"))
    return None


def failure(path, process):
    """Waits for the end of a program, and returns what it means as an error."""
    said = process.communicate()[1].decode("utf-8", "replace").strip()
    said = said.split("\n", maxsplit=1)[0] or "it says nothing"
    return Bad(said) if process.returncode == 2 else Failed(f"{path} has ended: {said} (status {process.returncode})")


def ended(process, owner):
    """Ends a program that nobody will ask any more, unless this is a copy of the process that started it."""
    if os.getpid() != owner:
        return
    if process.poll() is None:
        process.kill()
    process.communicate()


def blocks_of(lines):
    """Lines in blocks, each of them short, or a single line."""
    block, size = [], 0
    for line in lines:
        if block and size + len(line) > BLOCK:
            yield block
            block, size = [], 0
        block.append(line)
        size += len(line)
    if block:
        yield block


class Session(AbstractContextManager):
    """A machine, and the steps that are made on it. `top` is a trace, whose steps are not played; `program` is the path of
    numatrace_session, where it is not the one in this repository or on the PATH."""

    def __init__(self, top, program=None):
        line = json.dumps(top)
        self._path = found(program, *SESSION)
        try:
            self._process = subprocess.Popen([self._path], stdin=subprocess.PIPE, stdout=subprocess.PIPE, stderr=subprocess.PIPE)
        except OSError as error:
            raise Failed(f"{self._path}: {error.strerror}") from error
        self._at_end = weakref.finalize(self, ended, self._process, os.getpid())
        # A good top has no reply. An empty line is no step and changes nothing, but is replied to.
        self._replies((line + "\n\n").encode(), 1)

    def step(self, call):
        """Makes a step, and returns its lines of the report."""
        reply = told(*self._replies(line_of(call), 1))
        if type(reply) is Fault:
            raise reply
        return reply

    def steps(self, calls):
        """Makes several steps, which are sent in blocks, and returns for each its lines, or a Fault where it is none."""
        replies = []
        for block in blocks_of(map(line_of, calls)):
            replies += self._replies(b"".join(block), len(block))
        return [told(lines) for lines in replies]

    def close(self):
        """Ends the program. A session that has ended stays so."""
        process, self._process = self._process, None
        if process:
            error = failure(self._path, process)
            if process.returncode:
                raise error

    def __exit__(self, kind, *_):
        try:
            self.close()
        except Failed:
            if kind is None:  # Another error comes first.
                raise

    def check(self):
        """Refuses to go on where the session has ended."""
        if self._process is None:
            raise Failed("the session has ended")

    def _replies(self, data, count):
        """Sends lines, and returns that many replies."""
        self.check()
        # It ends if the replies are not read to their end, as what is left would be taken for the next one.
        process, self._process = self._process, None
        replies = []
        try:
            process.stdin.write(data)
            process.stdin.flush()
            while len(replies) < count:
                replies.append(read_reply(process.stdout))
                if replies[-1] is None:
                    raise failure(self._path, process)
        except BrokenPipeError:
            raise failure(self._path, process) from None
        except (Bad, Failed):
            raise
        except BaseException:
            ended(process, os.getpid())
            raise
        self._process = process
        return replies


def session_by(top, program=None, by=None):
    """A session by the library, in this process, or by pipes to a program: as `by` says, "library" or "pipes", or else the variable
    NUMALAB_BY; without either by the library where it is found, unless a program is named."""
    by = by or os.environ.get("NUMALAB_BY") or ("pipes" if program or os.environ.get(SESSION[2]) or library() is None else "library")
    if by not in ("library", "pipes"):
        raise Bad(f"by: \"library\" or \"pipes\", and not {by!r}")
    session = Session(top, program) if by == "pipes" else InProcess(top, Fault)
    session.by = by
    return session

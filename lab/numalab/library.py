"""A session by the library libnumatrace, in this process: the same steps and replies as `Session` has by pipes, in less time.

    with InProcess(top) as session:
        session.step({"op": "free", "node": 0})

The library is that of the variable NUMATRACE_LIBRARY, the one that this repository has built or that was installed with this module,
or the one that the loader finds. Nothing of this module is proved."""
import ctypes
import json
import os
import weakref
from contextlib import AbstractContextManager

from .program import CRATES, HERE, INSTALLED, Failed
from .traces import Bad

NAME = "libnumatrace.so.1"
BAD_ARGUMENT, BAD_INPUT, NO_MEMORY, NOT_JSON, SMALL_ROOM = 1, 2, 3, 4, 5
ROOM = 65536
LOADED = []


class Handle(ctypes.Structure):
    """A session as the library has it."""

    _fields_ = [("machine", ctypes.c_void_p)]


def near():
    """Where the library may be, the first choice first."""
    if os.environ.get("NUMATRACE_LIBRARY"):
        return [os.environ["NUMATRACE_LIBRARY"]]
    built = [os.path.join(CRATES, "nm_library", "out", "lib", NAME)]
    if HERE.endswith(INSTALLED):
        built.append(os.path.join(HERE[: -len(INSTALLED)], "lib", NAME))
    return [path for path in built if os.path.isfile(path)] or [NAME]


def library():
    """The library, or None where it is not found."""
    if not LOADED:
        for path in near():
            try:
                found = ctypes.CDLL(path)
            except OSError:
                continue
            size, place = ctypes.c_size_t, ctypes.POINTER(Handle)
            found.numatrace_open.argtypes = [place, ctypes.c_char_p, size]
            found.numatrace_step.argtypes = [place, ctypes.c_char_p, size, ctypes.c_char_p, size, ctypes.POINTER(size)]
            found.numatrace_lines.argtypes = [place, ctypes.c_char_p, size, ctypes.POINTER(size)]
            found.numatrace_close.argtypes, found.numatrace_close.restype = [place], None
            LOADED.append(found)
            break
        else:
            LOADED.append(None)
    return LOADED[0]


def close(found, handle):
    found.numatrace_close(handle)


class InProcess(AbstractContextManager):
    """A machine in this process, and the steps that are made on it; `top` is a trace, whose steps are not played."""

    def __init__(self, top, fault):
        self._library, self._fault = library(), fault
        if self._library is None:
            raise Failed(f"there is no library {NAME}: ./build makes it, and the variable NUMATRACE_LIBRARY names another")
        self._handle, self._room, self._needed, self._count = Handle(None), ctypes.create_string_buffer(ROOM), ctypes.c_size_t(), 0
        data = json.dumps(top).encode()
        status = self._library.numatrace_open(self._handle, data, len(data))
        if status:
            raise Failed("numatrace: out of memory") if status == NO_MEMORY else Bad(f"numatrace: {'not JSON' if status == NOT_JSON else 'bad machine'}")
        self._at_end = weakref.finalize(self, close, self._library, self._handle)

    def step(self, call):
        """Makes a step, and returns its lines of the report."""
        reply = self._reply(call)
        if isinstance(reply, self._fault):
            raise reply
        return reply

    def steps(self, calls):
        """Makes several steps, and returns for each its lines, or a Fault where it is none."""
        return [self._reply(call) for call in calls]

    def close(self):
        """Ends the session. One that has ended stays so."""
        self._at_end()

    def __exit__(self, *_):
        self.close()

    def check(self):
        """Refuses to go on where the session has ended."""
        if not self._at_end.alive:
            raise Failed("the session has ended")

    def _reply(self, call):
        self.check()
        data = json.dumps(call).encode()
        status = self._library.numatrace_step(self._handle, data, len(data), self._room, len(self._room), self._needed)
        if status == SMALL_ROOM:
            self._room = ctypes.create_string_buffer(self._needed.value)
            status = self._library.numatrace_lines(self._handle, self._room, len(self._room), self._needed)
        if status in (BAD_INPUT, NOT_JSON):
            return self._fault("not JSON" if status == NOT_JSON else f"bad step {self._count}")
        if status:
            self.close()
            raise Failed("numatrace: out of memory")
        self._count += 1
        # (a reply by pipes is lines of ASCII too)
        return ctypes.string_at(self._room, self._needed.value).decode("ascii", "replace").splitlines()

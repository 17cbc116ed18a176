"""The library by ctypes: a session, and its steps as calls on numbers, with the lines that the report has of them."""
import ctypes
import errno
import json

PAGE = 4096
DONE, BAD_ARGUMENT, BAD_INPUT, NO_MEMORY, NOT_JSON, SMALL_ROOM = range(6)
U8, U16, U32, U64, I32, I64, SIZE = (
    ctypes.c_uint8, ctypes.c_uint16, ctypes.c_uint32, ctypes.c_uint64, ctypes.c_int32, ctypes.c_int64, ctypes.c_size_t)


class Handle(ctypes.Structure):
    _fields_ = [("machine", ctypes.c_void_p)]


class Asking(ctypes.Structure):
    _fields_ = [("caller", U32), ("pid", U32), ("flags", U32)]


class Binding(ctypes.Structure):
    _fields_ = [("addr", U64), ("len", U64), ("nodes", U64), ("caller", U32), ("mode", U32), ("flags", U32)]


class Entry(ctypes.Structure):
    _fields_ = [("page", U64), ("frame", I64)]


# The parameters of each function after the session.
BYTES, ROOM = [ctypes.c_char_p, SIZE], [ctypes.c_void_p, SIZE, ctypes.POINTER(SIZE)]
PARAMETERS = {
    "open": BYTES, "step": [*BYTES, *ROOM], "lines": ROOM, "close": [],
    "spawn": [U32, U32, U32, U64, ctypes.c_bool], "exit": [U32], "map": [U32, U64, U64, ctypes.c_bool, ctypes.POINTER(U32)],
    "attach": [U32, U64, U64, U64, U64], "unmap": [U32, U64, U64], "read": [U32, U64, ctypes.c_void_p, SIZE],
    "write": [U32, U64, *BYTES], "pin": [U32, U64], "unpin": [U32, U64],
    "move_pages": [ctypes.POINTER(Asking), ctypes.c_void_p, SIZE, ctypes.c_void_p, SIZE, ctypes.c_void_p, SIZE, ctypes.POINTER(SIZE)],
    "query": [ctypes.POINTER(Asking), ctypes.c_void_p, SIZE, ctypes.c_void_p, SIZE],
    "migrate_pages": [U32, U32, U64, U64, ctypes.POINTER(SIZE)], "mbind": [ctypes.POINTER(Binding)], "offline": [U32], "online": [U32],
    "free_list": [U32, *ROOM], "pagemap": [U32, *ROOM], "numa_maps": [U32, *ROOM], "vmstat": [ctypes.POINTER(U64), ctypes.POINTER(U64)],
}


def loaded(path):
    """The library, with the types of its functions."""
    library = ctypes.CDLL(path)
    for name, parameters in PARAMETERS.items():
        function = getattr(library, "numatrace_" + name)
        function.argtypes = [ctypes.POINTER(Handle), *parameters]
        function.restype = None if name == "close" else I32
    library.numatrace_run.argtypes, library.numatrace_run.restype = [*BYTES, *ROOM], I32
    return library


class Refusal(Exception):
    """A call that the machine refuses."""


def mask(nodes):
    return sum(1 << node for node in set(nodes))


def address(number):
    return f"{number:08x}"


def listed(words):
    return "".join(f" {word}" for word in words)


class Session:
    """A session of the library."""

    def __init__(self, library, top):
        self.library, self.handle = library, Handle(None)
        self.call("open", *self.bytes(json.dumps(top).encode()))

    @staticmethod
    def bytes(data):
        return data, len(data)

    def status(self, name, *arguments):
        return getattr(self.library, "numatrace_" + name)(self.handle, *arguments)

    def call(self, name, *arguments):
        """Makes a call that is to succeed, or to be refused."""
        status = self.status(name, *arguments)
        if status < 0:
            raise Refusal(errno.errorcode[-status])
        assert status == DONE, f"{name}: status {status}"

    def listing(self, name, kind, *arguments, again=None):
        """What a function lists, asked for with too little room first."""
        needed, room = SIZE(), (kind * 1)()
        status = self.status(name, *arguments, room, 1, needed)
        if status == SMALL_ROOM:
            room = (kind * needed.value)()
            status = self.status(again or name, *(() if again else arguments), room, needed.value, needed)
        if status < 0:
            raise Refusal(errno.errorcode[-status])
        assert status == DONE, f"{name}: status {status}"
        return room[: needed.value]

    def step(self, step):
        """The lines of a step in JSON."""
        return bytes(self.listing("step", U8, *self.bytes(json.dumps(step).encode()), again="lines"))

    def close(self):
        self.status("close")

    # ---- steps as calls on numbers: each returns the line after its name

    def spawn(self, step):
        self.call("spawn", step["pid"], step["uid"], step["home"], mask(step["allowed"]), step.get("privileged", False))
        return " ok"

    def exit(self, step):
        self.call("exit", step["pid"])
        return " ok"

    def map(self, step):
        segment = U32()
        self.call("map", step["pid"], step["addr"], step["pages"], step.get("shared", False), segment)
        return f" segment={segment.value}"

    def attach(self, step):
        self.call("attach", *[step[key] for key in ("pid", "addr", "segment", "offset", "pages")])
        return " ok"

    def unmap(self, step):
        self.call("unmap", step["pid"], step["addr"], step["pages"])
        return " ok"

    def read(self, step):
        # (what is longer than a page is refused, whatever its length)
        length = min(step["len"], PAGE + 1)
        room = (U8 * length)()
        self.call("read", step["pid"], step["addr"], room, length)
        return f" {bytes(room).hex()}"

    def write(self, step):
        self.call("write", step["pid"], step["addr"], *self.bytes(bytes.fromhex(step["data"])))
        return " ok"

    def pin(self, step):
        self.call("pin", step["pid"], step["addr"])
        return " ok"

    def unpin(self, step):
        self.call("unpin", step["pid"], step["addr"])
        return " ok"

    def move_pages(self, step):
        count, failed = len(step["pages"]), SIZE()
        pages, nodes, statuses = (U64 * count)(*step["pages"]), (U32 * count)(*step["nodes"]), (I32 * count)()
        self.call("move_pages", Asking(step["caller"], step["pid"], step["flags"]), pages, count, nodes, count, statuses, count, failed)
        return f" {failed.value}:{listed(statuses)}"

    def query(self, step):
        count = len(step["pages"])
        statuses = (I32 * count)()
        self.call("query", Asking(step["caller"], step["pid"], step["flags"]), (U64 * count)(*step["pages"]), count, statuses, count)
        return f" 0:{listed(statuses)}"

    def migrate_pages(self, step):
        failed = SIZE()
        self.call("migrate_pages", step["caller"], step["pid"], mask(step["old"]), mask(step["new"]), failed)
        return f" {failed.value}"

    def mbind(self, step):
        keys = {key: step[key] for key in ("addr", "len", "caller", "mode", "flags")}
        self.call("mbind", Binding(nodes=mask(step["nodes"]), **keys))
        return " 0"

    def offline(self, step):
        self.call("offline", step["node"])
        return " ok"

    def online(self, step):
        self.call("online", step["node"])
        return " ok"

    def free(self, step):
        frames = self.listing("free_list", U16, step["node"])
        return f" {len(frames)}:{listed(frames)}"

    def pagemap(self, step):
        entries = self.listing("pagemap", Entry, step["pid"])
        return f" {len(entries)}:" + listed(f"{address(e.page * PAGE)}={'zero' if e.frame < 0 else e.frame}" for e in entries)

    def numa_maps(self, step):
        lines = bytes(self.listing("numa_maps", U8, step["pid"])).decode().splitlines()
        return f" {len(lines)}" + "".join(f"\n{line}" for line in lines)

    def vmstat(self, _):
        moved, failed = U64(), U64()
        self.call("vmstat", moved, failed)
        return f" pgmigrate_success {moved.value} pgmigrate_fail {failed.value}"

    @staticmethod
    def renumbered(lines, number):
        """Lines of a step in JSON, which counts only such steps, with the number that it has in the trace."""
        own = lines.split(b" ", maxsplit=1)[0].split(b".")[0]
        return b"".join(str(number).encode() + line[len(own):] for line in lines.splitlines(keepends=True))

    def by_numbers(self, number, step):
        """The lines of a step that is made by a call on numbers, where it has no accesses in flight."""
        try:
            said = getattr(self, step["op"])(step)
        except Refusal as refusal:
            said = f" error {refusal}"
        return f"{number} {step['op']}{said}\n".encode()

"""Runs a command under strace, and looks at its processes in /proc while they are stopped at a call about nodes."""
import ctypes
import glob
import json
import os
import re
import select
import shutil
import subprocess
import tempfile
import time

from ..machines import NODES, listed, of_folder
from ..model import PAGE
from ..traces import Bad
from .recorded import ABOUT_NODES, MOST_FRAMES, Seen
from .strace import Reader, begun_call, number

NO_STRACE = "there is no strace: it is in Debian's package strace"
CALLS = ("mmap,munmap,brk,mremap,madvise,mbind,migrate_pages,move_pages,set_mempolicy,set_mempolicy_home_node,clone,clone3,fork,vfork,execve,"
         "shmat,mlock,mlockall,setuid,setresuid,capset,exit_group")
DELAY = 20000  # microseconds for which a process is stopped before each call about nodes
CAP_SYS_NICE, MOVE_PAGES = 23, 279
MOST_LOOKED_AT = 1 << 20
PAUSE = 0.02  # seconds


def text_of(path):
    with open(path, encoding="utf-8", errors="replace") as file:
        return file.read()


def machine_here():
    """The pages and distances of this machine's nodes."""
    try:
        nodes = of_folder(NODES)
    except Bad as error:
        raise Bad(f"this kernel has no NUMA: {error}; --machine FILE names another machine") from error
    numbers = list(range(len(nodes)))
    if [node.number for node in nodes] != numbers or any(list(node.distances) != numbers for node in nodes):
        raise Bad("the nodes of this machine are not numbered consecutively: --machine FILE names another machine")
    return [node.pages for node in nodes], [list(node.distances.values()) for node in nodes]


def node_of_cpu(cpus):
    """The node of the first processor of a list."""
    for cpu in listed(cpus)[:1]:
        for path in glob.glob(f"/sys/devices/system/cpu/cpu{cpu}/node*"):
            return int(path.rsplit("node", 1)[1])
    return 0


def nodes_of(pid, found):
    """The node of each page of a process, or None where the kernel does not say."""
    libc, count = ctypes.CDLL(None, use_errno=True), len(found)
    pages, status = (ctypes.c_void_p * count)(*[page * PAGE for page in found]), (ctypes.c_int * count)(*[-1] * count)
    if not count or libc.syscall(MOVE_PAGES, pid, ctypes.c_ulong(count), pages, None, status, 0) != 0:
        return [None] * count
    return [one if one >= 0 else None for one in status]


def areas_of(pid):
    """The anonymous areas of a process, as page numbers and whether they are shared."""
    found = []
    for line in text_of(f"/proc/{pid}/maps").splitlines():
        words = line.split()
        first, end = (int(part, 16) // PAGE for part in words[0].split("-"))
        name = words[5] if len(words) > 5 else ""
        if name in ("", "[heap]") or name.startswith(("[anon", "/dev/zero", "/memfd:", "/SYSV")):
            found.append((first, end, words[1][3] == "s"))
    return found


def present_of(pid, areas):
    """The page numbers of some areas at which a process has something."""
    found = []
    with open(f"/proc/{pid}/pagemap", "rb") as file:
        for first, end, _ in areas:
            if end - first > MOST_LOOKED_AT:
                continue
            file.seek(first * 8)
            data = file.read((end - first) * 8)
            found += [first + place for place in range(len(data) // 8) if data[place * 8 + 7] & 0x80]
    return found


def look_at(pid, traced):
    """What /proc shows of a process, or None where it shows nothing."""
    try:
        status = dict(line.split(":\t", 1) for line in text_of(f"/proc/{pid}/status").splitlines() if ":\t" in line)
        areas = areas_of(pid)
        present = present_of(pid, areas)
    except (OSError, ValueError):
        return None
    nodes = nodes_of(pid, present)
    known = [node for node in nodes if node is not None]
    home = max(sorted(set(known)), key=known.count) if known and not traced else node_of_cpu(status["Cpus_allowed_list"])
    allowed = listed(status.get("Mems_allowed_list", "0"))
    privileged = bool(int(status["CapEff"], 16) >> CAP_SYS_NICE & 1)
    return Seen(int(status["Uid"].split()[1]), privileged, home, [node for node in allowed if node < 64], [] if traced else areas,
                dict(zip(present, nodes)))


class Watcher:
    """Reads the lines of strace as they come, and looks at processes at the beginning of calls."""

    def __init__(self):
        self.reader, self.events, self.lines, self.traced, self.seen, self.looked = Reader("strace"), [], [], set(), {}, None

    def look(self, text):
        """Looks at the processes that a call which has begun is about, once for each call."""
        begun = begun_call(text)
        if not begun or begun[1] not in ABOUT_NODES or self.looked == (len(self.lines), begun[0]):
            return
        pid, name, arguments = begun
        target = number(arguments[0]) if name != "mbind" and arguments else 0
        found = {who: look_at(who, who in self.traced or who == pid) for who in {pid, target or pid}}
        self.seen[pid] = {who: seen for who, seen in found.items() if seen}
        self.looked = (len(self.lines), pid)

    def line(self, text):
        match = re.match(r"\s*(\d+)", text)
        self.traced |= {int(match[1])} if match else set()
        self.look(text)
        self.looked = None
        self.lines.append(text)
        event = self.reader.read(text)
        if event:
            self.events.append((event, self.seen.pop(event.pid, {})))

    def follow(self, file, process):
        """Reads up to the end of strace. What follows the last line feed is a call that has begun."""
        rest, ended = b"", False
        while not ended:
            ended = process.poll() is not None  # What it wrote before is read once more.
            select.select([file], [], [], PAUSE)
            for data in iter(lambda: read_what_is_there(file), b""):
                *whole, rest = (rest + data).split(b"\n")
                for text in whole:
                    self.line(text.decode("utf-8", "replace"))
                if rest:
                    self.look(rest.decode("utf-8", "replace"))
            if not ended and not rest:
                time.sleep(PAUSE / 10)


def read_what_is_there(file):
    """The bytes that a pipe has now, or none."""
    try:
        return os.read(file, 1 << 16)
    except BlockingIOError:
        return b""


def watched(command):
    """Runs a command; returns what was seen, and the command's status."""
    if not shutil.which("strace"):
        raise Bad(NO_STRACE)
    if not shutil.which(command[0]):
        raise Bad(f"there is no command {command[0]}")
    watcher = Watcher()
    with tempfile.TemporaryDirectory(prefix="numalab-") as folder:
        path = os.path.join(folder, "calls")
        os.mkfifo(path)
        words = ["strace", "-f", "-X", "raw", "-e", "abbrev=none", "-e", f"trace={CALLS}", "-e",
                 f"inject={','.join(sorted(ABOUT_NODES))}:delay_enter={DELAY}", "-o", path, "--", *command]
        file = os.open(path, os.O_RDONLY | os.O_NONBLOCK)
        try:
            with subprocess.Popen(words) as process:
                watcher.follow(file, process)
        finally:
            os.close(file)
    if not watcher.lines:
        raise Bad(f"strace ended with status {process.returncode} and wrote nothing: is it allowed to trace here?")
    return watcher, process.returncode


def machine_asked(path, most=MOST_FRAMES):
    """The pages and distances of the machine in a file: a trace, or only its machine object."""
    try:
        top = json.loads(text_of(path))
        machine = top.get("machine", top)
        return list(machine["nodes"]), machine["distance"]
    except OSError as error:
        raise Bad(f"{path}: {error.strerror}") from error
    except (ValueError, KeyError, TypeError, AttributeError) as error:
        raise Bad(f"{path}: expected a trace in JSON, or an object with nodes and distance") from error

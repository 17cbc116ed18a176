"""The player: a program in C that makes the calls of a trace. It is built on first use, and kept in the cache folder."""
import hashlib
import os
import re
import shutil
import subprocess
import tempfile

from ..traces import Bad
from .instructions import Instructions, Unplayable

HERE = os.path.dirname(os.path.abspath(__file__))
SOURCE = os.path.join(HERE, "player.c")
FLAGS = ["-std=c17", "-O1", "-Wall", "-Wextra", "-static-pie"]
NO_COMPILER = "there is no gcc: it is in Debian's package gcc, with libc6-dev"
INCLUDE = re.compile(r'#include "([a-z]+\.c)"')
NODES = "/sys/devices/system/node"
LIMIT = 120


def cache_folder():
    return os.path.join(os.environ.get("XDG_CACHE_HOME") or os.path.join(os.path.expanduser("~"), ".cache"), "numalab")


def source_text(path):
    """A source in C, with the text of each file beside it that it includes by name."""
    with open(path, encoding="utf-8") as file:
        lines = file.read().split("\n")
    texts = [INCLUDE.fullmatch(line) for line in lines]
    return "\n".join(source_text(os.path.join(HERE, found[1])).rstrip("\n") if found else line for line, found in zip(lines, texts))


def built():
    """The path of the player, which is built if it does not exist yet."""
    name = "player-" + hashlib.sha256(source_text(SOURCE).encode() + " ".join(FLAGS).encode()).hexdigest()[:16]
    path = os.path.join(cache_folder(), name)
    if os.path.exists(path):
        return path
    if not shutil.which("gcc"):
        raise Bad(NO_COMPILER)
    try:
        os.makedirs(cache_folder(), exist_ok=True)
        with tempfile.TemporaryDirectory(dir=cache_folder()) as folder:
            made = os.path.join(folder, name)
            ran = subprocess.run(["gcc", *FLAGS, "-o", made, SOURCE], capture_output=True, check=False)
            if ran.returncode != 0:
                raise Bad(f"gcc cannot build the player: {ran.stderr.decode('utf-8', 'replace').strip()} (is libc6-dev installed?)")
            os.replace(made, path)
    except OSError as error:
        raise Bad(f"{error.filename or path}: {error.strerror}") from error
    return path


def nodes_here():
    """How many nodes with memory this machine has, counted from 0 without a gap."""
    try:
        with open(f"{NODES}/has_memory", encoding="ascii") as file:
            text = file.read().strip()
    except OSError as error:
        raise Bad("this kernel has no NUMA: there is no /sys/devices/system/node/has_memory") from error
    first, _, last = text.split(",")[0].partition("-")
    return int(last or first) + 1 if first == "0" else 0


def refuse_here(trace):
    """Refuses a trace for which this machine lacks something."""
    wanted, there = len(trace.top["machine"]["nodes"]), nodes_here()
    if there < wanted:
        raise Unplayable(f"{trace.name}: the trace has {wanted} nodes, and this machine has {there}: --qemu plays it on a kernel of its own")
    spawns = [step for step in trace.steps if step["op"] == "spawn"]
    if os.geteuid() != 0 and (len({step["uid"] for step in spawns}) > 1 or any(step.get("privileged", False) for step in spawns)):
        raise Unplayable(f"{trace.name}: only root can play several users or privileged processes: sudo numalab replay --here, or --qemu")
    if there > wanted and any(len(set(step["allowed"])) == wanted for step in spawns):
        raise Unplayable(f"{trace.name}: the trace has {wanted} node(s), and this machine has {there}: only a trace of {there} nodes can be played here")


def play_here(trace, privilege="both"):
    """The report of this machine's kernel."""
    refuse_here(trace)
    program = Instructions(trace, True, privilege).text()
    try:
        ran = subprocess.run([built()], input=program.encode(), capture_output=True, check=False, timeout=LIMIT)
    except subprocess.TimeoutExpired as error:
        raise Bad(f"{trace.name}: the player did not end within {LIMIT} seconds") from error
    except OSError as error:
        raise Bad(f"{built()}: {error.strerror}") from error
    report = ran.stdout.decode("utf-8", "replace")
    if ran.returncode != 0 or not report.endswith("# end\n"):
        raise Bad(f"{trace.name}: {ran.stderr.decode('utf-8', 'replace').strip() or 'the player ended early'} (status {ran.returncode})")
    return report

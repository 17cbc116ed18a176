"""A kernel under software emulation, with the nodes and distances of a trace, and the player as its first process."""
import contextlib
import glob
import os
import re
import shutil
import signal
import subprocess
import tempfile
import threading
import time
from collections import namedtuple

from ..traces import Bad, EndedEarly
from .player import cache_folder

QEMU = "qemu-system-x86_64"
NO_QEMU = f"there is no {QEMU}: it is in Debian's package qemu-system-x86"
NO_KERNEL = ("there is no kernel: lab/kernels fetches those from Debian's packages linux-image-6.1.*-cloud-amd64 and "
             "linux-image-6.12.*-cloud-amd64, and --kernel VMLINUZ names another")
MEGABYTE = 1 << 20
FIRST_NODE, OTHER_NODE, BLOCK = 192, 64, 128
MOST_NODES = 16
# A boot takes some six seconds, and a step at most a minute. A guest that has told nothing for this long, without the time in which it
# waited for a processor of a busy host, has hung.
BOOT_LIMIT, STEP_LIMIT, PAUSE = 300, 300, 0.1
CONSOLE_LINES = 12
# On a busy host a guest's timer is late, which a kernel would take for a broken one; and where nodes can go, a kernel would take 64 MiB
# of the last other node for its software IO TLB.
APPEND = ("console=ttyS0 quiet panic=-1 transparent_hugepage=never numa_balancing=disable memhp_default_state=online_movable "
          "random.trust_cpu=on mitigations=off no_timer_check swiotlb=noforce")
RELEASE = re.compile(rb"(\d+\.\d+\.\d+[^\x00\s]*) \(")


def kernels_folder():
    return os.environ.get("NUMALAB_KERNELS") or os.path.join(cache_folder(), "kernels")


def release_of(path):
    """The release in the header of a kernel image."""
    try:
        with open(path, "rb") as file:
            head = file.read(1 << 15)
    except OSError as error:
        raise Bad(f"{path}: {error.strerror}") from error
    place = int.from_bytes(head[0x20E:0x210], "little") + 0x200
    match = RELEASE.match(head[place : place + 200]) if head[0x202:0x206] == b"HdrS" else None
    if not match:
        raise Bad(f"{path} is not a kernel image")
    return match[1].decode()


def version_of(release):
    """The series of a release, such as 6.12."""
    return ".".join(release.split(".")[:2])


def numbers_of(name):
    return [int(part) for part in re.findall(r"\d+", name)]


def kernels():
    """The kernels that are there, by version, the latest of each."""
    found = {}
    for folder in (kernels_folder(), "/boot"):
        for name in sorted(os.listdir(folder) if os.path.isdir(folder) else [], key=numbers_of, reverse=True):
            path = os.path.join(folder, name)
            with contextlib.suppress(Bad):
                if name.startswith("vmlinuz-"):
                    found.setdefault(version_of(release_of(path)), path)
    return found


def kernel_asked(asked):
    """The path of the kernel that is asked for: a path, a version, or the latest that there is."""
    if asked and os.path.exists(asked):
        release_of(asked)
        return asked
    there = kernels()
    if asked:
        if asked not in there:
            raise Bad(f"there is no kernel {asked} (those here: {', '.join(there) or 'none'}): lab/kernels fetches Debian's kernels")
        return there[asked]
    if not there:
        raise Bad(NO_KERNEL)
    return there[max(there, key=numbers_of)]


def entry_of_archive(name, mode, data=b"", device=(0, 0)):
    """A file of an archive as the kernel unpacks it (newc)."""
    head = [0, mode, 0, 0, 1, 0, len(data), 0, 0, *device, len(name) + 1, 0]
    text = b"070701" + b"".join(b"%08X" % value for value in head) + name.encode() + b"\0"
    text += b"\0" * (-len(text) % 4)
    return text + data + b"\0" * (-len(data) % 4)


def archive(player, program, more=()):
    """The files of the guest: the player, its instructions, and perhaps more programs, by their paths there."""
    with open(player, "rb") as file:
        image = file.read()
    return b"".join([
        entry_of_archive("dev", 0o40755), entry_of_archive("dev/console", 0o20600, device=(5, 1)),
        entry_of_archive("init", 0o100755, image), entry_of_archive("program", 0o100644, program.encode()),
        *(entry_of_archive(folder, 0o40755) for folder in sorted({os.path.dirname(path) for path, _ in more})),
        *(entry_of_archive(path, 0o100755, data) for path, data in more), entry_of_archive("TRAILER!!!", 0)])


def words_of(kernel, folder, shape):
    """The command line. A shape has the sizes and distances of the nodes, and those that can be taken offline."""
    sizes, distance, removable = shape
    count, slots = len(sizes), []
    words = [QEMU, "-machine", "pc", "-nodefaults", "-no-user-config", "-display", "none", "-no-reboot", "-accel", "tcg,thread=single",
             "-smp", f"{count},sockets={count},cores=1,threads=1"]
    for node, frames in enumerate(sizes):
        size = (FIRST_NODE if node == 0 else OTHER_NODE) + -(-frames * 4096 // MEGABYTE)
        node_words = f"node,nodeid={node},cpus={node}"
        if node in removable:
            size = -(-size // BLOCK) * BLOCK
            slots += ["-object", f"memory-backend-ram,id=m{node},size={size}M", "-device", f"pc-dimm,id=d{node},memdev=m{node},node={node}"]
            words += ["-numa", node_words]
        else:
            words += ["-object", f"memory-backend-ram,id=m{node},size={size}M", "-numa", f"{node_words},memdev=m{node}"]
    words += [word for node in range(count) for other in range(count)
              for word in ("-numa", f"dist,src={node},dst={other},val={distance[node][other]}")]
    fixed = sum((FIRST_NODE if node == 0 else OTHER_NODE) + -(-frames * 4096 // MEGABYTE)
                for node, frames in enumerate(sizes) if node not in removable)
    words += ["-m", f"{fixed}M" + (f",slots={count},maxmem=16G" if slots else ""), *slots]
    return words + ["-kernel", kernel, "-initrd", os.path.join(folder, "initrd"), "-append", APPEND,
                    "-serial", f"file:{folder}/console", "-serial", f"file:{folder}/report"]


def last_lines(folder):
    """What the console of a guest showed last."""
    with contextlib.suppress(OSError), open(os.path.join(folder, "console"), "rb") as file:
        lines = [line.strip() for line in file.read().decode("utf-8", "replace").split("\n") if line.strip()]
        return "".join(f"\n  {line}" for line in lines[-CONSOLE_LINES:]) or "\n  (nothing)"
    return "\n  (nothing)"


# What a guest has told: its report as far as it got, and what went wrong, or None.
Told = namedtuple("Told", "report trouble")


class Signals:
    """Notes requests to end this program while it waits for guests, in a `with`, and obeys them only when it is asked to: nothing is
    left behind then, no guest and none of its files. In other threads it notes nothing: there an event ends a guest."""

    NOTED = (signal.SIGINT, signal.SIGTERM, signal.SIGHUP)

    def __init__(self):
        self.sent, self.before = None, {}

    def note(self, number, _):
        self.sent = number

    def __enter__(self):
        if threading.current_thread() is threading.main_thread():
            for number in self.NOTED:
                if signal.getsignal(number) in (signal.SIG_DFL, signal.default_int_handler):
                    self.before[number] = signal.signal(number, self.note)
        return self

    def __exit__(self, *_):
        for number, before in self.before.items():
            signal.signal(number, before)

    def obey(self):
        if self.sent == signal.SIGINT:
            raise KeyboardInterrupt
        if self.sent:
            raise SystemExit(128 + self.sent)


def report_of(folder):
    with contextlib.suppress(OSError), open(os.path.join(folder, "report"), "rb") as file:
        return file.read().decode("utf-8", "replace").replace("\r\n", "\n")
    return ""


def time_of(process):
    """The time, without that in which the thread of a process that waited most has waited for a processor."""
    waited = [0]
    for path in glob.glob(f"/proc/{process.pid}/task/*/schedstat"):
        with contextlib.suppress(OSError, IndexError, ValueError), open(path, encoding="ascii") as file:
            waited.append(int(file.read().split()[1]))
    return time.monotonic() - max(waited) / 1e9


def wait_for(process, folder, stop, signals):
    """Waits until a guest has ended; returns why it is to be ended before, or None."""
    path, size, since, limit = os.path.join(folder, "report"), 0, time_of(process), BOOT_LIMIT
    while True:
        with contextlib.suppress(subprocess.TimeoutExpired):
            process.wait(PAUSE)
            return None
        now = os.path.getsize(path) if os.path.exists(path) else 0
        if now != size:
            size, since, limit = now, time_of(process), STEP_LIMIT
        if signals.sent or stop is not None and stop.is_set():
            return "the guest was stopped"
        if time_of(process) - since > limit and process.poll() is None:
            return f"the guest has told nothing for {limit} seconds"


def told_by(kernel, player, program, shape, stop=None, more=()):
    """Boots a guest that plays some instructions; returns what it has told. It is ended where an event says so."""
    if not shutil.which(QEMU):
        raise Bad(NO_QEMU)
    with Signals() as signals, tempfile.TemporaryDirectory(prefix="numalab-") as folder:
        with open(os.path.join(folder, "initrd"), "wb") as file:
            file.write(archive(player, program, more))
        # Where this program is killed, so is the guest.
        words = [*(["setpriv", "--pdeathsig", "KILL"] if shutil.which("setpriv") else []), *words_of(kernel, folder, shape)]
        begun = time.monotonic()
        try:
            with open(os.path.join(folder, "errors"), "wb") as errors, subprocess.Popen(
                    words, stdin=subprocess.DEVNULL, stdout=subprocess.DEVNULL, stderr=errors) as process:
                try:
                    trouble = wait_for(process, folder, stop, signals)
                finally:
                    process.kill()
            with open(os.path.join(folder, "errors"), "rb") as errors:
                said = errors.read().decode("utf-8", "replace").strip()
        except OSError as error:
            raise Bad(f"{QEMU}: {error.strerror}") from error
        signals.obey()
        report, seconds = report_of(folder), time.monotonic() - begun
        if trouble is None and process.returncode != 0:
            raise EndedEarly(f"{QEMU} ended with status {process.returncode}: {said}")
        if trouble is None and not report.endswith("# end\n"):
            trouble = f"the guest ended after {seconds:.0f} seconds without a whole report"
        return Told(report, trouble and f"{trouble}; its console shows{last_lines(folder)}")


def boot(kernel, player, program, shape):
    """The whole report of a guest."""
    told = told_by(kernel, player, program, shape)
    if told.trouble:
        raise EndedEarly(told.trouble)
    return told.report

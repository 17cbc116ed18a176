"""Checks of a copy of a crate, with some texts in place of its own, over kept work."""
import functools
import os
import re
import shutil
import signal
import subprocess
import sys
import tempfile

from rounds.logs import Log
from rounds.standins import put
from rounds.texts import reader

ROOT = os.path.dirname(os.path.dirname(os.path.dirname(os.path.abspath(__file__))))
sys.path.insert(0, os.path.join(ROOT, "tools"))
import prove  # noqa: E402

# The line with which a check says that it has ended with a function.
CHECKED = re.compile(r"checked (\S+), \d+ of \d+$")
# The bytes of memory that a check has to itself: the most that one of these crates takes.
MEMORY = 5_000_000_000


class Fault(Exception):
    """Why nothing can be said of a crate's edits."""


@functools.lru_cache(maxsize=None)
def kit():
    """The kit's command rt, as a module that raises a Fault where it would end."""
    rt = prove.kit()

    def stop(why):
        raise Fault(why)

    rt.rtlib.stop = stop
    return rt


def begin():
    """What has to be done once, before any thread checks: the kit sets a signal's handler."""
    kit().rtlib.guarded()


def jobs():
    """How many checks to run at a time: RT_JOBS, or one a processor as long as there is memory for each."""
    given = os.environ.get("RT_JOBS", "")
    if given.isdigit() and int(given):
        return int(given)
    with open("/proc/meminfo", encoding="ascii") as lines:
        free = next(int(line.split()[1]) * 1024 for line in lines if line.startswith("MemAvailable:"))
    return max(1, min(len(os.sched_getaffinity(0)), free // MEMORY))


def linked(folder, to):
    """Copies kept work, checked modules by links where these can be made: a check replaces such a file, and changes none."""

    def copy(one, other):
        try:
            if one.endswith(".oantt"):
                return os.link(one, other)
        except OSError:
            pass
        return shutil.copy2(one, other)

    shutil.copytree(folder, to, copy_function=copy)


def spent(number):
    """The seconds of a processor that a process has spent."""
    try:
        with open(f"/proc/{number}/stat", encoding="ascii", errors="replace") as stat:
            parts = stat.read().rpartition(")")[2].split()
        return (int(parts[11]) + int(parts[12])) / os.sysconf("SC_CLK_TCK")
    except OSError:
        return 0


class Ran:
    """A command that has ended: its status, what it printed, the seconds of a processor that it took, and how many of them each function
    took that it says it has checked."""

    def __init__(self, words, folder):
        self.took, lines, last = {}, [], 0
        with subprocess.Popen(words, cwd=folder, stdin=subprocess.DEVNULL, stdout=subprocess.PIPE, stderr=subprocess.STDOUT) as run:
            for line in run.stdout:
                lines.append(line.decode(errors="replace"))
                found = CHECKED.match(lines[-1])
                if found:
                    now = spent(run.pid)
                    self.took[found[1]], last = now - last, now
            _, status, usage = os.wait4(run.pid, 0)
            self.status = run.returncode = os.waitstatus_to_exitcode(status)
        self.said, self.seconds = "".join(lines), usage.ru_utime + usage.ru_stime


class Checks:
    """The checks of one crate. All of them begin with what `seed` holds, if there is one, and change nothing of it."""

    def __init__(self, name, room, root=ROOT):
        self.name, self.root, self.room = name, root, os.path.join(room, name)
        self.folder = os.path.join(root, "crates", name)
        if not os.path.isdir(os.path.join(self.folder, "src")):
            raise Fault(f"there is no crate {name}")
        self.rt, self.seconds, self.seed, self.logs = kit(), 0, None, None
        self.crate = self.rt.rtlib.Crate(self.folder, root, {})
        # (the sources as they stand now: they may be changed while their edits are tried)
        self.plain = os.path.join(self.room, "plain")
        for part in self.rt.rtlib.PARTS:
            if os.path.isdir(os.path.join(self.folder, part)):
                shutil.copytree(os.path.join(self.folder, part), os.path.join(self.plain, part))
        self.text_of = reader(self.plain)

    def files(self):
        """The paths of the files of src/."""
        found = []
        for at, _, names in os.walk(os.path.join(self.plain, "src")):
            found += [os.path.relpath(os.path.join(at, name), self.plain) for name in names if name.endswith(".rt")]
        return sorted(found)

    def stamp(self):
        """A checksum of the kit and of all files that a check of the crate reads."""
        return self.crate.stamp() + self.rt.rtlib.text_of(f"{self.rt.rtlib.KIT}/KIT-ID")

    def prove(self):
        """Proves the crate as it stands, and keeps that for the checks: as `rt check` does, which begins with what earlier ones kept."""
        ran = Ran([*self.rt.rtlib.guarded(), "rt", "check", "--jobs", "1"], self.folder)
        self.seconds += ran.seconds
        if ran.status:
            why = next((line for line in ran.said.split("\n") if ": error" in line or "not proved" in line or "no proof" in line), ran.said[-200:])
            raise Fault(f"it is not proved without an edit: {why.strip()[:200]}")
        self.seed = os.path.join(self.room, "seed")
        linked(os.path.join(self.folder, "out", "incremental"), self.seed)

    def below(self):
        """The libraries of the repository below the crate."""
        return self.crate.below()

    def is_ready(self):
        """Whether the libraries below are built as they stand: all of them by `rt ci`, which notes no stamp, or all by other commands. (`rt ci`
        puts back what was built in a clone before, also what is older than the sources.)"""
        stamps = [(self.rt.rtlib.text_of(os.path.join(os.path.dirname(each.rlib), "stamp")), each.stamp()) for each in self.below()]
        are_built = all(os.path.isdir(each.rlib) for each in self.below())
        return are_built and (all(noted is None for noted, _ in stamps) or all(noted == stamp for noted, stamp in stamps))

    def check(self, texts, only=(), stands=(), name="plain", edits=()):
        """The log of a check with these texts: of these functions and those that they call alone, if there are any, and with stand-ins for
        proofs in these folders. Its name and that of its edits are for people who keep logs."""
        with tempfile.TemporaryDirectory(prefix="try-", dir=self.room) as room:
            copy, kept = os.path.join(room, "copy"), os.path.join(room, "kept")
            shutil.copytree(self.plain, copy)
            for path, text in texts.items():
                with open(os.path.join(copy, path), "w", encoding="utf-8") as file:
                    file.write(text)
            put(self.name, copy, stands)
            if self.seed:
                linked(self.seed, kept)
            else:
                os.mkdir(kept)
            log = self.run(copy, kept, [*(word for path in only for word in ("--only", path)), *["--allow-holes"] * bool(stands)])
            self.keep(log, name, edits)
            # (what a check of a part keeps is not all that the next one needs, which needs another part)
            if log.has_verdict() and (only or not self.seed):
                seed = os.path.join(self.room, "seed")
                shutil.rmtree(seed, ignore_errors=True)
                os.rename(kept, seed)
                self.seed = seed
            return log

    def command(self, copy):
        """What checks a copy, and where."""
        return self.crate.words(["--jobs", "1"], keeps=False), copy

    def run(self, copy, kept, more):
        """The log of a check of a copy, with more words; one that is killed is run again once, since the memory that it lacked may be free
        then."""
        words, folder = self.command(copy)
        for _ in range(2):
            ran = Ran([*self.rt.rtlib.guarded(), self.rt.rtlib.RATTLE, "check", *words, *more, "--incremental", kept, "--progress"], folder)
            self.seconds += ran.seconds
            if ran.status != -signal.SIGKILL:
                break
        return Log(ran.status, ran.said, ran.took)

    def keep(self, log, name, edits):
        """Keeps what a check printed, where people want that."""
        if self.logs:
            os.makedirs(self.logs, exist_ok=True)
            with open(os.path.join(self.logs, f"{self.name}-{name}.log"), "w", encoding="utf-8") as file:
                file.write(f"edits: {' '.join(edits)}\n{log.text}")


class DefinitionChecks(Checks):
    """Checks of a crate without code, whose edits change definitions: of a crate that proves laws about them, over its sources."""

    def __init__(self, name, room, root=ROOT):
        super().__init__(name, room, root)
        self.laws = Checks(LAWS_OF[name], os.path.join(room, "laws"), root)

    def stamp(self):
        return self.laws.stamp()

    def below(self):
        return [each for each in self.laws.below() if each.name != self.name]

    def prove(self):
        self.laws.prove()
        self.seconds += self.laws.seconds
        log = self.check({})
        if log.status:
            raise Fault(f"{self.laws.name} is not proved without an edit: {log.why_none() if not log.has_verdict() else log.last}")

    def command(self, copy):
        words, own, kit_folder = self.laws.crate.words(["--jobs", "1"], keeps=False), self.crate, self.rt.rtlib.KIT
        at = words.index(f"{own.name}={own.rlib}")
        of_kit = dict.fromkeys(["core", *own.of_kit])
        more = [word for name in of_kit if name not in self.laws.crate.of_kit for word in ("--extern", f"{name}={kit_folder}/rlibs/{name}.rlib")]
        uses = ",".join([*of_kit, *(each.name for each in own.deps)])
        return [*words[: at - 1], *more, "--lib", f"{own.name}:{uses}={copy}/src/lib.rt", *words[at + 1 :]], self.laws.plain


# The crates without code, each with the crate whose laws its edits must break.
LAWS_OF = {"nm_model": "nm_laws"}


def checks_of(name, room, root=ROOT):
    """The checks of a crate's edits."""
    return (DefinitionChecks if name in LAWS_OF else Checks)(name, room, root)

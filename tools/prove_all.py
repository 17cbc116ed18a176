#!/usr/bin/env python3
"""Proves the crates that a program depends on, and then the program, for ./build; with --alone the program only.

A crate starts as soon as those that it depends on are proved (graphlib orders that, by crates.txt) and a processor is free: the one with
the longest way to the program first, in several processes where no other crate needs the processors. Standard error says which crates are
being proved; what the toolchain prints about a crate goes to crates/NAME/out/build.log.

`tools/prove_all.py [--alone] [--built] PROGRAM`, in the top folder; PROGRAM may also be the library for programs in C"""
import argparse
import glob
import graphlib
import os
import signal
import subprocess
import sys
import time

PROVE = os.path.join(os.path.dirname(os.path.realpath(__file__)), "prove.py")
# The bytes of memory that a proof has to itself.
MEMORY = 2_000_000_000
# The lines of code for which one more process is worth its start.
LINES = 300
# The most processes of one crate: a crate seldom keeps more than three busy.
MOST = 4


def say(text):
    print("numatrace: " + text, file=sys.stderr, flush=True)


def below():
    """What each crate of the repository names in crates.txt."""
    named = {}
    with open("crates.txt", encoding="utf-8") as lines:
        for line in lines:
            head, colon, libraries = line.split("#")[0].partition(":")
            if colon:
                named[head.split()[0]] = libraries.split()
    return named


def with_below(program, named):
    """The program and all crates of the repository that it depends on, each with those that its line names."""
    found, left = {}, [program]
    while left:
        crate = left.pop()
        if crate not in found:
            found[crate] = [each for each in named[crate] if each in named]
            left += found[crate]
    return found


def length(crate, named):
    """How long a proof takes, in lines of code: those of the crate, and something for what each costs besides, and each library of the
    kit that it names."""
    lines = 200 + 300 * sum(each not in named for each in named[crate])
    for path in glob.glob("crates/%s/src/**/*.rt" % crate, recursive=True):
        if os.path.basename(path) != "tests.rt":
            with open(path, "rb") as file:
                lines += file.read().count(b"\n")
    return lines


def ways(needs, lengths):
    """How long the way from each crate to the program is: its own length, and that of the longest way above it."""
    found = {}
    for crate in reversed(list(graphlib.TopologicalSorter(needs).static_order())):
        found[crate] = lengths[crate] + max((found[each] for each in found if crate in needs[each]), default=0)
    return found


def processors():
    """How many there are, as long as there is memory for a proof on each."""
    with open("/proc/meminfo", encoding="ascii") as lines:
        free = next(int(line.split()[1]) * 1024 for line in lines if line.startswith("MemAvailable:"))
    return max(1, min(len(os.sched_getaffinity(0)), free // MEMORY))


def share(processes):
    """How many processors a crate keeps busy, so many processes at a time."""
    return (1 + processes) / 2


def log_of(crate):
    return "crates/%s/out/build.log" % crate


def start(crate, processes, is_built):
    """Starts the proof of a crate."""
    say("proving " + crate)
    os.makedirs("crates/%s/out" % crate, exist_ok=True)
    is_program = os.path.isfile("crates/%s/src/main.rt" % crate)
    # (the file that ./build locks stays open in each process, so that the lock lasts as long as they do)
    with open("crates/%s/stdin" % crate if is_program else os.devnull, "rb") as given, open(log_of(crate), "wb") as log:
        return subprocess.Popen(
            [PROVE, *["--built"] * is_built, "run" if is_program else "lib", "--jobs", str(processes)],
            cwd="crates/" + crate, stdin=given, stdout=log, stderr=subprocess.STDOUT, close_fds=False,
        )


class Build:
    """Crates that are being proved, and those that are ready to be."""

    def __init__(self, needs, named, is_built):
        self.is_built = is_built
        self.lengths = {crate: length(crate, named) for crate in needs}
        self.ways = ways(needs, self.lengths)
        self.order = graphlib.TopologicalSorter(needs)
        self.order.prepare()
        self.free = processors()
        self.ready, self.running, self.failed = [], {}, False

    def processes_for(self, crate):
        """In how many processes to prove a crate: up to half of the processors are left to others whose way is not much shorter."""
        others = sum(2 * self.ways[other] >= self.ways[crate] for other in self.ready if other != crate)
        wanted = min(self.lengths[crate] // LINES, self.free - min(self.free // 2, others), MOST)
        # (half of a processor too many keeps all of them busy)
        left = self.free + 0.5 - sum(share(running[1]) for running in self.running.values())
        return max((n for n in range(1, max(wanted, 1) + 1) if share(n) <= left), default=0)

    def start_ready(self):
        """Starts what is ready, the longest way first, as long as there are processors."""
        self.ready += self.order.get_ready()
        self.ready.sort(key=self.ways.get, reverse=True)
        while self.ready and not self.failed:
            processes = self.processes_for(self.ready[0])
            if not processes:
                break
            crate = self.ready.pop(0)
            proof = start(crate, processes, self.is_built)
            self.running[proof.pid] = crate, processes, proof, time.monotonic()

    def wait(self):
        """Waits for the next proof to end."""
        pid, status = os.wait()
        crate, _, proof, began = self.running.pop(pid)
        proof.returncode = os.waitstatus_to_exitcode(status)
        if proof.returncode:
            self.failed = True
            say("%s was not proved: %s says why" % (crate, log_of(crate)))
        elif os.path.getsize(log_of(crate)):
            say("proved %s in %d seconds" % (crate, time.monotonic() - began))
            self.order.done(crate)
        else:
            # (rt says nothing about a crate that is already proved)
            say("%s is already proved" % crate)
            self.order.done(crate)

    def make(self):
        """Proves all, or as many as there is no failure below; the proofs that are under way when one fails are not lost."""
        try:
            self.start_ready()
            while self.running:
                self.wait()
                if self.order.is_active():
                    self.start_ready()
        finally:
            for _, _, proof, _ in self.running.values():
                proof.terminate()
        return 1 if self.failed else 0


def main():
    words = argparse.ArgumentParser(description=__doc__.split("\n")[0])
    words.add_argument("program", metavar="PROGRAM")
    words.add_argument("--alone", action="store_true", help="what the program depends on is proved")
    words.add_argument("--built", action="store_true", help="the libraries below are those that rt ci has just built")
    given = words.parse_args()
    for number in (signal.SIGHUP, signal.SIGINT, signal.SIGTERM):
        signal.signal(number, lambda *_: sys.exit(130))
    named = below()
    needs = {given.program: []} if given.alone else with_below(given.program, named)
    return Build(needs, named, given.built).make()


if __name__ == "__main__":
    sys.exit(main())

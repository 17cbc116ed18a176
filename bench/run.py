#!/usr/bin/env python3
"""Times the built program on each kind of trace, and writes a table, of which docs/PERFORMANCE.md has the last row of each kind.

The sizes are 1, 2, 4 and 8 times the smallest; the table has seconds of processor time (the best of five runs), peak memory,
and how the time grows. With `--against PROGRAM` it plays each kind at its largest size on that program and on the built one in
turn, and writes the least seconds and the peak memory of both, so that a regression can be seen. All programs get their memory
as the command `numatrace` has it. With `--instructions` it counts the program's instructions with valgrind in place of its
time, with `--against` those of both programs at the smallest size: that shows how the work grows whatever else the machine does
and whatever its caches hold, and takes tens of times as long. Arguments select kinds; the default is all. `./build` makes the
program; `--program PROGRAM` takes another in its place, such as one that bench/unproved.py makes."""
import argparse
import math
import os
import re
import subprocess
import sys
import tempfile

import traces

ROOT = os.path.dirname(os.path.dirname(os.path.abspath(__file__)))
PROGRAM = os.path.join(ROOT, "crates/numatrace/out/numatrace")
ONE_WORKER = ("--workers", "1")
# What the command `numatrace` gives its program, unless it is set.
TUNABLES = "glibc.malloc.hugetlb=1:glibc.malloc.mmap_threshold=33554432:glibc.malloc.trim_threshold=67108864"
ENVIRONMENT = {"GLIBC_TUNABLES": TUNABLES, **os.environ}


def make_trace(kind, size, path, script=(traces.__file__,)):
    """Writes a trace in a separate process: the peak memory of a child is never counted below the size of its parent."""
    with open(path, "wb") as trace:
        subprocess.run([sys.executable, *script, kind, str(size)], stdout=trace, check=True)


def run_once(path, program, *words):
    """Seconds of processor time, user and system, and peak memory in KiB of one run with these arguments."""
    with open(path, "rb") as trace, open(os.devnull, "wb") as out:
        child = subprocess.Popen([program, *words], stdin=trace, stdout=out, env=ENVIRONMENT)
        _, status, used = os.wait4(child.pid, 0)
    if status != 0:
        sys.exit("bench/run.py: the program ended with status %d" % os.waitstatus_to_exitcode(status))
    return used.ru_utime + used.ru_stime, used.ru_maxrss


def count_once(path, program):
    """Instructions of one run, as callgrind counts them."""
    words = ["valgrind", "--tool=callgrind", "--callgrind-out-file=/dev/null", program, *ONE_WORKER]
    with open(path, "rb") as trace:
        ran = subprocess.run(words, stdin=trace, stdout=subprocess.DEVNULL, stderr=subprocess.PIPE, text=True)
    counted = re.search(r"Collected : (\d+)", ran.stderr)
    if ran.returncode != 0 or not counted:
        sys.exit("bench/run.py: valgrind ended with status %d: %s" % (ran.returncode, ran.stderr[-200:]))
    return int(counted[1])


def exponent(costs):
    """The slope of log cost over log size, by least squares."""
    points = [(math.log(factor), math.log(cost)) for factor, cost in costs]
    mean_x = sum(x for x, _ in points) / len(points)
    mean_y = sum(y for _, y in points) / len(points)
    return sum((x - mean_x) * (y - mean_y) for x, y in points) / sum((x - mean_x) ** 2 for x, _ in points)


def compare(other, built, kinds):
    """Plays the greatest trace of each kind on two programs in turn, and writes a table."""
    print("| Trace | Size | Other, seconds | Built, seconds | Built by other | Other, memory | Built, memory |")
    print("|---|---|---|---|---|---|---|")
    with tempfile.TemporaryDirectory() as folder:
        path = os.path.join(folder, "trace.json")
        for kind in kinds:
            size = traces.KINDS[kind] * 8
            make_trace(kind.__name__, size, path)
            runs = [(run_once(path, other, *ONE_WORKER), run_once(path, built, *ONE_WORKER)) for _ in range(9)]
            seconds = [min(run[k][0] for run in runs) for k in (0, 1)]
            memory = [max(run[k][1] for run in runs) / 1024 for k in (0, 1)]
            print("| `%s` | %d | %.2f | %.2f | %.2f | %.0f MiB | %.0f MiB |" % (
                kind.__name__, size, seconds[0], seconds[1], seconds[1] / seconds[0], memory[0], memory[1]))


def compare_counts(other, built, kinds):
    """Counts the instructions of two programs on the smallest trace of each kind, and writes a table."""
    print("| Trace | Size | Other, millions of instructions | Built | Built by other |")
    print("|---|---|---|---|---|")
    with tempfile.TemporaryDirectory() as folder:
        path = os.path.join(folder, "trace.json")
        for kind in kinds:
            size = traces.KINDS[kind]
            make_trace(kind.__name__, size, path)
            counts = [count_once(path, program) for program in (other, built)]
            print("| `%s` | %d | %.1f | %.1f | %.2f |" % (
                kind.__name__, size, counts[0] / 1e6, counts[1] / 1e6, counts[1] / counts[0]), flush=True)


def measure(kinds, make, play, runs):
    """Makes a trace of each kind at four sizes, plays it several times, and writes the table. The kinds are given with their smallest
    sizes."""
    print("| Trace | Size | MiB | Seconds | Peak memory | Growth |")
    print("|---|---|---|---|---|---|")
    with tempfile.TemporaryDirectory() as folder:
        path = os.path.join(folder, "trace.json")
        for kind, smallest in kinds.items():
            times = []
            for factor in (1, 2, 4, 8):
                make(kind.__name__, smallest * factor, path)
                used = [play(path) for _ in range(runs)]
                seconds = min(run[0] for run in used)
                times.append((factor, max(seconds, 0.001)))
                growth = "%.2f" % exponent(times) if factor == 8 else ""
                size = os.path.getsize(path) / 2**20
                memory = max(run[1] for run in used) / 1024
                print("| `%s` | %d | %.1f | %.2f | %.0f MiB | %s |" % (
                    kind.__name__, smallest * factor, size, seconds, memory, growth), flush=True)


def count(kinds, program):
    """Counts the instructions of each kind at four sizes, and writes the table."""
    print("| Trace | Size | Millions of instructions | Growth |")
    print("|---|---|---|---|")
    with tempfile.TemporaryDirectory() as folder:
        path = os.path.join(folder, "trace.json")
        for kind in kinds:
            costs = []
            for factor in (1, 2, 4, 8):
                make_trace(kind.__name__, traces.KINDS[kind] * factor, path)
                costs.append((factor, count_once(path, program)))
                growth = "%.2f" % exponent(costs) if factor == 8 else ""
                print("| `%s` | %d | %.0f | %s |" % (kind.__name__, traces.KINDS[kind] * factor, costs[-1][1] / 1e6, growth))


def main():
    words = argparse.ArgumentParser(description=__doc__.split("\n")[0])
    words.add_argument("--program", default=PROGRAM, help="the program to time, in place of the built one")
    words.add_argument("--against", metavar="PROGRAM", help="compare with an earlier build of the program")
    words.add_argument("--instructions", action="store_true", help="count instructions with valgrind, in place of seconds")
    words.add_argument("kinds", nargs="*", metavar="KIND", help="a kind of trace: " + ", ".join(it.__name__ for it in traces.KINDS))
    given = words.parse_args()
    unknown = set(given.kinds) - {kind.__name__ for kind in traces.KINDS}
    if unknown:
        words.error("unknown kind of trace: " + ", ".join(sorted(unknown)))
    for program in filter(None, (given.program, given.against)):
        if not os.access(program, os.X_OK):
            words.error("there is no program %s" % program)
    kinds = [kind for kind in traces.KINDS if not given.kinds or kind.__name__ in given.kinds]
    built = os.path.abspath(given.program)
    if given.against:
        both = compare_counts if given.instructions else compare
        both(os.path.abspath(given.against), built, kinds)
    elif given.instructions:
        count(kinds, built)
    else:
        measure({kind: traces.KINDS[kind] for kind in kinds}, make_trace, lambda path: run_once(path, built, *ONE_WORKER), 5)


if __name__ == "__main__":
    main()

#!/usr/bin/env python3
"""Looks at how many threads the built program has while it plays a trace: one with one worker, and with several more than one where
runs are long enough to be looked at, or have enough to copy, by several. (A thread that has ended is still seen for a moment, so no
number above two would tell anything.)

`tests/threads.py [PROGRAM]` tests crates/numatrace/out/numatrace by default. Nothing is printed where all is well; otherwise what
differs, and then the status is 1."""
import json
import os
import random
import subprocess
import sys
import tempfile

ROOT = os.path.dirname(os.path.dirname(os.path.abspath(__file__)))
PROGRAM = os.path.join(ROOT, "crates/numatrace/out/numatrace")
PAGE, MOST_FRAMES, TURNS = 4096, 16384, 40


def trace_of(nodes, pages, steps):
    """A trace of one process with an area of so many pages, on nodes of so many frames."""
    distance = [[10 if row == column else 20 for column in range(len(nodes))] for row in range(len(nodes))]
    first = [{"op": "spawn", "pid": 1, "uid": 100, "home": 0, "allowed": list(range(len(nodes)))},
             {"op": "map", "pid": 1, "addr": 0, "pages": pages}]
    return {"version": 1, "machine": {"nodes": nodes, "distance": distance}, "steps": first + steps}


def looked_at():
    """The longest run of pages far apart, which stay where they are, again and again: there is much to look at, and nothing to
    copy."""
    drawn = random.Random(1)
    addresses = [PAGE * 2**20 * number for number in range(MOST_FRAMES - 1)]
    steps = [{"op": "write", "pid": 1, "addr": address, "data": "61"} for address in addresses]
    drawn.shuffle(addresses)
    move = {"op": "move_pages", "caller": 1, "pid": 0, "pages": addresses, "nodes": [0] * len(addresses), "flags": 2}
    return trace_of([MOST_FRAMES - 1, 1], 2**34, steps + [move] * TURNS)


def copied():
    """Runs of 4,096 pages with bytes everywhere, to and fro: too short to be looked at by several, with 16 MiB to copy."""
    count = 4096
    steps = [{"op": "write", "pid": 1, "addr": PAGE * number + 2047, "data": "6162"} for number in range(count)]
    moves = [{"op": "migrate_pages", "caller": 1, "pid": 0, "old": [turn % 2], "new": [1 - turn % 2]} for turn in range(TURNS)]
    return trace_of([2 * count, count], count, steps + moves)


def most_threads(program, path, workers):
    """The greatest number of threads that the program was seen to have."""
    most = 0
    with open(path, "rb") as trace:
        child = subprocess.Popen([program, "--workers", str(workers)], stdin=trace, stdout=subprocess.DEVNULL)
        while child.poll() is None:
            try:
                most = max(most, len(os.listdir(f"/proc/{child.pid}/task")))
            except OSError:
                pass
    if child.returncode != 0:
        sys.exit(f"tests/threads.py: the program ended with status {child.returncode}")
    return most


def main():
    program, bad = (sys.argv[1:] or [PROGRAM])[0], 0
    with tempfile.TemporaryDirectory() as folder:
        path = os.path.join(folder, "trace.json")
        for made in (looked_at, copied):
            with open(path, "w", encoding="ascii") as file:
                json.dump(made(), file, separators=(",", ":"))
            for workers in (1, 2, 4):
                seen = most_threads(program, path, workers)
                if (seen > 1) != (workers > 1):
                    print(f"{made.__name__}: {seen} threads with --workers {workers}")
                    bad = 1
    return bad


if __name__ == "__main__":
    sys.exit(main())

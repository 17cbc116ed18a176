#!/usr/bin/env python3
"""Plays a trace step by step from Python: moves two pages to another node, and prints the reply to each step.

    pip install ./lab
    python3 examples/session/session.py crates/numatrace_session/out/numatrace_session

Without an argument numalab looks for the program in the repository, and then on the PATH."""
import sys

from numalab import Session

PAGE = 4096
FIRST = 16 * PAGE

# Two nodes of four frames each: node 0 owns frames 0 to 3, node 1 frames 4 to 7.
TOP = {"version": 1, "machine": {"nodes": [4, 4], "distance": [[10, 20], [20, 10]]}}

# A process at home on node 0 writes two pages, which takes two frames there. Then both move to node 1.
STEPS = [
    {"op": "spawn", "pid": 1, "uid": 100, "home": 0, "allowed": [0, 1]},
    {"op": "map", "pid": 1, "addr": FIRST, "pages": 2},
    {"op": "write", "pid": 1, "addr": FIRST, "data": b"a".hex()},
    {"op": "write", "pid": 1, "addr": FIRST + PAGE, "data": b"b".hex()},
    {"op": "move_pages", "caller": 1, "pid": 0, "pages": [FIRST, FIRST + PAGE], "nodes": [1, 1], "flags": 2},
    {"op": "pagemap", "pid": 1},
]

with Session(TOP, *sys.argv[1:2]) as session:
    for step in STEPS:
        # What is no step raises a numalab.Fault; a call that is refused is a line such as "4 move_pages error ENODEV".
        for line in session.step(step):
            print(line)

#!/usr/bin/env python3
"""Moves two pages to another node, by the library where it is found; `machine.by` tells.

    pip install ./lab
    python3 examples/library/machine.py"""
from numalab import Machine

# Two nodes of four frames each: node 0 owns frames 0 to 3, node 1 frames 4 to 7.
with Machine(nodes=[4, 4], distance=[[10, 20], [20, 10]]) as machine:
    process = machine.spawn(uid=100, home=0)
    area = process.map(2)
    process.write(area[0], b"a")
    process.write(area[1], b"b")
    moved = machine.move_pages(process, area[:], node=1)
    print(f"failed {moved.failed}: {moved.statuses[0]} {moved.statuses[1]}")
    print("read", bytes(process.read(area[1])).decode())
    try:
        machine.move_pages(process, area[0], node=7)
    except OSError as error:
        print("refused:", -error.errno)
    print("0 free 4:", *machine.free(0).frames)

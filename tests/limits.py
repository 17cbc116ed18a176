#!/usr/bin/env python3
"""Writes traces that reach limits which take many calls to reach, and their reports, which are worked out here from the rules:
`tests/limits.py FOLDER`. A page has at most 65,535 pins (pins.json). A machine makes at most 65,536 segments, whose numbers are
never used again (segments.json)."""
import json
import os
import sys

PAGE, BASE, NEXT, BEHIND = 4096, 0x10000, 0x20000, 0x30000
MOST_PINS, SEGMENTS = 65535, 65536


class Trace:
    """A trace of two nodes on which process 1 has three pages on node 0, and its report."""

    def __init__(self):
        self.steps, self.lines = [], []
        self.step("ok", op="spawn", pid=1, uid=100, home=0, allowed=[0, 1])
        self.step("segment=0", op="map", pid=1, addr=BASE, pages=3)
        for page in range(3):
            self.step("ok", op="write", pid=1, addr=BASE + PAGE * page, data="61")

    def step(self, answer, **keys):
        """Adds a step, and its line."""
        self.lines.append(f"{len(self.steps)} {keys['op']} {answer}\n")
        self.steps.append(keys)

    def write(self, path):
        machine = {"nodes": [4, 4], "distance": [[10, 20], [20, 10]]}
        with open(path + ".json", "w", encoding="ascii") as trace:
            json.dump({"version": 1, "machine": machine, "steps": self.steps}, trace, separators=(",", ":"))
        with open(path + ".report", "w", encoding="ascii") as report:
            report.writelines(self.lines)


def pins():
    """The first page takes no more pins than it may have, the second takes one, and the first takes another after an unpin."""
    trace = Trace()
    for _ in range(MOST_PINS):
        trace.step("ok", op="pin", pid=1, addr=BASE)
    trace.step("error EBUSY", op="pin", pid=1, addr=BASE)
    trace.step("ok", op="pin", pid=1, addr=BASE + PAGE)
    trace.step("ok", op="unpin", pid=1, addr=BASE)
    trace.step("ok", op="pin", pid=1, addr=BASE)
    trace.step("error EBUSY", op="pin", pid=1, addr=BASE)
    return trace


def segments():
    """All segments but the last are made and go. Once the last is made, a map over an area is EINVAL as ever, and one at a free place
    ENOMEM. Areas of the last one can still be attached and unmapped, until none shows it."""
    trace = Trace()
    for number in range(1, SEGMENTS - 1):
        trace.step(f"segment={number}", op="map", pid=1, addr=NEXT, pages=1)
        trace.step("ok", op="unmap", pid=1, addr=NEXT, pages=1)
    trace.step(f"segment={SEGMENTS - 1}", op="map", pid=1, addr=NEXT, pages=2, shared=True)
    trace.step("error ENOMEM", op="map", pid=1, addr=BEHIND, pages=1)
    trace.step("error EINVAL", op="map", pid=1, addr=NEXT, pages=1)
    last = {"op": "attach", "pid": 1, "addr": BEHIND, "segment": SEGMENTS - 1, "offset": 1, "pages": 1}
    trace.step("ok", **last)
    trace.step("ok", op="unmap", pid=1, addr=NEXT, pages=17)
    trace.step("error EINVAL", **last)
    return trace


pins().write(os.path.join(sys.argv[1], "pins"))
segments().write(os.path.join(sys.argv[1], "segments"))

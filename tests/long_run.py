#!/usr/bin/env python3
"""Writes a trace with runs of 1,100 pages that were written to their last byte (4.5 MB, so enough for several workers), each with
500 accesses in flight, and its report: `tests/long_run.py TRACE REPORT`. The report is worked out here from the rules, without
the program: pages take the front of the free list of the node that they go to, and the frames that they leave go to the end of
their own node's list. An access to a page that moves is held; for others the frames that the run took are gone, and those that it
leaves are not free yet."""
import json
import sys

PAGES, FRAMES, BASE = 1100, 2048, 65536
# Pages that never move, and how many accesses each run has.
BESIDE, SECOND, ACCESSES = 301, BASE + 4096 * 2 * PAGES, 500
addresses = [BASE + 4096 * page for page in range(PAGES)]
frames, free = [], [list(range(FRAMES)), list(range(FRAMES, 2 * FRAMES))]
beside, written = {}, {}  # for each page that never moves: its frame, or zero; and its first byte
steps, lines = [], []


def step(answer, **keys):
    """Adds a step, and its line."""
    lines.append(f"{len(steps)} {keys['op']} {answer}\n")
    steps.append(keys)


def access(j):
    """The access of a number while all pages of the first area move, and its answer. The first write to a page takes a
    frame of the home node, or of the other where that has none; a first read shows the page of zeros."""
    moving, page, byte = addresses[j * 7 % PAGES], (j * 11 + len(steps)) % BESIDE, (j + len(steps)) % 251
    read, write = {"run": 0, "op": "read", "pid": 1, "len": 1}, {"run": 0, "op": "write", "pid": 1, "data": f"{byte:02x}"}
    if j % 5 == 0:
        return {**read, "addr": moving}, "read held"
    if j % 5 == 1:
        return {**write, "addr": moving + 4095}, "write held"
    if j % 5 == 2:
        if beside.get(page, "zero") == "zero":
            beside[page] = (free[0] or free[1]).pop(0)
        written[page] = byte
        return {**write, "addr": SECOND + 4096 * page}, "write ok"
    if j % 5 == 3:
        beside.setdefault(page, "zero")
        return {**read, "addr": SECOND + 4096 * page}, f"read {written.get(page, 0):02x}"
    return [({**write, "addr": moving, "pid": 2}, "write error ESRCH"), ({**read, "addr": moving + 4095, "len": 2}, "read error EINVAL"),
            ({**write, "addr": SECOND - 1}, "write error EFAULT")][j // 5 % 3]


def move(node):
    """Moves all pages of the first area to a node that has none of them, with accesses in flight."""
    global frames
    left, frames = frames, [free[node].pop(0) for _ in addresses]
    made = [access(j) for j in range(ACCESSES)]
    free[1 - node] += left
    told = [f"{len(steps)}.{j} {answer}\n" for j, (_, answer) in enumerate(made)]
    step("0: " + " ".join([str(node)] * PAGES), op="move_pages", caller=1, pid=0, pages=addresses, nodes=[node] * PAGES, flags=2,
         during=[keys for keys, _ in made])
    lines.extend(told)


def look():
    """Shows the lists of both nodes, where each page is, and what is in some of them."""
    for node in (0, 1):
        step(f"{len(free[node])}: " + " ".join(map(str, free[node])), op="free", node=node)
    entries = [*zip(addresses, frames), *((SECOND + 4096 * page, beside[page]) for page in sorted(beside))]
    step(f"{len(entries)}: " + " ".join(f"{address:08x}={frame}" for address, frame in entries), op="pagemap", pid=1)
    for page in range(0, PAGES, 7):
        step(f"{page % 251:02x}00", op="read", pid=1, addr=addresses[page], len=2)
        step(f"00{page % 249:02x}", op="read", pid=1, addr=addresses[page] + 4094, len=2)
    for page in sorted(beside):
        step(f"{written.get(page, 0):02x}00", op="read", pid=1, addr=SECOND + 4096 * page, len=2)


step("ok", op="spawn", pid=1, uid=100, home=0, allowed=[0, 1])
step("segment=0", op="map", pid=1, addr=BASE, pages=PAGES)
step("segment=1", op="map", pid=1, addr=SECOND, pages=BESIDE)
for page, address in enumerate(addresses):
    frames.append(free[0].pop(0))
    step("ok", op="write", pid=1, addr=address, data=f"{page % 251:02x}")
    step("ok", op="write", pid=1, addr=address + 4095, data=f"{page % 249:02x}")
for node in (1, 0, 1):
    move(node)
    look()
machine = {"nodes": [FRAMES, FRAMES], "distance": [[10, 20], [20, 10]]}
with open(sys.argv[1], "w", encoding="ascii") as trace:
    json.dump({"version": 1, "machine": machine, "steps": steps}, trace)
with open(sys.argv[2], "w", encoding="ascii") as report:
    report.writelines(lines)

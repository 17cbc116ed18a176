#!/usr/bin/env python3
"""Times the built program, with one worker, on traces that an attacker would write.

Each repeats what costs most for the bytes that it takes to ask for it. Writes a table: seconds of processor time (the best of
three runs), peak memory, and how the time grows with the trace, at 1, 2, 4 and 8 times the smallest size. Arguments select
kinds; the default is all. With `--limit SECONDS` it plays each kind once, only at its largest size, and ends with status 1
where one takes longer. `--trace KIND SIZE` writes a trace to standard output. `./build` makes the program. In what follows, N
is the size."""
import argparse
import itertools
import os
import random
import sys
import tempfile

import run
from traces import BASE, PAGE, attach, bind, exit_step, map_step, migrate, move, move_to, numa_maps, read, share, spawn, trace, unmap, write

HUGE = 2**33


def offline(node, op="offline"):
    return '{"op":"%s","node":%d}' % (op, node)


def pagemap(pid=1):
    return '{"op":"pagemap","pid":%d}' % pid


def pin(address, pid=1):
    return '{"op":"pin","pid":%d,"addr":%d}' % (pid, address)


def mbind(address, pages, nodes, flags, mode=2):
    form = '{"op":"mbind","caller":1,"addr":%d,"len":%d,"mode":%d,"nodes":%s,"flags":%d}'
    return form % (address, PAGE * pages, mode, list(nodes), flags)


def written(count, apart=1, first=BASE):
    return [write(first + PAGE * apart * page) for page in range(count)]


def huge_areas(size):
    """N thousand times an area of 2^33 pages is mapped, one page in it is touched, and it is unmapped, beside 4,000 other pages."""
    steps = [map_step(BASE, 4000)] + written(4000)
    for number in range(size * 1000):
        steps += [map_step(2**46, HUGE), write(2**46 + PAGE * (number * 7919 * 512 % HUGE)), unmap(2**46, HUGE)]
    return trace([8192], steps)


def emptied(size, step):
    """N hundred pages, each in a block of its own, come and go; then as many steps ask about the empty range:"""
    pages = 100 * size
    steps = [map_step(BASE, 2**34)] + written(pages, 512) + [unmap(BASE, 2**34), map_step(BASE, 2**34)]
    return trace([16384], steps + [step] * pages)


def emptied_unmapped(size):
    """.. they unmap it."""
    return emptied(size, unmap(BASE, 2**34))


def emptied_pagemaps(size):
    """.. they list it."""
    return emptied(size, pagemap())


def emptied_areas(size):
    """N hundred pages, each in a block of its own, come and go; then numa_maps lists as many areas, ten times."""
    pages = 100 * size
    steps = [map_step(BASE, 2**34)] + written(pages, 512) + [unmap(BASE, 2**34)]
    steps += [map_step(BASE + PAGE * 512 * page, 1) for page in range(pages)]
    return trace([16384], steps + [numa_maps()] * 10)


def windows_over(size):
    """A segment of 2^20 pages is shown by N thousand areas of one page; N hundred times another process attaches all of it
    and unmaps it."""
    steps = [share(2**45, 2**20), spawn(2, [0])]
    steps += [attach(BASE + 2 * PAGE * page, 2 * page, 1, 1) for page in range(1000 * size)]
    steps += [attach(BASE, 0, 2**20, 2), unmap(BASE, 2**20, 2)] * (100 * size)
    return trace([64], steps)


def pinned_last_area(size):
    """A process has N thousand areas, and a pin in the last: N hundred times it is asked to exit."""
    count = 1000 * size
    steps = [map_step(BASE + 2 * PAGE * area, 1) for area in range(count)]
    last = BASE + 2 * PAGE * (count - 1)
    return trace([64], steps + [write(last), pin(last)] + [exit_step(1)] * (100 * size))


def pinned_last_page(size):
    """A process has N thousand pages, and a pin on the last: N hundred times it is asked to exit."""
    count = 1000 * size
    steps = [map_step(BASE, count)] + written(count)
    return trace([16384], steps + [pin(BASE + PAGE * (count - 1))] + [exit_step(1)] * (100 * size))


def told(size, nodes, touch):
    """25 N times numa_maps counts 16,384 pages."""
    steps = [map_step(BASE, 16384)] + [touch(BASE + PAGE * page) for page in range(16384)]
    return trace(nodes, steps + [numa_maps()] * (25 * size))


def told_pages(size):
    """The same on one node."""
    return told(size, [16384], write)


def told_nodes(size):
    """The same on 64 nodes."""
    return told(size, [256] * 64, write)


def told_zeros(size):
    """The same for pages of zeros."""
    return told(size, [64], read)


def crowded(size, last):
    """A node has N thousand pages, and 63 others have one frame each, which is taken; then a step is made ten times:"""
    count = 1000 * size
    steps = [map_step(BASE, count + 63)] + written(count + 63)
    return trace([count] + [1] * 63, steps + [last(count)] * 10)


def refused_offline(size):
    """.. the node is asked to go offline."""
    return crowded(size, lambda count: offline(0))


def refused_bind(size):
    """.. its pages are bound to the others."""
    return crowded(size, lambda count: mbind(BASE, count, range(1, 64), 2))


def staying_pages(size):
    """N thousand pages are asked 50 times to migrate to a node without room."""
    count = 1000 * size
    steps = [map_step(BASE, count + 1), write(BASE + PAGE * count)] + written(count)
    return trace([1, count], [steps[0], steps[1]] + steps[2:] + [migrate([1], [0])] * 50)


def range_with_hole(size):
    """N thousand adjacent areas, and then a hole: N hundred times a policy is set over all of them and the hole."""
    count = 1000 * size
    steps = [map_step(BASE + PAGE * area, 1) for area in range(count)]
    return trace([64], steps + [mbind(BASE, count + 1, [0], 0)] * (100 * size))


def empty_node(size):
    """16,000 pages on a node; N hundred times the other one, which is empty, goes offline and comes back."""
    steps = [map_step(BASE, 16000)] + written(16000)
    return trace([16000, 16], steps + [offline(1), offline(1, "online")] * (100 * size))


def whole_pages_in_flight(size):
    """One move of a page, during which N thousand reads of whole other pages are made."""
    reads = ",".join('{"run":0,"op":"read","pid":1,"addr":%d,"len":4096}' % (BASE + PAGE) for _ in range(1000 * size))
    steps = [map_step(BASE, 2), write(BASE), write(BASE + PAGE), move([BASE], [1], more=',"during":[%s]' % reads)]
    return trace([4, 4], steps)


def looked_at(size, touch, step, areas=1):
    """A process has N thousand pages on node 0 of two, in one area or in as many as are told; then a step is made 50 times:"""
    count = 1000 * size
    steps = [map_step(BASE + PAGE * (count // areas) * area, count // areas) for area in range(areas)]
    steps += [touch(BASE + PAGE * page) for page in range(count)]
    return trace([count, count], steps + [step(count)] * 50)


def strict_default(size):
    """.. mbind with MPOL_MF_STRICT and MPOL_DEFAULT, which refuses no page."""
    return looked_at(size, write, lambda count: mbind(BASE, count, [], 1, 0))


def strict_bound(size):
    """.. the same with MPOL_BIND to the node where the pages are."""
    return looked_at(size, write, lambda count: mbind(BASE, count, [0], 1))


def strict_zeros(size):
    """.. the same over pages of zeros."""
    return looked_at(size, read, lambda count: mbind(BASE, count, [0], 1))


def strict_areas(size):
    """.. the same over areas of one page."""
    return looked_at(size, write, lambda count: mbind(BASE, count, [0], 1), areas=1000 * size)


def followed_bind(size):
    """.. its pages are bound to the node where they are, and would move to follow."""
    return looked_at(size, write, lambda count: mbind(BASE, count, [0], 2))


def told_empty_areas(size):
    """.. numa_maps, of pages of zeros in areas of one page."""
    return looked_at(size, read, lambda _: numa_maps(), areas=1000 * size)


def pinned(size, step):
    """A process has N thousand pages on node 0 of two, all of them pinned; then a step is made 50 times:"""
    count = 1000 * size
    steps = [map_step(BASE, count)] + written(count) + [pin(BASE + PAGE * page) for page in range(count)]
    return trace([count, count], steps + [step(count)] * 50)


def pinned_migrations(size):
    """.. the pages are asked to migrate."""
    return pinned(size, lambda _: migrate([0], [1]))


def pinned_offline(size):
    """.. the node is asked to go offline."""
    return pinned(size, lambda _: offline(0))


def pinned_bind(size):
    """.. the pages are bound to the other node."""
    return pinned(size, lambda count: mbind(BASE, count, [1], 2))


def seen_by(pids, pages, touch=read):
    """The steps by which processes see the pages of one segment, each at the same addresses; the first has written them."""
    steps = [share(2**45, pages)] + [write(2**45 + PAGE * page) for page in range(pages)]
    for pid in pids:
        steps += [spawn(pid, [0, 1]), attach(2**45, 0, pages, pid)] + [touch(2**45 + PAGE * page, pid) for page in range(pages)]
    return steps


def shared_migrations(size):
    """Two processes see N thousand pages: 50 times they are asked to migrate, by one that may not move what others see."""
    count = 1000 * size
    return trace([count, count], seen_by([2], count) + [migrate([0], [1])] * 50)


def aliased_bind(size):
    """A process sees 64 pages at N hundred addresses each, and binds all to the node where they are, 20 times."""
    views = 100 * size
    steps = seen_by([], 64) + [attach(BASE + PAGE * 64 * view, 0, 64, 1) for view in range(views)]
    steps += [read(BASE + PAGE * page) for page in range(64 * views)]
    return trace([64, 64], steps + [mbind(BASE, 64 * views, [0], 2)] * 20)


def refused_runs_of_one(size):
    """N thousand pages are asked 20 times to move to a node without room, in runs of one."""
    count = 1000 * size
    steps = [map_step(BASE, count + 1), write(BASE + PAGE * count)] + written(count)
    addresses = [BASE + PAGE * page for page in range(count)]
    return trace([1, count], steps + [move_to(addresses, 0)] * 20, '"version":2,"run_limit":1')


def is_chosen(pid):
    """Whether the fixed hash of a pid begins as that of every other chosen one."""
    wide = (0x243F6A8885A308D3 ^ (pid | pid << 32)) * (0x9E3779B97F4A7C15 ^ 8)
    mixed = wide & (2**64 - 1) ^ wide >> 64
    return (mixed ^ mixed >> 32) & 0x0F0000FF == 0


def crowd(size, pids):
    """A thousand processes see one page, which moves 40 N times, first away and then back."""
    steps = seen_by(pids, 1)
    moves = [move([2**45], [node], 2**32 - 1, 1, 4) for node in (1, 0)]
    return trace([1, 1], steps + [spawn(2**32 - 1, [0, 1], ',"privileged":true')] + moves * (20 * size))


def chosen():
    """A thousand pids that a hash table without a seed of its own keeps in one place."""
    return itertools.islice(filter(is_chosen, itertools.count(2)), 1000)


def others():
    """A thousand pids that are as far apart."""
    return range(2, 1024002, 1024)


def chosen_pids(size):
    """.. they have pids that a hash table without a seed of its own keeps in one place."""
    return crowd(size, chosen())


def other_pids(size):
    """.. they have pids that are as far apart."""
    return crowd(size, others())


def shuffled(pids):
    """Pids in another order than upwards, the same each time."""
    pids = list(pids)
    random.Random(1).shuffle(pids)
    return pids


def shuffled_chosen_pids(size):
    """.. they have the first pids, and come in an order as if drawn."""
    return crowd(size, shuffled(chosen()))


def shuffled_other_pids(size):
    """.. they have the others, and come in an order as if drawn."""
    return crowd(size, shuffled(others()))


def large_machine(size):
    """N pages on a machine of 16,384 frames."""
    return trace([16384], [map_step(BASE, size)] + written(size))


# Each kind with its smallest size.
KINDS = {
    huge_areas: 2, emptied_unmapped: 10, emptied_pagemaps: 10, emptied_areas: 10, windows_over: 1, pinned_last_area: 1,
    pinned_last_page: 1, told_pages: 1, told_nodes: 1, told_zeros: 1, refused_offline: 2, refused_bind: 2, staying_pages: 2,
    range_with_hole: 1, empty_node: 1, whole_pages_in_flight: 1, large_machine: 10, strict_default: 1, strict_bound: 1,
    strict_zeros: 1, strict_areas: 1, followed_bind: 1, told_empty_areas: 1, pinned_migrations: 1, pinned_offline: 1, pinned_bind: 1,
    shared_migrations: 1, aliased_bind: 1, refused_runs_of_one: 1, chosen_pids: 1, other_pids: 1,
    shuffled_chosen_pids: 1, shuffled_other_pids: 1,
}


def make_trace(kind, size, path):
    run.make_trace(kind, size, path, (__file__, "--trace"))


def hold_to(limit, kinds, program):
    """Whether no kind takes more seconds than the limit at its largest size. Prints those that do."""
    held = True
    with tempfile.TemporaryDirectory() as folder:
        for kind in kinds:
            path = os.path.join(folder, "trace.json")
            make_trace(kind.__name__, KINDS[kind] * 8, path)
            seconds, _ = run.run_once(path, program, "--workers", "1")
            if seconds > limit:
                print("bench/enemies.py: %s takes %.1f seconds" % (kind.__name__, seconds))
                held = False
    return held


def main():
    words = argparse.ArgumentParser(description=__doc__.split("\n")[0])
    words.add_argument("--limit", type=float, metavar="SECONDS", help="only check whether a kind takes longer at its largest size")
    words.add_argument("--program", default=run.PROGRAM, help="a program other than the built one")
    words.add_argument("--trace", nargs=2, metavar=("KIND", "SIZE"), help="write a trace of this kind and size")
    words.add_argument("kinds", nargs="*", metavar="KIND", help="a kind of trace: " + ", ".join(it.__name__ for it in KINDS))
    given = words.parse_args()
    named = {kind.__name__: kind for kind in KINDS}
    for name in given.kinds + (given.trace or [])[:1]:
        if name not in named:
            words.error("unknown kind of trace: " + name)
    if given.trace:
        sys.stdout.write(named[given.trace[0]](int(given.trace[1])))
        return 0
    if not os.access(given.program, os.X_OK):
        words.error("there is no program %s" % given.program)
    kinds = {kind: size for kind, size in KINDS.items() if not given.kinds or kind.__name__ in given.kinds}
    if given.limit is not None:
        return 0 if hold_to(given.limit, kinds, given.program) else 1
    run.measure(kinds, make_trace, lambda path: run.run_once(path, given.program, "--workers", "1"), 3)
    return 0


if __name__ == "__main__":
    sys.exit(main())

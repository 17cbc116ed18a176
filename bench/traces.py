#!/usr/bin/env python3
"""Writes a trace of a named kind and size, for timing the program: `traces.py KIND SIZE > trace.json`. In what
follows, N is the size."""
import sys

PAGE = 4096
BASE = 65536


def trace(nodes, steps, version='"version":1'):
    """A trace on nodes of these numbers of frames, all at distance 20, with process 1 on node 0."""
    count = len(nodes)
    rows = [[10 if row == column else 20 for column in range(count)] for row in range(count)]
    head = '{%s,"machine":{"nodes":%s,"distance":%s},"steps":[\n' % (version, nodes, rows)
    return head + ",\n".join([spawn(1, list(range(count)))] + steps) + "]}\n"


def spawn(pid, allowed, more=""):
    return '{"op":"spawn","pid":%d,"uid":100,"home":0,"allowed":%s%s}' % (pid, allowed, more)


def exit_step(pid):
    return '{"op":"exit","pid":%d}' % pid


def map_step(address, pages, pid=1, more=""):
    return '{"op":"map","pid":%d,"addr":%d,"pages":%d%s}' % (pid, address, pages, more)


def share(address, pages):
    return map_step(address, pages, more=',"shared":true')


def attach(address, offset, pages, pid):
    return '{"op":"attach","pid":%d,"addr":%d,"segment":0,"offset":%d,"pages":%d}' % (pid, address, offset, pages)


def unmap(address, pages, pid=1):
    return '{"op":"unmap","pid":%d,"addr":%d,"pages":%d}' % (pid, address, pages)


def write(address, pid=1, data="61"):
    return '{"op":"write","pid":%d,"addr":%d,"data":"%s"}' % (pid, address, data)


def read(address, pid=1):
    return '{"op":"read","pid":%d,"addr":%d,"len":1}' % (pid, address)


def move(addresses, nodes, caller=1, pid=0, flags=2, more=""):
    form = '{"op":"move_pages","caller":%d,"pid":%d,"pages":%s,"nodes":%s,"flags":%d%s}'
    return form % (caller, pid, addresses, nodes, flags, more)


def during(accesses):
    """The key `during` for accesses in flight, each given as a run and a step."""
    return ',"during":[%s]' % ",".join('{"run":%d,%s' % (run, step[1:]) for run, step in accesses)


def move_to(addresses, node):
    return move(addresses, [node] * len(addresses))


def migrate(old, new):
    return '{"op":"migrate_pages","caller":1,"pid":0,"old":%s,"new":%s}' % (list(old), list(new))


def small_steps(size):
    """N thousand steps on 16 pages: in turn a write of a byte, a read of a byte, a move of a page to and fro."""
    steps = [map_step(BASE, 16)]
    for number in range(size * 1000):
        address = BASE + PAGE * (number % 16)
        if number % 3 == 0:
            steps.append(write(address))
        elif number % 3 == 1:
            steps.append(read(address))
        else:
            steps.append(move_to([address], number // 16 % 2))
    return trace([64, 64], steps)


def to_and_fro(size):
    """One batch of 8,192 pages, moved to the other node and back N times."""
    pages = [BASE + PAGE * page for page in range(8192)]
    steps = [map_step(BASE, 8192)] + [write(page) for page in pages]
    for number in range(2 * size):
        steps.append(move_to(pages, 1 - number % 2))
    return trace([8192, 8192], steps)


def to_and_fro_by_nodes(count, times, ats):
    """A process writes these bytes of as many pages, which then migrate to the other node and back."""
    pages = [BASE + PAGE * page for page in range(count)]
    steps = [map_step(BASE, count)] + [write(page + at) for page in pages for at in ats]
    return trace([count, count], steps + [migrate([0], [1]), migrate([1], [0])] * times)


# So far apart that nearly all bytes of a page are copied.
WHOLE = (*range(0, PAGE, 256), PAGE - 1)


def whole_pages(size):
    """8,192 pages, of which nearly all bytes are copied, migrate to the other node and back 2 N times."""
    return to_and_fro_by_nodes(8192, 2 * size, WHOLE)


def cached_pages(size):
    """1,900 such pages, which fit a cache, migrate to the other node and back N times."""
    return to_and_fro_by_nodes(1900, size, WHOLE)


def pages_of_a_byte(size):
    """8,192 pages with one byte to copy migrate to the other node and back 5 N times: what a move takes beside its copying."""
    return to_and_fro_by_nodes(8192, 5 * size, (0,))


def full_pages(size):
    """A process has 1,024 pages, every byte of which it has written; one batch moves them to the other node and back, 32 N
    times."""
    pages = [BASE + PAGE * page for page in range(1024)]
    steps = [map_step(BASE, 1024)] + [write(page, data="61" * PAGE) for page in pages]
    for number in range(64 * size):
        steps.append(move_to(pages, 1 - number % 2))
    return trace([1024, 1024], steps)


def migrations(size):
    """N pages, which fill half of 64 nodes, migrate to the other half and back 20 times."""
    pages = [BASE + PAGE * page for page in range(size)]
    steps = [map_step(BASE, size)] + [write(page) for page in pages]
    for _ in range(20):
        steps += [migrate(range(32), range(32, 64)), migrate(range(32, 64), range(32))]
    return trace([size // 32] * 64, steps)


def vain_migrations(size):
    """N pages fill 64 nodes, and 40 times all but the last node's are asked to go to the last, which has no room."""
    pages = [BASE + PAGE * page for page in range(size)]
    steps = [map_step(BASE, size)] + [write(page) for page in pages]
    steps += [migrate(range(63), [63])] * 40
    return trace([size // 64] * 64, steps)


def one_page(size):
    """N batches of 16,384 entries that all name one page."""
    steps = [map_step(BASE, 1), write(BASE)]
    for number in range(size):
        steps.append(move_to([BASE] * 16384, 1 - number % 2))
    return trace([4, 4], steps)


def limited(size, limit):
    """N batches of 16,384 entries, in which every two name one page, in runs of at most `limit` entries."""
    pages = [BASE + PAGE * (entry // 2) for entry in range(16384)]
    steps = [map_step(BASE, 8192)] + [write(BASE + PAGE * page) for page in range(8192)]
    steps += [move_to(pages, 1 - number % 2) for number in range(size)]
    return trace([8192, 8192], steps, '"version":2,"run_limit":%d' % limit)


def runs_of_one(size):
    """N batches of 8,192 pages, each named twice, in runs of one entry."""
    return limited(size, 1)


def runs_of_two(size):
    """The same in runs of two entries."""
    return limited(size, 2)


def runs_of_all(size):
    """The same with one run per batch."""
    return limited(size, 16384)


def long_batches(size):
    """A hundred batches, each of N thousand entries that all name one page."""
    steps = [map_step(BASE, 1), write(BASE)]
    for number in range(100):
        steps.append(move_to([BASE] * (size * 1000), 1 - number % 2))
    return trace([4, 4], steps)


def sparse_touches(size):
    """N thousand touches, far from one another, in one area of 2^34 pages."""
    steps = [map_step(0, 2**34)]
    for number in range(size * 1000):
        address = PAGE * (number * 7919 * 1021 % 2**34)
        steps.append(write(address) if number % 16 == 0 else read(address))
    return trace([16000], steps)


def numa_maps(pid=1):
    return '{"op":"numa_maps","pid":%d}' % pid


def first_touches(size):
    """N times the 4,096 frames of 64 nodes are taken by first touches, node after node as each fills up, and freed."""
    round_ = [map_step(BASE, 4096)] + [write(BASE + PAGE * page) for page in range(4096)] + [unmap(BASE, 4096)]
    return trace([64] * 64, round_ * size)


def told_pages(size):
    """One area of 2^34 pages, of which N thousand are touched, far from one another, and counted 50 times."""
    steps = [map_step(0, 2**34)]
    steps += [write(PAGE * (number * 7919 * 1021 % 2**34)) for number in range(size * 1000)]
    return trace([8192, 8192], steps + [numa_maps()] * 50)


def staying_pages(size):
    """16,383 touched pages, far from one another, that are asked for N times in one order as if drawn, each time to stay where they
    are: there is much to look at, and nothing moves."""
    count = 16383
    addresses = [PAGE * (number * 7919 * 1021 % 2**34) for number in range(count)]
    asked = [addresses[number * 5003 % count] for number in range(count)]
    return trace([count, 1], [map_step(0, 2**34)] + [write(address) for address in addresses] + [move(asked, [0] * count)] * size)


def bind(node):
    return '{"op":"mbind","caller":1,"addr":0,"len":%d,"mode":2,"nodes":[%d],"flags":2}' % (2**34 * PAGE, node)


def bound_pages(size):
    """One area of 2^34 pages, of which N thousand are touched, far from one another, and bound to the other node 50 times:
    those that are not there move as long as it has room."""
    steps = [map_step(0, 2**34)]
    steps += [write(PAGE * (number * 7919 * 1021 % 2**34)) for number in range(size * 1000)]
    return trace([8192, 8192], steps + [bind(1 - number % 2) for number in range(50)])


def long_reports(size):
    """N thousand areas of one page, all written, of which pagemap, numa_maps and the other node's free list tell 50 times."""
    count = size * 1000
    steps = []
    for address in range(0, 2 * PAGE * count, 2 * PAGE):
        steps += [map_step(address, 1), write(address)]
    told = ['{"op":"pagemap","pid":1}', numa_maps(), '{"op":"free","node":1}']
    return trace([8192, count], steps + told * 50)


def set_policy(address, pages, mode, nodes):
    form = '{"op":"mbind","caller":1,"addr":%d,"len":%d,"mode":%d,"nodes":%s,"flags":0}'
    return form % (address, pages * PAGE, mode, nodes)


def policies(size):
    """256 areas of four pages, and N thousand policies, each set for one of them: in turn the nearest node, a preferred one, one
    of two, two in turn, and the local one. A page of the area is written after each, so that the policy says where it goes, until
    all are there. After each twenty numa_maps tells them."""
    areas = [BASE + 8 * PAGE * area for area in range(256)]
    asked = [(0, []), (1, [1]), (2, [0, 1]), (3, [0, 1]), (4, [])]
    steps = [map_step(address, 4) for address in areas]
    for number in range(size * 1000):
        address = areas[number * 7919 % 256]
        steps += [set_policy(address, 4, *asked[number % 5]), write(address + PAGE * (number // 256 % 4))]
        if number % 20 == 19:
            steps.append(numa_maps())
    return trace([1024, 1024], steps)


def evacuated_node(size):
    """N thousand pages of two processes on a node that goes offline and comes back, and then the other node, 50 times in
    all: each time all pages go to the other node."""
    second = BASE + PAGE * 500 * size
    steps = [share(BASE, 500 * size), spawn(2, [0, 1]), attach(BASE, 0, 500 * size, 2), map_step(second, 500 * size)]
    steps += [write(BASE + PAGE * page) for page in range(1000 * size)] + [read(BASE + PAGE * page, 2) for page in range(500 * size)]
    for number in range(50):
        steps += ['{"op":"%s","node":%d}' % (op, number % 2) for op in ("offline", "online")]
    return trace([8192, 8192], steps)


def many_areas(size):
    """N thousand areas of one page, each touched when it is made."""
    steps = []
    for number in range(size * 1000):
        address = 2 * PAGE * (number * 7919 % 2**20)
        steps += [map_step(address, 1), write(address) if number % 8 == 0 else read(address)]
    return trace([8192], steps)


def many_runs(size):
    """One batch of 8,192 pages, each of whose entries is a run of its own: neighbours change places N times."""
    pages = [BASE + PAGE * page for page in range(8192)]
    steps = [map_step(BASE, 8192)] + [write(page) for page in pages]
    for number in range(2 * size):
        steps.append(move(pages, [(page + number) % 2 for page in range(8192)]))
    return trace([8192, 8192], steps)


def accesses_in_a_run(size):
    """One run of 4,096 pages with N thousand accesses in flight: in turn a read of a page that moves, which is held, and
    a read and a write of one of 1,024 pages that stay."""
    pages = [BASE + PAGE * page for page in range(5120)]
    steps = [map_step(BASE, 5120)] + [write(page) for page in pages]
    accesses = []
    for number in range(size * 1000):
        stays = pages[4096 + number * 7919 % 1024]
        accesses.append((0, [read(pages[number * 7919 % 4096]), read(stays), write(stays)][number % 3]))
    return trace([8192, 8192], steps + [move(pages[:4096], [1] * 4096, more=during(accesses))])


def accesses_in_many_runs(size):
    """One batch of N thousand pages whose entries name two nodes in turn, so that each is a run of its own, with 16
    accesses in flight in each, not ordered by run: in turn a read of a page that moves, which is held, and a read and a
    write of one of 64 pages that stay."""
    count = size * 1000
    pages, stay = ([BASE + PAGE * page for page in part] for part in (range(count), range(count, count + 64)))
    steps = [map_step(BASE, count + 64)] + [write(page) for page in pages + stay]
    steps.append(move(pages, [page % 2 for page in range(count)]))
    accesses = []
    for number in range(16 * count):
        run, stays = number * 7919 % count, stay[number % 64]
        accesses.append((run, [read(pages[run]), read(stays), write(stays)][number % 3]))
    return trace([8192, 8192], steps + [move(pages, [(page + 1) % 2 for page in range(count)], more=during(accesses))])


def shared_by(count):
    """A shared segment of 64 pages that process 1 maps and writes and the others attach and read, and the pages'
    addresses. Process 1000 is privileged and has nothing."""
    pages = [BASE + PAGE * page for page in range(64)]
    steps = [spawn(1000, [0, 1], ',"privileged":true'), share(BASE, 64)] + [write(page) for page in pages]
    for pid in range(2, 2 + count):
        steps += [spawn(pid, [0, 1]), attach(BASE, 0, 64, pid)] + [read(page, pid) for page in pages]
    return pages, steps


def to_and_fro_with_all(pages, times):
    """Process 1000 moves pages of process 1 that others see as well, to the other node and back `times` times."""
    return [move(pages, [1 - number % 2] * len(pages), 1000, 1, 4) for number in range(2 * times)]


def shared_moves(size):
    """64 pages that 200 processes share, moved to the other node and back with MPOL_MF_MOVE_ALL N times."""
    pages, steps = shared_by(199)
    return trace([64, 64], steps + to_and_fro_with_all(pages, size))


def sharers(size):
    """64 pages that N processes share, moved with MPOL_MF_MOVE_ALL to the other node and back 400 times. Then the
    processes exit."""
    pages, steps = shared_by(size)
    steps += to_and_fro_with_all(pages, 400)
    return trace([64, 64], steps + [exit_step(pid) for pid in range(2, 2 + size)])


def churn(size):
    """N thousand rounds over 32 processes with 16 slots of 8 pages each: what is left in a slot is unmapped, 8 pages are
    mapped there, two are written and one read, and three in the middle are unmapped. After every 40 rounds a process exits, and
    one with its pid is spawned."""
    steps = [spawn(pid, [0, 1]) for pid in range(2, 34)]
    for number in range(size * 1000):
        pid = 2 + number % 32
        slot = BASE + 8 * PAGE * (number // 32 % 16)
        steps += [unmap(slot, 8, pid), map_step(slot, 8, pid)]
        steps += [write(slot, pid), write(slot + 3 * PAGE, pid), read(slot + 6 * PAGE, pid)]
        steps.append(unmap(slot + 2 * PAGE, 3, pid))
        if number % 40 == 39:
            steps += [exit_step(pid), spawn(pid, [0, 1])]
    return trace([1024, 1024], steps)


def churn_among_areas(size):
    """N thousand areas of one page, each touched, and then as many rounds in the gaps between them: a page is mapped,
    written and unmapped."""
    steps = []
    spots = [2 * PAGE * (number * 7919 % 2**20) for number in range(size * 1000)]
    for number, address in enumerate(spots):
        steps += [map_step(address, 1), write(address) if number % 8 == 0 else read(address)]
    for address in spots:
        steps += [map_step(address + PAGE, 1), write(address + PAGE), unmap(address + PAGE, 1)]
    return trace([8192], steps)


def big_exits(size):
    """Four times a process maps and writes N thousand areas of one page, and exits."""
    steps = []
    for pid in range(2, 6):
        steps.append(spawn(pid, [0]))
        for number in range(size * 1000):
            address = 2 * PAGE * (number * 7919 % 2**20)
            steps += [map_step(address, 1, pid), write(address, pid)]
        steps.append(exit_step(pid))
    return trace([16384], steps)


def shared_holes(size):
    """A shared segment of N thousand pages, all written, in which every second page is unmapped."""
    pages = [BASE + PAGE * page for page in range(size * 1000)]
    steps = [share(BASE, size * 1000)] + [write(page) for page in pages]
    return trace([16384], steps + [unmap(page, 1) for page in pages[1::2]])


def shared_windows(size):
    """N thousand pages of a shared segment, each attached as an area of its own and written. Then both processes
    that have areas of it exit."""
    steps = [share(BASE, size * 1000), spawn(2, [0])]
    for number in range(size * 1000):
        address = BASE + 2 * PAGE * number
        steps += [attach(address, number, 1, 2), write(address, 2)]
    return trace([16384], steps + [exit_step(1), exit_step(2)])


def shared_visits(size):
    """A shared segment of N thousand pages, all written, and 50 N visits of another process: it
    attaches the segment, reads one page, and unmaps it."""
    pages = size * 1000
    steps = [share(BASE, pages)] + [write(BASE + PAGE * page) for page in range(pages)] + [spawn(2, [0])]
    for number in range(size * 50):
        steps += [attach(BASE, 0, pages, 2), read(BASE + PAGE * (number * 7919 % pages), 2), unmap(BASE, pages, 2)]
    return trace([16384], steps)


def spawns(size):
    """N processes are alive, and 100 N times one exits and one with its pid is spawned."""
    steps = [spawn(pid, [0]) for pid in range(2, 2 + size)]
    for number in range(size * 100):
        pid = 2 + number * 7919 % size
        steps += [exit_step(pid), spawn(pid, [0])]
    return trace([64], steps)


# each kind with the size of its smallest trace
KINDS = {
    small_steps: 25,
    to_and_fro: 4,
    whole_pages: 4,
    cached_pages: 25,
    pages_of_a_byte: 4,
    full_pages: 1,
    migrations: 1024,
    vain_migrations: 2048,
    runs_of_one: 4,
    runs_of_two: 4,
    runs_of_all: 4,
    one_page: 8,
    long_batches: 2,
    first_touches: 4,
    sparse_touches: 16,
    told_pages: 2,
    staying_pages: 4,
    bound_pages: 2,
    long_reports: 1,
    policies: 5,
    evacuated_node: 1,
    many_areas: 7,
    many_runs: 4,
    accesses_in_a_run: 16,
    accesses_in_many_runs: 1,
    shared_moves: 50,
    sharers: 25,
    churn: 5,
    churn_among_areas: 3,
    big_exits: 2,
    shared_holes: 2,
    shared_windows: 1,
    shared_visits: 2,
    spawns: 125,
}


def main():
    kinds = {kind.__name__: kind for kind in KINDS}
    if len(sys.argv) != 3 or sys.argv[1] not in kinds or not sys.argv[2].isdigit():
        sys.exit("usage: traces.py KIND SIZE, where KIND is one of " + ", ".join(kinds))
    sys.stdout.write(kinds[sys.argv[1]](int(sys.argv[2])))


if __name__ == "__main__":
    main()

"""Draws random traces that a kernel can be made to play, replays them, and compares each answer with the one that is expected of this
kernel (numalab predict). Steps that are answered otherwise are finds: each is replayed again, made shorter as `numalab reduce` does,
and printed as notation with both answers. The status is 1 where there is one.

There are two kinds of traces: small ones have three nodes and 30 calls and fill no node; large ones have two to four nodes, 100
calls, full nodes and nodes that go offline. A trace depends on the seed, its kind and its number alone. An interrupted hunt goes on
where it was, if it is asked for again with its seed."""
import os
import random
import sys

from ..faults import Form
from ..linux import drawn, guest
from ..linux.differences import KERNELS
from ..linux.hunting import Guests, Here, Hunt
from ..linux.player import nodes_here
from ..notate import notation_of
from ..progress import Progress
from ..traces import Bad, write_file
from ..words import counted, printable

SUMMARY = "random traces that a kernel answers otherwise than expected"
MOST_REDUCED = 5


def natural(text):
    number = int(text)
    if number < 0:
        raise ValueError
    return number


def arguments(words):
    where = words.add_mutually_exclusive_group(required=True)
    where.add_argument("--kernel", metavar="VMLINUZ", help=f"a kernel image, or the version of one that is there, such as {KERNELS[-1]}")
    where.add_argument("--here", action="store_true", help="the kernel of this machine, with as many nodes as it has")
    words.add_argument("--count", metavar="N", type=natural, default=1000, help="how many traces of each kind (1000)")
    words.add_argument("--seed", metavar="N", type=natural, help="what the traces are drawn from; a new one if none is named")
    words.add_argument("--kind", choices=list(drawn.KINDS), action="append", help="only traces of this kind")
    words.add_argument("--jobs", metavar="N", type=natural, default=1, help="how many guests at once (1)")
    words.add_argument("--most", metavar="N", type=natural, default=MOST_REDUCED, help=f"how many finds are made shorter ({MOST_REDUCED})")
    words.add_argument("-o", metavar="FOLDER", dest="out", help="keep each find, as it was drawn and made shorter")


def text_of_find(find, release):
    """A find as notation, with both answers."""
    trace = {**find.trace.top, "steps": find.trace.steps[: find.step + 1]}
    lines = [f"# {who}: {line}" for who, answer in [(f"Linux {release}", find.told), ("expected", find.expected)] for line in answer]
    return notation_of(Form(), trace) + "\n".join(map(printable, lines)) + "\n"


def keep(folder, name, text):
    try:
        os.makedirs(folder, exist_ok=True)
    except OSError as error:
        raise Bad(f"{folder}: {error.strerror}") from error
    write_file(os.path.join(folder, name), text)


def tell_finds(hunt, seen, asked):
    """Prints the finds; returns how many the kernel answers so again."""
    again = 0
    for place, (number, step, op, expected, told) in enumerate(seen.finds):
        name = f"{hunt.kind} trace {number} of seed {hunt.seed}"
        trace = hunt.kernel.drawn(hunt.seed, hunt.kind, number)
        if asked.out:
            keep(asked.out, f"{hunt.kind}-{hunt.seed}-{number}.nt", notation_of(Form(), trace.top))
        if place >= asked.most:
            again += 1
            print(f"{name}, step {step}, {op}: not made shorter\n  Linux {hunt.kernel.release}: {'; '.join(told)}\n  expected: {'; '.join(expected)}")
            continue
        find = hunt.reduced(number)
        if find is None:
            print(f"{name}, step {step}, {op}: answered as expected when it was played again\n  first: {'; '.join(told)}\n  expected: {'; '.join(expected)}")
            continue
        again += 1
        text = text_of_find(find, hunt.kernel.release)
        print(f"{name}, step {step}, {op}, made shorter:\n{text}", flush=True)
        if asked.out:
            keep(asked.out, f"{hunt.kind}-{hunt.seed}-{number}.short.nt", text)
    return again


def hunt_one(hunt, asked):
    """Hunts with traces of one kind; says whether something is found."""
    before = hunt.load()
    if before:
        print(f"numalab: going on after {counted(before, 'trace')} that were played before", file=sys.stderr)
    with Progress(f"{hunt.kind} traces on Linux {hunt.kernel.release}") as progress:
        seen = hunt.run(max(asked.jobs, 1), lambda total: progress.at(total.traces + len(total.troubles), hunt.count))
    again = tell_finds(hunt, seen, asked)
    for number, trouble in seen.troubles:
        print(f"{hunt.kind} trace {number} of seed {hunt.seed}: not played to the end: {trouble}")
    parts = [f"{counted(seen.traces, 'trace')} of {hunt.kernel.about(hunt.kind)}", f"seed {hunt.seed}", counted(seen.steps, "step") + " as expected",
             f"{again} unexplained"]
    parts += [f"{len(seen.finds) - again} not seen again"] if len(seen.finds) > again else []
    parts += [f"{len(seen.troubles)} not played to the end"] if seen.troubles else []
    print(f"Linux {hunt.kernel.release}: " + "; ".join(parts), flush=True)
    hunt.forget()
    return again + len(seen.troubles) > 0


def run(asked):
    kernel = Here(nodes_here()) if asked.here else Guests(guest.kernel_asked(asked.kernel))
    seed = random.SystemRandom().randrange(1 << 32) if asked.seed is None else asked.seed
    found = False
    try:
        for kind in asked.kind or (["small"] if asked.here else list(drawn.KINDS)):
            found = hunt_one(Hunt(kernel, seed, kind, asked.count), asked) or found
    except (KeyboardInterrupt, SystemExit):
        print(f"numalab: interrupted: --seed {seed} goes on from here", file=sys.stderr)
        raise
    return int(found)

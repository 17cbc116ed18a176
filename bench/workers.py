#!/usr/bin/env python3
"""Times the built program by the clock with 1, 2 and 4 workers, and writes a table: the best of seven runs of each, in turn,
and how long 4 workers take for what one takes 1 for. Where BOUNDS has microseconds for a page that moves, the last columns have them
for 1 worker and for 4, reading the trace included, and beside them those of a plain program in Rust, without a proof, on another
machine. Arguments select other kinds of traces. The figures are only meaningful on four idle processors. `./build` makes the
program; `--program PROGRAM` takes another in its place."""
import argparse
import os
import subprocess
import sys
import tempfile
import time

import traces
from run import ENVIRONMENT, PROGRAM, make_trace

SIZES = {"staying_pages": 30, "to_and_fro": 32, "whole_pages": 32, "cached_pages": 200, "pages_of_a_byte": 32, "full_pages": 8,
         "small_steps": 100, "many_runs": 16, "shared_moves": 200}
WORKERS = (1, 2, 4)
# Of a kind, how many pages move for each unit of its size, and the bounds for 1 and 4 workers.
BOUNDS = {"whole_pages": (8192 * 4, 1.3, 0.78), "cached_pages": (1900 * 2, 1.26, 0.46)}


def run_once(program, path, workers):
    """Seconds by the clock of one run."""
    with open(path, "rb") as trace, open(os.devnull, "wb") as out:
        start = time.monotonic()
        subprocess.run([program, "--workers", str(workers)], stdin=trace, stdout=out, check=True, env=ENVIRONMENT)
        return time.monotonic() - start


def for_a_page(kind, size, one, four):
    """The columns for a page that moves, if there are bounds for the kind."""
    if kind not in BOUNDS:
        return "| | |"
    pages, *bounds = BOUNDS[kind]
    return "".join("| %.2f (%.2f) " % (1e6 * seconds / (pages * size), bound) for seconds, bound in zip((one, four), bounds)) + "|"


def main():
    words = argparse.ArgumentParser(description=__doc__, formatter_class=argparse.RawDescriptionHelpFormatter)
    words.add_argument("kinds", nargs="*", metavar="KIND")
    words.add_argument("--program", default=PROGRAM)
    given = words.parse_args()
    unknown = set(given.kinds) - {kind.__name__ for kind in traces.KINDS}
    if unknown:
        sys.exit("bench/workers.py: unknown kind of trace: " + ", ".join(sorted(unknown)))
    if not os.access(given.program, os.X_OK):
        sys.exit("bench/workers.py: there is no program yet: run ./build first")
    print("| Trace | Size | 1 worker | 2 workers | 4 workers | 4 to 1 | A page, 1 worker (plain Rust) | 4 workers (plain Rust) |")
    print("|---|---|---|---|---|---|---|---|")
    with tempfile.TemporaryDirectory() as folder:
        path = os.path.join(folder, "trace.json")
        for kind in given.kinds or SIZES:
            size = SIZES.get(kind, 8)
            make_trace(kind, size, path)
            runs = [[run_once(given.program, path, workers) for workers in WORKERS] for _ in range(7)]
            one, two, four = (min(times) for times in zip(*runs))
            page = for_a_page(kind, size, one, four)
            print("| `%s` | %d | %.3f | %.3f | %.3f | %.2f %s" % (kind, size, one, two, four, four / one, page), flush=True)


if __name__ == "__main__":
    main()

#!/usr/bin/env python3
"""Lists the goals of a function whose search takes most steps, the dearest first: those are worth an answer in proofs/.

The prover notes the steps of each goal beside the work that `rt check` keeps (crates/NAME/out/incremental); some three million steps
are a second. `tools/dear_goals.py CRATE FUNCTION`, as `tools/dear_goals.py nm_engine machine.Machine.run_flight`, named as
tools/slow.py prints it; `CRATE` alone lists the dearest goals of all functions."""
import argparse
import glob
import os
import re

ROOT = os.path.dirname(os.path.dirname(os.path.abspath(__file__)))
# A goal's name, and after it its steps.
NOTED = re.compile(rb'"name":"([^"]+)"[^]]*?"notes":.*?"steps":\[([0-9,]*)\]')


def main():
    words = argparse.ArgumentParser(description=__doc__.split("\n")[0])
    words.add_argument("crate", metavar="CRATE")
    words.add_argument("function", metavar="FUNCTION", nargs="?", default="*")
    words.add_argument("--most", type=int, default=20, metavar="N", help="how many goals to list (20)")
    given = words.parse_args()
    name = "Rattle-%s-proofs." % given.crate
    kept = os.path.join(ROOT, "crates", given.crate, "out/incremental/*/records", name + given.function + ".Proof.decls.oantt")
    goals = []
    for path in glob.glob(kept):
        function = os.path.basename(path)[len(name) : -len(".Proof.decls.oantt")]
        with open(path, "rb") as file:
            goals += [(sum(map(int, steps.split(b","))), function, goal.decode()) for goal, steps in NOTED.findall(file.read()) if steps]
    for steps, function, goal in sorted(goals, reverse=True)[: given.most]:
        print("%8.2f million  %s  %s" % (steps / 1e6, function, goal))
    if not goals:
        raise SystemExit("tools/dear_goals.py: no check of %s kept work here: run rt check in its folder" % given.crate)


if __name__ == "__main__":
    main()

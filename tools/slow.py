#!/usr/bin/env python3
"""Lists the functions of a crate that take longest to prove.

It prints the seconds for each, the most expensive first, and how many of them are the borrow checker's part, which grows faster
than the function, and the search for what no file answers. `tools/slow.py CRATE` checks the crate from scratch with one job, with
`--test` its tests as well. The libraries that it depends on must have been built (`rt lib` in their folders, or `./build`).

A check writes a file for each module once it is done, so the time between two files is what the second module took."""
import argparse
import collections
import glob
import os
import re
import subprocess
import sys
import tempfile

ROOT = os.path.dirname(os.path.dirname(os.path.abspath(__file__)))
# What follows the function's name in that of a module.
PARTS = r"\.(Lts|Tie|Proof|Code|Kinds|Met|Statement|Symbol|Goals|Given|Answers|Invariants|Reads|Instances|Key)\b.*$"


def libraries(crate):
    """The crates of the repository and of the kit that a crate depends on, by its line of crates.txt."""
    with open(os.path.join(ROOT, "crates.txt")) as lines:
        for line in lines:
            name, _, below = line.partition(":")
            if name.split()[:1] == [crate]:
                return below.split()
    sys.exit("tools/slow.py: crates.txt has no crate %s" % crate)


def check_words(crate, tests, kept):
    """The arguments of a check of the crate from scratch."""
    kit = os.path.dirname(subprocess.run(["rt", "doc"], capture_output=True, text=True, check=True).stdout.strip())
    root = "src/main.rt" if os.path.isfile(os.path.join(ROOT, "crates", crate, "src/main.rt")) else "src/lib.rt"
    words = [os.path.join(kit, "bin/rattle"), "check", *(["--test"] if tests else []), "--crate-name", crate, root]
    for name in ["std", *libraries(crate)]:
        own = os.path.join(ROOT, "crates", name, "out/rlib/%s.rlib" % name)
        words += ["--extern", "%s=%s" % (name, own if os.path.isdir(own) else os.path.join(kit, "rlibs/%s.rlib" % name))]
    for folder in [os.path.join(kit, "rlibs"), *glob.glob(os.path.join(ROOT, "crates/*/out/rlib"))]:
        words += ["-L", "dependency=" + folder]
    words += ["--antt-project", os.path.join(kit, "rattle/logic/antt-project.json")]
    return words + ["--logic-built", os.path.join(kit, "logic_built"), "--jobs", "1", "--links", crate + "=", "--incremental", kept]


def modules(kept):
    """Each module that the check wrote, with the seconds that it took."""
    files = [path for path in glob.glob(os.path.join(kept, "**/*.oantt"), recursive=True)]
    times = sorted((os.stat(path).st_mtime, os.path.basename(path)[: -len(".oantt")]) for path in files)
    for (before, _), (time, name) in zip(times, times[1:]):
        yield re.sub(r"^Rattle-\w+-(proofs|specs)\.", "", name), time - before


def main():
    words = argparse.ArgumentParser(description=__doc__.split("\n")[0])
    words.add_argument("crate", metavar="CRATE")
    words.add_argument("--test", action="store_true", help="also check the crate's tests")
    words.add_argument("--most", type=int, default=20, metavar="N", help="how many functions to list (20)")
    given = words.parse_args()
    whole, borrows, searches = collections.Counter(), collections.Counter(), collections.Counter()
    with tempfile.TemporaryDirectory() as kept:
        folder = os.path.join(ROOT, "crates", given.crate)
        ran = subprocess.run(check_words(given.crate, given.test, kept), cwd=folder, capture_output=True, text=True)
        for name, seconds in modules(kept):
            function = re.sub(PARTS, "", name)
            whole[function] += seconds
            borrows[function] += seconds if ".Lts" in name else 0
            searches[function] += seconds if name.endswith(".Proof.decls") else 0
    print("seconds  borrows   search  function")
    for function, seconds in whole.most_common(given.most):
        print("%7.1f  %7.1f  %7.1f  %s" % (seconds, borrows[function], searches[function], function))
    print("%7.1f  %7.1f  %7.1f  all" % (sum(whole.values()), sum(borrows.values()), sum(searches.values())))
    if ran.returncode != 0:
        print((ran.stdout + ran.stderr)[-2000:], file=sys.stderr)
    return ran.returncode


if __name__ == "__main__":
    sys.exit(main())

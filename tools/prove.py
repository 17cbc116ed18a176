#!/usr/bin/env python3
"""Proves the crate in the current folder for ./build, over the libraries below it, which are proved: `rt lib` or `rt run`, changed in two
ways.

- From nothing it is proved as `rt ci` proves it (but not searched for contracts that no call can meet), without keeping work for later
  checks, and its library holds what other crates may cite of it, and not its proofs: that takes less time and memory, above all with
  several processes. Where `rt check` or `rt lib` kept work in the crate (out/incremental), that is used.
- It locks the crate's folder alone, and not those below it: several crates over the same ones are proved at a time.
- With --built the libraries below are taken as they stand: those that `rt ci` has just built from these sources.

`tools/prove.py [--built] lib|run --jobs N`"""
import importlib.machinery
import importlib.util
import os
import shutil
import sys


def kit():
    """The kit's command rt, as a module."""
    sys.dont_write_bytecode = True
    loader = importlib.machinery.SourceFileLoader("rt", os.path.realpath(shutil.which("rt")))
    made = importlib.util.module_from_spec(importlib.util.spec_from_loader("rt", loader))
    loader.exec_module(made)
    return made


def is_for_c():
    """Whether the crate is a library for programs in C, which no crate stands on."""
    with open("../../crates.txt", encoding="utf-8") as lines:
        return any(line.partition(":")[0].split() == [os.path.basename(os.getcwd()), "staticlib"] for line in lines)


def main(words):
    rt = kit()
    for name in ("KEPT", "lock"):
        if not hasattr(rt.rtlib, name):
            sys.exit("tools/prove.py: this kit's rt has no %s to change: `rt lib` proves a library all the same" % name)
    lock = rt.rtlib.lock
    # (the crate itself comes last)
    rt.rtlib.lock = lambda crates: lock(crates[-1:])
    if words[0] == "--built":
        words = words[1:]
        rt.rtlib.Crate.is_built = lambda crate: os.path.isdir(crate.rlib)
    if not os.path.isdir("out/incremental"):
        # The flags with which a check keeps its work, and, of a library, its proofs.
        rt.rtlib.KEPT = ["--statements"] if words[0] == "lib" and not is_for_c() else []
    return rt.main(words)


if __name__ == "__main__":
    sys.exit(main(sys.argv[1:]))

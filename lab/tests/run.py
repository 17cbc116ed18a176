#!/usr/bin/env python3
"""Runs the tests of numalab whose files match a pattern, `test_*.py` by default. Silent where all is well; skipped tests are
named, with the reason."""
import io
import os
import sys
import unittest

sys.dont_write_bytecode = True


def main(words):
    stream = io.StringIO()
    tests = unittest.defaultTestLoader.discover(os.path.dirname(os.path.abspath(__file__)), pattern=words[0] if words else "test_*.py")
    result = unittest.TextTestRunner(stream, verbosity=0).run(tests)
    for reason in sorted({reason for _, reason in result.skipped}):
        print(f"lab/tests/run.py: skipped: {reason}", file=sys.stderr)
    if not result.wasSuccessful() or result.testsRun == 0:
        print(stream.getvalue() or "no test has this name", file=sys.stderr)
        return 1
    return 0


if __name__ == "__main__":
    sys.exit(main(sys.argv[1:]))

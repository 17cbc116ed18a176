"""A line on standard error for what takes more than two seconds, only at a terminal."""
import sys
import time

PATIENCE, PAUSE = 2.0, 0.2


class Progress:
    """Shows how far something has come; used in a `with`, which removes the line at the end."""

    def __init__(self, what):
        self.what, self.next = what, time.monotonic() + PATIENCE
        self.shown, self.terminal = False, sys.stderr is not None and sys.stderr.isatty()

    def __enter__(self):
        return self

    def __exit__(self, *_):
        if self.shown:
            print("\r\033[K", end="", file=sys.stderr, flush=True)

    def at(self, done, total=None):
        """Shows how many are done, and of how many where that is known."""
        if self.terminal and time.monotonic() >= self.next:
            of = "" if total is None else f" of {total:,}"
            print(f"\r\033[K{self.what}: {done:,}{of}", end="", file=sys.stderr, flush=True)
            self.shown, self.next = True, time.monotonic() + PAUSE

"""What was refused for its meaning on this machine: it is not tried again as long as nothing changes that the verdict stands on."""
import glob
import hashlib
import os


def place():
    """The folder that has a file for each."""
    return os.path.join(os.environ.get("XDG_CACHE_HOME") or os.path.expanduser("~/.cache"), "numatrace", "edits")


class Passed:
    """The edits of one crate that have passed."""

    def __init__(self, checks):
        sum_of = hashlib.sha256(checks.stamp().encode())
        for path in sorted(glob.glob(os.path.join(os.path.dirname(os.path.abspath(__file__)), "*.py"))):
            with open(path, "rb") as file:
                sum_of.update(file.read())
        self.sum = sum_of.hexdigest()

    def path(self, edit):
        text = repr((self.sum, edit.crate, edit.name, edit.pairs))
        return os.path.join(place(), hashlib.sha256(text.encode()).hexdigest())

    def has(self, edit):
        return os.path.isfile(self.path(edit))

    def add(self, edit):
        """Keeps it, if there is a place to keep it."""
        try:
            os.makedirs(place(), exist_ok=True)
            with open(self.path(edit), "w", encoding="utf-8") as file:
                file.write(f"{edit.crate}/{edit.name}\n")
        except OSError:
            pass

"""Which edits are tried: all, those of one function, or those that the check chooses."""
import glob
import os

from rounds.functions import Sources
from rounds.texts import Edit, reader

# The fewest that the check tries, those of must-fail/ among them.
LEAST = 300
# The seconds of an edit of which nothing is known.
UNKNOWN = 5


def crates_of(root):
    """The crates that have edits."""
    found = glob.glob(f"{root}/crates/*/must-fail/*.edit") + glob.glob(f"{root}/tests/edits/*/*.edit")
    return sorted({path[len(root) + 1 :].split(os.sep)[1 if is_own(path) else 2] for path in found})


def is_own(path):
    """Whether an edit is one of must-fail/, which `rt ci` tries too."""
    return os.path.basename(os.path.dirname(path)) == "must-fail"


def edits_of(root, crate):
    """A crate's edits, by name. Those of one name, in both folders, stand side by side."""
    found = glob.glob(f"{root}/crates/{crate}/must-fail/*.edit") + glob.glob(f"{root}/tests/edits/{crate}/*.edit")
    return [Edit(crate, path) for path in sorted(found, key=lambda path: (os.path.basename(path), path))]


def always(root):
    """The edits that the check always tries, CRATE/NAME each: the mistakes that have a name."""
    path = f"{root}/tests/edits/always"
    if not os.path.isfile(path):
        return set()
    with open(path, encoding="utf-8") as lines:
        return {line.strip() for line in lines if line.strip() and not line.startswith("#")}


def seconds_of(root):
    """What each edit took to be refused when that was last measured, by CRATE/NAME."""
    path = f"{root}/tests/edits/seconds"
    if not os.path.isfile(path):
        return {}
    with open(path, encoding="utf-8") as lines:
        return {name: float(seconds) for name, seconds in (line.split() for line in lines if not line.startswith("#"))}


def note_seconds(root, found):
    """Writes down what edits took, in place of what was known of them, and of none that has gone."""
    every = {f"{edit.crate}/{edit.name}" for crate in crates_of(root) for edit in edits_of(root, crate)}
    known = {name: seconds for name, seconds in {**seconds_of(root), **found}.items() if name in every}
    with open(f"{root}/tests/edits/seconds", "w", encoding="utf-8") as file:
        file.write("# What each edit took to be refused, beside others of its round, in seconds of a processor: tests/edits.py --times\n")
        file.writelines(f"{name} {seconds:.1f}\n" for name, seconds in sorted(known.items()))


def changed_by(sources, edit):
    """The functions that an edit changes; none where it changes something else, or cannot be applied."""
    return () if edit.fault(sources.text_of) else sources.edited(edit) or ()


def changing(root, crate, edits, function):
    """Those of a crate's edits that change a function whose name ends so."""
    sources, end = Sources(reader(os.path.join(root, "crates", crate))), f"::{function}"
    return [edit for edit in edits if any(f"::{each.key}".endswith(end) for each in changed_by(sources, edit))]


class Choice:
    """The check's choice among the edits of some crates, by crate: the cheapest, where several tell of one function."""

    def __init__(self, root, edits):
        self.root, self.edits, self.named = root, edits, always(root)
        self.of = {}
        for crate, ours in edits.items():
            sources = Sources(reader(os.path.join(root, "crates", crate)))
            self.of.update({edit: changed_by(sources, edit) for edit in ours})
        self.chosen, self.covered = set(), set()

    def add(self, edit):
        self.chosen.add(edit)
        self.covered.update((edit.crate, each.key) for each in self.of[edit])

    def cover(self, edit, is_wanted):
        """Chooses an edit that changes a wanted function of which no chosen edit tells."""
        if any(is_wanted(each) and (edit.crate, each.key) not in self.covered for each in self.of[edit]):
            self.add(edit)

    def made(self, least=LEAST):
        """The chosen edits by crate: the mistakes that have a name, one for each public function, and as many others as make up the
        least number: one for each further function, and then any."""
        seconds = seconds_of(self.root)
        every = sorted((edit for ours in self.edits.values() for edit in ours), key=lambda edit: seconds.get(f"{edit.crate}/{edit.name}", UNKNOWN))
        for edit in every:
            if is_own(edit.path) or f"{edit.crate}/{edit.name}" in self.named:
                self.add(edit)
        for edit in every:
            self.cover(edit, lambda each: each.is_public)
        for edit in every:
            if len(self.chosen) < least:
                self.cover(edit, lambda each: True)
        self.chosen.update([edit for edit in every if edit not in self.chosen and self.of[edit]][: max(0, least - len(self.chosen))])
        return {crate: [edit for edit in ours if edit in self.chosen] for crate, ours in self.edits.items()}

"""What an edit that must fail changes: its file's pairs of texts, and how they are applied."""
import os
import re

FOLDERS = ("src/", "specs/", "proofs/")


def pairs_of(path):
    """The changes that an edit makes: a file, a text in it, and the text that replaces it. A file or text that no line names is None."""
    file = old = None
    with open(path, encoding="utf-8") as edit:
        for line in edit.read().split("\n"):
            if line.startswith("file: "):
                file = line[len("file: "):].strip()
            elif line.startswith("old: "):
                old = line[len("old: "):]
            elif line.startswith("new:"):
                yield file, old, re.sub(r"\A ", "", line[len("new:"):])
                old = None


class Edit:
    """An edit of a crate. `path` is its file, `name` that file's name without its ending."""

    def __init__(self, crate, path):
        self.crate, self.path = crate, path
        self.name = os.path.basename(path)[: -len(".edit")]
        self.pairs = list(pairs_of(path))

    def fault(self, text_of):
        """Why it cannot be applied to the files that text_of gives (None where there is no such file), or None."""
        return self.applied(text_of)[1]

    def applied(self, text_of):
        """The changed files, by their paths, with None; or None with why it cannot be applied."""
        texts, were = {}, {}
        for file, old, new in self.pairs:
            if file is None or not old:
                return None, "a 'new:' line comes before any 'file:' or 'old:' line"
            if not file.startswith(FOLDERS) or os.path.normpath(file) != file:
                return None, f"it names {file}, which is no file of src/, specs/ or proofs/"
            if file not in texts:
                texts[file] = were[file] = text_of(file)
            if texts[file] is None:
                return None, f"there is no file {file}"
            found = texts[file].count(old)
            if found != 1:
                return None, f"an 'old:' text occurs {found} times in {file}, not once"
            texts[file] = texts[file].replace(old, new)
        return (texts, None) if texts != were else (None, "it changes nothing")

    def places(self, text_of):
        """For each pair of an edit that can be applied, its file, and where the text that it changes begins and ends there: the ends of
        `old` that `new` also has are left out."""
        texts = {}
        for file, old, new in self.pairs:
            text = texts.setdefault(file, text_of(file))
            begin, front = text.find(old), len(os.path.commonprefix([old, new]))
            back = len(os.path.commonprefix([old[front:][::-1], new[front:][::-1]]))
            yield file, begin + front, max(begin + front, begin + len(old) - back)
            texts[file] = text.replace(old, new)


def reader(folder):
    """What gives the texts of the files below a folder, by their paths, or None."""

    def text_of(path):
        try:
            with open(os.path.join(folder, path), encoding="utf-8") as file:
                return file.read()
        except OSError:
            return None

    return text_of

"""From a file in the notation to a trace: lines, blocks and faults."""
from .faults import MOST_BYTES, machine_faults
from .names import NAME
from .notation import Words, Wrong, guessed
from .progress import Progress
from .statements import BLOCKS, MACHINE, STEPS, Translation
from .traces import Bad
from .words import left_out_text

MOST_FAULTS, MOST_TIMES = 100, 1 << 22


class File:
    """The lines of a file, as they are played, and their faults as (line, column, text)."""

    def __init__(self, data, name):
        self.made, self.faults, self.times = Translation(name), [], 0
        try:
            text = data.decode("utf-8")
        except UnicodeDecodeError as error:
            self.faults.append((data.count(b"\n", 0, error.start) + 1, 1, "not UTF-8"))
            return
        with Progress(f"{name}: steps") as self.progress:
            self.look(text)

    def look(self, text):
        """Plays all lines, or notes what is wrong with their form."""
        self.lines = [self.words(number, line) for number, line in enumerate(text.split("\n"), 1)]
        self.ends = self.block_ends()
        if not self.faults:
            self.play(0, len(self.lines))
        if not self.faults and not self.made.nodes:
            self.faults.append((1, 1, "nodes is missing: expected a line such as `nodes 2x4`"))
        elif not self.faults:
            top = {**self.made.top, "steps": []}
            self.faults = [(self.line_of(fault.path), 1, fault.text) for fault in machine_faults(self.made.form, top)]

    def line_of(self, path):
        """The first line that describes a part of the machine."""
        word = "run_limit" if path[0] == "run_limit" else path[1]
        lines = [k + 1 for k, words in enumerate(self.lines) if words.words and words.words[0].text == word]
        return lines[0] if lines else 1

    def words(self, number, line):
        try:
            return Words(line.rstrip("\r"))
        except Wrong as wrong:
            self.faults.append((number, wrong.column, wrong.text))
            return Words("")

    def opens(self, words):
        """Whether a line begins a block."""
        return bool(words.words) and (words.words[0].text == "repeat" or
                                      words.words[0].text == "move_pages" and words.words[-1].text == "during")

    def block_ends(self):
        """The number of the line that ends each block, by that of the line that begins it."""
        ends, open_blocks = {}, []
        for k, words in enumerate(self.lines):
            if self.opens(words):
                open_blocks.append(k)
            elif words.peek() == "end":
                if open_blocks:
                    ends[open_blocks.pop()] = k
                else:
                    self.faults.append((k + 1, 1, "end without a block"))
        self.faults += [(k + 1, 1, "the block has no end") for k in open_blocks]
        return ends

    def play(self, first, end):
        """Plays the lines of a stretch."""
        k = first
        while k < end and len(self.faults) < MOST_FAULTS:
            words, at = self.lines[k], k
            k = self.ends.get(k, k) + 1
            words.taken = 0
            self.progress.at(len(self.made.steps))
            self.made.line = at + 1
            if words.words:
                try:
                    self.statement(words, at)
                except Wrong as wrong:
                    fault = (self.made.line, wrong.column, wrong.text)
                    if fault not in self.faults:
                        self.faults.append(fault)

    def statement(self, words, at):
        """Plays one line, with the block that it begins."""
        word = words.next("a statement")
        if word.text == "repeat":
            self.repeat(words, at)
        elif word.text == "move_pages" and at in self.ends:
            self.made.say_move_pages(words, self.flights(at))
        elif word.text in STEPS:
            if not self.made.nodes:
                raise Wrong("nodes must come first, with a line such as `nodes 2x4`", word.column)
            STEPS[word.text](self.made, words)
        elif word.text in MACHINE:
            MACHINE[word.text](self.made, words)
        else:
            left_out = left_out_text(word.text)
            why = f": {left_out}" if left_out else guessed(word.text, [*STEPS, *MACHINE, *BLOCKS])
            raise Wrong(f"{word.text} is not a statement{why}", word.column)

    def flights(self, at):
        """The accesses in flight of a block."""
        found = []
        for k in range(at + 1, self.ends[at]):
            self.lines[k].taken, self.made.line = 0, k + 1
            if self.lines[k].words:
                found += self.made.flight(self.lines[k])
        self.made.line = at + 1
        return found

    def repeat(self, words, at):
        """Plays a block as many times as it says."""
        word = words.next("how often")
        times, name = self.made.number(word), None
        if words.has("as"):
            named = words.next("a name")
            if not NAME.fullmatch(named.text) or not named.text.isidentifier():
                raise Wrong(f"{named.text} is not a name for a number", named.column)
            name = named.text
        words.done("as")
        self.times += times
        if self.times > MOST_TIMES:
            raise Wrong(f"blocks would be played more than {MOST_TIMES:,} times", word.column)
        before = dict(self.made.variables)
        for number in range(times):
            if name:
                self.made.variables[name] = number
            self.play(at + 1, self.ends[at])
            if self.faults:
                break
        self.made.variables = before


def translated(data, name):
    """The trace that a file describes, and its faults as (line, column, text)."""
    if len(data) > MOST_BYTES:
        return None, [(1, 1, f"the file has more than {MOST_BYTES:,} bytes")]
    file = File(data, name)
    return file.made.top, sorted(file.faults)


def trace_from(data, name):
    """The trace that a file describes. Raises its first fault."""
    top, faults = translated(data, name)
    if faults:
        line, column, text = faults[0]
        more = f" (numalab why {name} shows {len(faults) - 1:,} more)" if len(faults) > 1 else ""
        raise Bad(f"{name}:{line}:{column}: {text}{more}")
    return top

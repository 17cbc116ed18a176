"""The notation in which people write traces, and what it means as a trace. docs/NOTATION.md has its grammar."""
import json
import re
from collections import namedtuple

from .faults import MOST_ENTRIES, close
from .words import FLAGS, MODES, PAGE, counted

WORD = re.compile(r'"(?:[^"\\]|\\.)*"|[^\s#",]+(?:,[^\s#",]+)*|,|"|#')
NUMBER = re.compile(r"0x[0-9A-Fa-f]{1,16}|[0-9]{1,20}")
PIECE = re.compile(r"[A-Za-z_][A-Za-z0-9_]*|0x[0-9A-Fa-f]{1,16}|[0-9]{1,20}[KMG]?|[-+*%]")
PLACE = re.compile(r"([^\[\]+]+)(?:\[([^\[\]]*)\])?(?:\+(.+))?")
SIZES = {"K": 1 << 10, "M": 1 << 20, "G": 1 << 30}
MOST = (1 << 64) - 1
FIRST_ADDRESS, APART = 0x10000, 0x10000
# A step takes at least this many bytes of a trace, which bounds how many there can be.
LEAST_STEP = 14
# Distances of the short form: between two nodes of the first tier, and how much farther each tier is.
NEAR, FARTHER = 20, 10

Word = namedtuple("Word", "text column")
Area = namedtuple("Area", "address pages segment offset")
# Pages from an address on: the first address, the numbers of the pages from there, and whether a single page was named.
Pages = namedtuple("Pages", "address numbers single")


class Wrong(Exception):
    """A fault of a line: its text and its column."""

    def __init__(self, text, column):
        super().__init__(text)
        self.text, self.column = text, column


def next_free(address, pages, before):
    """Where the next area without an address goes: after all others, with a gap."""
    end = address + pages * PAGE
    return max(before, (end // APART + 1) * APART) if end < 1 << 46 else before


def guessed(text, words):
    found = close(text, words)
    return f": did you mean {found}?" if found else ""


class Words:
    """The words of a line, which are taken one by one."""

    def __init__(self, line):
        self.words, self.taken = [], 0
        for match in WORD.finditer(line):
            if match[0] == "#":
                break
            if match[0] == '"':
                raise Wrong("a text has no closing quote", match.start() + 1)
            self.words.append(Word(match[0], match.start() + 1))
        self.end = self.words[-1].column + len(self.words[-1].text) if self.words else 1

    def peek(self):
        return self.words[self.taken].text if self.taken < len(self.words) else None

    def next(self, what):
        """The next word; where there is none, the fault says what is missing."""
        if self.taken == len(self.words):
            raise Wrong(f"{what} is missing", self.end)
        self.taken += 1
        return self.words[self.taken - 1]

    def has(self, *words):
        """Takes the next word if it is one of these, and returns it."""
        if self.peek() in words:
            self.taken += 1
            return self.words[self.taken - 1].text
        return None

    def need(self, word):
        found = self.next(word)
        if found.text != word:
            raise Wrong(f"expected {word} here, not {found.text}", found.column)

    def done(self, *could):
        """Refuses further words; `could` are those that would have been known here."""
        if self.peek() is not None:
            word = self.words[self.taken]
            raise Wrong(f"{word.text} is not expected here{guessed(word.text, could)}", word.column)


class Numbers:
    """Numbers, sizes, sets of nodes and places, with the names that a file has given so far."""

    def __init__(self):
        self.nodes, self.node_names = [], {}
        # Areas by their names, and the same of each process, by pid and name.
        self.processes, self.areas, self.own_areas, self.variables = {}, {}, {}, {}

    def number(self, word, most=MOST):
        """A number: sums and products of numbers, sizes and what `repeat` counts."""
        pieces = PIECE.findall(word.text)
        if "".join(pieces) != word.text:
            raise Wrong(f"{word.text} is not a number", word.column)
        total, sign, product, after = 0, 1, None, "+"
        for piece in pieces:
            if piece in "+-*%":
                if product is None or after:
                    raise Wrong(f"{word.text} is not a number", word.column)
                after = piece
                continue
            value = self.atom(piece, word)
            if after in ("*", "%"):
                product = product * value if after == "*" else product % value if value else 0
            else:
                total, sign, product = total + sign * (product or 0), -1 if after == "-" else 1, value
            after = ""
        total += sign * (product or 0)
        if after or not 0 <= total <= most:
            raise Wrong(f"{word.text} is not a number from 0 to {most:,}", word.column)
        return total

    def atom(self, piece, word):
        if piece in self.variables:
            return self.variables[piece]
        if piece[0] not in "0123456789":
            raise Wrong(f"{piece} is not known{guessed(piece, self.variables)}", word.column)
        return int(piece[:-1]) * SIZES[piece[-1]] if piece[-1] in SIZES else int(piece, 0) if piece[:2] == "0x" else int(piece)

    def page_count(self, word):
        """How many pages a number, or a size in whole pages, means."""
        count = self.number(word)
        if word.text[-1:] in SIZES:
            if count % PAGE:
                raise Wrong(f"{word.text} is not a whole number of 4K pages", word.column)
            count //= PAGE
        return count

    def node_list(self, word, single=False, allowed=None):
        """A set of nodes in the order in which it is written: 0-2,5, names of nodes, all, none, all but some: !1, or some of the nodes
        that a process may use, counted from 0: +0-1."""
        text, every = word.text, list(range(len(self.nodes)))
        if text.startswith("!"):
            but = self.node_list(Word(text[1:], word.column + 1), allowed=allowed)
            return [node for node in every if node not in but]
        if text.startswith("+"):
            return self.relative(word, allowed, single)
        found = []
        for part in [] if text == "none" else text.split(","):
            if part == "all":
                found += every
            elif part in self.node_names:
                found += self.node_names[part]
            elif re.fullmatch(r"[0-9]{1,10}-[0-9]{1,10}", part):
                first, last = map(int, part.split("-"))
                if first > last or last - first >= 64:
                    raise Wrong(f"{part} is not a range of nodes", word.column)
                found += range(first, last + 1)
            elif NUMBER.fullmatch(part) or part in self.variables:
                found.append(self.number(Word(part, word.column), (1 << 32) - 1))
            else:
                area = ": further pages follow after a comma and a space" if part.partition("[")[0] in self.areas else ""
                raise Wrong(f"{part} is not a node{area or guessed(part, [*self.node_names, 'all', 'none'])}", word.column)
        if single and len(found) != 1:
            raise Wrong(f"{text} is {len(found)} nodes, where one is expected", word.column)
        return found

    def relative(self, word, allowed, single):
        """A set of the nodes that a process may use."""
        if allowed is None:
            raise Wrong(f"{word.text} counts the nodes that a process may use, and here no process is known", word.column)
        places, mine = self.node_list(Word(word.text[1:], word.column + 1), single), sorted(set(allowed))
        beyond = [place for place in places if place >= len(mine)]
        if beyond:
            raise Wrong(f"{word.text} is past the last of the {counted(len(mine), 'node')} that the process may use", word.column)
        return [mine[place] for place in places]

    def pid(self, word):
        """The pid of a process by its name, or as a number."""
        if word.text in self.processes:
            return self.processes[word.text]
        if NUMBER.fullmatch(word.text) or word.text in self.variables:
            return self.number(word, (1 << 32) - 1)
        raise Wrong(f"there is no process {word.text}{guessed(word.text, self.processes)}", word.column)

    def flags(self, word):
        """Flags by their names, or as a number."""
        if NUMBER.fullmatch(word.text):
            return self.number(word, (1 << 32) - 1)
        numbers, total = {name: flag for flag, name in FLAGS.items()}, 0
        for name in word.text.split("|"):
            if name not in numbers:
                raise Wrong(f"{name} is not a flag{guessed(name, numbers)}", word.column)
            total |= numbers[name]
        return total

    def mode(self, word):
        if NUMBER.fullmatch(word.text):
            return self.number(word, (1 << 32) - 1)
        if word.text not in MODES:
            raise Wrong(f"{word.text} is not a mode{guessed(word.text, MODES)}", word.column)
        return MODES.index(word.text)

    # ---- places

    def place(self, word, pid=None):
        """Pages of a process, or one address: A, A[*], A[3], A[0:10:2], 0x10000, 0x10000[0:5]; after a page, +N is a byte of it."""
        match = PLACE.fullmatch(word.text)
        if not match:
            raise Wrong(f"{word.text} does not name pages", word.column)
        base, inside, offset = match.groups()
        area = self.own_areas.get((pid, base), self.areas.get(base))
        if area is None and not NUMBER.fullmatch(base):
            raise Wrong(f"there is no area {base}{guessed(base, self.areas)}", word.column)
        address = area.address if area else self.number(Word(base, word.column))
        if inside is None:
            numbers, single = (range(area.pages), False) if area and offset is None else (range(1), True)
        else:
            numbers, single = self.numbers(inside, area, word)
        if offset is not None:
            if not single:
                raise Wrong(f"{word.text} has a byte offset for more than one page", word.column)
            address += self.number(Word(offset, word.column))
        if numbers and address + max(numbers[0], numbers[-1]) * PAGE > MOST:
            raise Wrong(f"{word.text} is past the last address", word.column)
        return Pages(address, numbers, single)

    def end(self, part, area, word):
        """The number of a page in brackets, which may be counted from the end of an area, as -1; None where there is none."""
        if not part.startswith("-"):
            return self.number(Word(part, word.column)) if part else None
        if not area:
            raise Wrong(f"{word.text} counts from an end, which only an area with a name has", word.column)
        back = self.number(Word(part[1:], word.column))
        if back > area.pages:
            raise Wrong(f"{word.text} is before the first page: {pages_told(word, area)}", word.column)
        return area.pages - back

    def numbers(self, inside, area, word):
        """The numbers of pages in brackets, and whether they name a single page."""
        if inside == "*":
            if not area:
                raise Wrong("[*] is only for an area with a name", word.column)
            return range(area.pages), False
        parts = inside.split(":")
        ends = [self.end(part, area, word) if k < 2 else self.number(Word(part, word.column)) if part else None for k, part in enumerate(parts)]
        if len(ends) == 1 and ends[0] is not None:
            if area and ends[0] >= area.pages:
                raise Wrong(f"{word.text} is past the last page: {pages_told(word, area)}", word.column)
            return range(ends[0], ends[0] + 1), True
        first, end, step = (ends + [None, None])[:3]
        end = (area.pages if area else None) if end is None else end
        if not 2 <= len(ends) <= 3 or end is None or step == 0:
            raise Wrong(f"{word.text} is not a range of pages {'of the area' if area else 'from an address'}", word.column)
        if area and end > area.pages:
            raise Wrong(f"{word.text} ends past the last page: {pages_told(word, area)}", word.column)
        return range(first or 0, max(end, first or 0), step or 1), False

    def addresses(self, word, pid=None):
        """The addresses of a place, at most as many as a batch may have."""
        pages = self.place(word, pid)
        if count(pages) > MOST_ENTRIES:
            raise Wrong(f"{word.text} is {counted(count(pages), 'page')}, and a batch has at most {MOST_ENTRIES:,}", word.column)
        return [pages.address + number * PAGE for number in pages.numbers]

    def stretch(self, word, pid=None):
        """The first address and the number of pages of a place without gaps."""
        pages = self.place(word, pid)
        if pages.numbers.step != 1:
            raise Wrong(f"{word.text} has gaps, where adjacent pages are expected", word.column)
        return pages.address + pages.numbers.start * PAGE, count(pages)


def pages_told(word, area):
    """How many pages an area has, for a fault."""
    name = word.text.partition("[")[0]
    return f"{name} has {counted(area.pages, 'page')}" + (f", {name}[0] to {name}[{area.pages - 1}]" if area.pages > 1 else f", {name}[0]" if area.pages else "")


def count(pages):
    """How many pages there are, even where they are more than len can say."""
    numbers = pages.numbers
    return max(0, -(-(numbers.stop - numbers.start) // numbers.step))


def text_of(word):
    """What a text in quotes says."""
    try:
        text = json.loads(word.text)
        text.encode()
        return text
    except ValueError:
        raise Wrong(f"{word.text} is not a valid text", word.column) from None


def data_of(word):
    """Bytes as hexadecimal digits: they stand for themselves, and a text for its UTF-8."""
    if word.text.startswith('"'):
        return text_of(word).encode().hex()
    if not re.fullmatch("(?:[0-9A-Fa-f]{2})+", word.text):
        raise Wrong(f"{word.text} is neither a text in quotes nor an even number of hexadecimal digits", word.column)
    return word.text

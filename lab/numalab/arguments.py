"""What callers from Python pass, as the numbers of a trace: a TypeError or a ValueError names the argument and says what was
expected."""
import operator

from .names import is_name
from .notation import Numbers, Word, Wrong
from .words import PAGE

MOST_LETTERS = 40


def shown(value):
    """A value for people, short."""
    text = repr(value)
    return text if len(text) <= MOST_LETTERS else text[:MOST_LETTERS] + ".."


def whole(what, value):
    """A whole number, of any type that is one."""
    if type(value) is int:
        return value
    try:
        if not isinstance(value, bool):
            return operator.index(value)
    except TypeError:
        pass
    raise TypeError(f"{what} is {shown(value)}: expected a whole number")


def truth(what, value):
    if value is True or value is False:
        return value
    raise TypeError(f"{what} is {shown(value)}: expected True or False")


def name_or_none(what, value):
    """A name as the notation has them, or None."""
    if value is None or is_name(value):
        return value
    expected = "expected a name: a letter or _, and then letters, digits, _ . and -"
    if isinstance(value, str):
        raise ValueError(f"{what} is {shown(value)}: {expected}")
    raise TypeError(f"{what} is {shown(value)}: {expected}")


def data_bytes(what, value):
    """Bytes to write."""
    if isinstance(value, (bytes, bytearray, memoryview)):
        return bytes(value)
    raise TypeError(f"{what} is {shown(value)}: expected bytes, such as b\"a\"")


def items(what, values, expected):
    """The elements of a list, a tuple or the like; a text is not one."""
    if not isinstance(values, (str, bytes, bytearray, dict)):
        try:
            return list(values)
        except TypeError:
            pass
    raise TypeError(f"{what} is {shown(values)}: expected {expected}")


def addresses(what, pages):
    """Addresses from an area, an address, several, or a range. A range counts pages from address 0 on, as range(16, 19) for the
    pages at 0x10000 to 0x12000, unless its step is whole pages in bytes."""
    if isinstance(pages, range):
        return list(pages) if pages.step % PAGE == 0 else [number * PAGE for number in pages]
    if type(pages) is int or hasattr(pages, "__index__"):
        return [whole(what, pages)]
    found = items(what, pages, "an area, an address, a list of addresses, or a range of page numbers")
    return found if all(type(address) is int for address in found) else [whole(f"{what}[{k}]", address) for k, address in enumerate(found)]


class Words:
    """Nodes, flags and modes by their names, as the notation has them; a name, or None, is given for each node."""

    def __init__(self, names):
        self.numbers = Numbers()
        self.numbers.nodes = [1] * len(names)
        for node, name in enumerate(names):
            if name:
                self.numbers.node_names.setdefault(name, []).append(node)

    @staticmethod
    def said(what, way, text):
        """What a text means; where it means nothing, a ValueError."""
        try:
            return way(Word(text, 1))
        except Wrong as wrong:
            raise ValueError(f"{what} is {shown(text)}: {wrong.text}") from None

    def nodes(self, what, nodes, allowed=None):
        """Nodes from a number, a set as numactl writes it, or several numbers; `allowed` are those that the process may use."""
        if type(nodes) is int or hasattr(nodes, "__index__"):
            return [whole(what, nodes)]
        if isinstance(nodes, str):
            return self.said(what, lambda word: self.numbers.node_list(word, allowed=allowed), nodes)
        return [whole(f"{what}[{k}]", node) for k, node in enumerate(items(what, nodes, "a node, a list of nodes, or a set such as \"0-2\""))]

    def node(self, what, node):
        """One node."""
        found = self.nodes(what, node)
        if len(found) != 1:
            raise ValueError(f"{what} is {shown(node)}: expected one node, and that is {len(found)}")
        return found[0]

    def flags(self, what, flags):
        return self.said(what, self.numbers.flags, flags) if isinstance(flags, str) else whole(what, flags)

    def mode(self, what, mode):
        return self.said(what, self.numbers.mode, mode) if isinstance(mode, str) else whole(what, mode)

"""Where pages are, epoch by epoch, for the maps of the page: as many epochs as a map has columns, a byte for each page."""
from array import array

MOST_COLUMNS = 240
ABSENT = -1


def stretches(count, most):
    """Cuts the numbers 0 to count - 1 into at most that many stretches of almost one length."""
    many = min(count, most)
    return [range(count * k // many, count * (k + 1) // many) for k in range(many)]


class Film:
    """The node of each page, ABSENT where it was not touched, by policy and epoch."""

    def __init__(self):
        self.epochs, self.nodes = None, {}

    def begin(self, epochs):
        """Of a stretch of epochs the last one is noted."""
        self.epochs = [stretch[-1] for stretch in stretches(epochs, MOST_COLUMNS)]

    def add(self, label, epoch, nodes):
        if epoch in self.epochs:
            self.nodes.setdefault(label, []).append(array("b", (ABSENT if node is None else node for node in nodes)))

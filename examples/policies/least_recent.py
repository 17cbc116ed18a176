"""A policy of one's own for `numalab policies`: what was used least recently leaves the fast nodes."""
from numalab.policies import MOVE_ALL, Policy


class LeastRecent(Policy):
    modelled_on = "the textbook's least recent use, epoch by epoch"

    def __init__(self):
        self.used = {}

    def epoch(self, view):
        self.used.update(dict.fromkeys(view.accessed, view.epoch))
        fast, slow = view.on(*view.fast), view.on(*view.slow)
        recent = sorted(fast + slow, key=lambda page: -self.used[page])[: len(fast) + view.free(*view.fast)]
        view.move_pages(sorted(set(fast) - set(recent)), view.slow[0], MOVE_ALL)
        view.move_pages(sorted(set(slow) & set(recent)), view.fast[0], MOVE_ALL)

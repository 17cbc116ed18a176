"""A policy for `numalab policies`: the pages with the most samples so far are on the fast node."""
from collections import Counter

from numalab.policies import MOVE_ALL, Policy


class HotCold(Policy):
    modelled_on = "nothing but all samples so far"

    def __init__(self):
        self.heat = Counter()

    def epoch(self, view):
        self.heat.update(view.samples)
        fast, slow = view.fast[0], view.slow[0]
        room = len(view.on(fast)) + view.free(fast)
        hottest = set(sorted(view.pages, key=lambda page: -self.heat[page])[:room])
        view.move_pages([page for page in view.on(fast) if page not in hottest], slow, MOVE_ALL)
        view.move_pages([page for page in view.on(slow) if page in hottest], fast, MOVE_ALL)

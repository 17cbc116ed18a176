"""The best that placement can do: the cheapest placements of an epoch, and of a whole stream, with as many pages on a node as it has
free frames at the start. Pins are not looked at, and moves are free: these are bounds, and no policies."""
from heapq import heappop, heappush

STATIC, EPOCHS = "best static placement", "best for each epoch"


class Bounds:
    """Finds placements on nodes with some free frames, for processes on some homes."""

    def __init__(self, costs, homes, free, allowed):
        self.homes, self.kinds = homes, sorted(set(homes))
        groups = {}
        for node in sorted(allowed):
            groups.setdefault(tuple(costs.rows[home][node] for home in self.kinds), []).append(node)
        # Nodes that cost the same for every process are one choice; the last choice is to have no frame.
        self.choices = [*sorted(groups), (costs.worst,) * len(self.kinds)]
        self.nodes, self.free = [groups[choice] for choice in self.choices[:-1]], free

    def placement(self, places):
        """The node of each page that is accessed, where `places` says how often each place is."""
        many, weights = len(self.homes), {}
        for place, count in places.items():
            weight = weights.setdefault(place // many, [0] * len(self.kinds))
            weight[self.kinds.index(self.homes[place % many])] += count
        room = [sum(self.free[node] for node in nodes) for nodes in self.nodes] + [len(weights)]
        chosen = self.by_count(weights, room) if len(set(map(tuple, zip(*self.choices)))) == 1 else self.by_chains(weights, room)
        return self.on_nodes(chosen)

    def on_nodes(self, chosen):
        """Pages of a choice on its nodes, which are filled by number. Those without a frame are on none."""
        left, found = [[[node, self.free[node]] for node in nodes] for nodes in self.nodes], {}
        for page, choice in sorted(chosen.items()):
            if choice == len(self.nodes):
                continue
            while not left[choice][0][1]:
                left[choice].pop(0)
            left[choice][0][1] -= 1
            found[page] = left[choice][0][0]
        return found

    def by_count(self, weights, room):
        """Where a node costs the same for all processes: the pages with most accesses on the cheapest nodes."""
        found, choice = {}, 0
        for page in sorted(weights, key=lambda page: (-sum(weights[page]), page)):
            while not room[choice]:
                choice += 1
            found[page], room[choice] = choice, room[choice] - 1
        return found

    def by_chains(self, weights, room):
        """Else page by page, each by the cheapest chain: it takes a place, whose page goes elsewhere, and so on to a free frame.
        (These are the shortest augmenting paths of a minimum cost flow, so that the placement at the end is the cheapest.)"""
        chains = Chains(len(room))
        for page, weight in sorted(weights.items()):
            there = [(home, one) for home, one in enumerate(weight) if one]
            costs = [sum(one * choice[home] for home, one in there) for choice in self.choices]
            chains.add(page, costs, room)
        return chains.at


class Chains:
    """Pages on choices, with the cheapest move between each two."""

    def __init__(self, count):
        self.count, self.at, self.costs = count, {}, {}
        self.moves = {(one, other): [] for one in range(count) for other in range(count) if one != other}

    def cheapest_move(self, one, other):
        """What it costs at least to move a page between two choices, and which; None where there is none."""
        heap = self.moves[one, other]
        while heap and self.at[heap[0][1]] != one:
            heappop(heap)
        return heap[0] if heap else None

    def put(self, page, choice):
        self.at[page] = choice
        for other in range(self.count):
            if other != choice:
                heappush(self.moves[choice, other], (self.costs[page][other] - self.costs[page][choice], page))

    def add(self, page, costs, room):
        self.costs[page] = costs
        least, before = list(costs), [None] * self.count
        full = [one for one in range(self.count) if not room[one]]
        moves = [(one, other, move[0]) for one in full for other in range(self.count) if one != other
                 for move in [self.cheapest_move(one, other)] if move]
        for _ in range(self.count if moves else 0):
            changed = False
            for one, other, cost in moves:
                if least[one] + cost < least[other]:
                    least[other], before[other], changed = least[one] + cost, one, True
            if not changed:
                break
        end = min((choice for choice in range(self.count) if room[choice]), key=lambda choice: (least[choice], choice))
        room[end] -= 1
        while before[end] is not None:
            self.put(self.cheapest_move(before[end], end)[1], end)
            end = before[end]
        self.put(page, end)

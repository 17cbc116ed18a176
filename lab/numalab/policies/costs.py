"""What an access costs, by the node on which its process runs and the node of the page, and what a moved page costs."""
from ..traces import Bad
from .spec import number_of


class Costs:
    """`rows[home][node]` is the cost of an access, for the homes that processes have; `known` says whether latencies were given, as
    otherwise it is the distance."""

    def __init__(self, setup, homes, latency=None, move=0):
        self.move, self.known = move, bool(latency)
        self.rows = {home: list(map(float, setup.distance[home])) for home in sorted(set(homes))}
        if latency:
            self.read(setup, latency)
        self.worst = max(map(max, self.rows.values()))

    def read(self, setup, text):
        """Latencies such as 0=90,1=140, or with the node of the process before a colon: 0:1=140."""
        by_node, by_pair = {}, {}
        for part in text.split(","):
            where, sign, value = part.partition("=")
            if not sign:
                raise Bad(f"--latency: {part} is not of the form NODE=COST or FROM:NODE=COST")
            cost = number_of(value, f"--latency: {where}", False)
            ends = [setup.node_list(word, "--latency") for word in where.split(":")]
            if len(ends) > 2:
                raise Bad(f"--latency: {part} is not of the form NODE=COST or FROM:NODE=COST")
            for node in ends[-1]:
                if len(ends) == 1:
                    by_node[node] = cost
                else:
                    by_pair.update({(home, node): cost for home in ends[0]})
        for home in self.rows:
            for node in setup.nodes:
                if (home, node) not in by_pair and node not in by_node:
                    raise Bad(f"--latency: nothing is said of node {setup.name_of(node)} for processes on node {setup.name_of(home)}")
                self.rows[home][node] = by_pair.get((home, node), by_node.get(node))

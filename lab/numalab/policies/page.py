"""The pages: one comparison, with plots over the epochs and maps of pages by node, and a sweep, with a small plot for each
combination. Each is one HTML file that needs no network."""
import json
import os
from collections import Counter

from .film import ABSENT, stretches
from .results import BOUNDS, about, share_text
from .sweeps import totals_by_values, values_text

HERE = os.path.dirname(os.path.abspath(__file__))
MOST_ROWS = 240
WORST = 5


def text_of(name):
    with open(os.path.join(HERE, name), encoding="utf-8") as file:
        return file.read()


def fill_template(template, data):
    """A template with its data, and with what both have in common."""
    text = json.dumps(data, separators=(",", ":")).replace("<", "\\u003c").replace("\u2028", "\\u2028")
    page = text_of(template).replace("{{STYLE}}", text_of("common.css")).replace("{{SCRIPT}}", text_of("common.js"))
    return page.replace("{{DATA}}", text)


def node_of_most(nodes):
    """The node on which most of some pages are, or ABSENT."""
    there = Counter(nodes)
    return max(there, key=lambda node: (there[node], -node)) if there else ABSENT


def order_of(workload, found):
    """All pages, those with the most accesses first."""
    return sorted(range(workload.pages), key=lambda page: (-found.heat.get(page, 0), page))


def maps_of(found, film):
    """For each policy a map: rows are pages from the hottest on, columns are epochs, and each has the node of most pages. Also of how
    many pages a row is at most."""
    order = order_of(found.workload, found)
    rows = stretches(len(order), MOST_ROWS)
    maps = {label: [[node_of_most(nodes[page] for page in order[row.start : row.stop]) for row in rows] for nodes in columns]
            for label, columns in film.nodes.items()}
    return maps, -(-len(order) // len(rows))


def worst_of(found, label, paths):
    """The epochs of a policy that cost the most, with its calls and the steps of its trace."""
    rows = [row for row in found.rows_of(label) if row["mean_cost"] is not None]
    worst = sorted(rows, key=lambda row: (-row["mean_cost"], row["epoch"]))[:WORST]
    calls, path = found.calls.get(label, []), paths.get(label)
    return [{"epoch": row["epoch"], "cost": row["mean_cost"], "fast": share_text(row["fast_share"]), "first": row["first_step"], "last": row["last_step"],
             "trace": path, "calls": calls[row["epoch"]] if row["epoch"] < len(calls) else []} for row in worst]


def page_of(found, film, paths):
    """The page of a comparison."""
    maps, pages_a_row = maps_of(found, film)
    labels = found.labels()
    keys = ("epoch", "accesses", "by_node", "by_distance", "refused", "fast_share", "mean_cost", "moved", "stayed", "refused_calls", "free", "first_step", "last_step")
    policies = [{"label": label, "bound": label in BOUNDS, "rows": [{key: row.get(key) for key in keys} for row in found.rows_of(label)],
                 "map": maps.get(label), "worst": [] if label in BOUNDS else worst_of(found, label, paths)} for label in labels]
    nodes = [{"name": found.setup.name_of(node), "frames": frames, "fast": node in found.plan.fast} for node, frames in enumerate(found.setup.frames)]
    return fill_template("comparison.html", {"about": about(found), "nodes": nodes, "policies": policies, "totals": found.totals(), "errors": found.errors,
                                      "unit": "given latencies" if found.plan.costs.known else "distance", "moveCost": found.plan.costs.move,
                                      "pagesARow": pages_a_row, "columns": film.epochs, "epochs": found.workload.epochs})


def mean(values):
    values = [value for value in values if value is not None]
    return sum(values) / len(values) if values else None


def sweep_page_of(todo, done):
    """The page of a sweep: for each combination the mean cost by epoch of each policy, over the seeds."""
    costs = {}
    for one, what in zip(todo, done):
        for row in what["rows"]:
            costs.setdefault(tuple(one.values.items()), {}).setdefault(row["policy"], {}).setdefault(row["epoch"], []).append(row["mean_cost"])
    plots = []
    for values, policies in totals_by_values(todo, done).items():
        lines = [{"label": policy, "bound": policy in BOUNDS, "costs": [mean(costs[values][policy][epoch]) for epoch in sorted(costs[values][policy])],
                  "fast": mean([total["fast_share"] for total in totals]), "cost": mean([total["mean_cost"] for total in totals])}
                 for policy, totals in policies.items()]
        plots.append({"values": values_text(dict(values)), "lines": lines})
    names, last = list(todo[0].values), [list(one.values.values())[-1:] for one in todo]
    words = [word for word in todo[0].job["workload"].split() if word.partition("=")[0] not in names]
    return fill_template("sweep.html", {"workload": " ".join(words), "seeds": sorted({one.seed for one in todo}), "plots": plots,
                                 "across": sum(1 for k, value in enumerate(last) if value not in last[:k])})

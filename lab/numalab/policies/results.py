"""What was measured: a row for each epoch and policy, and one over all epochs; as a table, as lines of JSON, and as CSV."""
import csv
import io
import itertools
import json
from collections import Counter

from ..words import counted, nodes_text
from .bounds import EPOCHS, STATIC

BOUNDS = (STATIC, EPOCHS)
UNKNOWN = "-"


class Plan:
    """What is the same for all policies: costs, the fast nodes, the nodes of the processes, one sample of how many accesses, the
    seed, and the program."""

    def __init__(self, costs, fast, homes, sample=100, seed=1, program=None):
        self.costs, self.fast, self.homes, self.sample, self.seed, self.program = costs, fast, homes, sample, seed, program


def epoch_row(label, number, pairs, lost, plan, distance):
    """What is told of an epoch from how many accesses each pair of home and node had, and how many found no frame."""
    accesses, nodes, far = sum(pairs.values()) + lost, Counter(), Counter()
    cost = lost * plan.costs.worst
    for (home, node), count in sorted(pairs.items()):
        nodes[node] += count
        far[distance[home][node]] += count
        cost += count * plan.costs.rows[home][node]
    return {"policy": label, "epoch": number, "accesses": accesses, "by_node": [nodes[node] for node in range(len(distance))],
            "by_distance": {str(key): far[key] for key in sorted(far)}, "refused": lost,
            "fast_share": sum(nodes[node] for node in plan.fast) / accesses if accesses else None,
            "mean_cost": cost / accesses if accesses else None}


def row_of(label, epoch, nodes, refused, plan, distance):
    """The row of a policy, from where its pages are in an epoch."""
    pairs, lost, many = Counter(), 0, len(plan.homes)
    for place, count in epoch.places.items():
        page, process = divmod(place, many)
        if place in refused or nodes[page] is None:
            lost += count
        else:
            pairs[plan.homes[process], nodes[page]] += count
    return epoch_row(label, epoch.number, pairs, lost, plan, distance)


def bound_row(label, number, places, placement, plan, distance):
    """The row of a bound. A page without a place, where memory is too small for all, costs as much as the most expensive."""
    pairs, lost, many = Counter(), 0, len(plan.homes)
    for place, count in places.items():
        page, process = divmod(place, many)
        if page in placement:
            pairs[plan.homes[process], placement[page]] += count
        else:
            lost += count
    return epoch_row(label, number, pairs, lost, plan, distance)


def total_of(rows, move_cost):
    """The rows of a policy as one."""
    accesses = sum(row["accesses"] for row in rows)
    cost = sum(row["mean_cost"] * row["accesses"] for row in rows if row["accesses"])
    fast = sum(round(row["fast_share"] * row["accesses"]) for row in rows if row["accesses"])
    moved = sum(row.get("moved", 0) for row in rows)
    stayed, refused, far = Counter(), Counter(), Counter()
    for row in rows:
        stayed.update(row.get("stayed", {}))
        refused.update(row.get("refused_calls", {}))
        far.update(row["by_distance"])
    return {"policy": rows[0]["policy"], "epochs": len(rows), "accesses": accesses,
            "by_node": [sum(counts) for counts in zip(*(row["by_node"] for row in rows))],
            "by_distance": {key: far[key] for key in sorted(far, key=int)}, "refused": sum(row["refused"] for row in rows),
            "fast_share": fast / accesses if accesses else None, "mean_cost": cost / accesses if accesses else None,
            "moved": moved, "stayed": dict(sorted(stayed.items())), "refused_calls": dict(sorted(refused.items())), "cost_of_moves": moved * move_cost,
            "mean_cost_with_moves": (cost + moved * move_cost) / accesses if accesses else None}


def above(total, bound):
    """How much more than a bound something costs, as a share of the bound."""
    if not bound or not bound["mean_cost"] or total["mean_cost"] is None or bound["epochs"] != total["epochs"]:
        return None
    return total["mean_cost_with_moves"] / bound["mean_cost"] - 1


class Results:
    """Rows as they are measured, what went wrong, how often each page was accessed, and for each policy that has ended its calls by
    epoch and its trace."""

    def __init__(self, workload, setup, plan):
        self.workload, self.setup, self.plan = workload, setup, plan
        self.rows, self.errors, self.calls, self.traces, self.heat = [], [], {}, {}, {}

    def add(self, row):
        self.rows.append(row)

    def labels(self):
        """The policies in the order in which they were given, then the bounds."""
        found = list(dict.fromkeys(row["policy"] for row in self.rows))
        return [label for label in found if label not in BOUNDS] + [label for label in BOUNDS if label in found]

    def rows_of(self, label):
        return [row for row in self.rows if row["policy"] == label]

    def totals(self):
        """A row for each policy over all epochs, with how far it is from both bounds."""
        found = {label: total_of(self.rows_of(label), self.plan.costs.move) for label in self.labels()}
        for total in found.values():
            total["above_static"], total["above_each_epoch"] = (above(total, found.get(bound)) for bound in BOUNDS)
        return list(found.values())


# ---- as text


def share_text(value):
    return UNKNOWN if value is None else f"{100 * value:.2f}%"


def cost_text(value):
    return UNKNOWN if value is None else f"{value:,.2f}"


def above_text(value):
    return UNKNOWN if value is None else f"{100 * value:+.2f}%"


def stayed_text(row):
    """The statuses of pages that did not move, and the errors of calls that were refused."""
    return ", ".join(f"{name} {count:,}" for name, count in {**row["stayed"], **row["refused_calls"]}.items()) or UNKNOWN


def pairs_text(counts):
    return " ".join(f"{key}={count}" for key, count in counts.items()) or UNKNOWN


def align(heads, lines):
    """Columns: as far as that of the policies to the left, the others to the right."""
    widths, left = [max(len(line[k]) for line in [heads, *lines]) for k in range(len(heads))], heads.index("policy")
    return ["  ".join(word.ljust(width) if k <= left else word.rjust(width) for k, (word, width) in enumerate(zip(line, widths))).rstrip()
            for line in [heads, *lines]]


def table_of(results):
    """The rows over all epochs."""
    moves = ["with moves"] if results.plan.costs.move else []
    heads = ["policy", "fast", "mean cost", *moves, "moved", "stayed", "no frame", "above static", "above each epoch"]
    lines = []
    for total in results.totals():
        bound = total["policy"] in BOUNDS
        lines.append([total["policy"], share_text(total["fast_share"]), cost_text(total["mean_cost"]),
                      *([UNKNOWN if bound else cost_text(total["mean_cost_with_moves"])] if moves else []),
                      UNKNOWN if bound else f"{total['moved']:,}", UNKNOWN if bound else stayed_text(total), f"{total['refused']:,}",
                      above_text(total["above_static"]), above_text(total["above_each_epoch"])])
    return align(heads, lines)


def epoch_table_of(results):
    """The rows of each epoch."""
    heads = ["policy", "epoch", "accesses", "fast", "mean cost", "by node", "by distance", "moved", "stayed", "free", "steps"]
    lines = []
    for row in (row for label in results.labels() for row in results.rows_of(label)):
        bound = row["policy"] in BOUNDS
        lines.append([row["policy"], str(row["epoch"]), f"{row['accesses']:,}", share_text(row["fast_share"]), cost_text(row["mean_cost"]),
                      " ".join(map(str, row["by_node"])), pairs_text(row["by_distance"]), UNKNOWN if bound else f"{row['moved']:,}", UNKNOWN if bound else stayed_text(row),
                      UNKNOWN if bound else " ".join(map(str, row["free"])), UNKNOWN if bound else f"{row['first_step']}-{row['last_step']}"])
    return align(heads, lines)


def stretches_of(values):
    """Equal values next to each other, with how many there are."""
    return [(value, len(list(same))) for value, same in itertools.groupby(values)]


def about(results):
    """What was compared, as lines."""
    workload, setup, plan = results.workload, results.setup, results.plan
    fast = ", ".join(setup.name_of(node) for node in plan.fast) if len(plan.fast) < 5 else nodes_text(plan.fast)
    unit = "the latencies given" if plan.costs.known else "distance, as no latencies were given"
    scale = f", each for {workload.scale} of the program's" if workload.scale > 1 else ""
    sizes = ", ".join(f"{frames:,}" if many == 1 else f"{many} x {frames:,}" for frames, many in stretches_of(setup.frames))
    lines = [f"workload  {workload.name}: {counted(workload.pages, 'page')}{scale}, {counted(len(workload.processes), 'process', 'processes')}, "
             f"{counted(workload.epochs, 'epoch')}, seed {plan.seed}",
             f"machine   {counted(len(setup.frames), 'node')} of {sizes} frames; fast: {fast}",
             f"cost      by {unit}; a moved page costs {plan.costs.move:g}"]
    lines += [f"left out  {what}: {count:,}" for what, count in sorted(workload.left_out.items())]
    return lines


def json_lines(results):
    """A line for each epoch and policy, and one for each policy over all epochs."""
    for label in results.labels():
        for row in results.rows_of(label):
            yield json.dumps(row)
    for total in results.totals():
        yield json.dumps({"total": True, **total})
    for error in results.errors:
        yield json.dumps({"error": error})


def csv_text(results):
    """The rows of each epoch as CSV, with a column for each node, distance and status."""
    rows = [row for label in results.labels() for row in results.rows_of(label)]
    distances = sorted({key for row in rows for key in row["by_distance"]}, key=int)
    stayed = sorted({name for row in rows for name in row.get("stayed", {})})
    nodes = range(len(results.setup.frames))
    heads = ["policy", "epoch", "accesses", "fast_share", "mean_cost", "refused", "moved", "refused_calls", *(f"node_{node}" for node in nodes),
             *(f"distance_{key}" for key in distances), *(f"stayed_{name}" for name in stayed), *(f"free_{node}" for node in nodes),
             "first_step", "last_step"]
    out = io.StringIO()
    writer = csv.writer(out, lineterminator="\n")
    writer.writerow(heads)
    for row in rows:
        by_policy = "moved" in row
        writer.writerow([row["policy"], row["epoch"], row["accesses"], row["fast_share"], row["mean_cost"], row["refused"], row.get("moved"),
                         sum(row["refused_calls"].values()) if by_policy else None, *row["by_node"], *(row["by_distance"].get(key, 0) for key in distances),
                         *(row["stayed"].get(name, 0) if by_policy else None for name in stayed),
                         *(row.get("free") or [None] * len(nodes)), row.get("first_step"), row.get("last_step")])
    return out.getvalue()

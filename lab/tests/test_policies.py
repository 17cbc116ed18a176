"""The laboratory for placement policies, by arithmetic: shares that can be computed by hand, counts that add up, bounds, and policies
that break their rules."""
import itertools
import json
import os
import random
import re
import textwrap
import unittest
from collections import Counter
from unittest import mock

from support import Case, read, run
from laboratory import EXAMPLES, PROGRAM, RECENT, compared, setup_with, total
from numalab.policies import arrays
from numalab.policies.bounds import EPOCHS, STATIC, Bounds
from numalab.policies.builtin import POLICIES, HotCold, WeightedInterleave
from numalab.policies.costs import Costs
from numalab.policies.counting import epochs_of
from numalab.policies.film import ABSENT, Film, stretches
from numalab.policies.workloads import make_workload
from numalab.traces import Bad

KINDS = ["zipf pages=60", "uniform pages=60", "scan pages=60", "phases pages=60 every=2", "gups pages=60 processes=2",
         "stencil pages=60 border=4 homes=0,1", "mix zipf pages=30 share=0.7 + scan pages=30 share=0.3 pinned=0.1"]
COMMON = " accesses=3001 epochs=5"


def harmonic(count, exponent=1.0):
    return sum(rank ** -exponent for rank in range(1, count + 1))


class Arithmetic(Case):
    """Shares that follow from the workload alone."""

    def exact(self, counts):
        """A workload with that many accesses to each page, at one time, and all again in a second epoch."""
        lines = [f"{time},1,{0x10000 + 4096 * page},r\n" for time in (0, 1) for page, count in enumerate(counts) for _ in range(count)]
        return f"csv {self.written('exact.csv', ''.join(lines))} epochs=2"

    def test_zipf_exactly(self):
        # 2520 / k accesses to the page of rank k are whole numbers up to 10, and the shares ratios of harmonic sums.
        results = compared(setup_with(4, 10), self.exact([2520 // rank for rank in range(1, 11)]), "first-touch")
        for bound in (STATIC, EPOCHS):
            self.assertAlmostEqual(total(results, bound)["fast_share"], harmonic(4) / harmonic(10), 12)
        self.assertEqual(total(results, STATIC)["by_node"][0], 2 * (2520 + 1260 + 840 + 630))

    def test_uniform_exactly(self):
        results = compared(setup_with(6, 10), self.exact([50] * 15), "first-touch", "interleave")
        for label in (STATIC, EPOCHS, "first-touch"):
            self.assertEqual(total(results, label)["fast_share"], 6 / 15)
        # Interleaved pages take turns: every second one of the first 12 is on node 0, and the three that follow find it full.
        self.assertEqual(total(results, "interleave")["fast_share"], 6 / 15)

    def test_zipf_drawn(self):
        # Of 200,000 draws a share near 0.76 has a standard deviation of 0.001; the best placement gains some 0.001 from chance.
        for exponent in (0.8, 1.2):
            results = compared(setup_with(50, 200), f"zipf pages=200 a={exponent} accesses=2e5 epochs=2", "first-touch")
            self.assertAlmostEqual(total(results, STATIC)["fast_share"], harmonic(50, exponent) / harmonic(200, exponent), delta=0.006)

    def test_uniform_drawn(self):
        # Pages have 10,000 accesses, give or take 100: the better half of them has 0.004 more than a half. First touch knows nothing.
        results = compared(setup_with(10, 20), "uniform pages=20 accesses=2e5 epochs=2", "first-touch")
        self.assertAlmostEqual(total(results, STATIC)["fast_share"], 0.504, delta=0.006)
        self.assertAlmostEqual(total(results, "first-touch")["fast_share"], 0.5, delta=0.006)

    def test_scan_gives_least_recent_use_nothing(self):
        # Of 80 pages 40 fit. Each epoch reads the next 20: the first 40 by first touch, and from then on those that have left.
        results = compared(setup_with(40, 80), "scan pages=80 accesses=240 epochs=12", RECENT, "first-touch")
        self.assertEqual([row["fast_share"] for row in results.rows_of("least_recent.py:LeastRecent")], [1, 1] + [0] * 10)
        # Pages that stay are found again: two epochs of four.
        self.assertEqual([row["fast_share"] for row in results.rows_of("first-touch")], [1, 1, 0, 0] * 3)

    def test_phases(self):
        # Of 100 pages 10 are hot, with 0.9 of the accesses; a node of 10 frames holds just these, known beforehand.
        results = compared(setup_with(10, 100), "phases pages=100 hot=0.1 heat=0.9 every=1 accesses=1e5 epochs=5", "first-touch")
        self.assertAlmostEqual(total(results, EPOCHS)["fast_share"], 0.9, delta=0.005)
        # Five phases have five hot sets, of which one fits: its fifth, and of the others' epochs a tenth of the cold accesses and more.
        cold = 4 / 5 * 0.1 / 90 * 10
        self.assertAlmostEqual(total(results, STATIC)["fast_share"], 0.9 / 5 + cold, delta=0.01)

    def test_costs(self):
        results = compared(setup_with(6, 10), self.exact([50] * 15), "first-touch", latency="0=90,1=250", move_cost="7")
        self.assertAlmostEqual(total(results, "first-touch")["mean_cost"], (6 * 90 + 9 * 250) / 15, 9)
        costs = Costs(setup_with(2, 2), [0, 1], "0=90,1=250,1:0=300,1:1=80")
        self.assertEqual(costs.rows, {0: [90, 250], 1: [300, 80]})
        for text, words in [("0=90", "nothing is said of node 1"), ("0", "not of the form"), ("7=1", "not there"), ("0=x", "expected a number")]:
            with self.assertRaisesRegex(Bad, words):
                Costs(setup_with(2, 2), [0], text)

    def test_moves_cost(self):
        results = compared(setup_with(40, 80), "scan pages=80 accesses=240 epochs=12", RECENT, move_cost="3")
        found = total(results, "least_recent.py:LeastRecent")
        # Epochs 2 to 10 each bring 20 pages and send 20 away; after the last the policy is not asked.
        self.assertEqual((found["moved"], found["cost_of_moves"]), (9 * 40, 3 * 9 * 40))
        self.assertAlmostEqual(found["mean_cost_with_moves"], found["mean_cost"] + 3 * 9 * 40 / 240, 9)


class Adding(Case):
    """Every count adds up, for each kind of workload and each policy."""

    def check(self, results, accesses):
        for label in results.labels():
            rows = results.rows_of(label)
            self.assertEqual(sum(row["accesses"] for row in rows), accesses)
            for row in rows:
                self.assertEqual(sum(row["by_node"]) + row["refused"], row["accesses"])
                self.assertEqual(sum(row["by_distance"].values()) + row["refused"], row["accesses"])

    def test_all(self):
        for workload in KINDS:
            film, setup = Film(), setup_with(20, 24, 30)
            results = compared(setup, workload + COMMON, film=film)
            self.assertEqual((results.errors, len(results.labels())), ([], len(POLICIES) + 2))
            self.check(results, 3001)
            self.assertEqual([len(columns) for columns in film.nodes.values()], [5] * len(POLICIES))
            for label, epoch, nodes in [(label, epoch, nodes) for label, columns in film.nodes.items() for epoch, nodes in enumerate(columns)]:
                used = Counter(node for node in nodes if node != ABSENT)
                row = results.rows_of(label)[epoch]
                self.assertTrue(all(used[node] <= frames for node, frames in enumerate(setup.frames)))
                self.assertTrue(all(count == 0 or used[node] for node, count in enumerate(row["by_node"])))
            for one in results.totals():
                self.assertGreaterEqual(one["above_each_epoch"], -1e-12, (workload, one["policy"]))

    def test_bound_of_what_stays(self):
        for workload in KINDS[:3]:
            results = compared(setup_with(20, 24, 30), workload + COMMON, "first-touch", "interleave", "weighted-interleave")
            for one in results.totals()[:3]:
                self.assertGreaterEqual(one["above_static"], -1e-12)

    def test_no_frame(self):
        policy = self.written("greedy.py", "from numalab.policies import Policy\nclass Greedy(Policy):\n    def start(self, view):\n"
                                           "        view.mbind(view.areas[0].pages, 'MPOL_BIND', [0])\n")
        results = compared(setup_with(10, 20), "scan pages=15 accesses=60 epochs=2", policy + ":Greedy", "first-touch")
        found = total(results, "greedy.py:Greedy")
        self.assertEqual((found["refused"], found["by_node"]), (5 * 4, [10 * 4, 0]))
        self.check(results, 60)

    def test_free_and_steps(self):
        results = compared(setup_with(20, 24, 30), KINDS[0] + COMMON, "first-touch")
        rows = results.rows_of("first-touch")
        self.assertEqual(rows[-1]["free"], [0, 0, 14])
        self.assertTrue(all(one["last_step"] + 1 == other["first_step"] for one, other in zip(rows, rows[1:])))


class Statuses(Case):
    """What did not move, and why."""

    def stayed(self, workload, flags):
        text = ("from numalab.policies import MOVE, MOVE_ALL, Policy\nclass All(Policy):\n    def epoch(self, view):\n"
                f"        self.answer = view.move_pages(view.pages, 1, {flags})\n        assert view.answers == self.last\n"
                "        self.last = [self.answer]\n    last = []\n")
        results = compared(setup_with(30, 12), workload, self.written("all.py", text) + ":All")
        self.assertEqual(results.errors, [])
        return total(results, "all.py:All")

    def test_shared(self):
        workload = "scan pages=10 processes=2 accesses=60 epochs=3"
        self.assertEqual(self.stayed(workload, "MOVE")["stayed"], {"EACCES": 20})
        found = self.stayed(workload, "MOVE_ALL")
        self.assertEqual((found["stayed"], found["moved"]), ({}, 10))

    def test_cpuset(self):
        text = ("from numalab.policies import Policy\nclass Out(Policy):\n    def epoch(self, view):\n        assert view.move_pages([0], 1).error == 'EACCES'\n")
        results = compared(setup_with(30, 12), "scan pages=10 allowed=0 accesses=30 epochs=3", self.written("out.py", text) + ":Out")
        self.assertEqual((results.errors, [row["refused_calls"] for row in results.rows_of("out.py:Out")]), ([], [{"move_pages EACCES": 1}] * 2 + [{}]))

    def test_pinned_and_full(self):
        found = self.stayed("scan pages=20 accesses=40 epochs=2 pinned=0.25", "MOVE")
        self.assertEqual((found["stayed"], found["moved"]), ({"EBUSY": 5, "ENOMEM": 3}, 12))


class Best(unittest.TestCase):
    """The bounds, beside all placements that there are."""

    def cheapest(self, costs, homes, free, places):
        pages = sorted({place // len(homes) for place in places})
        slots = [node for node, count in enumerate(free) for _ in range(count)] + [None] * max(0, len(pages) - sum(free))
        return min(self.cost(costs, homes, dict(zip(pages, chosen)), places) for chosen in itertools.permutations(slots, len(pages)))

    def cost(self, costs, homes, placement, places):
        """What a placement costs, where a page without a frame is as far as the most expensive node."""
        nodes = [(homes[place % len(homes)], placement.get(place // len(homes)), count) for place, count in places.items()]
        return sum(count * (costs.worst if node is None else costs.rows[home][node]) for home, node, count in nodes)

    def test_small_machines(self):
        drawn = random.Random(5)
        for turn in range(60):
            free = [drawn.randint(0, 2) for _ in range(3)]
            homes = [0, 1, 2][: drawn.randint(1, 3)]
            costs = Costs(setup_with(4, 4, 4), homes, ",".join(f"{home}:{node}={drawn.randint(1, 9)}" for home in range(3) for node in range(3)))
            pages = drawn.randint(1, 5)
            places = {page * len(homes) + process: drawn.randint(1, 9) for page in range(pages) for process in range(len(homes))}
            placement = Bounds(costs, homes, free, range(3)).placement(places)
            self.assertTrue(all(list(placement.values()).count(node) <= free[node] for node in range(3)))
            self.assertEqual(self.cost(costs, homes, placement, places), self.cheapest(costs, homes, free, places), (turn, homes, free, places))


class Parts(unittest.TestCase):
    """Thresholds and weights by hand."""

    def test_stretches(self):
        self.assertEqual([list(one) for one in stretches(5, 2)], [[0, 1], [2, 3, 4]])
        self.assertEqual([list(one) for one in stretches(2, 9)], [[0], [1]])

    def test_threshold(self):
        # Two pages with 8 to 15 samples, three with 2 or 3, four with 1, one with none.
        heat = {page: power for page, power in enumerate([4, 4, 2, 2, 2, 1, 1, 1, 1, 0])}
        self.assertEqual([HotCold.threshold(heat, room) for room in (1, 2, 4, 5, 8, 9, 10)], [5, 3, 3, 2, 2, 1, 1])

    def test_weights(self):
        self.assertEqual(WeightedInterleave.by_frames([1000, 4000]), [1, 4])
        self.assertEqual(WeightedInterleave.by_frames([100, 100]), [1, 1])

    def test_weighted_pages(self):
        film = Film()
        compared(setup_with(100, 100), "scan pages=10 accesses=10 epochs=1", "weighted-interleave weights=2,3", film=film)
        self.assertEqual(list(film.nodes["weighted-interleave weights=2,3"][0]), [0, 0, 1, 1, 1] * 2)


class Streams(unittest.TestCase):
    """What the generators make, by hand."""

    def items(self, words, *frames):
        """For each epoch its accesses as (page, process, whether it writes), in order."""
        workload = make_workload(words, setup_with(*(frames or (99,))), 1)
        many, found = len(workload.processes), [[] for _ in range(workload.epochs)]
        for epoch, block in workload.blocks():
            found[epoch] += [(int(item) // 2 // many, int(item) // 2 % many, int(item) % 2) for item in block]
        return found

    def test_scan(self):
        self.assertEqual(self.items("scan pages=4 writes=0.5 accesses=6 epochs=2"), [[(0, 0, 0), (1, 0, 1), (2, 0, 0)], [(3, 0, 1), (0, 0, 0), (1, 0, 1)]])
        self.assertEqual(self.items("scan pages=2 processes=2 writes=0 accesses=4 epochs=1"), [[(0, 0, 0), (0, 1, 0), (1, 0, 0), (1, 1, 0)]])

    def test_stencil(self):
        # Pages 0 and 1 are the first process's own, 2 the border, 3 and 4 the second's.
        own = [(page, process, kind) for first, second in ((0, 3), (1, 4)) for page, process in ((first, 0), (second, 1)) for kind in (0, 1)]
        self.assertEqual(self.items("stencil pages=5 processes=2 border=1 accesses=11 epochs=1"), [own + [(2, 0, 0), (2, 0, 1), (2, 1, 0)]])

    def test_gups(self):
        for epoch in self.items("gups pages=9 processes=2 accesses=999 epochs=1"):
            self.assertTrue(all(read == (*write[:2], 0) and write[2] for read, write in zip(epoch[::2], epoch[1::2])))

    def test_writes(self):
        writes = sum(kind for _, _, kind in self.items("uniform pages=9 writes=0.3 accesses=20000 epochs=1")[0])
        self.assertAlmostEqual(writes / 20000, 0.3, delta=0.015)

    def test_mix(self):
        items = self.items("mix zipf pages=5 share=0.7 + scan pages=3 share=0.3 accesses=20000 epochs=2")
        for epoch in items:
            self.assertEqual(Counter(process for _, process, _ in epoch), {0: 7000, 1: 3000})
            self.assertTrue(all((page < 5) == (process == 0) for page, process, _ in epoch))
        scanned = [page for epoch in items for page, process, _ in epoch if process == 1]
        self.assertEqual(scanned, [5 + k % 3 for k in range(6000)])

    def test_seeds(self):
        one, other = (make_workload("zipf pages=9 accesses=50 epochs=1", setup_with(99), seed) for seed in (1, 2))
        blocks = [[list(block) for _, block in workload.blocks()] for workload in (one, one, other)]
        self.assertEqual(blocks[0], blocks[1])
        self.assertNotEqual(blocks[0], blocks[2])

    def test_phases(self):
        epochs = self.items("phases pages=50 hot=0.1 heat=1 every=2 accesses=4000 epochs=4")
        sets = [{page for page, _, _ in epoch} for epoch in epochs]
        self.assertEqual([len(one) for one in sets], [5] * 4)
        self.assertTrue(sets[0] == sets[1] and sets[2] == sets[3] and not sets[0] & sets[2])


class Deciding(Case):
    """What the built-in policies decide, by hand."""

    def stream(self, epochs):
        """A workload of one process: the pages that each epoch accesses, in order."""
        lines = [f"{time},1,{0x10000 + 4096 * page},r\n" for time, pages in enumerate(epochs) for page in pages]
        return f"csv {self.written('stream.csv', ''.join(lines))} epochs={len(epochs)}"

    def moved(self, results, label):
        return [row["moved"] for row in results.rows_of(label)]

    def test_hints(self):
        text = ("from numalab.policies.builtin import Hints\nclass Far(Hints):\n    def start(self, view):\n"
                "        view.mbind(view.areas[0].pages, 'MPOL_BIND', [1])\n")
        path = self.written("far.py", text)
        results = compared(setup_with(10, 20), self.stream([range(12)] * 5), path + ":Far scan=1", path + ":Far scan=0.5")
        # Pages are marked after epoch 0, and touched in epochs 1 and 2: after that 10 of the 12 find a frame.
        self.assertEqual(self.moved(results, "far.py:Far scan=1"), [0, 0, 10, 0, 0])
        self.assertEqual([row["fast_share"] for row in results.rows_of("far.py:Far scan=1")], [0, 0, 0, 10 / 12, 10 / 12])
        # Half of them are marked at a time: the first 6 after epochs 0 and 2, so their second touch is in epoch 3.
        self.assertEqual(self.moved(results, "far.py:Far scan=0.5"), [0, 0, 0, 6, 0])

    def test_hints_need_the_same_node(self):
        # Processes on nodes 0 and 1 touch shared pages in turn: no two faults in a row come from one node.
        setup = setup_with(10, 20)
        results = compared(setup, "scan pages=4 processes=2 homes=0,1 accesses=32 epochs=4", "hints scan=1")
        self.assertEqual(self.moved(results, "hints scan=1"), [0, 0, 0, 0])

    def test_watermark(self):
        # Pages 0 to 9 fill the fast node. One frame is to be free: page 0 goes by turns. 10 to 13 are touched in epochs 1 and 2, and
        # take the places of 1 to 4, which were not.
        results = compared(setup_with(10, 30), self.stream([range(20), *[range(10, 14)] * 4]), "watermark scan=1 free=0.1")
        self.assertEqual(self.moved(results, "watermark scan=1 free=0.1"), [1, 0, 8, 0, 0])
        self.assertEqual([row["fast_share"] for row in results.rows_of("watermark scan=1 free=0.1")], [0.5, 0, 0, 1, 1])
        self.assertEqual(results.rows_of("watermark scan=1 free=0.1")[-1]["free"][0], 1)

    def test_hot_cold(self):
        # Pages 4 to 7 have ten samples each, 0 to 3 one: four frames are for those with more.
        results = compared(setup_with(4, 30), self.stream([[*range(8), *[4, 5, 6, 7] * 9], [4, 5, 6, 7], [0]]), "hot-cold cool=0", sample="1")
        self.assertEqual(self.moved(results, "hot-cold cool=0"), [8, 0, 0])
        self.assertEqual([row["fast_share"] for row in results.rows_of("hot-cold cool=0")], [4 / 44, 1, 0])


class Broken(Case):
    """A policy that breaks its rules ends with one error; what was measured until then is there."""

    def broken(self, body):
        text = "from numalab.policies import Policy\n\nclass Mine(Policy):\n    def epoch(self, view):\n        if view.epoch == 2:\n            " + body + "\n"
        return compared(setup_with(20, 60), KINDS[0] + COMMON, self.written("mine.py", text) + ":Mine", "first-touch")

    def test_rules(self):
        for body, words in [("view.move_pages([60], 0)", "there is no page 60: the last is 59"), ("view.node_of(-1)", "there is no page -1"),
                            ("view.move_pages([1], 2)", "there is no node 2: the last is 1"), ("view.hint(['a'])", "there is no page 'a'"),
                            ("view.migrate_pages([0], [1], 4)", "there is no process 4"), ("view.mbind([1, 3], 'MPOL_BIND', [0])", "mbind: expected adjacent pages"),
                            ("view.mbind([1, 2], 'BIND', [0])", "mbind: BIND is not a mode"), ("{}['x']", "KeyError: 'x'"),
                            ("view.move_pages([1], 0, -1)", "the flags are -1: expected"), ("raise ValueError('no')", "ValueError: no"),
                            ("view.move_pages([1, 2], [0])", "move_pages has 2 pages and 1 nodes")]:
            results = self.broken(body)
            self.assertEqual(len(results.errors), 1)
            self.assertTrue(results.errors[0].startswith(f"policy mine.py:Mine in epoch 2: {words}"), results.errors)
            self.assertTrue(results.errors[0].endswith("mine.py:6)"))
            self.assertEqual([len(results.rows_of(label)) for label in ("mine.py:Mine", "first-touch", STATIC)], [3, 5, 5])
            self.assertIsNone(total(results, "mine.py:Mine")["above_static"])

    def test_start(self):
        text = "from numalab.policies import Policy\nclass Mine(Policy):\n    def start(self, view):\n        raise OSError('no')\n"
        results = compared(setup_with(20, 60), KINDS[0] + COMMON, self.written("mine.py", text) + ":Mine", "first-touch")
        self.assertEqual([len(results.rows_of(label)) for label in ("mine.py:Mine", "first-touch")], [0, 5])
        self.assertIn("policy mine.py:Mine in its start: OSError: no", results.errors[0])

    def test_refusals_at_the_start(self):
        text = ("from numalab.policies import Policy\nclass Mine(Policy):\n    def start(self, view):\n        view.mbind(view.areas[0].pages, 'MPOL_BIND', [])\n"
                "    def epoch(self, view):\n        assert view.epoch or [one.error for one in view.answers] == ['EINVAL']\n")
        results = compared(setup_with(20, 60), KINDS[0] + COMMON, self.written("mine.py", text) + ":Mine")
        self.assertEqual((results.errors, total(results, "mine.py:Mine")["refused_calls"]), ([], {"mbind EINVAL": 1}))

    def test_refusals_are_answers(self):
        results = self.broken("assert view.move_pages([1], 0, 64).error == 'EINVAL'")
        self.assertEqual(results.errors, [])
        self.assertEqual(results.rows_of("mine.py:Mine")[2]["refused_calls"], {"move_pages EINVAL": 1})


class Command(Case):
    """The command, with the plain model in place of the program."""

    def command(self, *words, folder=None):
        with mock.patch.dict(os.environ, NUMATRACE_SESSION=PROGRAM):
            return run("policies", *words, folder=folder)

    def small(self, *words):
        self.written("cxl.nt", "nodes fast 20 + cxl 60\n")
        return self.command("--machine", "cxl.nt", "--workload", KINDS[0] + COMMON, *words, folder=self.there)

    def test_table(self):
        status, out, err = self.small("--policy", "first-touch", "--policy", "hot-cold", "--each-epoch", "--latency", "fast=90,cxl=250")
        self.assertEqual((status, err), (0, ""))
        self.assertIn("machine   2 nodes of 20, 60 frames; fast: 0 fast", out)
        self.assertEqual(len([line for line in out.splitlines() if line.startswith("hot-cold ")]), 6)

    def test_files(self):
        for name, lines in [("x.csv", 1 + 3 * 5), ("x.jsonl", 3 * 6), ("x.html", 0)]:
            self.assertEqual(self.small("--policy", "first-touch", "-o", name)[0], 0)
            with open(os.path.join(self.there, name), encoding="utf-8") as file:
                text = file.read()
            self.assertTrue(not lines or text.count("\n") == lines)
        rows = [json.loads(line) for line in self.small("--policy", "first-touch", "--jsonl")[1].splitlines()]
        self.assertEqual(sum(row["accesses"] for row in rows if row["policy"] == "first-touch" and "epoch" in row), 3001)

    def test_traces(self):
        self.assertEqual(self.small("--policy", "first-touch", "--save-trace", "t.json")[0], 0)
        with open(os.path.join(self.there, "t.json"), encoding="utf-8") as file:
            top = json.load(file)
        self.assertEqual(sum(step["op"] == "write" for step in top["steps"]), 60)
        self.assertEqual(run("why", "t.json", folder=self.there), (0, "good\n", ""))
        self.assertEqual(self.small("--save-trace", "all")[0], 0)
        self.assertEqual(sorted(os.listdir(os.path.join(self.there, "all"))), sorted(name + ".json" for name in POLICIES))

    def test_broken(self):
        self.written("mine.py", "from numalab.policies import Policy\nclass Mine(Policy):\n    def epoch(self, view):\n        view.free(9)\n")
        status, out, err = self.small("--policy", "mine.py:Mine", "--policy", "first-touch")
        self.assertEqual((status, err), (1, "numalab: policy mine.py:Mine in epoch 0: there is no node 9: the last is 1 (mine.py:4)\n"))
        self.assertIn("\nfirst-touch ", out)

    def test_faults(self):
        self.written("cxl.nt", "nodes fast 20 + cxl 60\n")
        self.written("mine.py", "from numalab.policies import Policy\nclass Mine(Policy):\n    pass\n")
        self.written("wrong.py", "x = \n")
        for words, text in [
            (["--workload", "zipf"], "--machine and --workload say what"), (["--workload", "zpf"], "there is no workload zpf"),
            (["--workload", "zipf page=3"], "has no parameter page: did you mean pages?"), (["--workload", "zipf pages=x"], "expected a whole number"),
            (["--workload", "zipf pages=99"], "has 99 pages, and its processes may use 80 frames"), (["--workload", "lackey none"], "none: No such file"),
            (["--workload", "lackey"], "expected the name of a file"), (["--workload", "zipf pages=0"], "expected 1 to 16,384"),
            (["--workload", "mix"], "expected parts with shares"), (["--workload", "zipf homes=4"], "a node that is not there"),
            (["--workload", "zipf pages=9", "--policy", "hint"], "there is no policy hint: did you mean hints?"),
            (["--workload", "zipf pages=9", "--policy", "mine.py:Min"], "there is no class Min that is a Policy: did you mean Mine?"),
            (["--workload", "zipf pages=9", "--policy", "wrong.py:Mine"], "SyntaxError"),
            (["--workload", "zipf pages=9", "--policy", "hints sacn=1"], "unexpected keyword argument 'sacn'"),
            (["--workload", "zipf pages=9", "--policy", "hints", "--policy", "hints"], "is named twice"),
            (["--workload", "zipf pages=9", "-o", "x.svg"], "expected a name that ends in"), (["--workload", "zipf pages=9", "--jobs", "2"], "are for a sweep"),
            (["--workload", "zipf pages=9", "-o", "none/x.csv"], "its folder is not there"), (["--workload", "zipf pages=9", "--save-trace", "cxl.nt"], "File exists"),
            (["--workload", "zipf pages=9", "--sample", "0"], "--sample is 1 or more"), (["--workload", "zipf pages=9", "--sweep", "a"], "expected a name and different values"),
            (["--workload", "zipf pages=9", "--sweep", "b=1"], "has no parameter b"), (["--workload", "zipf pages=9", "--fast", "slow"], "slow is not a node"),
        ]:
            machine = [] if text.startswith("--machine") else ["--machine", "cxl.nt"]
            status, out, err = self.command(*machine, *words, folder=self.there)
            self.assertEqual((status, out), (2, ""), words)
            self.assertTrue(err.startswith("numalab: ") and text in err and err.count("\n") == 1, (words, err))

    def test_list(self):
        status, out, err = self.command("--list")
        self.assertEqual((status, err), (0, ""))
        for name in [*POLICIES, "best static placement", "best for each epoch", "zipf", "lackey"]:
            self.assertIn("\n" + name, out)
        self.assertEqual(out.count("Modelled on"), len(POLICIES))
        self.assertEqual(out.count("Left out"), len(POLICIES))

    def test_machines(self):
        steps = "nodes fast 20 + cxl 60\nspawn other\nmap other heap 15\nwrite other heap 61\n"
        self.written("busy.nt", steps)
        status, out, _ = self.command("--machine", "busy.nt", "--workload", "scan pages=20 accesses=20 epochs=1", "--policy", "first-touch", folder=self.there)
        self.assertEqual(status, 0)
        self.assertIn("first-touch            25.00%", out)
        self.assertIn("best static placement  25.00%", out)
        for name, text in [("m.json", '{"nodes":[20,60],"distance":[[10,30],[30,10]]}'), ("bad.json", '{"nodes":[20]}'), ("bad.nt", "nodes x\n")]:
            self.written(name, text)
            status = self.command("--machine", name, "--workload", "scan pages=20 accesses=20 epochs=1", "--policy", "first-touch", folder=self.there)[0]
            self.assertEqual(status, 0 if name == "m.json" else 2)


class Lengths(unittest.TestCase):
    """A built-in policy has at most 60 lines, and names its source."""

    def test_lengths(self):
        import inspect
        for name, kind in POLICIES.items():
            self.assertLessEqual(len(inspect.getsource(kind).splitlines()), 60, name)
            self.assertTrue(kind.__doc__ and kind.modelled_on != "nothing that was published" and kind.left_out != "not said")

    def test_examples_are_short(self):
        with open(os.path.join(EXAMPLES, "least_recent.py"), encoding="utf-8") as file:
            text = file.read()
        self.assertLessEqual(len(text[text.index("class"):].splitlines()), 15)
        body = re.sub(r"\n\n\n", "\n\n", text.split('"""\n', 1)[1])
        self.assertIn(textwrap.indent(body, "    "), read("lab/docs/POLICIES.md"))


class Samples(unittest.TestCase):
    """One access of each N, and no other."""

    def test_counts(self):
        workload = make_workload("zipf pages=50 processes=2 accesses=10007 epochs=3", setup_with(60), 1)
        pages = [Counter() for _ in range(3)]
        for epoch, block in workload.blocks():
            pages[epoch].update(int(item) // 4 for item in block)
        self.assertEqual([epoch.samples for epoch in epochs_of(workload, 1, 1)], pages)
        for every in (2, 10, 1000):
            samples = [epoch.samples for epoch in epochs_of(workload, every, 1)]
            self.assertIn(sum(sum(one.values()) for one in samples), (10007 // every, 10007 // every + 1))
            self.assertTrue(all(one[page] <= all_of[page] for one, all_of in zip(samples, pages) for page in one))

    def test_scan_is_seen_whole(self):
        # Every tenth access of a scan over 10 pages would be one page; at random places all are seen.
        samples = Counter()
        for epoch in epochs_of(make_workload("scan pages=10 accesses=1000 epochs=2", setup_with(60), 1), 10, 1):
            samples.update(epoch.samples)
        self.assertEqual((len(samples), sum(samples.values())), (10, 100))


class Draws(unittest.TestCase):
    """Draws are those of Python's generator."""

    def test_weights(self):
        draws, table = arrays.Draws("x"), arrays.Table([3, 0, 1])
        counts = Counter(int(one) for one in draws.take(table, 40000))
        self.assertEqual(counts[1], 0)
        self.assertAlmostEqual(counts[0] / 40000, 0.75, delta=0.01)


if __name__ == "__main__":
    unittest.main()

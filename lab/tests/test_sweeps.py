"""Sweeps: combinations, what is kept, spreads, and that processes give the rows that one process gives."""
import json
import os
import statistics
import unittest
from unittest import mock

from support import Case, run
from laboratory import PROGRAM, Here, asked_for, compared, setup_with
from numalab.policies import machine, sweeps
from numalab.policies.job import job_of
from numalab.progress import Progress
from numalab.traces import Bad

WORKLOAD = "zipf pages=30 accesses=600 epochs=2"


def job(setup=None, workload=WORKLOAD):
    return job_of(setup or setup_with(10, 40), asked_for(workload, ["first-touch", "hot-cold"]))


class Combinations(Case):
    """What is run."""

    def test_values(self):
        todo = sweeps.combinations(job(), ["a=0.8,1.2", "fast=5,10,20"], 2)
        self.assertEqual([(one.values["a"], one.values["fast"], one.seed) for one in todo],
                         [(a, fast, seed) for a in ("0.8", "1.2") for fast in ("5", "10", "20") for seed in (1, 2)])
        self.assertEqual([one.job["machine"]["top"]["machine"]["nodes"] for one in todo[:5:2]], [[5, 40], [10, 40], [20, 40]])
        self.assertEqual([one.job["workload"] for one in todo[:7:6]], [WORKLOAD + " a=0.8", WORKLOAD + " a=1.2"])
        self.assertEqual({one.job["seed"] for one in todo}, {1, 2})
        nodes = sweeps.combinations(job(), ["node1=50"], 1)[0].job["machine"]["top"]["machine"]["nodes"]
        self.assertEqual(nodes, [10, 50])

    def test_replaced(self):
        todo = sweeps.combinations(job(workload="mix zipf pages=10 a=1 share=0.5 + scan pages=5 accesses=60"), ["a=2"], 1)
        self.assertEqual(todo[0].job["workload"], "mix zipf pages=10 a=2 share=0.5 + scan pages=5 accesses=60")

    def test_parameters_of_policies(self):
        todo = sweeps.combinations(job(), ["hot-cold.cool=1,2"], 1)
        self.assertEqual([[recipe["parameters"] for recipe in one.job["policies"]] for one in todo], [[{}, {"cool": "1"}], [{}, {"cool": "2"}]])
        for text, words in [("hints.scan=1", "there is no policy hints among those"), ("hot-cold.warm=1", "unexpected keyword argument 'warm'")]:
            with self.assertRaisesRegex(Bad, words):
                sweeps.combinations(job(), [text], 1)

    def test_spread(self):
        self.assertEqual(sweeps.spread([0.5, None], lambda value: f"{value:.2f}"), "0.50")
        self.assertEqual(sweeps.spread([1, 2, 3], lambda value: f"{value:.2f}"), "2.00 ±1.00")
        self.assertEqual(sweeps.spread([None], str), "-")


class Running(Case):
    """Where it is run, and what is kept."""

    def setUp(self):
        super().setUp()
        self.path = os.path.join(self.there, "done.jsonl")
        self.todo = sweeps.combinations(job(), ["a=0.8,1.2", "fast=5,10"], 2)

    def run_sweep(self, runner, path=None):
        with sweeps.Store(path or self.path, self.todo[0].job, PROGRAM) as kept, Progress("x") as progress:
            return sweeps.run_sweep(self.todo, runner, kept, progress)

    def here(self, numbers, most=99):
        """Runs in this process, at most so many, and notes which."""
        def runner(todo):
            for number, one in todo:
                if len(numbers) == most:
                    raise KeyboardInterrupt
                numbers.append(number)
                with mock.patch.object(machine, "Session", Here):
                    found = sweeps.run_combination(one)
                yield number, found
        return runner

    def test_same_rows(self):
        first = self.run_sweep(self.here([]))
        other = self.run_sweep(sweeps.on_processes(2, PROGRAM), os.path.join(self.there, "other.jsonl"))
        self.assertEqual(list(sweeps.json_lines(self.todo, first)), list(sweeps.json_lines(self.todo, other)))
        alone = compared(setup_with(5, 40), WORKLOAD + " a=0.8", "first-touch", "hot-cold", seed="2")
        self.assertEqual(first[1]["totals"], json.loads(json.dumps(alone.totals())))

    def test_interrupt(self):
        numbers = []
        with self.assertRaises(KeyboardInterrupt):
            self.run_sweep(self.here(numbers, 3))
        with open(self.path, "a", encoding="utf-8") as file:
            file.write('{"key": "cut o')
        again = []
        done = self.run_sweep(self.here(again))
        self.assertEqual((numbers, again), ([0, 1, 2], [3, 4, 5, 6, 7]))
        third = []
        self.assertEqual(self.run_sweep(self.here(third)), done)
        self.assertEqual(third, [])

    def test_means(self):
        done = self.run_sweep(self.here([]))
        shares = [next(one for one in what["totals"] if one["policy"] == "first-touch")["fast_share"] for what in done[:2]]
        line = sweeps.table_of(self.todo, done)[1].split()
        self.assertEqual(line[:5], ["0.8", "5", "first-touch", f"{100 * statistics.mean(shares):.2f}%", f"±{100 * statistics.stdev(shares):.2f}%"])
        self.assertEqual(len(sweeps.csv_text(self.todo, done).splitlines()), 1 + 8 * 4)

    def test_command(self):
        self.written("cxl.nt", "nodes fast 10 + cxl 40\n")
        words = ["policies", "--machine", "cxl.nt", "--workload", WORKLOAD, "--policy", "first-touch", "--sweep", "a=0.8,1.2", "--sweep", "fast=5,10",
                 "--seeds", "2", "--jobs", "2", "--keep", "kept.jsonl"]
        with mock.patch.dict(os.environ, NUMATRACE_SESSION=PROGRAM):
            status, out, err = run(*words, "-o", "sweep.html", folder=self.there)
            self.assertEqual((status, err, len(out.splitlines())), (0, "", 1 + 4 * 3))
            status, lines, _ = run(*words, "--jsonl", folder=self.there)
            self.assertEqual((status, len(lines.splitlines())), (0, 8 * 3 * 3))
            found = [json.loads(line) for line in lines.splitlines()]
            self.assertEqual({(one["values"]["a"], one["values"]["fast"], one["seed"]) for one in found}, {(a, fast, seed) for a in ("0.8", "1.2") for fast in ("5", "10") for seed in (1, 2)})
            status, _, err = run(*words, "--save-trace", "x", folder=self.there)
            self.assertEqual(status, 2)
        with open(os.path.join(self.there, "sweep.html"), encoding="utf-8") as file:
            self.assertIn('"values":"a=0.8 fast=5"', file.read())

    def test_a_broken_policy(self):
        path = self.written("mine.py", "from numalab.policies import Policy\nclass Mine(Policy):\n    def epoch(self, view):\n        view.free(9)\n")
        self.todo = sweeps.combinations(job_of(setup_with(10, 40), asked_for(WORKLOAD, [path + ":Mine"])), ["a=1,2"], 1)
        done = self.run_sweep(self.here([]))
        self.assertEqual([text.split(":")[0] for text in sweeps.errors_of(self.todo, done)], ["a=1 seed=1", "a=2 seed=1"])
        again = []
        self.run_sweep(self.here(again))
        self.assertEqual(again, [0, 1])


if __name__ == "__main__":
    unittest.main()

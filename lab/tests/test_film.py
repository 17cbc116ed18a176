"""The data of the page: its changes, taken one after another as the page takes them, give the states of the plain model; what it
says about looks; its limits."""
import json
import os
import unittest
from unittest import mock

from support import ROOT, Case, loaded, read, run
from numalab import film, model
from numalab.film import Differs, film_of
from numalab.page import page_of
from numalab.report import report_lines
from numalab.traces import Bad
from numalab.translate import trace_from

DRAWN = 120


class States:
    """The frames and lists of free frames that the changes make."""

    def __init__(self, nodes):
        self.frames = [0] * sum(size for _, size in nodes)
        self.free = [list(range(first, first + size)) for first, size in nodes]

    def take(self, change):
        for frame, held in change["f"].items():
            self.frames[frame] = held
        for node, (taken, *added) in change["q"].items():
            self.free[node] = (self.free[node] + added)[taken:]


def state_of(machine):
    """The same of a machine of the model, and how many entries are the page of zeros."""
    frames = [0] * len(machine.owner)
    for page, frame in machine.place.items():
        seen = sorted([pid, number] for pid, process in machine.processes.items() for number, other in process.seen.items() if other == page)
        frames[frame] = [f"{page[0]}:{page[1]}", *seen]
    zeros = sum(list(process.seen.values()).count(model.ZERO) for process in machine.processes.values())
    return frames, machine.free, zeros


class Changes(Case):
    """Step by step, and from a step on."""

    def film(self, top, steps=None):
        return film_of("x", top, report_lines(model.report(top)), steps)

    def test_drawn(self):
        drawn = loaded("tests/drawn.py")
        for number in range(DRAWN):
            top = drawn.Drawing(number).draw().trace
            told, machine = self.film(top), model.Machine(top)
            states = States(told["nodes"])
            self.assertEqual(len(told["changes"]), len(top["steps"]) + 1)
            for k, change in enumerate(told["changes"]):
                states.take(change)
                if k:
                    machine.play(top["steps"][k - 1])
                self.assertEqual((states.frames, states.free, change["z"]), state_of(machine), (number, k))

    def test_from_a_step_on(self):
        top = json.loads(read("examples/while_pages_move.json"))
        whole, part = self.film(top), self.film(top, (8, 12))
        self.assertEqual((part["first"], len(part["changes"]), len(part["steps"])), (8, 6, 5))
        ends = []
        for told, count in ((whole, 14), (part, 6)):
            states = States(told["nodes"])
            for change in told["changes"][:count]:
                states.take(change)
            ends.append((states.frames, states.free))
        self.assertEqual(ends[0], ends[1])

    def test_looks(self):
        top = json.loads(read("examples/three_pages.json"))
        none, all_of_it = [[], [], -1, False], [[0, 1], [1], 0, True]
        self.assertEqual([step["l"] for step in self.film(top)["steps"]], [none] * 5 + [all_of_it] * 4 + [none])
        for steps, looks in [("free all", [[0], [], 0, False]), ("pagemap p", [[], [1], 0, False]), ("free 0\npagemap p\nspawn q", [[0], [1], 0, False]),
                             ("free 0\npagemap p", [[0], [1], 0, True])]:
            top = trace_from(f"nodes 4\nspawn p\n{steps}\n".encode(), "x.nt")
            self.assertEqual(self.film(top)["steps"][-1]["l"], looks, steps)

    def test_names_and_notes(self):
        text = ("nodes 2 + cxl 2\nspawn app\nnote \"begins\"\nmap app heap 2\nmap app heap 1 at 0x10000\nwrite app heap[0] 61\npin app 0x10000\n"
                "pin app 0x10000\noffline cxl\nunpin app 0x10000\nnote \"ends\"\n")
        top = trace_from(text.encode(), "x.nt")
        told = self.film(top)
        self.assertEqual([told[key] for key in ("labels", "names", "areas", "notes")], [
            ["node 0", "node 1 (cxl)"], {1: "app"}, [[1, 16, 2, "heap", 1]], [[1, "begins"], [8, "ends"]]])
        self.assertEqual([change.get("p") for change in told["changes"]], [None] * 5 + [{0: 1}, {0: 2}, None, {0: 1}][:4])
        self.assertEqual([change.get("o") for change in told["changes"]], [None] * 7 + [[1], None])
        self.assertEqual((told["left"], self.film({**top, "left_out": ["files", 3]})["left"]), ([], ["files"]))
        part = self.film(top, (7, 7))
        self.assertEqual([(change.get("p"), change.get("o")) for change in part["changes"]], [({0: 2}, [1]), ({0: 1}, None)])
        self.assertEqual((part["notes"], self.film(top, (1, 2))["notes"]), ([[1, "ends"]], [[0, "begins"]]))
        self.assertEqual(self.film(trace_from(b"nodes 2 + 2, 1\n", "x.nt"))["labels"], ["node 0", "node 1 (tier 2)", "node 2 (tier 2)"])

    def test_marks(self):
        top = json.loads(read("examples/why_not_moved.json"))
        self.assertEqual(self.film(top)["changes"][7]["e"], [[-1, -14], [-1, -2], [-1, -14], [4, 1], [5, 1], [2, -12], [4, 1]])

    def test_other_report(self):
        top = json.loads(read("examples/three_pages.json"))
        with self.assertRaises(Differs):
            film_of("x", top, report_lines(read("examples/three_pages.report").replace("00012000=6", "00012000=7").replace("1: 7", "1: 6")))
        report = self.written("other.report", read("examples/three_pages.report").replace("read 6200", "read 6201"))
        status, out, err = run("picture", "--html", f"{ROOT}/examples/three_pages.json", report)
        self.assertEqual((status, out), (1, ""))
        self.assertEqual(err, f"numalab: {report}: the plain model's answer to step 9 differs from the report's, so there is no page\n")

    def test_limits(self):
        top = trace_from(b"nodes 4\nrepeat 20001\nvmstat\nend\n", "x.nt")
        with self.assertRaises(Bad):
            self.film(top)
        self.assertEqual(len(self.film(top, (1, 20000))["steps"]), 20000)
        with mock.patch.object(film, "MOST_CHANGES", 3), self.assertRaises(Bad):
            self.film(json.loads(read("examples/three_pages.json")))

    def test_page(self):
        top = trace_from(b'nodes 1\nspawn p\nmap p A 1\nwrite p A "</script>"\n', "x.nt")
        page = page_of("</title><b>&", top, report_lines(model.report(top)))
        self.assertEqual((page.count("</script>"), page.count("</title>")), (2, 1))
        self.assertNotIn("http:", page)
        self.assertNotIn("https:", page)


class Files(Case):
    """Several files, folders and endings."""

    def test_several(self):
        names = [f"{ROOT}/examples/{name}" for name in ("three_pages", "shortage")]
        words = [name + ending for name in names for ending in (".json", ".report")]
        for command, more, endings in [("picture", [], ".svg"), ("picture", ["--html"], ".html"), ("show", [], ".txt"), ("show", ["--jsonl"], ".jsonl")]:
            self.assertEqual(run(command, *more, *words, "-o", self.there), (0, "", ""))
            self.assertEqual({"three_pages" + endings, "shortage" + endings} - set(os.listdir(self.there)), set())
        out = run("show", *words)[1]
        self.assertEqual([out.splitlines()[0], out.count(".json:\n")], [names[0] + ".json:", 2])
        one = [read(os.path.join(self.there, f"three_pages{ending}")) for ending in (".txt", ".jsonl")]
        self.assertEqual(one, [run("show", *more, *words[:2])[1] for more in ([], ["--jsonl"])])

    def test_endings(self):
        words = [f"{ROOT}/examples/three_pages.json", f"{ROOT}/examples/three_pages.report"]
        for command, name, begins in [("picture", "x.html", "<!DOCTYPE html>"), ("picture", "x.svg", "<svg"), ("show", "x.jsonl", '{"step":0'), ("show", "x.txt", "     0  spawn")]:
            self.assertEqual(run(command, *words, "-o", name, folder=self.there), (0, "", ""))
            self.assertTrue(read(os.path.join(self.there, name)).startswith(begins), name)
        trace = self.written("own.json", read(words[0]))
        self.assertEqual(run("show", trace, words[1], "-o", trace), (2, "", f"numalab: the output would overwrite {trace}\n"))
        self.assertEqual(run("show", words[1])[::2], (2, f"numalab: {words[1]}: a report can only be shown with its trace\n"))


if __name__ == "__main__":
    unittest.main()

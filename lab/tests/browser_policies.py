"""The pages of numalab policies in headless Chromium: what they show is what was measured, on machines of three sizes.

These tests need Chromium (Debian's package `chromium`), and are skipped where there is none."""
import json
import os
import shutil
import tempfile
import unittest
from unittest import mock

from support import Case, run
from browser_page import CHROMIUM, Browser
from laboratory import PROGRAM

MACHINES = {2: "nodes fast 40 + cxl 120\n", 3: "nodes left 20, right 20 + cxl 120\n", 64: "nodes near 8x4 + far 56x4\n"}
STATE = """JSON.stringify({
  totals: [...document.querySelectorAll("#totals tr")].map(row => [...row.children].map(one => one.textContent)),
  cards: [...document.querySelectorAll(".card h3")].map(one => one.textContent), errors: document.getElementById("errors").textContent,
  about: document.getElementById("about").textContent, legend: document.querySelectorAll("#legend input").length,
  canvases: [...document.querySelectorAll("canvas")].map(one => one.getAttribute("aria-label")),
  nodes: document.getElementById("nodes").textContent, width: document.body.scrollWidth, links: [...document.querySelectorAll(".card ol a")].map(one => one.hash)})"""


@unittest.skipUnless(CHROMIUM, "the page is not tested in a browser, as there is no Chromium: apt-get install chromium")
class Pages(Case):
    """One browser for all tests, which each open a page."""

    @classmethod
    def setUpClass(cls):
        cls.folder = tempfile.mkdtemp()
        cls.browser = Browser(cls.folder)

    @classmethod
    def tearDownClass(cls):
        cls.browser.close()
        shutil.rmtree(cls.folder, ignore_errors=True)

    def opened(self, machine, *words, status=0):
        self.written("m.nt", machine)
        with mock.patch.dict(os.environ, NUMATRACE_SESSION=PROGRAM):
            found = run("policies", "--machine", "m.nt", *words, "-o", "page.html", folder=self.there)
        self.assertEqual(found[0], status)
        self.browser.errors.clear()
        self.browser.open(os.path.join(self.there, "page.html"))
        self.addCleanup(lambda: self.assertEqual(self.browser.errors, []))
        return found[1]

    def test_three_sizes(self):
        for nodes, machine in MACHINES.items():
            out = self.opened(machine, "--workload", "zipf pages=120 accesses=6000 epochs=6 pinned=0.1", "--policy", "first-touch", "--policy", "hot-cold",
                              "--sample", "5", "--save-trace", "traces")
            state = json.loads(self.browser.value(STATE))
            labels = ["first-touch", "hot-cold", "best static placement", "best for each epoch"]
            self.assertEqual((state["cards"], state["legend"], state["errors"]), (labels, 4, ""))
            self.assertIn(f"{nodes} nodes of", state["about"])
            lines = [line for line in out.splitlines() if line.startswith(("first-touch", "hot-cold", "best"))]
            for row, line in zip(state["totals"][1:], lines):
                self.assertTrue(line.startswith(row[0]))
                for cell in row[1:]:
                    self.assertIn(cell, line)
            self.assertEqual(len(state["canvases"]), 3 + 2 * 2 + 2)
            self.assertLessEqual(state["width"], 1200)
            self.assertEqual("more nodes in between" in state["nodes"], nodes == 64)
            self.assertEqual(len(state["links"]), 2 * 5)

    def test_links_open_the_epoch(self):
        self.opened(MACHINES[2], "--workload", "zipf pages=120 accesses=6000 epochs=6", "--policy", "hot-cold", "--sample", "5")
        link = json.loads(self.browser.value(STATE))["links"][0]
        shown = "document.querySelector('.card details').open"
        self.assertFalse(self.browser.value(shown))
        self.browser.value("document.querySelector('.card ol a').click()")
        for _ in range(50):
            if self.browser.value(shown):
                break
        self.assertTrue(self.browser.value(shown))
        row = self.browser.value(f"document.querySelector('{link}').textContent")
        self.assertTrue(row.startswith(link.split("e")[1]))

    def test_policies_can_be_hidden(self):
        self.opened(MACHINES[2], "--workload", "zipf pages=120 accesses=6000 epochs=6", "--policy", "first-touch", "--policy", "interleave")
        image = "document.querySelector('#plots canvas').toDataURL()"
        before = self.browser.value(image)
        click = "document.querySelector('#legend input').click()"
        self.browser.value(click)
        hidden = self.browser.value(image)
        self.browser.value(click)
        self.assertNotEqual(before, hidden)
        self.assertEqual(before, self.browser.value(image))

    def test_a_broken_policy(self):
        self.written("mine.py", "from numalab.policies import Policy\nclass Mine(Policy):\n    def epoch(self, view):\n        view.free(9 if view.epoch else 0)\n")
        self.opened(MACHINES[2], "--workload", "zipf pages=60 accesses=600 epochs=6", "--policy", "mine.py:Mine", "--policy", "first-touch", status=1)
        state = json.loads(self.browser.value(STATE))
        self.assertEqual(state["errors"], "policy mine.py:Mine in epoch 1: there is no node 9: the last is 1 (mine.py:4)")
        self.assertEqual(state["totals"][1][-2:], ["-", "-"])

    def test_one_epoch(self):
        self.opened(MACHINES[2], "--workload", "scan pages=20 accesses=20 epochs=1", "--policy", "first-touch")
        self.assertEqual(len(json.loads(self.browser.value(STATE))["cards"]), 3)

    def test_sweep(self):
        self.opened(MACHINES[2], "--workload", "zipf pages=60 accesses=600 epochs=3", "--policy", "first-touch", "--sweep", "a=0.8,1.2", "--sweep", "fast=10,20,30",
                    "--jobs", "1", "--keep", "kept")
        captions = self.browser.value("JSON.stringify([...document.querySelectorAll('figcaption')].map(one => one.textContent))")
        self.assertEqual(json.loads(captions), [f"a={a} fast={fast}" for a in ("0.8", "1.2") for fast in (10, 20, 30)])
        self.assertEqual(self.browser.value("document.querySelectorAll('canvas').length"), 6)
        self.assertEqual(self.browser.value("document.querySelectorAll('#table tr').length"), 1 + 6 * 3)


if __name__ == "__main__":
    unittest.main()

"""The laboratory for policies with the programs: what policies see is what numatrace answers to the trace of their calls, no page is in
two places, the command of the page on policies works as written, and how long and how much memory a large workload takes."""
import json
import os
import shutil
import sys
import textwrap
import unittest
from unittest import mock

from support import Case, needs_program, read, run
from laboratory import EXAMPLES, RECENT, compared, large, setup_with
from numalab import program
from numalab.answers import answer_of
from numalab.policies.builtin import POLICIES
from numalab.policies.view import View
from numalab.report import read_report
from numalab.traces import Bad, Trace
from numalab.words import PAGE

SEEDS = 200
MOST_SECONDS, MOST_KIB = 60, 300 * 1024
WORKLOADS = ["zipf pages=40 accesses=900 epochs=5 pinned=0.1", "phases pages=40 hot=0.2 every=2 accesses=900 epochs=5",
             "stencil pages=42 processes=3 border=4 accesses=900 epochs=5", "zipf pages=40 processes=2 accesses=900 epochs=5"]
COMMAND_OF_PAGE = ("policies --machine cxl.nt --workload|zipf pages=4000 a=0.99 accesses=5e6|--policy first-touch --policy interleave "
                     "--policy hints --policy my.py:HotCold -o report.html")


def session():
    try:
        return program.found(None, "numatrace_session", "numatrace-session", "NUMATRACE_SESSION")
    except Bad:
        return None


needs_session = unittest.skipUnless(session(), "there is no program numatrace_session: ./build makes it")


class Seen:
    """What policies saw of their calls, by policy, as they ran."""

    def __init__(self):
        self.answers = {}

    def patched(self):
        seen, original = self.answers, View._note

        def answered(view, answer):
            seen.setdefault(id(view), (view, []))[1].append(answer)
            return original(view, answer)
        return mock.patch.object(View, "_note", answered)


@needs_program
@needs_session
class Answers(Case):
    """The trace of each policy's calls, played by numatrace."""

    def played(self, text):
        top = json.loads(text)
        lines = read_report(program.played(Trace("a policy's trace", text.encode(), top)), "the report")
        return top, [answer_of(line).as_object() for line in lines]

    def told(self, top, answers):
        """What numatrace answers to the calls of the policies, in order: the call and the statuses by process, address and node."""
        for step, answer in zip(top["steps"], answers):
            if step["op"] == "move_pages":
                yield "move_pages", answer.get("error"), list(zip([step["pid"]] * len(step["pages"]), step["pages"], step["nodes"], answer.get("statuses", [None] * len(step["pages"]))))
            elif step["op"] in ("mbind", "migrate_pages"):
                yield step["op"], answer.get("error"), []

    def seen(self, view, answers):
        """The same as the policy saw it. A call about pages of several processes is one for each, in the order of their first pages."""
        machine = view._machine
        for answer in answers:
            if answer.call != "move_pages":
                area = 1 if answer.call == "migrate_pages" else None
                yield answer.call, answer.error, area
                continue
            parts = {}
            for (page, node), status in zip(answer.pages, answer.statuses):
                process = machine.index.owner(page)
                parts.setdefault(process, []).append((machine.pids[process], machine.index.address(page), node, status))
            for part in parts.values():
                yield "move_pages", answer.error, part

    def check_pages(self, top, answers):
        """A frame has one page, and a page of several processes one frame, whenever all are looked at."""
        shared = {step["addr"] for step in top["steps"] if step["op"] == "attach"}
        sizes = {(step["pid"], step["addr"]): step["pages"] for step in top["steps"] if step["op"] in ("map", "attach")}
        common = {first + PAGE * k for (_, first), pages in sizes.items() if first in shared for k in range(pages)}
        frames, looked = {}, set()
        for step, answer in zip(top["steps"], answers):
            if step["op"] != "pagemap" or step["pid"] in looked:
                frames, looked = {}, set()
            if step["op"] == "pagemap":
                looked.add(step["pid"])
                for entry in answer["entries"]:
                    page = entry["address"] if entry["address"] in common else (step["pid"], entry["address"])
                    self.assertEqual(frames.setdefault(entry["frame"], page), page)
                self.assertEqual(len(set(frames.values())), len(frames))

    def test_seen_is_answered(self):
        for seed in range(1, SEEDS + 1):
            seen = Seen()
            with seen.patched():
                results = compared(setup_with(12, 16, 24), WORKLOADS[seed % len(WORKLOADS)], *POLICIES, RECENT, program=session(), keep=True, seed=str(seed), sample="3")
            self.assertEqual((results.errors, len(results.traces)), ([], len(POLICIES) + 1))
            by_trace = {}
            for view, answers in seen.answers.values():
                by_trace[view._machine.trace("x").split('"steps"', 1)[1]] = (view, answers)
            for label, text in results.traces.items():
                top, answers = self.played(text)
                self.check_pages(top, answers)
                view, calls = by_trace.get(text.split('"steps"', 1)[1], (None, []))
                told = list(self.told(top, answers))
                if view is None:
                    self.assertEqual(told, [], label)
                    continue
                self.same(list(self.seen(view, calls)), told, label)

    def same(self, seen, told, label):
        """An mbind of several processes is one for the policy, and one after another in the trace."""
        told = iter(told)
        for call, error, entries in seen:
            name, answered, pages = next(told)
            while call == "move_pages" != name:
                name, answered, pages = next(told)
            self.assertEqual((call, error), (name, answered), label)
            if call == "move_pages":
                self.assertEqual(entries, pages, label)
        self.assertTrue(all(name == "mbind" for name, _, _ in told), label)


@needs_program
@needs_session
class AsWritten(Case):
    """What the page on policies shows."""

    def setUp(self):
        super().setUp()
        for name in os.listdir(EXAMPLES):
            if name.endswith((".py", ".nt")):
                shutil.copy(os.path.join(EXAMPLES, name), self.there)

    def test_command(self):
        front, workload, rest = COMMAND_OF_PAGE.split("|")
        status, out, err = run(*front.split(), workload, *rest.split(), folder=self.there)
        self.assertEqual((status, err), (0, ""))
        self.assertEqual(len(out.splitlines()), 4 + 7)
        self.assertIn(textwrap.indent(out, "    "), read("lab/docs/POLICIES.md"))
        self.assertGreater(os.path.getsize(os.path.join(self.there, "report.html")), 50000)

    def test_trace_is_explained(self):
        words = ["policies", "--machine", "cxl.nt", "--workload", "zipf pages=1200 accesses=20000 epochs=3 pinned=0.05", "--policy", "hot-cold", "--sample", "3",
                 "--save-trace", "calls.json", "--jsonl"]
        status, out, _ = run(*words, folder=self.there)
        total = next(row for row in map(json.loads, out.splitlines()) if row.get("total"))
        self.assertEqual((status, set(total["stayed"])), (0, {"EBUSY"}))
        status, out, err = run("show", "--why", "calls.json", folder=self.there)
        self.assertEqual((status, err), (0, ""))
        self.assertIn("-16 EBUSY", out)
        self.assertRegex(out, "-16 EBUSY\\n +because: .*pin")


@needs_session
class Sharing(Case):
    """A sweep of 60 combinations on four processes."""

    def test_all_take_part(self):
        self.written("mine.py", "import os, time\nfrom numalab.policies import Policy\nclass Mine(Policy):\n    def start(self, view):\n"
                                f"        with open({os.path.join(self.there, 'pids')!r}, 'a') as file:\n            file.write(f'{{os.getpid()}}\\n')\n"
                                "        time.sleep(0.02)\n")
        self.written("cxl.nt", "nodes fast 100 + cxl 300\n")
        words = ["--machine", "cxl.nt", "--workload", "zipf pages=200 accesses=5000 epochs=3", "--policy", "mine.py:Mine", "--sweep", "a=0.8,0.9,1.0,1.1,1.2",
                 "--sweep", "fast=50,100,150,200", "--seeds", "3", "--jobs", "4", "--keep", "kept.jsonl", "--csv"]
        status, out, err = run("policies", *words, folder=self.there)
        self.assertEqual((status, err, len(out.splitlines())), (0, "", 1 + 60 * 3))
        with open(os.path.join(self.there, "pids"), encoding="utf-8") as file:
            pids = file.read().split()
        self.assertEqual((len(pids), len(set(pids))), (60, 4))


@needs_session
class Large(Case):
    """10,000,000 accesses over 4,000 pages, one policy."""

    def test_seconds_and_memory(self):
        status, seconds, kib = large(sys.executable)
        self.assertEqual(status, 0)
        self.assertLess(seconds, MOST_SECONDS)
        self.assertLess(kib, MOST_KIB)


if __name__ == "__main__":
    unittest.main()

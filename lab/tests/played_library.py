"""Machines in this process, by the library, beside what is reported of the same traces."""
import glob
import json
import os
import unittest

from support import ROOT, Case, read
from numalab import Fault, Machine
from numalab.library import library
from numalab.program import Failed
from numalab.session import session_by
from numalab.traces import Bad

TOP = {"version": 1, "machine": {"nodes": [4, 4], "distance": [[10, 20], [20, 10]]}}
SPAWN = {"op": "spawn", "pid": 1, "uid": 100, "home": 0, "allowed": [0, 1]}


@unittest.skipIf(library() is None, "there is no library: ./build makes it")
class Library(Case):
    """Steps, faults and machines by the library."""

    def test_reports(self):
        for path in sorted(glob.glob(os.path.join(ROOT, "examples", "*.json"))):
            trace = json.loads(read(path))
            with session_by(trace, by="library") as session:
                lines = [line for reply in session.steps(trace["steps"]) for line in reply]
            self.assertEqual("".join(line + "\n" for line in lines), read(path[: -len("json")] + "report"))

    def test_faults_change_nothing(self):
        with session_by(TOP, by="library") as session:
            self.assertEqual(session.step(SPAWN), ["0 spawn ok"])
            for call, words in [({"op": "leap"}, "bad step 1"), ([], "bad step 1"), ({**SPAWN, "pid": float("nan")}, "not JSON")]:
                with self.assertRaises(Fault) as caught:
                    session.step(call)
                self.assertEqual(str(caught.exception), words)
            self.assertEqual(session.step({"op": "free", "node": 1}), ["1 free 4: 4 5 6 7"])
        with self.assertRaises(Failed):
            session.step(SPAWN)
        for top, words in [({}, "bad machine"), (float("nan"), "not JSON")]:
            with self.assertRaisesRegex(Bad, words):
                session_by(top, by="library")

    def test_chosen(self):
        with Machine([4, 4], by="library") as machine:
            self.assertEqual(machine.by, "library")
            process = machine.spawn(home=0)
            area = process.map(3)
            process.write(area[:], b"a")
            self.assertEqual(machine.move_pages(process, area[:], node=1).statuses, [1, 1, 1])
        with self.assertRaises(Bad):
            Machine([4, 4], by="mail")

    def test_long_lines(self):
        with session_by({**TOP, "machine": {"nodes": [16000], "distance": [[10]]}}, by="library") as session:
            self.assertEqual(len(session.step({"op": "free", "node": 0})[0].split()), 3 + 16000)

"""Sessions, with a program that plays by the plain model in place of the built one."""
import json
import os
import stat
import sys
import unittest

from support import LAB, ROOT, Case, read, started
from numalab import Fault, Session
from numalab.program import Failed
from numalab.traces import Bad

PROGRAM = os.path.join(LAB, "tests", "session_of_model.py")
TOP = {"version": 1, "machine": {"nodes": [4, 4], "distance": [[10, 20], [20, 10]]}}
SPAWN = {"op": "spawn", "pid": 1, "uid": 100, "home": 0, "allowed": [0, 1]}


class Steps(Case):
    """Steps, faults, and programs that end."""

    def program(self, text):
        path = self.written("program", text)
        os.chmod(path, stat.S_IRWXU)
        return path

    def script(self, text):
        return self.program("#!/bin/sh\n" + text)

    def test_a_report(self):
        for name in ("three_pages", "interleave", "while_pages_move", "limited_runs"):
            trace = json.loads(read(f"examples/{name}.json"))
            with Session(trace, PROGRAM) as session:
                lines = [line for step in trace["steps"] for line in session.step(step)]
            self.assertEqual("".join(line + "\n" for line in lines), read(f"examples/{name}.report"))

    def test_several_lines(self):
        with Session(TOP, PROGRAM) as session:
            session.step(SPAWN)
            session.step({"op": "map", "pid": 1, "addr": 65536, "pages": 1})
            self.assertEqual(session.step({"op": "numa_maps", "pid": 1}), ["2 numa_maps 1", "00010000 default"])

    def test_faults_change_nothing(self):
        with Session(TOP, PROGRAM) as session:
            self.assertEqual(session.step(SPAWN), ["0 spawn ok"])
            for call, words in [({"op": "leap"}, "bad step 1"), ([], "bad step 1"), ({**SPAWN, "pid": float("nan")}, "not JSON")]:
                with self.assertRaises(Fault) as caught:
                    session.step(call)
                self.assertEqual(str(caught.exception), words)
            with self.assertRaises(TypeError):
                session.step({"op": b"spawn"})
            self.assertEqual(session.step({"op": "free", "node": 1}), ["1 free 4: 4 5 6 7"])

    def test_bad_top(self):
        for top, words in [({}, "bad machine"), ({**TOP, "version": 3}, "bad machine"), (float("nan"), "not JSON")]:
            with self.assertRaises(Bad) as caught:
                Session(top, PROGRAM)
            self.assertEqual(str(caught.exception), "numatrace_session: " + words)

    def test_no_program(self):
        with self.assertRaisesRegex(Bad, "there is no program /nowhere"):
            Session(TOP, "/nowhere")
        with self.assertRaisesRegex(Failed, "/program: Exec format error"):
            Session(TOP, self.program(b"\x7fELF"))

    def test_a_program_that_ends(self):
        ends = "read top && read line && echo 'fault: not JSON' && echo && read line && {} && exit 3"
        for said, words in [("echo out of memory >&2", "out of memory"), ("echo '0 spawn ok'", "it says nothing")]:
            session = Session(TOP, self.script(ends.format(said)))
            with self.assertRaisesRegex(Failed, rf"has ended: {words} \(status 3\)"):
                session.step(SPAWN)
            with self.assertRaisesRegex(Failed, "the session has ended"):
                session.step(SPAWN)
            session.close()

    def test_an_end_with_a_fault(self):
        program = self.script("read top && read line && echo 'fault: not JSON' && echo && read line; exit 4")
        with self.assertRaisesRegex(Failed, "status 4"):
            with Session(TOP, program):
                pass
        with self.assertRaisesRegex(KeyError, "own"):
            with Session(TOP, program):
                raise KeyError("own")

    def test_a_session_that_is_closed(self):
        session = Session(TOP, PROGRAM)
        session.close()
        session.close()
        with self.assertRaisesRegex(Failed, "the session has ended"):
            session.step(SPAWN)

    def test_a_copy_of_the_process(self):
        with Session(TOP, PROGRAM) as session:
            session.step(SPAWN)
            code = ("import os, sys\nsys.path.insert(0, sys.argv[1])\nfrom numalab import Session\nsession = Session({}, sys.argv[2])\n"
                    "if os.fork() == 0:\n    sys.exit()\nos.wait()\nprint(session.step({{'op': 'free', 'node': 0}}))").format(TOP)
            told = started("-c", code, LAB, PROGRAM, command=sys.executable)
            self.assertEqual(told, (0, "['0 free 4: 0 1 2 3']\n", ""))
            self.assertEqual(session.step({"op": "free", "node": 1}), ["1 free 4: 4 5 6 7"])

    def test_several_steps(self):
        with Session(TOP, PROGRAM) as session:
            replies = session.steps([SPAWN, {"op": "leap"}, {"op": "free", "node": 1}])
            self.assertEqual([replies[0], replies[2]], [["0 spawn ok"], ["1 free 4: 4 5 6 7"]])
            self.assertEqual((type(replies[1]), str(replies[1])), (Fault, "bad step 1"))
            self.assertEqual(session.steps([{"op": "free", "node": 1}] * 500)[-1], ["501 free 4: 4 5 6 7"])
            self.assertEqual(session.steps([]), [])

    def test_example(self):
        environment = {**os.environ, "PYTHONPATH": LAB, "PYTHONDONTWRITEBYTECODE": "1"}
        ran = started(PROGRAM, command=os.path.join(ROOT, "examples/session/session.py"), environment=environment)
        self.assertEqual(ran, (0, read("examples/session/expected"), ""))


if __name__ == "__main__":
    unittest.main()

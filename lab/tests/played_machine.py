"""The machine in Python beside the programs: drawn traces call by call, how long calls take, and what the manual shows."""
import os
import re
import shutil
import subprocess
import sys
import textwrap
import time
import unittest
from unittest import mock

from support import COMMAND, ROOT, Case, built, loaded, needs_both, read
from numalab import Machine, Refused, program
from numalab.library import library
from numalab.machine import Process
from numalab.traces import Trace, json_text, load

TRACES, CALLS, MOST_SECONDS = 2000, 10000, 1.0
TRIES, MOST_WAIT = 8, 600


class Calls:
    """Makes the steps of a trace by the methods of a machine. Processes that were never spawned are named as well."""

    def __init__(self, machine):
        self.machine, self.alive = machine, {}

    def process(self, pid):
        return self.alive.get(pid, Process(self.machine, pid, None))

    def make(self, step):
        keys = {key: value for key, value in step.items() if key not in ("op", "pid")}
        getattr(self, "make_" + step["op"], self.make_other)(step, keys)

    def make_spawn(self, step, keys):
        process = self.machine.spawn(pid=step["pid"], **keys)
        self.alive[step["pid"]] = process

    def make_map(self, step, keys):
        self.process(step["pid"]).map(**keys)

    def make_attach(self, step, keys):
        self.process(step["pid"]).attach(**keys)

    def make_unmap(self, step, keys):
        self.process(step["pid"]).unmap(keys["addr"], keys["pages"])

    def make_exit(self, step, _):
        self.alive.setdefault(step["pid"], Process(self.machine, step["pid"], None)).exit()
        del self.alive[step["pid"]]

    def make_read(self, step, keys):
        self.process(step["pid"]).read(keys["addr"], keys["len"])

    def make_write(self, step, keys):
        self.process(step["pid"]).write(keys["addr"], bytes.fromhex(keys["data"]))

    def make_pin(self, step, keys):
        getattr(self.process(step["pid"]), step["op"])(**keys)

    make_unpin = make_pagemap = make_numa_maps = make_pin

    def make_mbind(self, _, keys):
        self.process(keys["caller"]).mbind(keys["addr"], keys["mode"], keys["nodes"], keys["flags"], keys["len"])

    def make_other(self, step, keys):
        """Calls of the machine, some of them on a process."""
        if "caller" in keys:
            caller = self.process(keys.pop("caller"))
            target = self.process(step["pid"]) if step["pid"] else caller
            more = {} if target is caller else {"caller": caller}
            if "during" in keys:
                keys["during"] = [(one["run"], self.process(one["pid"]), one["addr"], one["len"] if one["op"] == "read" else
                                   bytes.fromhex(one["data"])) for one in keys["during"]]
            keys = {"process": target, **keys, **more}
        getattr(self.machine, step["op"])(**keys)


@needs_both
class Beside(Case):
    """The program's answers and its report."""

    def test_drawn_traces(self):
        drawn, refusals = loaded("tests/drawn.py"), 0
        for number in range(TRACES):
            trace = drawn.Drawing(number).draw().trace
            machine, limit = trace["machine"], trace["run_limit"] if trace["version"] == 2 else None
            with Machine(machine["nodes"], machine["distance"], limit, by="library" if number % 2 and library() else "pipes") as m:
                calls = Calls(m)
                for step in trace["steps"]:
                    try:
                        calls.make(step)
                    except Refused:
                        refusals += 1
            report = program.played(Trace("x", json_text(trace).encode(), trace)).decode()
            self.assertEqual(m.report(), report, f"trace {number}")
            if number % 20 == 0:
                self.assertEqual(m.play(), report)
        self.assertGreater(refusals, TRACES)

    def seconds_for(self, count):
        """How long so many calls take, each of which is asked for its answer."""
        with Machine(nodes=[4, 4]) as m:
            p = m.spawn()
            a = p.map(1)
            p.write(a[0], b"a")
            begun = time.monotonic()
            for k in range(count):
                self.assertEqual(m.move_pages(p, a[0], node=1 - k % 2).statuses, [1 - k % 2])
            return time.monotonic() - begun

    def test_calls_are_quick(self):
        # The best of some tries counts, as this machine may be busy.
        best = {CALLS // 4: MOST_WAIT, CALLS: MOST_WAIT}
        for _ in range(TRIES):
            best = {count: min(seconds, self.seconds_for(count)) for count, seconds in best.items()}
            if best[CALLS] <= MOST_SECONDS and best[CALLS] < 6 * best[CALLS // 4]:
                return
        self.fail(f"calls take, by their number, {best} seconds")

    def test_differs(self):
        path = self.written("program", "#!/bin/sh\nprintf '0 spawn ok\\n1 free 4: 3 2 1 0\\n'\n")
        os.chmod(path, 0o755)
        with Machine([4]) as m:
            m.spawn()
            m.free(0)
            with self.assertRaisesRegex(RuntimeError, "line 2 of the report is '1 free 4: 3 2 1 0', and the answer here was '1 free 4: 0 1 2 3'"):
                m.play(path)


def blocks(words):
    """The blocks of code in the manual that begin with the given line."""
    return [textwrap.dedent(block) for block in re.findall(r"(?m)^((?:    .*\n|\n(?=    ))+)", read("docs/MANUAL.md"))
            if textwrap.dedent(block).lstrip("\n").startswith(words)]


@needs_both
class Manual(Case):
    """The examples of the manual, and examples/epochs.py, do what they say."""

    def run_here(self, code):
        here = os.getcwd()
        self.addCleanup(os.chdir, here)
        os.chdir(self.there)
        names = {}
        exec(compile(code, "MANUAL.md", "exec"), names)
        return names

    def test_calls(self):
        code, = blocks("from numalab import Machine\nwith Machine(nodes=[4, 4])")
        code, said = re.subn(r"print\(moved\.statuses\) +(\[.*\])", r"assert moved.statuses == \1", code)
        self.assertEqual(said, 1)
        self.run_here(code)
        self.assertEqual(len(load(os.path.join(self.there, "trace.json")).steps), 4)

    def test_epochs(self):
        code = read("examples/epochs.py").split("\n", 1)[1]
        self.assertLessEqual(len([line for line in code.splitlines() if line]), 20)
        told, = re.findall("It prints `(.*?)`", read("lab/docs/DRAWING.md"))
        with mock.patch("builtins.print") as prints:
            self.run_here(code)
        self.assertEqual(str(prints.call_args[0][0]), told)
        out = subprocess.run([COMMAND, "show", "--why", "epochs.nt"], cwd=self.there, capture_output=True, check=False)
        self.assertEqual((out.returncode, out.stderr, out.stdout.count(b"# epoch ")), (0, b"", 20))
        self.assertLess(len(out.stdout.splitlines()), 800)

    def test_earlier_calls(self):
        # What the manual showed before: keywords, and no `with`.
        self.run_here('from numalab import Machine\nm = Machine(nodes=[4, 4])\np = m.spawn(home=0)\na = p.map(pages=3)\np.write(a[0], b"a")\n'
                      'moved = m.move_pages(p, a[:], node=1)\nassert moved.statuses == [1, -2, -2]\nm.save("trace.json")\n')

    def test_pytest(self):
        code, = blocks("import pytest")
        self.assertLessEqual(len([line for line in code.splitlines() if line]), 20)
        raises = mock.Mock(fixture=lambda function: function, raises=lambda kind: self.assertRaises(kind))
        names = {}
        with mock.patch.dict(sys.modules, pytest=raises):
            exec(compile(code, "MANUAL.md", "exec"), names)
            tests = [function for name, function in names.items() if name.startswith("test_")]
            for test in tests:
                test(names["machine"]())
        self.assertEqual(len(tests), 2)

    def test_integration(self):
        block, = blocks("./build && ./numalab why")
        os.makedirs(os.path.join(self.there, "traces"))
        for name in ("build", "numalab", "numatrace"):
            path = {"build": "true", "numalab": COMMAND, "numatrace": built()}[name]
            self.written(name, f'#!/bin/sh\nexec {path} "$@"\n')
            os.chmod(os.path.join(self.there, name), 0o755)
        for name in ("evacuate", "shortage"):
            for ending in (".nt", ".report"):
                shutil.copy(os.path.join(ROOT, "examples", name + ending), os.path.join(self.there, "traces"))
        ran = subprocess.run(block, shell=True, cwd=self.there, capture_output=True, check=False)
        self.assertEqual((ran.returncode, ran.stderr), (0, b""))
        self.written("traces/shortage.report", "0 spawn ok\n")
        self.assertEqual(subprocess.run(block, shell=True, cwd=self.there, capture_output=True, check=False).returncode, 1)


if __name__ == "__main__":
    unittest.main()

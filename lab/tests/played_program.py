"""numalab with the program: both forms of the examples, mutated and drawn traces, a trace of the greatest length, and how the
program is found. These tests need the program, and are skipped where there is none."""
import json
import multiprocessing
import os
import resource
import shutil
import subprocess
import sys
import unittest

from support import COMMAND, EXAMPLES, ROOT, TRACES, Case, built, loaded, needs_program, read, run, started
from test_show import check_told
from numalab.diagnosis import Diagnosis
from numalab.program import played
from numalab.reasons import explained
from numalab.traces import Trace, json_text, load

MUTATED, DRAWN, MOST_SECONDS, GREATEST = 1000, 2000, 20, 16777216
HOSTILE, DRAWINGS = loaded("tests/hostile.py"), loaded("tests/drawn.py")
TEXTS = [read(path) for path in TRACES if os.path.getsize(path) < 20000]


def told_of_mutated(number):
    """What differs in what is said of a mutated trace, or None."""
    data = HOSTILE.mutated(number, TEXTS)
    ran = subprocess.run([built()], input=data, capture_output=True, check=False)
    faults = Diagnosis("x", data, hints=False).faults
    wanted = ran.stderr.decode().strip()[len("numatrace: "):]
    if ran.returncode == 0:
        return f"{number}: {faults[0]}" if faults else None
    return None if faults and f": {wanted}: " in faults[0] else f"{number}: {wanted}, and not {faults[:1]}"


def told_of_drawn(number):
    """What differs between the program and the reasons of a drawn trace, or None."""
    top = DRAWINGS.Drawing(number).draw().trace
    told = list(explained(top))
    lines = "".join(line + "\n" for played_lines, _ in told for line in played_lines)
    if played(Trace("drawn", json_text(top).encode())) != lines.encode():
        return f"{number}: the reports differ"
    try:
        for step, (played_lines, reasons) in zip(top["steps"], told):
            check_told(unittest.TestCase(), step, played_lines, reasons)
    except AssertionError as differs:
        return f"{number}: {differs}"
    return None


def long_trace():
    """A trace of nearly the greatest length: writes, moves and looks."""
    steps, size, k = [{"op": "spawn", "pid": 1, "uid": 1, "home": 0, "allowed": [0, 1]}, {"op": "map", "pid": 1, "addr": 65536, "pages": 4000}], 400, 0
    while size < GREATEST - 70000:
        k += 1
        page = 65536 + 4096 * (k * 7 % 4000)
        steps.append({"op": "write", "pid": 1, "addr": page, "data": "61" * (k % 20 + 1)})
        if k % 100 == 0:
            pages = [65536 + 4096 * ((k * 3 + j) % 4000) for j in range(200)]
            steps.append({"op": "move_pages", "caller": 1, "pid": 0, "pages": pages, "nodes": [k // 100 % 2] * 200, "flags": 2})
        size += sum(len(json_text({"steps": [step]})) - 11 for step in steps[-2 if k % 100 == 0 else -1 :])
    machine = {"nodes": [8192, 8192], "distance": [[10, 20], [20, 10]]}
    return json_text({"version": 1, "machine": machine, "steps": steps})


@needs_program
class Played(Case):
    """What the program is asked to play."""

    def test_both_forms(self):
        for path in EXAMPLES:
            report = read(path[: -len("json")] + "report").encode()
            self.assertEqual(played(load(path)), report, path)
            self.assertEqual(played(load(path[: -len("json")] + "nt")), report, path)

    def test_mutated(self):
        with multiprocessing.Pool() as pool:
            self.assertEqual([fault for fault in pool.map(told_of_mutated, range(MUTATED), 25) if fault], [])

    def test_drawn(self):
        with multiprocessing.Pool() as pool:
            self.assertEqual([fault for fault in pool.map(told_of_drawn, range(DRAWN), 25) if fault], [])

    def test_show_asks_the_program(self):
        for words in (["show", "--why"], ["show", "--jsonl"], ["picture"], ["picture", "--html"]):
            for ending in (".json", ".nt"):
                name = f"{ROOT}/examples/while_pages_move"
                mine = run(*words, name + ending)
                self.assertEqual((mine[0], mine[2]), (0, ""), words)
                if words[0] == "show" and ending == ".json":
                    self.assertEqual(mine, run(*words, name + ending, name + ".report"))
        self.assertEqual(run("show", "-", given=read("examples/three_pages.json"))[0], 0)

    def test_bad_traces(self):
        bad = self.written("bad.json", read("examples/three_pages.json").replace('"data":"62"', '"data":"6"'))
        for command in ("show", "picture"):
            status, out, err = run(command, bad)
            self.assertEqual((status, out), (2, ""))
            self.assertTrue(err.startswith(f'numalab: {bad}: bad step 3: write: data is "6": expected'), err)

    def test_long_trace(self):
        trace = self.written("long.json", long_trace())
        self.assertGreater(os.path.getsize(trace), 15 << 20)
        before = resource.getrusage(resource.RUSAGE_CHILDREN)
        with open(os.path.join(self.there, "out"), "wb") as out:
            ran = subprocess.run([COMMAND, "show", trace], stdout=out, stderr=subprocess.PIPE, check=False)
        after = resource.getrusage(resource.RUSAGE_CHILDREN)
        self.assertEqual((ran.returncode, ran.stderr), (0, b""))
        self.assertLess(after.ru_utime + after.ru_stime - before.ru_utime - before.ru_stime, MOST_SECONDS)


class Finding(Case):
    """How the program is found, and what is said where there is none or where it fails."""

    def stand_in(self, name, text):
        path = self.written(name, "#!/bin/sh\n" + text)
        os.chmod(path, 0o755)
        return path

    def test_order(self):
        trace, env = f"{ROOT}/examples/three_pages.json", dict(os.environ)
        first = self.stand_in("first", f"exec cat {ROOT}/examples/three_pages.report\n")
        second = self.stand_in("numatrace", "echo 0 spawn ok\n")
        env.update(NUMATRACE=second, PATH=f"{self.there}:{env['PATH']}")
        lines = [len(started("show", *words, trace, environment=env)[1].splitlines()) for words in (["--program", first], [])]
        self.assertEqual(lines, [12, 1])
        env["NUMATRACE"] = os.path.join(self.there, "none")
        self.assertEqual(started("show", trace, environment=env), (2, "", f"numalab: there is no program {env['NUMATRACE']}\n"))

    def test_none(self):
        # A copy of the package outside the repository.
        shutil.copytree(f"{ROOT}/lab/numalab", os.path.join(self.there, "x/y/numalab"))
        env = {key: value for key, value in os.environ.items() if key != "NUMATRACE"}
        ran = subprocess.run([sys.executable, "-m", "numalab", "show", f"{ROOT}/examples/three_pages.json"], capture_output=True,
                             cwd=os.path.join(self.there, "x/y"), env={**env, "PATH": "/usr/bin:/bin"}, check=False)
        self.assertEqual((ran.returncode, ran.stderr.decode()), (
            2, "numalab: there is no program numatrace: ./build makes it, and --program PATH or the variable NUMATRACE names another\n"))

    def test_failures(self):
        trace = f"{ROOT}/examples/three_pages.json"
        for status, text in [(3, "numatrace: host memory refused after 2 steps"), (4, "numatrace: read fault"), (1, "")]:
            path = self.stand_in("fails", f"echo '{text}' >&2\nexit {status}\n")
            self.assertEqual(run("show", "--program", path, trace), (
                1, "", f"numalab: {trace}: {text or 'the program says nothing'} (status {status} of {path})\n"))

    def test_reader_that_goes(self):
        command = f"{COMMAND} show {ROOT}/tests/traces/whole_page.json {ROOT}/tests/traces/whole_page.report | head -n 1"
        ran = subprocess.run(command, shell=True, capture_output=True, check=False)
        self.assertEqual((len(ran.stdout.splitlines()), ran.stderr), (1, b""))


if __name__ == "__main__":
    unittest.main()

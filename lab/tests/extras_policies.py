"""The laboratory for policies with NumPy and Dask (Debian's packages python3-numpy and python3-distributed), which it does not need:
the same rows with and without them, and how long a large workload takes with NumPy.

The tests run the command by the first Python that has both modules: this one, or Debian's."""
import json
import os
import shutil
import subprocess
import sys
import time
import unittest

from support import COMMAND, LAB, Case
from laboratory import PROGRAM, large, setup_with
from played_policies import needs_session, session
from test_streams import DATA
from numalab.policies.counting import epochs_of
from numalab.policies.streams import read_from

MOST_SECONDS, MOST_KIB = 10, 300 * 1024
MODULES = "import numpy, distributed"
WORKLOADS = ["zipf pages=300", "uniform pages=300", "scan pages=300", "phases pages=300 every=2", "gups pages=300 processes=2", "stencil pages=300",
             "mix zipf pages=200 share=0.6 + gups pages=100 share=0.4"]
SWEEP = ["--workload", "zipf pages=200 accesses=20000 epochs=4", "--policy", "first-touch", "--policy", "hot-cold",
         "--sweep", "a=0.8,0.9,1.0,1.1,1.2", "--sweep", "fast=50,100,150,200", "--seeds", "3"]
CLUSTER = """import sys, distributed
if __name__ == "__main__":
    with distributed.LocalCluster(n_workers=2, threads_per_worker=1, processes=True, host="127.0.0.1", dashboard_address=None) as cluster:
        print(cluster.scheduler_address, flush=True)
        sys.stdin.read()
"""


def python_with_extras():
    for path in (sys.executable, "/usr/bin/python3"):
        try:
            if subprocess.run([path, "-c", MODULES], capture_output=True, check=False).returncode == 0:
                return path
        except OSError:
            pass
    return None


PYTHON = python_with_extras()
without_numpy = "import sys; sys.modules['numpy'] = None; sys.path.insert(0, sys.argv.pop(1)); from numalab.cli import main; sys.exit(main())"


@unittest.skipUnless(PYTHON, "NumPy and Dask are not tested, as no Python has both: apt-get install python3-numpy python3-distributed")
class Extras(Case):
    """The command with and without the extras."""

    def command(self, *words, numpy=True, variables=()):
        """What the command prints."""
        front = [PYTHON, COMMAND] if numpy else [PYTHON, "-c", without_numpy, LAB]
        environment = {**os.environ, "PYTHONDONTWRITEBYTECODE": "1", **dict(variables)}
        ran = subprocess.run([*front, "policies", *words], capture_output=True, check=False, env=environment, cwd=self.there, text=True)
        self.assertEqual((ran.returncode, ran.stderr), (0, ""))
        return ran.stdout

    def test_same_rows_with_numpy(self):
        self.written("cxl.nt", "nodes fast 100 + cxl 300\n")
        for workload in WORKLOADS:
            words = ["--machine", "cxl.nt", "--workload", workload + " accesses=150001 epochs=4", "--policy", "first-touch", "--policy", "hot-cold", "--jsonl"]
            model = {"NUMATRACE_SESSION": PROGRAM}
            self.assertEqual(self.command(*words, variables=model), self.command(*words, numpy=False, variables=model), workload)

    def test_arrays(self):
        rows = "time,process,address,kind\n" + "".join(f"{k},7,{0x10000 + 4096 * (k * k % 11)},{'rw'[k % 2]}\n" for k in range(100))
        self.written("x.csv", rows)
        made = ("import numpy; lines = [line.split(',') for line in open('x.csv').read().split()[1:]]\n"
                "numpy.save('x.npy', numpy.array([[float(t), float(p), float(a), 'rw'.index(k)] for t, p, a, k in lines]))\n"
                "numpy.save('y.npy', numpy.array([(float(t), int(p), int(a), k.encode()) for t, p, a, k in lines],"
                " dtype=[('time', 'f8'), ('process', 'u4'), ('address', 'u8'), ('kind', 'S1')]))\n")
        subprocess.run([PYTHON, "-c", made], cwd=self.there, check=True)
        self.written("cxl.nt", "nodes 4 + 30\n")
        found = [self.command("--machine", "cxl.nt", "--workload", f"{words} epochs=5", "--policy", "first-touch", "--jsonl",
                              variables={"NUMATRACE_SESSION": PROGRAM}) for words in ("csv x.csv", "numpy x.npy", "numpy y.npy")]
        self.assertEqual(found, found[:1] * 3)
        self.assertEqual(sum(json.loads(line)["accesses"] for line in found[0].splitlines()[:5]), 100)

    @unittest.skipUnless(shutil.which("valgrind") and shutil.which("gcc"), "lackey is not asked anew, as there is no valgrind or no gcc")
    def test_lackey_anew(self):
        """What lackey shows of both walks is what it showed when the tests' data were made."""
        flags = "-O1 -static -nostdlib -fno-stack-protector -fno-tree-vectorize -fno-pie -no-pie".split()
        for walk, define in (("rows", "ROW_BY_ROW"), ("columns", "COLUMNS")):
            subprocess.run(["gcc", *flags, "-D" + define, os.path.join(DATA, "matrix.c"), "-o", "walk"], cwd=self.there, check=True)
            subprocess.run(["valgrind", "--tool=lackey", "--trace-mem=yes", "--log-file=walk.lackey", "./walk"], cwd=self.there, check=True)
            seen = [read_from(f"lackey {path} epochs=16", setup_with(16, 100)) for path in (os.path.join(self.there, "walk.lackey"), f"{DATA}/matrix_{walk}.lackey.gz")]
            self.assertEqual(*[[(epoch.items, epoch.counts) for epoch in epochs_of(one, 100, 1)] for one in seen])

    @needs_session
    def test_seconds_and_memory(self):
        status, seconds, kib = large(PYTHON)
        self.assertEqual(status, 0)
        self.assertLess(seconds, MOST_SECONDS)
        self.assertLess(kib, MOST_KIB)

    @needs_session
    def test_same_rows_on_dask(self):
        """60 combinations on two workers of a cluster on this machine, and on four processes."""
        self.written("cxl.nt", "nodes fast 100 + cxl 300\n")
        environment = {**os.environ, "PYTHONPATH": LAB, "NUMATRACE_SESSION": session(), "PYTHONDONTWRITEBYTECODE": "1"}
        script = self.written("cluster.py", CLUSTER)
        with subprocess.Popen([PYTHON, script], stdin=subprocess.PIPE, stdout=subprocess.PIPE, stderr=subprocess.DEVNULL, env=environment, cwd=self.there,
                              text=True) as cluster:
            address = cluster.stdout.readline().strip()
            words = ["--machine", "cxl.nt", *SWEEP, "--jsonl"]
            shared = self.command(*words, "--dask", address, "--keep", "dask.jsonl")
            cluster.stdin.close()
            cluster.wait(60)
        here = self.command(*words, "--jobs", "4", "--keep", "here.jsonl")
        self.assertEqual(sorted(shared.splitlines()), sorted(here.splitlines()))
        self.assertEqual(len(here.splitlines()), 60 * 4 * 5)
        with open(os.path.join(self.there, "dask.jsonl"), encoding="utf-8") as one, open(os.path.join(self.there, "here.jsonl"), encoding="utf-8") as other:
            self.assertEqual(sorted(one), sorted(other))

    def test_no_scheduler(self):
        self.written("cxl.nt", "nodes fast 100 + cxl 300\n")
        begun = time.monotonic()
        ran = subprocess.run([PYTHON, COMMAND, "policies", "--machine", "cxl.nt", *SWEEP, "--keep", "none.jsonl", "--dask", "tcp://127.0.0.1:9"], capture_output=True,
                             check=False, env={**os.environ, "NUMATRACE_SESSION": PROGRAM}, cwd=self.there, text=True)
        self.assertEqual((ran.returncode, ran.stdout), (2, ""))
        self.assertIn("numalab: --dask tcp://127.0.0.1:9: no scheduler answers there", ran.stderr)
        self.assertLess(time.monotonic() - begun, 30)


if __name__ == "__main__":
    unittest.main()

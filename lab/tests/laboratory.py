"""What the tests of the laboratory for policies share: small comparisons, by the plain model in place of the program."""
import os
import subprocess
from argparse import Namespace
from unittest import mock

from support import COMMAND, LAB, ROOT
from numalab import model
from numalab.policies import machine
from numalab.policies.job import job_of, run_job
from numalab.policies.setups import Setup
from numalab.statements import tier_distances

PROGRAM = os.path.join(LAB, "tests", "session_of_model.py")
EXAMPLES = os.path.join(ROOT, "examples", "policies")
RECENT = os.path.join(EXAMPLES, "least_recent.py") + ":LeastRecent"


def setup_with(*frames):
    """A machine whose first node is fast, and each further node a tier behind."""
    tiers = list(range(len(frames)))
    top = {"version": 1, "machine": {"nodes": list(frames), "distance": tier_distances(tiers)}, "steps": []}
    return Setup(top, {"fast": [0]}, tiers)


def asked_for(workload, policies, **more):
    return Namespace(**{"workload": workload, "policy": policies, "latency": None, "move_cost": "0", "fast": None, "sample": "100", "seed": "1", **more})


class Here:
    """A session in this process, which plays by the plain model."""

    def __init__(self, top, _):
        self.machine = model.Machine(top)

    def step(self, call):
        return self.machine.play(call)

    def close(self):
        """There is nothing to end."""


def compared(setup, workload, *policies, program=None, keep=False, film=None, **more):
    """The results of a comparison: by the plain model, or by a program."""
    job = job_of(setup, asked_for(workload, list(policies), **more))
    with mock.patch.object(machine, "Session", machine.Session if program else Here):
        return run_job(job, program, None, keep, film)


TIMED = """import resource, subprocess, sys, time
begun = time.monotonic()
status = subprocess.call(sys.argv[1:], stdout=subprocess.DEVNULL)
print(status, time.monotonic() - begun, resource.getrusage(resource.RUSAGE_CHILDREN).ru_maxrss)"""


def large(python):
    """Status, seconds and KiB of the command on 10,000,000 accesses over 4,000 pages with one policy."""
    words = ["policies", "--machine", os.path.join(EXAMPLES, "cxl.nt"), "--workload", "zipf pages=4000 accesses=1e7", "--policy", "hot-cold"]
    ran = subprocess.run([python, "-c", TIMED, python, COMMAND, *words], capture_output=True, check=True, text=True)
    status, seconds, kib = ran.stdout.split()
    return int(status), float(seconds), int(kib)


def total(results, label):
    return next(one for one in results.totals() if one["policy"] == label)

"""With this machine's kernel: the player is built and makes a trace's calls, and strace follows a command. Tests that lack what they
need say so and are skipped."""
import ctypes
import errno
import json
import os
import subprocess
import unittest
from unittest import mock

from support import Case, run
from numalab import model
from numalab.faults import verdict
from numalab.linux import compare, player, replayed
from numalab.traces import load

HERE = """nodes 64
spawn p
spawn q
map p A 3
map p S 2 shared
attach q T of S
write p A[0] "abc"
write p S 61
read p A[0] len 3
read q T[0]
query p S[0], 0x90000
mbind p A[0] MPOL_BIND 0 flags MPOL_MF_STRICT
mbind p A[1] MPOL_DEFAULT 0
move_pages p A[0] to 0, S[0] to 0
move_pages p A[0] to 1
migrate_pages p from 0 to 0
pin p A[0]
unpin p A[0]
pagemap p
numa_maps p
unmap p A[0]
read p A[0]
exit q
"""


def needs(program):
    found = any(os.access(os.path.join(folder, program), os.X_OK) for folder in os.environ["PATH"].split(os.pathsep))
    return unittest.skipUnless(found, f"there is no {program}")


def asked_of_kernel():
    """The errors of a move_pages(2), an mbind(2) and a migrate_pages(2) that ask for nothing."""
    calls, errors = ctypes.CDLL(None, use_errno=True), set()
    for number, words in [(279, (0, 0, None, None, None, 0)), (237, (None, 0, 0, None, 0, 0)), (256, (0, 0, None, None))]:
        ctypes.set_errno(0)
        calls.syscall(number, *words)
        errors.add(ctypes.get_errno())
    return errors


class Here(Case):
    """This machine's kernel."""

    @needs("gcc")
    def test_player_has_no_warning(self):
        ran = subprocess.run(["gcc", *player.FLAGS, "-Werror", "-o", os.path.join(self.there, "player"), player.SOURCE], capture_output=True, check=False)
        self.assertEqual((ran.returncode, ran.stderr.decode()), (0, ""))

    @needs("gcc")
    @unittest.skipUnless(os.path.isdir(player.NODES), "this kernel has no NUMA")
    @unittest.skipIf(errno.EPERM in asked_of_kernel(), "calls about nodes are forbidden here, as a container's filter may do")
    def test_here(self):
        if player.nodes_here() != 1:
            self.skipTest("this machine has more nodes than the one of the trace")
        path = self.written("t.nt", HERE)
        status, out, err = run("replay", path, "--here")
        self.assertEqual((status, err), (0, ""))
        found = replayed.read_replayed(out, path)
        trace = load(path)
        kinds = compare.compared(trace.top, model.report(trace.top).encode(), found)
        self.assertEqual([(one.step, one.kernel) for one in kinds if one.kind == compare.OTHER], [])

    @needs("gcc")
    @unittest.skipUnless(os.path.isdir(player.NODES), "this kernel has no NUMA")
    @unittest.skipIf(errno.EPERM in asked_of_kernel(), "calls about nodes are forbidden here, as a container's filter may do")
    def test_a_hunt(self):
        with mock.patch.dict(os.environ, {"XDG_CACHE_HOME": self.there}):
            status, out, err = run("hunt", "--here", "--count", "20", "--seed", "3")
        self.assertEqual((status, err), (0, ""), out)
        self.assertRegex(out, r"20 traces of \d+ nodes? and 30 calls; seed 3; [\d,]+ steps as expected; 0 unexplained\n$")

    @needs("strace")
    def test_a_command(self):
        machine = self.written("m", json.dumps({"nodes": [4096, 4096], "distance": [[10, 20], [20, 10]]}))
        out = os.path.join(self.there, "t.json")
        status, _, err = run("record", "-o", out, "--machine", machine, "--", "true")
        if "ptrace" in err or status == 1:
            self.skipTest("strace may not trace here")
        self.assertEqual(status, 0, err)
        with open(out, "rb") as file:
            self.assertEqual(verdict(file.read()), "good")


if __name__ == "__main__":
    unittest.main()

"""Exported tests with the answers of the program (--model). These tests need the program, and are skipped where there is none."""
import re
import unittest

from support import Case, needs_program, run
from test_export import PINNED, members


@needs_program
class Model(Case):
    """Answers of the model."""

    def test_answers(self):
        """Statuses that no kernel writes are not checked, frames are nodes, and rows are named where kernels are known to differ."""
        status, text, err = run("export", self.written("t.nt", PINNED), "--model")
        self.assertEqual((status, err), (0, ""))
        self.assertEqual(members(text, "expected"), [
            "ok", "segment=0", "ok", "ok", "ok", "ok", "1: - - -", "3: 00010000=1 00011000=0 00012000=1",
            "1;00010000 default anon=3 N0=1 N1=2 kernelpagesize_kB=4", "-", "error EFAULT"])
        self.assertEqual(re.findall("known to differ on Linux 6.12: [a-z-]+", "".join(members(text, "remark"))), ["known to differ on Linux 6.12: move-pinned"])

    def test_where_the_model_differs(self):
        """The same page twice: the model has the target for both entries, and kernels write -16 for the second."""
        trace = self.written("t.nt", "nodes 2x8\nspawn p\nmap p A 1\nwrite p A 61\nmove_pages p A[0], A[0] to 1\n")
        self.assertEqual(members(run("export", trace, "--model")[1], "expected")[-1], "0: 1 1")
        self.assertEqual(members(run("export", trace, "--kernel", "6.12")[1], "expected")[-1], "0: 1 -16")

    def test_no_program(self):
        status, out, err = run("export", self.written("t.nt", PINNED), "--model", "--program", self.there + "/none")
        self.assertEqual((status, out, err), (2, "", f"numalab: there is no program {self.there}/none\n"))


if __name__ == "__main__":
    unittest.main()

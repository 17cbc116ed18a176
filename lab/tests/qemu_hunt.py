"""Hunts on both kernels in guests: nothing is unexplained, and a wrong rule is found. lab/kernels fetches what is needed."""
import unittest
from unittest import mock

from support import Case, run, started
from test_hunt import SeesTwo
from numalab.linux import differences, worlds

SEED = "91"


class Hunts(Case):
    def test_nothing_is_unexplained(self):
        for version in differences.KERNELS:
            status, out, err = started("hunt", "--kernel", version, "--count", "100", "--seed", SEED, "--jobs", "2", "--most", "2")
            self.assertEqual((status, err), (0, ""), out)
            self.assertRegex(out, r"(?m)^Linux \S+: 100 traces of three nodes and 30 calls; seed 91; [\d,]+ steps as expected; 0 unexplained")
            self.assertRegex(out, r"(?m)^Linux \S+: 100 traces of two to four nodes, .* and 100 calls; seed 91; [\d,]+ steps as expected; 0 unexplained")

    def test_a_wrong_rule_is_found_and_reduced(self):
        with mock.patch.object(worlds, "Kernel", SeesTwo):
            status, out, _ = run("hunt", "--kernel", "6.12", "--count", "50", "--seed", SEED, "--kind", "small", "--most", "1")
        self.assertEqual(status, 1, out)
        text = out.split("made shorter:\n")[1].split("\n\n")[0]
        lines = [line for line in text.split("\n") if not line.startswith("#")]
        self.assertLessEqual(len(lines), 12, text)
        # Without the wrong rule the kernel answers it as expected.
        path = self.written("t.nt", text + "\n")
        self.assertEqual(run("reduce", path, "--qemu", "--kernel", "6.12")[0], 0)


if __name__ == "__main__":
    unittest.main()

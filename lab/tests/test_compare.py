"""Comparing many traces, and the forms in which that is told."""
import json
import os
import unittest
from unittest import mock
from xml.etree import ElementTree

from support import Case, run
from numalab import model
from numalab.linux import many
from numalab.traces import Bad

SCENARIOS = [os.path.join(many.SCENARIOS, name) for name in ("move-pinned.nt", "same-fan.nt")]
KEPT = os.path.join(many.SCENARIOS, "6.1.replayed")
with open(KEPT, encoding="ascii") as kept:
    RELEASE = kept.readline().split(" ")[2].strip()


class Compare(Case):
    def setUp(self):
        super().setUp()
        for patch in (mock.patch("numalab.commands.compare.program_found"),
                      mock.patch("numalab.commands.compare.played", lambda trace, _: model.report(trace.top).encode())):
            patch.start()
            self.addCleanup(patch.stop)
        # What a kernel answered, wrongly in one place: to step 6 of one trace.
        with open(KEPT, encoding="ascii") as file:
            text = file.read()
        self.assertIn("6 move_pages 1: - - -", text)
        self.wrong = self.written("wrong", text.replace("6 move_pages 1: - - -", "6 move_pages 2: - - -"))

    def test_several(self):
        status, out, err = run("compare", *SCENARIOS, KEPT)
        self.assertEqual((status, err), (0, ""))
        self.assertEqual(out.split("\n"), [
            f"move-pinned.nt on Linux {RELEASE}: differs", "  differs as documented: move-pinned",
            f"same-fan.nt on Linux {RELEASE}: same", "Linux 6.1: 2 traces: 1 the same, 1 different as documented, 0 DIFFERENT",
            "Linux 6.1: 19 steps: 18 the same, 1 different as documented, 0 DIFFERENT", ""])
        status, out, _ = run("compare", *SCENARIOS, self.wrong)
        self.assertEqual(status, 1)
        self.assertIn(f"move-pinned.nt on Linux {RELEASE}: DIFFERS\n       6  move_pages     DIFFERS\n", out)
        self.assertIn("Linux 6.1: 2 traces: 1 the same, 0 different as documented, 1 DIFFERENT", out)

    def test_a_folder(self):
        folder = os.path.join(self.there, "some")
        os.makedirs(folder)
        for path in SCENARIOS:
            os.symlink(path, os.path.join(folder, os.path.basename(path)))
        self.assertEqual(run("compare", folder, KEPT)[1], run("compare", *SCENARIOS, KEPT)[1])

    def test_tap(self):
        self.assertEqual(run("compare", *SCENARIOS, KEPT, "--tap"), (0, f"""TAP version 13
1..2
ok 1 - move-pinned.nt on Linux {RELEASE}
# differs as documented: move-pinned
ok 2 - same-fan.nt on Linux {RELEASE}
""", ""))
        status, out, _ = run("compare", *SCENARIOS, self.wrong, "--tap")
        self.assertEqual(status, 1)
        self.assertEqual(out.split("\n")[2:7], [
            f"not ok 1 - move-pinned.nt on Linux {RELEASE}", "#      6  move_pages     DIFFERS", "#           this model:  6 move_pages 1: 1 -16 1",
            "#           Linux 6.1:   6 move_pages 2: - - -", "#           expected:    6 move_pages 1: - - -"])

    def test_junit(self):
        status, out, _ = run("compare", *SCENARIOS, self.wrong, "--junit")
        self.assertEqual(status, 1)
        suite, = ElementTree.fromstring(out)
        self.assertEqual([suite.get(key) for key in ("tests", "failures", "errors", "skipped")], ["2", "1", "0", "0"])
        self.assertEqual([[one.get("name"), [part.tag for part in one]] for one in suite], [["move-pinned.nt", ["failure"]], ["same-fan.nt", []]])
        self.assertIn("Linux 6.1:   6 move_pages 2: - - -", suite[0][0].text)

    def test_json(self):
        status, out, _ = run("compare", *SCENARIOS, self.wrong, "--json")
        self.assertEqual(status, 1)
        first, second = json.loads(out)
        self.assertEqual((first["result"], second["result"], first["linux"]), ("DIFFERS", "same", RELEASE))
        self.assertEqual(first["steps"][6], {"step": 6, "op": "move_pages", "result": "DIFFERS", "rows": [], "model": ["6 move_pages 1: 1 -16 1"],
                                             "kernel": ["6 move_pages 2: - - -"], "expected": ["6 move_pages 1: - - -"]})
        self.assertEqual(first["steps"][5], {"step": 5, "op": "pin", "result": "same"})

    def test_skipped_and_stopped(self):
        """A trace that cannot be played here is skipped; one at which the play ends early is a failure."""
        path = self.written("t.nt", "nodes 64x8\nspawn p\n")
        with mock.patch.object(many, "replay_here", side_effect=[many.Stopped("a.nt: the guest has ended; its console shows\n  the end")]):
            status, out, err = run("compare", self.written("a.nt", "nodes 8\nspawn p\n"), "--tap")
        self.assertEqual((status, err), (1, ""))
        self.assertRegex(out, r"not ok 1 - a.nt on Linux \S+\n# a.nt: the guest has ended; its console shows\n#   the end\n$")
        status, out, err = run("compare", path, "--tap")
        self.assertEqual((status, err), (0, ""))
        self.assertRegex(out, "ok 1 - t.nt on Linux .* # SKIP .*the trace has 64 nodes, and this machine has|# SKIP this kernel has no NUMA")

    def test_another_kernel_is_named(self):
        text = "# Linux 6.14.3\n# trace t.nt\n0 spawn ok\n1 map segment=0\n2 query 0: -14\n# end\n"
        path = self.written("t.nt", "nodes 2x8\nspawn p\nmap p A 2\nquery p A[0]\n")
        status, out, _ = run("compare", path, self.written("r", text))
        self.assertEqual(status, 1)
        self.assertEqual(out.split("\n")[:7], [
            "there are no rows for Linux 6.14.3: those of 6.12 are used", "     0  spawn          same", "     1  map            same",
            "     2  query          DIFFERS", "          this model:  2 query 0: -2", "          Linux 6.14:  2 query 0: -14", "          expected:    2 query 0: -2"])

    def test_a_kernel_that_was_asked_has_rows_of_its_own(self):
        """The text of a row is that of the kernel's series."""
        trace = self.written("t.nt", "nodes 2x8\nspawn p\nmap p A 2\nmbind p A[1] MPOL_BIND 1\nwrite p A[0] 61\nmbind p A[0] MPOL_BIND 1\nnuma_maps p\n")
        text = "# Linux 6.18.3\n0 spawn ok\n1 map segment=0\n2 mbind 0\n3 write ok\n4 mbind 0\n5 numa_maps 1\n" \
               "00010000 bind:1 anon=1 N0=1 kernelpagesize_kB=4\n# end\n"
        status, out, _ = run("compare", trace, self.written("r", text))
        lines = out.split("\n")
        self.assertEqual((status, lines[5]), (0, "     5  numa_maps      differs as documented: areas-policy-merges"))
        self.assertRegex(lines[-2], r"^areas-policy-merges: .* Linux 6.18: merged\. Reason: ")
        self.assertEqual(run("compare", trace, self.written("r", text.replace("6.18.3", "6.12.3")))[0], 1)

    def test_bad_words(self):
        for words, told in [([*SCENARIOS, KEPT, "--qemu"], "do not go together with a replay"), ([SCENARIOS[0], SCENARIOS[0], KEPT], "2 traces are called"),
                            ([], "name a trace"), ([self.there], "there is no trace"), ([SCENARIOS[0], "--kernel", "6.1", "--tap"], "--kernel needs --qemu")]:
            status, out, err = run("compare", *words)
            self.assertEqual((status, out, err.count("\n")), (2, "", 1), words)
            self.assertIn(told, err)

    def test_a_replay_without_a_trace(self):
        with self.assertRaises(Bad):
            many.part_for(many.text_of(b"# Linux 6.1\n# trace a.nt\n# trace b.nt\n# end\n", "f"), "c.nt", "f")


if __name__ == "__main__":
    unittest.main()

"""Exported tests, as far as they can be tested without a compiler: their names, their expected answers, what they need, and suites."""
import os
import re
import unittest
from unittest import mock

from support import Case, run
from numalab import model
from numalab.linux import export, many, player

HEAD = "nodes 2x8\nspawn p\nmap p A 3\nwrite p A 61\n"
PINNED = HEAD + 'note "a pinned page #1"\npin p A[1]\nmove_pages p A to 1\npagemap p\nnuma_maps p\nfree 0\npin p 0x0\n'
HELD = HEAD + "move_pages p A[0] to 1 during\nread p A[0]\nend\n"


def members(text, name):
    """The values of a member of the data, in their order."""
    found = re.findall(rf'\.{name} = ((?:"(?:[^"\\]|\\.)*"\s*)+|[^",]+),', text)
    return ["".join(re.findall(r'"((?:[^"\\]|\\.)*)"', value)) if value.startswith('"') else value for value in found]


class Exporting(Case):
    """One trace."""

    def exported(self, text, *words):
        status, out, err = run("export", self.written("t.nt", text), *(words or ("--kernel", "6.12")))
        self.assertEqual((status, err), (0, ""))
        return out

    def test_answers_of_a_kernel(self):
        text = self.exported(PINNED)
        self.assertEqual(members(text, "expected"), [
            "ok", "segment=0", "ok", "ok", "ok", "ok", "1: - - -", "3: 00010000=1 00011000=0 00012000=1",
            "1;00010000 default anon=3 N0=1 N1=2 kernelpagesize_kB=4", "-", "error EFAULT"])
        self.assertEqual(members(text, "remark"), ["Linux 6.12 writes no status for entries 0-2: not checked"])
        self.assertEqual(members(text, "unchecked"), [export.UNCHECKED_FREE, export.UNCHECKED_OWN])

    def test_each_kernel_has_its_answers(self):
        for version, status in [("6.1", -14), ("6.12", -2)]:
            text = self.exported("nodes 2x8\nspawn p\nmap p A 1\nquery p A[0]\n", "--kernel", version)
            self.assertEqual(members(text, "expected")[-1], f"0: {status}")
            self.assertEqual(members(text, "answers"), [f"Linux {version}"])

    def test_answers_of_the_model(self):
        def played(trace, _):
            return model.report(trace.top).encode()

        with mock.patch("numalab.commands.export.program_found"), mock.patch("numalab.commands.export.played", played):
            text = self.exported(PINNED, "--model")
        self.assertEqual(members(text, "expected")[6:8], ["1: - - -", "3: 00010000=1 00011000=0 00012000=1"])
        self.assertEqual(members(text, "remark"), [
            "kernels write no status for entries 0-2: not checked; known to differ on Linux 6.1: move-pinned; known to differ on Linux 6.12: move-pinned"])
        self.assertEqual(members(text, "answers"), ["the model"])

    def test_names(self):
        names = members(self.exported(PINNED), "name")
        self.assertEqual(names[:2], ["spawn p (1) uid 1000 home 0 allowed all", "map p A 3 pages at 0x10000"])
        self.assertEqual(names[5:7], [r"a pinned page \\#1: pin p A[1]", r"a pinned page \\#1: move_pages p A[*] to 1 flags MPOL_MF_MOVE"])
        self.assertEqual(members(self.exported(PINNED, "--kernel", "6.1", "--ltp"), "name")[5], "a pinned page #1: pin p A[1]")
        long = self.exported("nodes 2x64\nspawn p\nmap p A 40\n" + "move_pages p " + ", ".join(f"A[{k}] to {k % 2}" for k in range(40)) + "\n")
        self.assertEqual(members(long, "name")[-1], "move_pages p 40 entries flags MPOL_MF_MOVE")

    def test_instructions_are_the_players(self):
        text = self.exported("nodes 8, 1\nspawn p\nspawn q home 1\nmap q B 1\nmap p S 1 shared\nwrite q B 61\nwrite p S 62\nexit q\nvmstat\n")
        found = members(text, "instructions")
        self.assertEqual(found[0], r"shared 1 1\n0 spawn 1 20000 0 0 -")
        self.assertEqual(found[5:8], [r"fill 1 0\n5 write 1 0x20000 62", "6 exit 2", r"drain 1\n7 vmstat "])
        self.assertEqual(members(text, "disturbs"), ["it fills node 1"])

    def test_needs(self):
        text = self.exported("nodes 3x8\nspawn p uid 5 home 1 privileged\nspawn q uid 6 allowed 0-1\nmap p A 2 at 0x20000\nmigrate_pages p from 0 to 5\noffline 2\n")
        told = {name: members(text, name)[0] for name in ("nodes", "homes", "beyond", "end", "offline", "cpusets", "root", "disturbs")}
        self.assertEqual(told, {
            "nodes": "3", "homes": "0x3UL", "beyond": "0x20UL", "end": "0x22000UL", "offline": "0x4UL", "cpusets": "true", "disturbs": "it takes node 2 offline",
            "root": "it has several users, privileged processes, cpusets, nodes that go offline"})
        self.assertEqual(members(self.exported(HEAD), "root"), [""])

    def test_what_needs_privilege_may_have_less(self):
        text = "nodes 2x8\nspawn p uid 1\nspawn q uid 2 privileged\nmap p A 1\nwrite p A 61\nmove_pages q of p A to 1\n"
        self.assertEqual(members(self.exported(text), "expected")[-1], "0: 1")
        self.assertEqual(members(self.exported(text, "--kernel", "6.12", "--nice-alone"), "expected")[-1], "error EPERM")

    def test_one_source(self):
        calls = player.source_text(os.path.join(player.HERE, "calls.c")).rstrip()
        self.assertIn(calls, player.source_text(player.SOURCE))
        for form in export.FORMS:
            text = self.exported(HEAD, *("--kernel", "6.1"), *([] if form == "tap" else ["--" + form]))
            self.assertEqual(text.count(calls), 1)
            self.assertEqual({name for name in re.findall(r'#include "(.*)"', text)},
                             {"tap": set(), "ltp": {"tst_test.h"}, "kselftest": {"../kselftest.h"}}[form])

    def test_texts_in_c(self):
        for text, told in [('a"b\\c', r'"a\"b\\c"'), ("a\nb", '"a\\n"\n        "b"'), ("what??!", r'"what?\?!"'), ("é1", r'"\303\2511"'), ("", '""')]:
            self.assertEqual(export.c_text(text), told)
        long = export.c_text("x" * 300)
        self.assertEqual(("".join(re.findall('"(.*)"', long)), max(map(len, long.split("\n"))) < 125), ("x" * 300, True))

    def test_unknown_nodes(self):
        self.assertEqual(export.answer_text(["3 numa_maps 1", "00010000 interleave:0-1 anon=2 ? kernelpagesize_kB=4"]),
                         "1;00010000 interleave:0-1 anon=2 N? kernelpagesize_kB=4")

    def test_all_scenarios(self):
        for trace, privilege in many.scenarios():
            expected = list(export.answers_of_kernel(trace, "6.12", privilege))
            text = export.source_of(trace, "tap", "Linux 6.12", expected, privilege)
            self.assertEqual(members(text, "expected"), [answer for answer, _ in expected], trace.name)

    def test_bad_words(self):
        trace = self.written("t.nt", HEAD)
        for words, told in [((), "--kernel --model"), (("--kernel", "5.4"), "5.4"), (("--kernel", "6.1", "--model"), "not allowed"),
                            (("--model", "--ltp", "--kselftest"), "not allowed")]:
            status, out, err = run("export", trace, *words)
            self.assertEqual((status, out), (2, ""))
            self.assertIn(told, err)
        for text, told in [(HELD, "step 5: accesses in flight exist only in the model"), ("nodes 8\n", "it has no steps, and so there is nothing to test"),
                           ("nodes 8\nspawnn p\n", "spawnn")]:
            status, out, err = run("export", self.written("t.nt", text), "--kernel", "6.1")
            self.assertEqual((status, out, err.count("\n")), (2, "", 1))
            self.assertIn(told, err)


    def test_the_trace_is_not_overwritten(self):
        trace = self.written("t.nt", HEAD)
        self.assertEqual(run("export", trace, "--kernel", "6.1", "-o", trace), (2, "", f"numalab: the output would overwrite {trace}\n"))
        self.assertEqual(run("export", trace, "--kernel", "6.1", "-o", self.there + "/t.c"), (0, "", ""))
        with open(trace, encoding="utf-8") as file:
            self.assertEqual(file.read(), HEAD)

    def test_standard_input(self):
        status, out, err = run("export", "-", "--kernel", "6.1", given=HEAD)
        self.assertEqual((status, err, members(out, "expected")), (0, "", ["ok", "segment=0", "ok", "ok", "ok"]))


class Suites(Case):
    """Several traces."""

    def setUp(self):
        super().setUp()
        self.out = os.path.join(self.there, "suite")
        os.mkdir(os.path.join(self.there, "traces"))
        self.traces = os.path.join(self.there, "traces")
        self.written("traces/a.nt", HEAD)
        self.written("traces/b c.nt", PINNED)

    def suite(self, *words):
        return run("export", self.traces, "--kernel", "6.12", "-o", self.out, *words)

    def file(self, name):
        with open(os.path.join(self.out, name), encoding="utf-8") as file:
            return file.read()

    def test_a_folder(self):
        self.assertEqual(self.suite(), (0, "", ""))
        self.assertEqual(sorted(os.listdir(self.out)), ["Makefile", "a.c", "b_c.c"])
        self.assertIn("TESTS = a.t b_c.t\n", self.file("Makefile"))
        self.assertEqual(self.file("b_c.c"), run("export", os.path.join(self.traces, "b c.nt"), "--kernel", "6.12")[1])
        self.assertEqual(self.suite(), (0, "", ""), "what it has made is made anew")

    def test_makefiles(self):
        self.assertEqual(self.suite("--kselftest"), (0, "", ""))
        self.assertIn("TEST_GEN_PROGS := a b_c\n\ninclude ../lib.mk\n", self.file("Makefile"))
        self.assertEqual(self.suite("--ltp"), (0, "", ""))
        self.assertIn("include $(top_srcdir)/include/mk/generic_leaf_target.mk\n", self.file("Makefile"))

    def test_what_cannot_be_played_is_left_out(self):
        held = self.written("traces/held.nt", HELD)
        status, out, err = self.suite()
        self.assertEqual((status, out, err.count("\n")), (1, "", 1))
        self.assertIn(f"numalab: left out: {held}: step 5: accesses in flight", err)
        self.assertEqual(sorted(os.listdir(self.out)), ["Makefile", "a.c", "b_c.c"])

    def test_nothing_is_lost(self):
        os.mkdir(self.out)
        self.written("suite/Makefile", "mine:\n")
        status, _, err = self.suite()
        self.assertEqual((status, err), (2, f"numalab: {self.out}/Makefile is there, and numalab export has not made it\n"))
        self.assertEqual((os.listdir(self.out), self.file("Makefile")), (["Makefile"], "mine:\n"))

    def test_faults(self):
        for make, words, told in [
                (None, (), "a suite goes to a folder: -o FOLDER"), (("traces/a.json", "{}"), ("-o", self.out), "a.json: "),
                (("traces/b_c.nt", HEAD), ("-o", self.out), "another trace makes a test b_c too")]:
            path = make and self.written(*make)
            status, out, err = run("export", self.traces, "--kernel", "6.1", *words)
            self.assertEqual((status, out, err.count("\n"), os.path.exists(self.out)), (2, "", 1, False), err)
            self.assertIn(told, err)
            if path:
                os.remove(path)
        os.mkdir(os.path.join(self.there, "empty"))
        self.assertIn("there is no trace", run("export", os.path.join(self.there, "empty"), "--kernel", "6.1", "-o", self.out)[2])


if __name__ == "__main__":
    unittest.main()

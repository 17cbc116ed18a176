"""Exported tests on this machine: they compile without a warning, and run with this machine's kernel, which skips what it lacks."""
import errno
import os
import re
import shutil
import subprocess
import unittest

from here_kernel import HERE, asked_of_kernel, needs
from support import ROOT, Case, run
from numalab.linux import export, many, player, replayed
from numalab.linux.differences import KERNELS
from numalab.linux.instructions import Instructions

HEADERS = os.path.join(ROOT, "lab/tests/data/headers")
WARNINGS = ["-Wall", "-Wextra", "-Werror"]
PLAN = re.compile(r"TAP version 13\n(?:1\.\.0 # SKIP \S.*\n|1\.\.[1-9]\d*\n(?:(?:#|ok|not ok) .*\n)+)")
# The trace of the player's test, with what a kernel is not asked for, and notes.
ASKED = HERE + 'note "what is not asked"\nfree 0\npin p 0x0\nnote "the totals"\nvmstat\n'
ONE_USER = "nodes 64\nspawn p\nmap p A 2\nwrite p A 61\npagemap p\nvmstat\n"
FOR_ONE_NODE = unittest.skipUnless(os.path.isdir(player.NODES) and player.nodes_here() == 1, "this machine has not the one node of the trace")
MAY_ASK = unittest.skipIf(errno.EPERM in asked_of_kernel(), "calls about nodes are forbidden here, as a container's filter may do")


def compilers():
    return [name for name in ("gcc", "clang") if shutil.which(name)]


@needs("gcc")
class Compiled(Case):
    """All scenarios."""

    def setUp(self):
        super().setUp()
        self.assertEqual(run("export", many.SCENARIOS, "--kernel", "6.12", "-o", self.there), (0, "", ""))
        self.names = sorted(name for name in os.listdir(self.there) if name.endswith(".c"))
        self.assertEqual(len(self.names), len(many.scenarios()))

    def compile(self, *words):
        ran = subprocess.run(words, capture_output=True, check=False, cwd=self.there)
        self.assertEqual((ran.returncode, ran.stderr.decode()), (0, ""), words)

    def test_no_warning(self):
        for compiler in compilers():
            for level in ("-O1", "-O2", "-O3"):
                self.compile(compiler, *WARNINGS, level, "-c", "-o", os.devnull, "move-pinned.c")

    @needs("clang")
    def test_no_warning_of_clang(self):
        for name in self.names:
            self.compile("clang", *WARNINGS, "-fsyntax-only", name)

    @needs("make")
    def test_all_run(self):
        environment = {name: value for name, value in os.environ.items() if name != "NUMATRACE_DISTURB"}
        ran = subprocess.run(["make", "-s", "check", "CC=gcc", f"CFLAGS=-O0 {' '.join(WARNINGS)}"], capture_output=True, check=False,
                             cwd=self.there, env=environment)
        told = re.split(r"(?m)^# \S+\.t\n", ran.stdout.decode())[1:]
        self.assertEqual((len(told), ran.stderr.decode()), (len(self.names), ""))
        for text in told:
            self.assertRegex(text, re.compile(PLAN.pattern + r"\Z"))
        self.assertEqual([line for text in told for line in text.split("\n") if line.startswith("not ok")], [])
        self.assertEqual(ran.returncode, 0)


@needs("gcc")
class Kept(Case):
    """What Linux 6.1 and 6.12 answered to the scenarios, as it is kept, handed to a test in place of this machine's answers."""

    def told(self, expected_of, answered_by):
        """What a test prints that has all steps of all scenarios, each of which says what a kernel answered."""
        scenarios, steps = many.scenarios(), []
        for (trace, privilege), text in zip(scenarios, many.kept(scenarios, answered_by)):
            made = export.steps_of(trace, Instructions(trace, privilege=privilege), export.answers_of_kernel(trace, expected_of, privilege))
            told = replayed.read_replayed(text, trace.name)
            for k, (step, lines) in enumerate(zip(made, told.steps)):
                if k in told.compacted:
                    continue  # The totals are also those of pages that the kernel moved by itself.
                number, op, answer = lines[0].split(" ", 2)
                steps.append(step._replace(name=f"{os.path.basename(trace.name)} {number}", instructions=f"{number} say {op} {';'.join([answer, *lines[1:]])}"))
        trace = scenarios[0][0]
        parts = [player.source_text(os.path.join(player.HERE, name)) for name in ("calls.c", "checks.c", "tap.c")]
        parts.insert(1, export.data_of(trace, steps, "kept", export.needs_of(trace, Instructions(trace))))
        path = self.written("kept.c", "\n".join(parts).replace("if (lacks_something())", "if (lacks_something() && false)"))
        subprocess.run(["gcc", "-O0", "-o", path[:-2], path], check=True)
        return len(steps), subprocess.run([path[:-2]], capture_output=True, check=False).stdout.decode()

    def test_each_kernel_is_as_expected(self):
        for version in KERNELS:
            count, out = self.told(version, version)
            self.assertEqual([line for line in out.split("\n") if line.startswith("not ok")], [])
            self.assertEqual(len(re.findall("(?m)^ok [0-9]+ - ", out)), count)
            self.assertGreater(len(re.findall("(?m)^ok (?!.* # SKIP)", out)), 9 * count // 10)

    def test_another_kernel_is_not(self):
        _, out = self.told("6.12", "6.1")
        wrong = {name.rsplit(" ", 1)[0] for name in re.findall("(?m)^not ok [0-9]+ - (.*)$", out)}
        self.assertLess({"query-private-untouched.nt", "move-private-untouched.nt"}, wrong)
        self.assertLess(len(wrong), 12)


@needs("gcc")
class Here(Case):
    """One test."""

    def built(self, text, *words, change=None):
        """The path of a test, whose source may be changed first."""
        status, source, err = run("export", self.written("t.nt", text), "--kernel", "6.12", *words)
        self.assertEqual((status, err), (0, ""))
        shutil.copytree(HEADERS, self.there, dirs_exist_ok=True)
        os.makedirs(os.path.join(self.there, "folder"), exist_ok=True)
        path = self.written("folder/t.c", source if change is None else change(source))
        ran = subprocess.run(["gcc", *WARNINGS, "-O1", f"-I{self.there}", "-o", path[:-2], path], capture_output=True, check=False)
        self.assertEqual((ran.returncode, ran.stderr.decode()), (0, ""))
        return path[:-2]

    def ran(self, path, disturb=False, **words):
        environment = {name: value for name, value in os.environ.items() if name != "NUMATRACE_DISTURB"}
        if disturb:
            environment["NUMATRACE_DISTURB"] = "1"
        ran = subprocess.run([path], capture_output=True, check=False, env=environment, **words)
        self.assertEqual(ran.stderr.decode(), "")
        return ran.returncode, ran.stdout.decode()

    def replaced(self, *pairs):
        def change(source):
            for old, new in pairs:
                self.assertIn(old, source)
                source = source.replace(old, new)
            return source

        return change

    @FOR_ONE_NODE
    @MAY_ASK
    def test_all_is_as_expected(self):
        status, out = self.ran(self.built(ASKED))
        self.assertRegex(out, re.compile(PLAN.pattern + r"\Z"))
        self.assertEqual((status, [line for line in out.split("\n") if line.startswith("not ok")]), (0, []))
        lines = [line for line in out.split("\n") if line.startswith("ok ")]
        self.assertEqual(out.split("\n")[1], f"1..{len(lines)}")
        self.assertEqual(lines[-3], "ok 24 - what is not asked: free 0 # SKIP kernels do not show their free frames")
        self.assertEqual(lines[-2], "ok 25 - what is not asked: pin p 0x0 # SKIP the model alone refuses it: it is not made")
        self.assertTrue(lines[-1].startswith("ok 26 - the totals: vmstat"))
        self.assertIn("the answers expected are those of Linux 6.12; this is Linux " + os.uname().release, out)

    @FOR_ONE_NODE
    @MAY_ASK
    def test_a_wrong_expectation(self):
        status, out = self.ran(self.built(ASKED, change=self.replaced(('"616263"', '"616264"'))))
        self.assertEqual((status, out.count("not ok")), (1, 1))
        self.assertIn("not ok 9 - read p A[0] len 3\n#   expected  616264\n#   answered  616263\n", out)

    @FOR_ONE_NODE
    @MAY_ASK
    def test_what_is_not_known(self):
        pages = "2: 00010000=0 00011000=0"
        for told, well in [("2: 00010000=? 00011000=?", True), ("2: 00010000=0 00011000=1", False), ("2: 00010000=0", False), ("2: 00010000=0 ?", False),
                           ("2: 00010000=0 00011000=0 00012000=0", False), ("3: 00010000=? 00011000=?", False), ("2: 00010000=0 -", True)]:
            status, out = self.ran(self.built(ONE_USER, change=self.replaced((f'"{pages}"', f'"{told}"'))))
            self.assertEqual((status, "not ok 5 - pagemap p\n" in out), (int(not well), not well), told)
        area = "1;00010000 default anon=2 N0=2 kernelpagesize_kB=4"
        for told, well in [(area.replace("N0=2", "N?"), True), (area.replace("N0=2", "N0=?"), True), (area.replace("anon=2 N0=2", "N?"), False),
                           (area + ";00020000 default", False)]:
            status, out = self.ran(self.built(ONE_USER + "numa_maps p\n", change=self.replaced((f'"{area}"', f'"{told}"'))))
            self.assertEqual((status, "not ok 7 - numa_maps p\n" in out), (int(not well), not well), told)

    def test_nodes_that_are_missing(self):
        status, out = self.ran(self.built("nodes 60x8\nspawn p\n"))
        self.assertEqual(status, 0)
        self.assertRegex(out, r"\ATAP version 13\n1\.\.0 # SKIP (the test has 60 nodes, and this machine has memory on \S+|this kernel has no NUMA)\n\Z")

    @FOR_ONE_NODE
    @MAY_ASK
    def test_what_must_be_allowed(self):
        status, out = self.ran(self.built("nodes 64\nspawn p\noffline 0\n"))
        why = "it takes node 0 offline: NUMATRACE_DISTURB=1 allows it" if os.geteuid() == 0 else "only root can run it: it has nodes that go offline"
        self.assertEqual((status, out), (0, f"TAP version 13\n1..0 # SKIP {why}\n"))

    @FOR_ONE_NODE
    @MAY_ASK
    @unittest.skipUnless(os.geteuid() == 0, "only root can take nodes offline")
    def test_memory_that_cannot_go(self):
        """A machine's only node has memory that cannot move. The step itself is taken out, so that nothing goes."""
        path = self.built("nodes 64\nspawn p\noffline 0\n", change=self.replaced(('"1 offline 0"', '"1 say offline ok"')))
        self.assertEqual(self.ran(path, disturb=True), (0, "TAP version 13\n1..0 # SKIP node 0 cannot go offline: its memory is not movable\n"))

    @FOR_ONE_NODE
    @MAY_ASK
    @unittest.skipUnless(os.geteuid() == 0, "only root can be another user")
    def test_another_user(self):
        os.chmod(self.there, 0o755)  # so that this user may run what is in it
        status, out = self.ran(self.built(ASKED.replace("spawn q", "spawn q uid 7")), user=20007)
        self.assertEqual((status, out), (0, "TAP version 13\n1..0 # SKIP only root can run it: it has several users\n"))
        status, out = self.ran(self.built(ASKED), user=20007)
        self.assertEqual((status, "not ok" in out), (0, False))

    @FOR_ONE_NODE
    @MAY_ASK
    def test_what_is_missing_only_shows_in_a_step(self):
        """The second process cannot be made: the first step counts, and the others are skipped."""
        status, out = self.ran(self.built(ASKED, change=self.replaced(('"1 spawn 2 20000 0 0 -"', '"1 spawn 2 20000 0 60 -"'))))
        lines = [line for line in out.split("\n") if line.startswith("ok ")]
        why = " # SKIP no processor of a process's home node may be used: Invalid argument"
        self.assertEqual((status, len(lines), [line.endswith(why) for line in lines]), (0, 26, [False] + [True] * 25))

    @FOR_ONE_NODE
    @MAY_ASK
    @unittest.skipUnless(os.geteuid() == 0, "only root can make cpusets")
    def test_cpusets(self):
        """Where there are none of cgroup v2, that is the reason."""
        path = self.built(ONE_USER, change=self.replaced(('"0 spawn 1 20000 0 0 -"', '"0 spawn 1 20000 0 0 0"'), (".cpusets = false", ".cpusets = true")))
        status, out = self.ran(path)
        self.assertEqual((status, "not ok" in out), (0, False))
        self.assertRegex(out, r"SKIP (there are no cpusets of cgroup v2|cpusets of cgroup v2 cannot be made) in /sys/fs/cgroup\n|\nok 5 - pagemap p\n")

    @FOR_ONE_NODE
    @MAY_ASK
    def test_other_forms(self):
        for form, well, wrong in [("--ltp", "TPASS: read p A[0] len 3\n", "TFAIL: read p A[0] len 3\n"),
                                  ("--kselftest", "ok 9 read p A[0] len 3\n", "not ok 9 read p A[0] len 3\n")]:
            status, out = self.ran(self.built(ASKED, form))
            self.assertEqual((status, well in out, wrong in out), (0, True, False))
            status, out = self.ran(self.built(ASKED, form, change=self.replaced(('"616263"', '"616264"'))))
            self.assertEqual((status, wrong in out), (1, True))


if __name__ == "__main__":
    unittest.main()

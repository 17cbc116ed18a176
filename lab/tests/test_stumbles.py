"""Where new users stumble: each with the very command or call, and what it says."""
import json
import os
import pty
import shutil
import stat
import subprocess
import sys
import unittest

from support import ROOT, Case, read, run, started
from test_machine import PROGRAM

HEAD = "nodes 2x4\nspawn p\nmap p A 3\n"
# What the repository's ./install takes, without the crates.
INSTALLED = ("VERSION", "README.md", "CHANGELOG.md", "install", "numalab", "packaging", "completions", "docs", "examples", "lab")
SEE = "docs/LINUX.md, 'Left out'"


def at_terminal(command):
    """The status of a command of the shell, and what it writes to a standard error that is a terminal."""
    ours, theirs = pty.openpty()
    with subprocess.Popen(command, shell=True, stdin=subprocess.DEVNULL, stdout=subprocess.DEVNULL, stderr=theirs) as process:
        os.close(theirs)
        told = b""
        while True:
            try:
                told += os.read(ours, 4096)
            except OSError:  # Nobody writes to it any more.
                os.close(ours)
                return process.wait(), told.decode().replace("\r", "")


class Commands(Case):
    """Words of the command, and standard input."""

    def said(self, *words, given=""):
        status, out, err = run(*words, given=given, folder=self.there)
        return status, (out + err).splitlines()[-1] if out + err else ""

    def test_did_you_mean(self):
        for words, said in [(["shwo", "x.nt"], "numalab: error: there is no command shwo: did you mean show?"),
                            (["draw", "x.nt"], "numalab: error: there is no command draw"),
                            (["show", "--wyh", "x.nt"], "numalab show: error: unknown argument --wyh: did you mean --why?"),
                            (["picture", "--htlm", "x.nt"], "numalab picture: error: unknown argument --htlm: did you mean --html?"),
                            (["picture", "--step=3", "x.nt"], "numalab picture: error: unknown argument --step=3: did you mean --steps?"),
                            (["--verison"], "numalab: error: unknown argument --verison: did you mean --version?"),
                            ([], "numalab: error: a command is missing: numalab --help lists them"),
                            (["predict", "x.nt", "y.nt", "--kernel", "6.1"], "numalab predict: error: unknown argument y.nt")]:
            self.assertEqual(self.said(*words), (2, said), words)

    def test_standard_input(self):
        text = read("examples/three_pages.nt")
        report = self.written("x.report", read("examples/three_pages.report"))
        self.assertEqual(run("show", "-", report, given=text), run("show", f"{ROOT}/examples/three_pages.nt", report))
        self.assertEqual(self.said("why", "-", given=text), (0, "good"))
        self.assertEqual(self.said("why", given=HEAD + "raed p A\n"), (2, "-:4:1: raed is not a statement: did you mean read?"))
        self.assertEqual(run("write", "--no-places", given=text)[1], run("write", "--no-places", f"{ROOT}/examples/three_pages.nt")[1])
        self.assertEqual(run("write", given=read("examples/three_pages.json")), run("write", "--from", f"{ROOT}/examples/three_pages.json"))
        self.assertTrue(run("picture", "-", report, given=text)[1].startswith("<svg"))

    def test_pages_of_an_area(self):
        told = "A has 3 pages, A[0] to A[2]"
        for line, said in [("read p A[0:9]", f"4:8: A[0:9] ends past the last page: {told}"), ("read p A[3]", f"4:8: A[3] is past the last page: {told}"),
                           ("read p A[-4]", f"4:8: A[-4] is before the first page: {told}"), ("read p A[-4:]", f"4:8: A[-4:] is before the first page: {told}"),
                           ("spawn p", "4:7: p is a process already, with pid 1: give this one another name, or the pid that it has"),
                           ("set_mempolicy p MPOL_BIND 1", f"4:1: set_mempolicy is not a statement: the model leaves out the policy of a process: {SEE}"),
                           ("fork p", f"4:1: fork is not a statement: the model leaves out fork and copy on write: {SEE}"),
                           ("huge p A", f"4:1: huge is not a statement: the model leaves out huge pages: {SEE}")]:
            self.written("x.nt", HEAD + line + "\n")
            self.assertEqual(self.said("why", "x.nt"), (2, "x.nt:" + said))
        for line, pages in [("read p A[-1]", [2]), ("read p A[-2:]", [1, 2]), ("read p A[:-1]", [0, 1]), ("read p A[-3:-1:2]", [0])]:
            steps = json.loads(run("write", given=HEAD + line + "\n")[1])["steps"][2:]
            self.assertEqual([(step["addr"] - 0x10000) // 4096 for step in steps], pages, line)
        self.assertIn("Huge pages", read("docs/LINUX.md").split("## Left out")[1])

    def test_commas_without_spaces(self):
        steps = json.loads(run("write", given=HEAD + "map p B 1\nmove_pages p A[0],B to 1\nquery p B,A[0]\n")[1])["steps"][3:]
        self.assertEqual([step["pages"] for step in steps], [[0x10000, 0x20000], [0x20000, 0x10000]])

    def test_left_out_by_name_in_json(self):
        self.written("x.json", read("examples/three_pages.json").replace('"op":"map"', '"op":"set_mempolicy"'))
        self.assertEqual(self.said("why", "x.json"), (2, f'x.json:3:7: bad step 1: op is "set_mempolicy": the model leaves out the policy of a process: {SEE}'))

    def test_what_a_recording_leaves_out(self):
        self.written("x.json", read("examples/three_pages.json").replace('"version":1', '"version":1,"left_out":["2 mappings of files\\u001b"]'))
        report = f"{ROOT}/examples/three_pages.report"
        self.assertEqual(run("show", "x.json", report, folder=self.there)[1].splitlines()[0], "        # left out when it was recorded: 2 mappings of files?")
        self.assertEqual(run("why", "--strict", "x.json", folder=self.there), (0, "x.json: left out when it was recorded: 2 mappings of files?\ngood\n", ""))

    def test_no_program_for_sessions(self):
        self.assertIn("there is no program numatrace_session: ./build makes it (the first call of ./numatrace does not)", started(
            "-c", "import os, sys; sys.path.insert(0, sys.argv[1]); from numalab import program; program.CRATES = '/nowhere'; os.environ['PATH'] = ''\n"
            "try:\n    program.found(None, *program.SESSION)\nexcept ValueError as error:\n    print(error)", os.path.join(ROOT, "lab"),
            command=sys.executable, environment={"PYTHONDONTWRITEBYTECODE": "1"})[1])


class Installed(Case):
    """What ./install puts in place, with programs that only copy their input."""

    def setUp(self):
        super().setUp()
        self.clone, self.prefix = (os.path.join(self.there, name) for name in ("clone", "prefix"))
        os.makedirs(self.clone)
        for name in INSTALLED:
            source, to = os.path.join(ROOT, name), os.path.join(self.clone, name)
            if os.path.isdir(source):
                shutil.copytree(source, to, ignore=shutil.ignore_patterns("__pycache__", "tests"))
            else:
                shutil.copy2(source, to)
        for name in ("numatrace", "numatrace_session"):
            os.makedirs(os.path.join(self.clone, "crates", name, "out"))
            path = self.written(f"clone/crates/{name}/out/{name}", f'#!/bin/sh\nexec {sys.executable} {PROGRAM}\n' if "session" in name else "#!/bin/sh\ncat\n")
            os.chmod(path, stat.S_IRWXU)
        self.environment = {**os.environ, "PYTHONUSERBASE": self.prefix, "PYTHONDONTWRITEBYTECODE": "1",
                            "PATH": os.path.dirname(sys.executable) + os.pathsep + os.environ["PATH"]}
        for name in ("NUMATRACE", "NUMATRACE_SESSION", "PYTHONPATH", "PYTHONNOUSERSITE"):
            self.environment.pop(name, None)

    def install(self, *words):
        return started("--prefix", self.prefix, *words, command=os.path.join(self.clone, "install"), environment=self.environment)

    def test_install(self):
        status, out, err = self.install()
        self.assertEqual((status, err), (0, ""))
        self.assertNotIn("PYTHONPATH", out)
        code = "import numalab\nwith numalab.Machine([4]) as m:\n    print(numalab.__file__, m.free(0).frames)"
        told = started("-c", code, command=sys.executable, environment=self.environment, folder="/")
        self.assertEqual(told, (0, f"{self.prefix}/lib/numatrace/lab/numalab/__init__.py [0, 1, 2, 3]\n", ""))
        page = os.path.join(self.prefix, "share/man/man1/numalab.1.gz")
        self.assertTrue(os.path.exists(page))
        if shutil.which("man"):
            told = started("-w", "numalab", command="man", environment={**self.environment, "MANPATH": os.path.join(self.prefix, "share/man")})
            self.assertEqual(told[1], page + "\n")
        bin_of = os.path.join(self.prefix, "bin")
        self.assertIn("plays a trace step by step", started("--help", command=f"{bin_of}/numatrace-session")[1].lower())
        self.assertEqual(started("--hlep", command=f"{bin_of}/numatrace-session"), (
            2, "", "numatrace-session: unknown argument --hlep: it takes none, and --help says what it does\n"))
        self.assertEqual(started("--version", command=f"{bin_of}/numalab", environment=self.environment)[0], 0)
        self.assertEqual(self.install("--uninstall")[0], 0)
        self.assertEqual(os.path.exists(self.prefix), False)

    def test_notation_given_to_the_program(self):
        path = self.written("clone/crates/numatrace/out/numatrace", "#!/bin/sh\ncat > /dev/null\necho 'numatrace: not JSON' >&2\nexit 2\n")
        os.chmod(path, stat.S_IRWXU)
        self.assertEqual(self.install()[0], 0)
        command, trace = os.path.join(self.prefix, "bin/numatrace"), f"{ROOT}/examples/three_pages.nt"
        told = at_terminal(f"{command} < {trace}")
        self.assertEqual(told, (2, "numatrace: not JSON\nnumatrace: numalab why TRACE says all that is wrong with a trace, and where; "
                                   "NAME.nt is played by: numalab write NAME.nt | numatrace\n"))
        self.assertEqual(at_terminal(f"{command} --help"), (2, "numatrace: not JSON\n"))
        ran = subprocess.run(f"{command} < {trace}", shell=True, capture_output=True, check=False)
        self.assertEqual((ran.returncode, ran.stderr), (2, b"numatrace: not JSON\n"))

    def test_elsewhere(self):
        self.environment["PYTHONUSERBASE"] = os.path.join(self.there, "other")
        self.assertIn(f"(for import numalab in Python: PYTHONPATH={self.prefix}/lib/numatrace/lab)", self.install()[1])


if __name__ == "__main__":
    unittest.main()

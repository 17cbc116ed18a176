"""What the tests of numalab share."""
import glob
import importlib.util
import io
import os
import subprocess
import sys
import tempfile
import unittest

ROOT = os.path.dirname(os.path.dirname(os.path.dirname(os.path.abspath(__file__))))
LAB = os.path.join(ROOT, "lab")
sys.dont_write_bytecode = True
sys.path.insert(0, LAB)

from numalab import cli, program  # noqa: E402
from numalab.traces import Bad  # noqa: E402

COMMAND = os.path.join(ROOT, "numalab")
EXAMPLES = sorted(glob.glob(os.path.join(ROOT, "examples/*.json")))
TRACES = EXAMPLES + sorted(glob.glob(os.path.join(ROOT, "tests/traces/*.json")))
U32 = "expected a whole number from 0 to 4,294,967,295, in digits only"


def fail(words):
    raise AssertionError(words)


def built(*names):
    """The path of the program, or None."""
    try:
        return program.found(None, *names)
    except Bad:
        return None


def built_session():
    """The path of the program for sessions, or None."""
    return built(*program.SESSION)


needs_program = unittest.skipUnless(built(), "there is no program: ./build makes it")
needs_both = unittest.skipUnless(built() and built_session(), "there are not both programs: ./build makes them")


def loaded(name):
    """A script of the repository's tests as a module."""
    spec = importlib.util.spec_from_file_location("repository_" + os.path.basename(name)[:-3], os.path.join(ROOT, name))
    module = importlib.util.module_from_spec(spec)
    spec.loader.exec_module(module)
    return module


def read(name):
    with open(os.path.join(ROOT, name), encoding="utf-8") as file:
        return file.read()


def started(*words, command=COMMAND, given=None, folder=None, environment=None):
    """Status, standard output and standard error of the command, in a process of its own, with some text as its input."""
    ran = subprocess.run([command, *words], input=(given or "").encode(), capture_output=True, check=False, cwd=folder, env=environment)
    return ran.returncode, ran.stdout.decode(), ran.stderr.decode()


def run(*words, given="", folder=None):
    """The same within this process, which is faster."""
    streams = [io.TextIOWrapper(io.BytesIO(given.encode() if part == 0 else b""), encoding="utf-8") for part in range(3)]
    before, here = (sys.stdin, sys.stdout, sys.stderr), os.getcwd()
    sys.stdin, sys.stdout, sys.stderr = streams
    os.chdir(folder or here)
    try:
        status = cli.main(list(words))
    except SystemExit as end:
        status = end.code
    finally:
        os.chdir(here)
        sys.stdin, sys.stdout, sys.stderr = before
    for stream in streams[1:]:
        stream.flush()
    return status, *(stream.buffer.getvalue().decode() for stream in streams[1:])


class Case(unittest.TestCase):
    """A test with a folder of its own."""

    maxDiff = 4000

    def setUp(self):
        folder = tempfile.TemporaryDirectory()
        self.addCleanup(folder.cleanup)
        self.there = folder.name

    def written(self, name, text):
        path = os.path.join(self.there, name)
        with open(path, "wb") as file:
            file.write(text if isinstance(text, bytes) else text.encode())
        return path

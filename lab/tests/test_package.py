"""The wheel that pip makes and installs, as far as that needs no network, and progress."""
import io
import os
import re
import subprocess
import sys
import unittest
import zipfile
from unittest import mock

from support import LAB, ROOT, Case, read
import numalab
from numalab import progress

sys.path.insert(0, LAB)
import wheel_of  # noqa: E402


class Terminal(io.StringIO):
    def isatty(self):
        return True


class Package(Case):
    """What is installed."""

    def test_says_the_same_twice(self):
        project = read("lab/pyproject.toml")
        for key, value in [("name", wheel_of.NAME), ("version", wheel_of.VERSION), ("version", numalab.__version__), ("description", wheel_of.SUMMARY)]:
            self.assertIn(f'{key} = "{value}"', project)
        for name, module in wheel_of.EXTRAS.items():
            self.assertIn(f'{name} = ["{module}"]', project)
        self.assertEqual(read("VERSION").strip(), wheel_of.VERSION)
        self.assertIn(re.search(r"numalab = (\S+)", wheel_of.COMMANDS)[1], project)

    def test_wheel(self):
        name = wheel_of.build_wheel(self.there)
        with zipfile.ZipFile(os.path.join(self.there, name)) as wheel:
            names = set(wheel.namelist())
            wheel.extractall(self.there)
        self.assertTrue({"numalab/cli.py", "numalab/commands/show.py", "numalab/trace.schema.json", "numalab/picture.html",
                         "numalab/policies/builtin.py", "numalab/policies/comparison.html", "numalab/policies/sweep.html", "numalab/policies/common.css",
                         "numalab/policies/common.js"} <= names)
        ran = subprocess.run([sys.executable, "-m", "numalab", "why", f"{ROOT}/examples/three_pages.json"], cwd=self.there, capture_output=True,
                             check=False)
        self.assertEqual((ran.returncode, ran.stdout), (0, b"good\n"))


class Waiting(unittest.TestCase):
    """Progress is shown only at a terminal, and only for what takes long."""

    def shown(self, stream, patience, *done):
        with mock.patch.object(sys, "stderr", stream), mock.patch.object(progress, "PATIENCE", patience):
            with progress.Progress("step") as told:
                told.at(*(done or (3, 10)))
        return stream.getvalue()

    def test_progress(self):
        self.assertEqual(self.shown(Terminal(), 0), "\r\033[Kstep: 3 of 10\r\033[K")
        self.assertEqual(self.shown(Terminal(), 60), "")
        self.assertEqual(self.shown(Terminal(), 0, 3), "\r\033[Kstep: 3\r\033[K")
        self.assertEqual(self.shown(io.StringIO(), 0), "")


if __name__ == "__main__":
    unittest.main()

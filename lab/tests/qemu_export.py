"""Exported tests of all scenarios: they compile without a warning, and pass on both kernels in guests. lab/kernels fetches what is
needed."""
import concurrent.futures
import os
import re
import subprocess
import unittest

from support import LAB, Case
from numalab.linux import differences, export, guest, many
from numalab.linux.instructions import Instructions, short_name

FLAGS = ["-std=gnu17", "-O1", "-Wall", "-Wextra", "-Werror", "-static-pie", "-s"]
ROOM = 80000  # pages of node 0 for the programs themselves
SOME = 24  # how many tests a guest runs


def compiled(source, path):
    """Compiles a source; what the compiler says."""
    ran = subprocess.run(["gcc", *FLAGS, "-o", path, source], capture_output=True, check=False)
    return ran.stderr.decode()


class Exported(Case):
    def sources(self, version):
        """The tests by name, those that share a guest together."""
        groups = {}
        for trace, privilege in many.scenarios():
            instructions, name = Instructions(trace, privilege=privilege), short_name(trace.name)[:-3]
            expected = export.answers_of_kernel(trace, version, privilege)
            source = export.source_of(trace, "tap", f"Linux {version}", expected, privilege)
            shape = (many.shape_of(trace, instructions), len(trace.top["machine"]["nodes"]))
            groups.setdefault(shape, []).append((trace, name, self.written(f"{version}-{name}.c", source)))
        return groups

    def told(self, kernel, init, files, shape):
        """What tests print in a guest, by name."""
        more = []
        for name, path in files.items():
            with open(path, "rb") as file:
                more.append((f"tests/{name}", file.read()))
        told = guest.told_by(kernel, init, "", shape, more=more)
        self.assertIsNone(told.trouble)
        return dict(zip(*[iter(re.split(r"(?m)^# trace (.*)\n", told.report)[1:])] * 2))

    def play(self, version):
        init = os.path.join(self.there, "init")
        self.assertEqual(compiled(os.path.join(LAB, "tests/data/init.c"), init), "")
        kernel, passed, skipped = guest.kernel_asked(version), 0, set()
        for ((distance, removable), _), whole in self.sources(version).items():
            with concurrent.futures.ThreadPoolExecutor(2) as pool:
                said = list(pool.map(lambda one: compiled(one[2], one[2][:-2]), whole))
            self.assertEqual([text for text in said if text], [])
            sizes = [max(frames) for frames in zip(*(trace.top["machine"]["nodes"] for trace, _, _ in whole))]
            sizes[0] += ROOM
            for group in (whole[first : first + SOME] for first in range(0, len(whole), SOME)):
                files = {name: source[:-2] for _, name, source in group}
                found = self.told(kernel, init, files, (sizes, distance, removable))
                # A kernel may find a frame in a full node after all: what fails is run once more.
                again = {name: files[name] for name, text in found.items() if "\nnot ok" in text}
                found.update(self.told(kernel, init, again, (sizes, distance, removable)) if again else {})
                for name in files:
                    lines = found[name].split("\n")
                    self.assertEqual([line for line in lines if line.startswith("not ok")], [], f"{name} on {version}:\n{found[name]}")
                    self.assertIn("# status 0", lines, name)
                    passed += 1
                    skipped |= {line.split("# SKIP ")[1] for line in lines if "# SKIP" in line}
        self.assertEqual(passed, len(many.scenarios()))
        # No test is skipped as a whole, and no step for want of something.
        self.assertLessEqual(skipped, {export.UNCHECKED_FREE, export.UNCHECKED_OWN, export.UNCHECKED_OPEN})

    def test_they_pass(self):
        for version in differences.KERNELS:
            self.play(version)


if __name__ == "__main__":
    unittest.main()

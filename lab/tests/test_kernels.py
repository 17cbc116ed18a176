"""lab/kernels, with tools that stand in for apt-get and its kind: what it fetches, and what it says is missing."""
import os
import subprocess
import unittest

from support import LAB, Case

TOOLS = {
    "qemu-system-x86_64": "exit 0",
    # The lists of backports are those with a sources.list of their own.
    "apt-get": 'case "$*" in *update*) case "$*" in *sources.list*) exit $(cat "$0.backports") ;; esac ;;\n'
               '*download*) for name; do :; done; : > "${name}_1_amd64.deb" ;; *) echo "$*" >> "$0.log" ;; esac',
    "apt-cache": 'case "$*" in *sources.list*) series="6.12.9 6.17.8 6.17.13 7.0.4" ;; *) series="6.1.0-9 6.1.0-57 6.1.0-8 6.12.117" ;; esac\n'
                 'for one in $series; do echo "linux-image-$one-cloud-amd64"; echo "linux-image-$one-amd64"; done; echo linux-image-cloud-amd64',
    # From 7.0 on the kernel is in another package.
    "dpkg-deb": 'mkdir -p "$3/boot"; name=$(basename "$2" _1_amd64.deb); case $name in linux-image-7*) ;; *) echo "$name" > "$3/boot/vmlinuz-${name#linux-*-}" ;; esac',
}


class Kernels(Case):
    def setUp(self):
        super().setUp()
        for name, text in TOOLS.items():
            os.chmod(self.written(name, f"#!/bin/sh\n{text}\n"), 0o755)
        self.folder = os.path.join(self.there, "kernels")

    def fetch(self, *words, backports=0):
        self.written("apt-get.backports", str(backports))
        environment = {**os.environ, "PATH": self.there + os.pathsep + os.environ["PATH"], "NUMALAB_KERNELS": self.folder}
        ran = subprocess.run([os.path.join(LAB, "kernels"), *words], capture_output=True, check=False, env=environment)
        return ran.returncode, ran.stderr.decode()

    def test_two_kernels(self):
        status, err = self.fetch()
        self.assertEqual(status, 0, err)
        self.assertEqual(sorted(os.listdir(self.folder)), ["vmlinuz-6.1.0-57-cloud-amd64", "vmlinuz-6.12.117-cloud-amd64"])
        self.assertEqual(self.fetch(), (0, ""), "what is there is not fetched again")

    @unittest.skipUnless(os.path.exists("/usr/share/keyrings/debian-archive-keyring.gpg"), "this is no Debian")
    def test_more(self):
        status, err = self.fetch("--more")
        self.assertEqual(status, 0, err)
        self.assertEqual(sorted(os.listdir(self.folder)), [f"vmlinuz-{one}-cloud-amd64" for one in ("6.1.0-57", "6.12.117", "6.17.13", "7.0.4")])
        with open(os.path.join(self.folder, "vmlinuz-7.0.4-cloud-amd64"), encoding="ascii") as file:
            self.assertEqual(file.read(), "linux-binary-7.0.4-cloud-amd64\n")

    @unittest.skipUnless(os.path.exists("/usr/share/keyrings/debian-archive-keyring.gpg"), "this is no Debian")
    def test_backports_that_are_not_reached(self):
        status, err = self.fetch("--more", backports=100)
        self.assertEqual(status, 1)
        self.assertIn("lab/kernels: bookworm-backports is not reached: its kernels are missing\n", err)
        self.assertEqual(len(os.listdir(self.folder)), 2)

    def test_bad_words(self):
        self.assertEqual(self.fetch("6.5"), (2, "lab/kernels: usage: lab/kernels [--more]\n"))


if __name__ == "__main__":
    unittest.main()

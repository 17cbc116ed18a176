"""Guests: all scenarios on both kernels, compared with the program; and a guest that ends early. lab/kernels fetches what they need."""
import os
import unittest

from support import Case, needs_program, run, started
from numalab.linux import guest, player
from numalab.traces import Bad


class Guests(Case):
    @needs_program
    def test_all_scenarios(self):
        status, out, err = started("compare", "--all", "--qemu", "-o", self.there)
        self.assertEqual((status, err), (0, ""), out)
        self.assertEqual(out.count(" 0 DIFFERENT\n"), 4, out)
        self.assertEqual(sorted(os.listdir(self.there)), ["6.1.replayed", "6.12.replayed"])

    @needs_program
    def test_one_trace(self):
        trace = self.written("t.nt", "nodes 8 + cxl 16\nspawn p\nmap p A 2\nwrite p A 61\nmove_pages p A to cxl\nquery p A\npagemap p\n")
        for kernel in ("6.1", "6.12"):
            status, out, err = run("compare", trace, "--qemu", "--kernel", kernel)
            self.assertEqual((status, err), (0, ""), out)
            self.assertEqual(out.count(" same\n"), 7, out)

    def test_a_guest_that_ends_early(self):
        # An unknown instruction counts as a call of a process that is not there; one that the player cannot follow stops it.
        with self.assertRaisesRegex(Bad, "without a whole report; its console shows\\n(.*\\n)*.*memfd_create"):
            guest.boot(guest.kernel_asked("6.1"), player.built(), "shared 5000 1\n", ([8], ((10,),), frozenset()))


if __name__ == "__main__":
    unittest.main()

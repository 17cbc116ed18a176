"""Workloads that are read from files: lackey, perf, DAMON and CSV; what has no place, areas, scale and epochs."""
import gzip
import os
import random
import unittest
from collections import Counter
from unittest import mock

from support import LAB, Case
from laboratory import compared, setup_with, total
from numalab.policies.bounds import EPOCHS, STATIC
from numalab.policies.counting import epochs_of
from numalab.policies import streams
from numalab.policies.streams import FORMATS, PageSet, Record, read_from, scale_for
from numalab.traces import Bad

DATA = os.path.join(LAB, "tests", "data")
PERF = """# a heading
           walk  4711 [002]  12.000000:          1 cpu/mem-loads,ldlat=30/P:     7f0000001008  5080022 |OP LOAD|LVL L1 hit|
           walk  4711/4712  12.500000:  cpu/mem-stores/P:     7f0000003000
     a b c  4800 [000]  13.000000:  cpu/mem-loads/P:     7f0000001fff
   swapper     0 [000]  13.500000:  cpu/mem-loads/P:     7f0000001000
           walk  4711 [001]  14.000000:  cpu/mem-loads/P:  ffff888000001000
           walk  4711 [001]  14.500000:          1 page-faults:  56050a4e8424 add+0x40 (walk)
"""
DAMON = """base_time_absolute: 8 m 59.809 s

monitoring_start:                0 ns
monitoring_end:            100.0 ms
target_id: 18446623438842320000
nr_regions: 3
10000-14000(  16.000 KiB):        2
20000-28000(  32.000 KiB):        0
30000-31000(   4.000 KiB):        5

monitoring_start:          100.0 ms
monitoring_end:            200.0 ms
target_id: 18446623438842320000
nr_regions: 1
20000-22000(   8.000 KiB):        1
"""


class Read(Case):
    """What each format means, by hand."""

    def workload(self, kind, text, words="", frames=(8, 64)):
        return read_from(f"{kind} {self.written('stream', text)} {words}", setup_with(*frames))

    def counted(self, workload):
        """For each epoch how often each (address of the page, process, kind) is accessed."""
        pids, addresses = [process.pid for process in workload.processes], {}
        for region in workload.regions:
            addresses.update({len(addresses) + k: region.address + 4096 * k for k in range(region.pages)})
        found = []
        for epoch in epochs_of(workload, 100, 1):
            found.append({(hex(addresses[item // 2 // len(pids)]), pids[item // 2 % len(pids)], "rw"[item % 2]): count
                          for item, count in zip(epoch.items, epoch.counts)})
        return found

    def test_lackey(self):
        text = "==7== Lackey\nI  04001000,3\n L 0000000000010ff8,16\n S 1fff0010,8\n M 1fff0018,4\nI  04001003,5\n"
        workload = self.workload("lackey", text, "epochs=1")
        self.assertEqual(self.counted(workload), [{("0x10000", 1, "r"): 1, ("0x1fff0000", 1, "w"): 2, ("0x1fff0000", 1, "r"): 1}])
        self.assertEqual(dict(workload.left_out), {"instruction fetches": 2, "lines that are no access": 1})
        self.assertEqual([(region.address, region.pages) for region in workload.regions], [(0x10000, 1), (0x1FFF0000, 1)])

    def test_perf(self):
        workload = self.workload("perf", PERF, "epochs=2")
        self.assertEqual(self.counted(workload), [{("0x7f0000001000", 4711, "r"): 1}, {("0x7f0000003000", 4711, "w"): 1, ("0x7f0000001000", 4800, "r"): 1}])
        self.assertEqual(dict(workload.left_out), {"lines that are no sample with an address": 2, "accesses by no process": 1,
                                                   "accesses to addresses that no process has": 1})

    def test_damon(self):
        workload = self.workload("damon", DAMON, "epochs=2")
        first = {(hex(0x10000 + 4096 * k), 1, "r"): 2 for k in range(4)}
        self.assertEqual(self.counted(workload), [{**first, ("0x30000", 1, "r"): 5}, {("0x20000", 1, "r"): 1, ("0x21000", 1, "r"): 1}])
        self.assertEqual(workload.left_out["regions without an access"], 1)
        self.assertEqual(workload.accesses, 4 * 2 + 5 + 2)

    def test_times_of_damon(self):
        text = "".join(f"monitoring_start: {time}\n10000-11000(4.000 KiB): {count}\n" for time, count in [("0 ns", 1), ("1 m 30.000 s", 2), ("1,000.5 s", 4)])
        self.assertEqual([sum(epoch.values()) for epoch in self.counted(self.workload("damon", text, "epochs=10"))], [3] + [0] * 8 + [4])

    def test_csv(self):
        text = "time,process,address,kind\n0,9,65536,r\n1.5,9,0x11000,WRITE\n2,3,0x10000,m\nx\n3,9,0x10000,?\n4,3,0x10000,l\n"
        workload = self.workload("csv", text, "epochs=4")
        self.assertEqual(self.counted(workload), [{("0x10000", 9, "r"): 1}, {("0x11000", 9, "w"): 1}, {("0x10000", 3, "r"): 1, ("0x10000", 3, "w"): 1},
                                                  {("0x10000", 3, "r"): 1}])
        self.assertEqual(workload.left_out["lines that are not a time, a process, an address and a kind"], 2)

    def test_what_has_no_place(self):
        lines = ["0,1,0x0,r", "1,1,-1,r", "nan,1,0x1000,r", "inf,1,0x1000,r", "2,0,0x1000,r", "3,1,0x800000000000,r", "4,1,0x7ffffffff000,w", "5,1,1e3,r", "6,1,4096,r,7"]
        workload = self.workload("csv", "\n".join(lines) + "\n", "epochs=1")
        self.assertEqual(self.counted(workload), [{("0x0", 1, "r"): 1, ("0x7ffffffff000", 1, "w"): 1}])
        self.assertEqual(dict(workload.left_out), {"accesses to addresses that no process has": 2, "accesses at no time": 2, "accesses by no process": 1,
                                                   "lines that are not a time, a process, an address and a kind": 2})
        results = compared(setup_with(8, 8), f"csv {os.path.join(self.there, 'stream')} epochs=1", "first-touch")
        self.assertEqual(total(results, "first-touch")["by_node"], [2, 0])

    def test_more_processes_than_frames(self):
        with self.assertRaisesRegex(Bad, "there are 2 pages, and the processes may use 1 frame"):
            self.workload("csv", "0,1,4096,r\n1,2,4096,r\n", "", (1,))

    def test_areas_and_scale(self):
        lines = [f" L {4096 * page:x},8" for page in [*range(16, 32), *range(64, 80), 400]]
        areas = {1: [(16, 16), (64, 16), (400, 1)], 4: [(4, 4), (16, 4), (100, 1)], 8: [(2, 2), (8, 2), (50, 1)]}
        for words, frames, scale in [("", (8, 64), 1), ("scale=4", (8, 64), 4), ("", (2, 8), 4), ("", (2, 3), 8)]:
            workload = self.workload("lackey", "\n".join(lines) + "\n", "epochs=1 " + words, frames)
            self.assertEqual(workload.scale, scale)
            self.assertEqual([(region.address // 4096, region.pages) for region in workload.regions], areas[scale])
            self.assertEqual(sum(sum(epoch.values()) for epoch in self.counted(workload)), 33)

    def test_few_pages_are_kept(self):
        drawn, pages = random.Random(3), PageSet(0)
        there = {drawn.randrange(1 << 20) for _ in range(3000)}
        with mock.patch.object(streams, "MOST_KEPT", 200):
            pages.most = 200
            for page in there:
                pages.add(Record(None, 1, page * 4096, page * 4096 + (1 if page % 7 else 4096 * 5), (0,), 1))
                self.assertLessEqual(len(pages.pages) + len(pages.stretches), 401)
        there |= {page + k for page in there if page % 7 == 0 for k in range(5)}
        scale = scale_for([pages], 100, 0)
        self.assertEqual({group for first, end in pages.groups(scale) for group in range(first, end)}, {page // scale for page in there})
        self.assertTrue(len({page // scale for page in there}) <= 100 < len({page // (scale // 2) for page in there}))

    def test_damon_scaled(self):
        workload = self.workload("damon", DAMON, "epochs=1 scale=8")
        # Pages 16 to 19 are in the third group, 48 in the seventh; 32 and 33 in the fifth.
        self.assertEqual(self.counted(workload), [{("0x2000", 1, "r"): 8, ("0x6000", 1, "r"): 5, ("0x4000", 1, "r"): 2}])

    def test_homes_and_processes(self):
        workload = self.workload("csv", "0,9,0x10000,r\n1,3,0x10000,r\n", "epochs=1 homes=0-1")
        self.assertEqual([(process.pid, process.home) for process in workload.processes], [(3, 0), (9, 1)])

    def test_compressed(self):
        path = self.written("x.gz", gzip.compress(b" L 10000,8\n"))
        self.assertEqual(read_from(f"lackey {path} epochs=1", setup_with(1, 1)).accesses, 1)
        with self.assertRaises(Bad):
            read_from(f"lackey {self.written('y.gz', b'no gzip')}", setup_with(1, 1))

    def test_a_name_with_spaces(self):
        path = self.written("a name", " L 10000,8\n")
        self.assertEqual(read_from(f"lackey '{path}' epochs=1", setup_with(1, 1)).accesses, 1)
        with self.assertRaisesRegex(Bad, "No closing quotation"):
            read_from("lackey 'x", setup_with(1, 1))

    def test_nothing_in_it(self):
        for kind in FORMATS[:4]:
            with self.assertRaisesRegex(Bad, "no access was found"):
                self.workload(kind, "nothing\n")


class Matrix(Case):
    """A C program that walks a matrix of 64 pages by rows or by columns (data/matrix.c), as lackey showed it."""

    def compared(self, walk):
        return compared(setup_with(16, 100), f"lackey {DATA}/matrix_{walk}.lackey.gz epochs=16", "first-touch", "hints")

    def test_both_walks(self):
        # Row by row an epoch reads 4 of 64 pages, which 16 frames hold; column by column it reads all of them alike.
        for walk, pages, best in [("rows", 4, 1.0), ("columns", 64, 0.25)]:
            results = self.compared(walk)
            self.assertEqual(results.workload.accesses, 64 * 64)
            self.assertEqual([sum(count > 0 for count in Counter(epoch.places).values()) for epoch in epochs_of(results.workload, 1, 1)], [pages] * 16)
            self.assertEqual(total(results, EPOCHS)["fast_share"], best)
            for label in (STATIC, "first-touch"):
                self.assertEqual(total(results, label)["fast_share"], 0.25)
            self.assertEqual([row["fast_share"] for row in results.rows_of("first-touch")], [1.0] * 4 + [0.0] * 12 if walk == "rows" else [0.25] * 16)


if __name__ == "__main__":
    unittest.main()

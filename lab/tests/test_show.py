"""numalab show: what it prints of a trace and its report, as rows and as objects, and the reasons."""
import json
import unittest

from support import ROOT, TRACES, Case, loaded, read, run
from numalab import model
from numalab.faults import Form
from numalab.notate import known_keys
from numalab.reasons import explained
from numalab.translate import trace_from

DRAWN = 150
ROWS = """     0  spawn 1 uid 100 home 0 allowed all                    ok
     1  map 1 5 pages at 0x10000                              segment=0
     2  write 1 0x10000 "a"                                   ok
           because: a new page, frame 0: node 0, first in the order 0 1 (home 0)
     3  write 1 0x11000 "b"                                   ok
           because: a new page, frame 1: node 0, first in the order 0 1 (home 0)
     4  write 1 0x12000 "c"                                   ok
           because: a new page, frame 2: node 0, first in the order 0 1 (home 0)
     5  read 1 0x13000 len 1                                  00
           because: the page of zeros: private memory that was never written
     6  move_pages 1 7 entries flags MPOL_MF_MOVE             1 failed
          0x50000 to node 1                                   -14 EFAULT
           because: no area covers this address
          0x14000 to node 1                                   -2 ENOENT
           because: nothing has been touched there
          0x13000 to node 1                                   -14 EFAULT
           because: the page of zeros: it was read but never written
          0x10000..0x11000 (2 pages) to node 1                1
           because: it moved from frames 0 1 on node 0 to frames 4 5, the front of node 1's list
          0x12000 to node 1                                   -12 ENOMEM
           because: node 1 has no free frame left: its run took 2 frames
          0x10000 to node 1                                   1
           because: it is already there, in frame 4
     7  pagemap 1                                             4 entries
          0x10000..0x11000 (2 pages)                          frames 4 5 on node 1
          0x12000                                             frame 2 on node 0
          0x13000                                             the page of zeros
     8  free 0                                                3 free frames: 3 0 1
     9  free 1                                                0 free frames
"""

NAMED = """nodes 2x2 + cxl 8
spawn app
spawn db home 1 privileged
map app heap 6
map app log 1 shared
attach db seen of log
note "fills"
write app heap[0:5] "x"
read db seen
read app log
pin app heap[0]
note "moves"
move_pages app heap[0:3], log, 0x90000 to cxl
pagemap app
mbind app heap MPOL_BIND cxl flags MPOL_MF_MOVE
numa_maps app
offline cxl
mbind app heap[4:] MPOL_BIND cxl flags MPOL_MF_STRICT
note "over"
"""
NAMED_ROWS = """     0  spawn app (1) uid 1000 home 0 allowed all             ok
     1  spawn db (2) uid 1000 home 1 allowed all privileged   ok
     2  map app heap 6 pages at 0x10000                       segment=0
     3  map app log 1 page at 0x20000 shared                  segment=1
     4  attach db seen segment 1 offset 0 1 page at 0x30000   ok
        # fills
  5..9  write app heap[0:5] "x"                               ok
           because: heap[0:2] (2 pages): a new page, frames 0 1: node 0, first in the order 0 1 2 (home 0)
           because: heap[2:4] (2 pages): a new page, frames 2 3: node 1, second in the order 0 1 2 (home 0); 0 is full
           because: heap[4]: a new page, frame 4: node 2 (cxl), third in the order 0 1 2 (home 0); 0 and 1 are full
    10  read db seen[0] len 1                                 00
           because: a new page, frame 5: node 2 (cxl), third in the order 1 0 2 (home 1); 1 and 0 are full
    11  read app log[0] len 1                                 00
           because: page 0 of segment 1 was touched before: it is in frame 5, on node 2 (cxl)
    12  pin app heap[0]                                       ok
        # moves
    13  move_pages app 5 entries flags MPOL_MF_MOVE           1 failed
          heap[0] to node 2 (cxl)                             -16 EBUSY
           because: it has 1 pin
          heap[1] to node 2 (cxl)                             2
           because: it moved from frame 1 on node 0 to frame 6, the front of node 2's list
          heap[2] to node 2 (cxl)                             2
           because: it moved from frame 2 on node 1 to frame 7, the front of node 2's list
          log[0] to node 2 (cxl)                              2
           because: it is already there, in frame 5
          0x90000 to node 2 (cxl)                             -14 EFAULT
           because: no area covers this address
    14  pagemap app                                           6 entries
          heap[0]                                             frame 0 on node 0
          heap[1:3] (2 pages)                                 frames 6 7 on node 2 (cxl)
          heap[3]                                             frame 3 on node 1
          heap[4]                                             frame 4 on node 2 (cxl)
          log[0]                                              frame 5 on node 2 (cxl)
    15  mbind app heap[*] MPOL_BIND cxl flags MPOL_MF_MOVE    0
           because: heap[0] to 2 (cxl): -16 EBUSY: it has 1 pin
           because: heap[3] to 2 (cxl): 2: it moved from frame 3 on node 1 to frame 8, the front of node 2's list
    16  numa_maps app                                         2 areas
          00010000 bind:2 anon=5 N0=1 N2=4 kernelpagesize_kB=4  (heap[0])
          00020000 default anon=1 mapmax=2 N2=1 kernelpagesize_kB=4  (log[0])
    17  offline 2 (cxl)                                       error EBUSY
           because: page 1 of segment 0: frame 6 to frame 1, on node 0
           because: pages 2 3 of segment 0: frames 7 8 to frames 2 3, on node 1
           because: 2 pages of node 2 (cxl) stay: heap[4] of app (process 1) found no free frame; log[0] of app (process 1) found no free frame
    18  mbind app heap[4:6] MPOL_BIND cxl flags MPOL_MF_STRICT  0
           because: MPOL_MF_STRICT: the one page that the process sees there follows bind:2
        # over
"""

# Statements after a machine of [2, 2, 2], the step that is asked about, and its reasons with what they are about.
HEAD = "nodes 3x2\ndistance 10 20 30\ndistance 20 10 20\ndistance 30 20 10\nspawn p\nspawn q home 2 privileged\nmap p A 6\nmap p S 2 shared\nattach q T of S\n"
REASONS = [
    ("write p A 61", 9, [(None, "a new page, frame 4: node 2, third in the order 0 1 2 (home 0); 0 and 1 are full")]),
    ("mbind p A MPOL_INTERLEAVE 0,2\nwrite p A[1] 61", 6, [(None, "a new page, frame 4: node 2, first in the order 2 1 0 (interleave:0,2)")]),
    ("read p S[1]\nread q T[1]", 6, [(None, "page 1 of segment 1 was touched before: it is in frame 0, on node 0")]),
    ("read p S[0]\nread q T[0]\nmove_pages p S[0] to 1", 7, [(0, "process 2 sees it too")]),
    ("write p A[0] 61\npin p A[0]\npin p A[0]\nmove_pages p A[0] to 1", 8, [(0, "it has 2 pins")]),
    ("write p A[0] 61\nquery p A[0:2]", 6, [(0, "it is in frame 0"), (1, "nothing has been touched there")]),
    ("write p A[0] 61\nmove_pages p A[0] to 2 during\nread p A[0]\nread p A[1]\nwrite p A[2] 61\nend", 6, [
        (0, "it moved from frame 0 on node 0 to frame 4, the front of node 2's list"), ("0", "its run moves the page from frame 0 to 4"),
        ("1", "the page of zeros: private memory that was never written"),
        ("2", "a new page, frame 1: node 0, first in the order 0 1 2 (home 0)")]),
    ("write p A[0] 61\nmigrate_pages p from 0 to 1", 6, [
        (None, "pairs of nodes: 0 to 1"), (None, "0x10000 to 1: 1: it moved from frame 0 on node 0 to frame 2, the front of node 1's list")]),
    ("write p A[0:2] 61\npin p A[0]\nmbind p A MPOL_BIND 2 flags MPOL_MF_MOVE|MPOL_MF_STRICT", 8, [
        (None, "0x10000 to 2: -16 EBUSY: it has 1 pin"),
        (None, "0x11000 to 2: 2: it moved from frame 1 on node 0 to frame 4, the front of node 2's list"),
        (None, "MPOL_MF_STRICT: not all pages follow bind:2 after the moves: 0x10000 is on node 0")]),
    ("write p A[0:2] 61\npin p A[1]\noffline 0", 8, [
        (None, "page 0 of segment 0: frame 0 to frame 2, on node 1"), (None, "1 page of node 0 stays: 0x11000 of process 1 is pinned")]),
]
OBJECTS = [
    ("examples/while_pages_move", 8, {"answer": 0, "statuses": [1], "during": [
        {"held": True}, {"held": True}, {"data": "62"}, {"ok": True}, {"error": "ENOMEM", "errno": 12}]}),
    ("examples/three_pages", 1, {"segment": 0}), ("examples/three_pages", 9, {"data": "6200"}),
    ("examples/three_pages", 8, {"entries": [{"address": 65536, "frame": 4}, {"address": 69632, "frame": 5}, {"address": 73728, "frame": 6}]}),
    ("examples/evacuate", 8, {"areas": [{"address": 65536, "policy": "default", "anon": 2, "mapmax": 1, "nodes": {"0": 1, "1": 1}}]}),
    ("examples/evacuate", 7, {"answer": 1}), ("examples/evacuate", 13, {"pgmigrate_success": 2, "pgmigrate_fail": 1}),
    ("examples/refusals", 0, {"ok": True}), ("examples/refusals", 6, {"error": "ESRCH", "errno": 3}),
]


class Show(Case):
    """With the report beside the trace, so that no program is needed."""

    def test_rows(self):
        name = f"{ROOT}/examples/why_not_moved"
        self.assertEqual(run("show", "--why", name + ".json", name + ".report"), (0, ROWS, ""))
        plain = "".join(line + "\n" for line in ROWS.splitlines() if "because" not in line)
        self.assertEqual(run("show", name + ".json", name + ".report"), (0, plain, ""))

    def test_named_rows(self):
        trace, report = self.written("named.nt", NAMED), self.written("named.report", model.report(trace_from(NAMED.encode(), "named.nt")))
        self.assertEqual(run("show", "--why", trace, report), (0, NAMED_ROWS, ""))

    def test_areas_that_touch(self):
        text = 'nodes 8\nspawn p\nmap p A 2 at 0x10000\nmap p B 2 at 0x12000\nrepeat 4 as i\nread p 0x10000[i]\nend\n'
        trace, report = self.written("x.nt", text), self.written("x.report", model.report(trace_from(text.encode(), "x.nt")))
        self.assertEqual(run("show", trace, report)[1].splitlines()[3:], [
            "  3..4  read p A[*] len 1                                     00", "  5..6  read p B[*] len 1                                     00"])

    def test_kernels_beside_steps(self):
        text = read("lab/scenarios/move-pinned.nt").split("pagemap")[0]
        text = text.replace("write", "read p A[*]\nwrite", 1)
        trace, report = self.written("x.nt", text), self.written("x.report", model.report(trace_from(text.encode(), "x.nt")))
        status, out, err = run("show", "--why", "--kernel", "6.1", trace, report)
        rows = out.splitlines()
        self.assertEqual((status, err, rows[-2]), (0, "", "           on Linux 6.1: 1: - - -"))
        self.assertIn("read p A[*] len 1", next(row for row in rows if ".." in row))

    def test_few_lines(self):
        text = read("examples/half_demoted.nt")
        trace, report = self.written("x.nt", text), self.written("x.report", model.report(trace_from(text.encode(), "x.nt")))
        status, out, err = run("show", "--why", trace, report)
        self.assertEqual((status, err), (0, ""))
        self.assertLess(len(out.splitlines()), 30)
        for line in ["           because: heap[0:1999:2] (1,000 pages): a new page, frames 0..999: node 0, first in the order 0 1 2 (interleave:0-1)",
                     "          heap[1:2000:2] (1,000 pages)                        frames 1200..2199 on node 1"]:
            self.assertIn(line, out.splitlines())
        shown = [line[4:] for line in read("docs/MANUAL.md").splitlines() if "..2002 " in line or "heap[0:1999:2]" in line or "heap[1:2000:2]" in line]
        self.assertEqual([line for line in out.splitlines() if line in shown], shown)
        self.assertEqual(len(shown), 3)
        self.assertGreater(len(run("show", "--why", "--all", trace, report)[1].splitlines()), 4000)

    def test_numa_maps_stands_under_its_step(self):
        out = run("show", f"{ROOT}/examples/evacuate.json", f"{ROOT}/examples/evacuate.report")[1]
        self.assertIn("1 area\n          00010000 default anon=2 N0=1 N1=1 kernelpagesize_kB=4\n", out)

    def test_long_batches_are_short(self):
        name = f"{ROOT}/tests/traces/longest_batch"
        status, out, _ = run("show", name + ".json", name + ".report")
        self.assertEqual(status, 0)
        self.assertLess(len(out.splitlines()), 3 * len(json.loads(read(name + ".json"))["steps"]) + 20)

    def test_objects(self):
        for name, k, answer in OBJECTS:
            status, out, err = run("show", "--jsonl", f"{ROOT}/{name}.json", f"{ROOT}/{name}.report")
            told = json.loads(out.splitlines()[k])
            self.assertEqual((status, err, told["step"], told["answer"]), (0, "", k, answer), name)
            step = json.loads(read(name + ".json"))["steps"][k]
            self.assertEqual({"op": told["op"], **told["arguments"]}, step)

    def test_every_report(self):
        for path in TRACES:
            for words in ([], ["--jsonl"]):
                status, out, err = run("show", *words, path, path[:-4] + "report")
                self.assertEqual((status, err), (0, ""), path)
                self.assertGreaterEqual(len(out.splitlines()), len(json.loads(read(path))["steps"]))

    def test_reasons_in_objects(self):
        name = f"{ROOT}/examples/while_pages_move"
        told = [json.loads(line) for line in run("show", "--jsonl", "--why", name + ".json", name + ".report")[1].splitlines()]
        self.assertEqual(told[8]["why"][:2], [
            {"entry": 0, "reason": "it moved from frame 0 on node 0 to frame 6, the front of node 1's list"},
            {"access": 0, "reason": "its run moves the page from frame 0 to 6"}])

    def test_other_reports(self):
        trace = f"{ROOT}/examples/three_pages.json"
        other = self.written("other.report", read("examples/three_pages.report").replace("1: 7", "1: 4"))
        status, out, err = run("show", "--why", trace, other)
        self.assertEqual((status, "because" in out), (1, False))
        self.assertEqual(err, f"numalab: {other}: line 8 of the plain model's report differs, so no reasons are given\n")
        for text, fault in [("0 map ok\n", "line 1: the trace has a different step 0"), ("0 spawn ok", "the last line has no line feed: the report was cut off"),
                            ("0 spawn ok\n1 map 7\n", "line 2: 7 is not an answer of map"), ("0 spawn ok\n1 map segment=-1\n", "line 2: segment=-1 is not an answer of map"),
                            (read("examples/three_pages.report").replace("0: 1 1 1", "0: 1 1"), "line 6: expected 3 statuses"),
                            (read("examples/three_pages.report").replace("00012000=6", "00012000=8"), "line 9: a frame is not in the trace"),
                            (read("examples/three_pages.report").replace("6200", "620"), "line 10: 620 is not an answer of read")]:
            report = self.written("bad.report", text)
            self.assertEqual(run("show", trace, report)[::2], (2, f"numalab: {fault}\n"))
        front = self.written("front.report", "0 spawn ok\n1 map segment=0\n")
        self.assertEqual(run("show", "--why", trace, front)[1].splitlines(), [
            "     0  spawn 1 uid 100 home 0 allowed all                    ok", "     1  map 1 3 pages at 0x10000                              segment=0"])
        self.assertEqual(run("show", "-", "-", given="")[0], 2)
        self.assertEqual(run("show", self.written("bad.json", "{}"), front)[0], 2)


class Reasons(unittest.TestCase):
    """Which rule decided: some by hand, and one for each answer of drawn traces."""

    def test_by_hand(self):
        from numalab.translate import translated
        for text, k, reasons in REASONS:
            top, faults = translated((HEAD + text + "\n").encode(), "x.nt")
            self.assertEqual(faults, [], text)
            told = list(explained(known_keys(Form(), top)))[k][1]
            self.assertEqual([reason[:2] for reason in told], reasons, text)

    def test_drawn(self):
        drawn = loaded("tests/drawn.py")
        for number in range(DRAWN):
            drawing = drawn.Drawing(number).draw()
            told = list(explained(drawing.trace))
            self.assertEqual([line for lines, _ in told for line in lines], drawing.lines)
            for step, (lines, reasons) in zip(drawing.trace["steps"], told):
                check_told(self, step, lines, reasons)


# How the reason for each status begins or ends.
WORDS = {-14: ("no area covers this address", "the page of zeros"), -2: ("nothing has been touched there",), -13: ("process",), -16: ("it has",),
         -12: ("node",), None: ("it moved from frame", "it is already there", "it is in frame")}
ENDS = {-13: ("it too",), -16: ("pin", "pins"), -12: ("no free frame", "frame", "frames")}


def check_status(case, status, text):
    """The reason for a status is about it, and about no other."""
    case.assertTrue(text.startswith(WORDS[status if status < 0 else None]), (status, text))
    case.assertTrue(text.endswith(ENDS.get(status, "")), (status, text))


def check_told(case, step, lines, reasons):
    """Each status, access and refusal has its reason, which is not about another error."""
    answer = lines[0].split(" ", 2)[2]
    about = [reason.about for reason in reasons]
    case.assertFalse([reason for reason in reasons if reason.text.startswith("(the rules known here")], (step, lines))
    if answer.startswith("error "):
        case.assertEqual(about.count(None) > 0, True, (step, lines))
    elif step["op"] in ("move_pages", "query"):
        case.assertEqual([one for one in about if isinstance(one, int)], list(range(len(step["pages"]))), (step, lines))
        for status, reason in zip(answer.split(" ")[1:], [one for one in reasons if isinstance(one.about, int)]):
            check_status(case, int(status), reason.text)
        flights = {str(j) for j in range(len(step.get("during", []) if step["op"] == "move_pages" else []))}
        case.assertEqual({one for one in about if isinstance(one, str)}, flights, (step, lines))
    elif step["op"] in ("read", "write"):
        case.assertEqual(about, [None], (step, lines))


if __name__ == "__main__":
    unittest.main()

"""The machine in Python: calls as methods, typed answers, refusals, and what is saved; with a program that plays by the plain model in
place of the built one."""
import errno
import json
import os
import stat
import unittest

from support import LAB, Case, read
from numalab import Machine, Refused, answers
from numalab.program import Failed
from numalab.traces import load

PROGRAM = os.path.join(LAB, "tests", "session_of_model.py")


def bare(steps):
    """Steps without the keys that are for people."""
    return [{key: value for key, value in step.items() if key not in ("at", "name", "note")} for step in steps]


class Calls(Case):
    """Machines, and what they answer."""

    def machine(self, *words, **keys):
        machine = Machine(*words, program=PROGRAM, **keys)
        self.addCleanup(machine.close)
        return machine

    def three_pages(self):
        m = self.machine(nodes=[4, 4])
        p = m.spawn(home=0, uid=100)
        a = p.map(pages=3)
        for address, byte in zip(a, (b"a", b"b", b"c")):
            p.write(address, byte)
        return m, p, a

    def test_three_pages(self):
        m, p, a = self.three_pages()
        moved = m.move_pages(p, a[:], node=1)
        self.assertEqual(moved, answers.Moved(0, [1, 1, 1], []))
        self.assertEqual((moved.step, repr(moved)), (5, "Moved(failed=0, statuses=[1, 1, 1], answers=[])"))
        self.assertEqual([m.free(node).frames for node in (0, 1)], [[3, 0, 1, 2], [7]])
        self.assertEqual(p.pagemap(), answers.Pagemap([(0x10000, 4), (0x11000, 5), (0x12000, 6)]))
        self.assertEqual(p.read(a[1], 2), answers.Read(b"b\0"))
        self.assertEqual(m.report(), read("examples/three_pages.report"))
        m.save(os.path.join(self.there, "x.json"))
        m.save(os.path.join(self.there, "x.nt"))
        steps = [load(os.path.join(self.there, name)).top["steps"] for name in ("x.json", "x.nt")]
        for one in steps:
            self.assertEqual(bare(one), json.loads(read("examples/three_pages.json"))["steps"])
        self.assertIn("test_machine.py:", steps[0][0]["at"])

    def test_refused_at_once(self):
        m, p, a = self.three_pages()
        with self.assertRaises(Refused) as caught:
            m.move_pages(p, a, node=7)
        refused = caught.exception
        self.assertEqual((refused.errno, refused.name, refused.step), (errno.ENODEV, "ENODEV", 5))
        self.assertEqual(refused.why, "move_pages is refused, ENODEV: entry 0: there is no node 7: the machine has nodes 0 to 1")
        self.assertRegex(str(refused), r"^step 5: move_pages is refused, ENODEV: .* \(at .*test_machine\.py:\d+\)$")
        # Later calls raise nothing for it, and its reason stays.
        self.assertEqual((bytes(p.read(a[0])), m.why(refused)), (b"a", refused.why))
        self.assertIn("5 move_pages error ENODEV\n", m.report())

    def test_kinds_of_errors(self):
        m = self.machine([4, 4])
        p = m.spawn(allowed=[0])
        a = p.map(2)
        for call, kind, number in [(lambda: p.pin(a[0]), FileNotFoundError, errno.ENOENT), (lambda: m.spawn(pid=1), OSError, errno.EINVAL),
                                   (lambda: m.move_pages(p, a, node=1), PermissionError, errno.EACCES)]:
            with self.assertRaises(kind) as caught:
                call()
            self.assertIsInstance(caught.exception, Refused)
            self.assertEqual(caught.exception.errno, number)
        self.assertEqual([process.pid for process in m.processes], [1])

    def test_relative_nodes(self):
        m = self.machine("4 + cxl 4, 4")
        p = m.spawn(allowed="!cxl")
        a = p.map(2)
        p.touch(a, write=True)
        self.assertEqual((p.allowed, m.move_pages(p, a, node="0").statuses), ([0, 2], [0, 0]))
        q = m.spawn(allowed=[1, 2])
        b = q.map(2, addr=0x80000)
        self.assertEqual(q.touch(b, write=True), [1, 1])
        self.assertEqual(m.move_pages(q, b, node="+1").statuses, [2, 2])
        self.assertEqual(m.migrate_pages(q, "+1", "+0"), answers.Migrated(0))
        self.assertEqual(q.mbind(b, "MPOL_BIND", "+0", "MPOL_MF_STRICT"), answers.Bound())
        with self.assertRaisesRegex(ValueError, r"move_pages: node is '\+2': \+2 is past the last of the 2 nodes that the process may use"):
            m.move_pages(q, b, node="+2")

    def test_no_calls(self):
        m, p, a = self.three_pages()
        for call, kind, words in [
                (lambda: p.map(pages=-1), ValueError, "map: pages is -1: expected a whole number from 0"),
                (lambda: p.map("3"), TypeError, "map: pages is '3': expected a whole number"),
                (lambda: p.map(True), TypeError, "map: pages is True: expected a whole number"),
                (lambda: p.map(3, 65536), TypeError, "map: name is 65536: expected a name"),
                (lambda: m.spawn(1), TypeError, "spawn: name is 1: expected a name"),
                (lambda: m.spawn("my app"), ValueError, "spawn: name is 'my app': expected a name: a letter or _"),
                (lambda: m.free("0-1"), ValueError, "free: node is '0-1': expected one node, and that is 2"),
                (lambda: m.free("clx"), ValueError, "free: node is 'clx': clx is not a node"),
                (lambda: m.free(None), TypeError, "free: node is None: expected a node"),
                (lambda: p.write("heap", b"a"), TypeError, "write: addr is 'heap': expected an area"),
                (lambda: p.write(a[0], "a"), TypeError, "write: data is 'a': expected bytes"),
                (lambda: p.mbind(a, "MPOL_BID", 1), ValueError, "mbind: mode is 'MPOL_BID': MPOL_BID is not a mode: did you mean MPOL_BIND?"),
                (lambda: p.mbind(a[0], 2, 1), TypeError, "mbind: length is None: expected a whole number"),
                (lambda: m.move_pages(p, a, node=1, flags="MPOL_MF_MOV"), ValueError, "move_pages: flags is 'MPOL_MF_MOV': MPOL_MF_MOV is not a flag"),
                (lambda: m.move_pages(p, a, nodes=[1]), ValueError, "move_pages: nodes has 1 element: expected 3"),
                (lambda: m.move_pages(p, a), TypeError, "move_pages: node is None: expected a node"),
                (lambda: m.move_pages(p, a, node="none"), ValueError, "move_pages: node is an empty set"),
                (lambda: m.move_pages(1, a, node=1), TypeError, "process is 1: expected a process"),
                (lambda: m.move_pages(p, ["x"], node=1), TypeError, "move_pages: pages[0] is 'x': expected a whole number"),
                (lambda: p.touch("heap"), TypeError, "touch: pages is 'heap': expected an area"),
                (lambda: p.touch([-1]), ValueError, "read: addr is -1: expected"),
                (lambda: m.note(3), TypeError, "note: text is 3: expected a text"),
                (lambda: m.why(3), TypeError, "answer is 3: expected an answer"),
                (lambda: a[3], IndexError, "page 3 is not in the area, which has 3 pages"),
                (lambda: a["x"], TypeError, "a place in an area is 'x': expected a page number"),
                (lambda: Machine(7), TypeError, "nodes is 7: expected a list of numbers of frames"),
                (lambda: Machine([4, 0]), ValueError, "machine.nodes[1] is 0: expected"),
                (lambda: Machine("2x4 +"), ValueError, "nodes is '2x4 +': a number of frames"),
                (lambda: Machine([4, 4], distance=[[10]]), ValueError, "machine.distance has 1 row: expected")]:
            with self.assertRaises(kind) as caught:
                call()
            self.assertTrue(str(caught.exception).startswith(words), caught.exception)
        self.assertEqual(len(m.trace()["steps"]), 5)
        self.assertEqual(m.free(1).frames, [4, 5, 6, 7])

    def test_other_calls(self):
        m = self.machine(nodes=[4, 4, 4], distance=[[10, 20, 30], [20, 10, 20], [30, 20, 10]], run_limit=1)
        p, q = m.spawn(home=0), m.spawn(home=1, uid=2, privileged=True, pid=9)
        a = p.map(2, shared=True)
        b = q.attach(a, addr=0x70000)
        c = p.map(2)
        p.write(a[0], b"x")
        last = q.attach(a, offset=1, addr=0x90000)
        again = p.attach(last, addr=0xa0000)
        self.assertEqual((last.pages, last.offset, again.segment, again.offset), (1, 1, 0, 1))
        for area in (last, again):
            self.assertEqual(area.process.unmap(area), answers.Done())
        self.assertEqual((bytes(q.read(b[0])), a.segment, len(b), list(b)), (b"x", 0, 2, [0x70000, 0x71000]))
        p.pin(a[0])
        self.assertEqual(m.move_pages(p, a, nodes=[2, 2], caller=q, flags="MPOL_MF_MOVE_ALL"), answers.Moved(1, [-16, -2], []))
        p.unpin(a[0])
        during = [(0, q, b[0], 1), (0, p, c[0], b"y"), (0, q, 0, 1)]
        moved = m.move_pages(p, a[0], node=2, caller=q, flags=4, during=during)
        self.assertEqual((moved.statuses, moved.answers), ([2], [answers.Held(), answers.Done(), answers.Refusal("EFAULT", errno.EFAULT)]))
        self.assertEqual(m.query(p, [a[0], a[1]]).statuses, [2, -2])
        self.assertEqual(p.mbind(c, "MPOL_BIND", [1], flags="MPOL_MF_MOVE|MPOL_MF_STRICT"), answers.Bound())
        maps = p.numa_maps()
        self.assertEqual([area.policy for area in maps.areas], ["default", "bind:1"])
        self.assertEqual(maps.nodes, {1: 1, 2: 1})
        self.assertEqual(m.migrate_pages(p, old=[1], new=[0], caller=q), answers.Migrated(0))
        for answer in (m.offline(2), m.online(2), p.unmap(c), q.exit()):
            self.assertEqual(answer, answers.Done())
        self.assertEqual((m.vmstat(), m.processes), (answers.Counters(4, 1), [p]))

    def test_many_pages(self):
        m = self.machine("4 + cxl 40")
        p = m.spawn("app")
        heap = p.map(30, "heap")
        self.assertEqual(p.touch(heap[:2]), [-14, -14])
        self.assertEqual(p.touch(heap, write=True), [0] * 4 + [1] * 26)
        self.assertEqual(m.where(p, range(16, 21)), [0, 0, 0, 0, 1])
        self.assertEqual(m.where(p, range(heap[3], heap[5], 4096)), [0, 1])
        self.assertEqual((heap[-1], heap[[0, 2]], heap[range(2)]), (0x2d000, [0x10000, 0x12000], [0x10000, 0x11000]))
        self.assertEqual(m.where(p, heap[::15]), [0, 1])
        self.assertEqual(m.where(p, 0x90000), [-14])
        self.assertEqual(m.move_pages(p, heap[4:6], node="all").statuses, [-12, 1])
        self.assertEqual(repr(m.query(p, heap)), "Queried(statuses=[0, 0, 0, 0, 1, 1, 1, 1, .. 30 in all: 26 x 1, 4 x 0])")
        self.assertEqual([repr(p.pagemap())[:48], repr(p.numa_maps())], [
            "Pagemap(entries=[Entry(address=0x10000, frame=0)", "Maps(areas=[AreaMap(address=0x10000, policy='default', anon=30, mapmax=1, nodes={0: 4, 1: 26})])"])

    def test_several_pages(self):
        m, p, a = self.three_pages()
        self.assertEqual(p.write(a[:2], b"xy"), [answers.Done()] * 2)
        self.assertEqual(p.read(a, 2), [answers.Read(b"xy"), answers.Read(b"xy"), answers.Read(b"c\0")])
        self.assertEqual([answer.step for answer in p.pin(a)], [10, 11, 12])
        self.assertEqual(m.move_pages(p, a, node=1).statuses, [-16] * 3)
        p.unpin([a[0]])
        self.assertEqual(m.move_pages(p, a, node=1).statuses, [1, -16, -16])
        with self.assertRaises(Refused) as caught:
            p.unpin(a)
        self.assertEqual((caught.exception.name, m.move_pages(p, a, node=1).statuses), ("EINVAL", [1] * 3))
        self.assertEqual(p.read([]), [])

    def test_refused_among_many(self):
        m = self.machine([4])
        p = m.spawn()
        heap = p.map(6)
        with self.assertRaises(Refused) as caught:
            p.touch(heap, write=True)
        self.assertEqual((caught.exception.name, caught.exception.step, len(m.trace()["steps"])), ("ENOMEM", 6, 8))
        self.assertEqual(m.where(p, heap), [0] * 4 + [-2] * 2)

    def test_why(self):
        m, p, a = self.three_pages()
        p.pin(a[1])
        moved = m.move_pages(p, [*a, 0], node=1)
        self.assertEqual(m.why(moved), ["it moved from frame 0 on node 0 to frame 4, the front of node 1's list", "it has 1 pin",
                                        "it moved from frame 2 on node 0 to frame 5, the front of node 1's list", "no area covers this address"])
        self.assertEqual(m.why(m.query(p, a[1])), ["it is in frame 1"])
        self.assertEqual(m.why(p.read(a[1])), ["the page is in frame 1, on node 0"])
        self.assertEqual(m.why(m.vmstat()), [])

    def test_a_machine_of_a_file(self):
        path = self.written("machine.nt", "nodes dram 2x4 + cxl 8\nspawn p\nnote \"ends\"\n")
        m = Machine.of_trace(path, program=PROGRAM)
        self.addCleanup(m.close)
        self.assertEqual((m.trace()["machine"]["names"], m.free("cxl").frames[0], len(m.trace()["steps"])), (["dram", "dram", "cxl"], 8, 1))
        self.assertEqual(set(m.trace()), {"version", "machine", "steps"})

    def test_names_and_notes(self):
        m = self.machine([4, 4], names=["dram", "cxl"])
        p = m.spawn("app")
        m.note("before")
        m.note("the heap")
        p.map(3, "heap")
        m.note("end")
        m.save(os.path.join(self.there, "x.json"))
        top = load(os.path.join(self.there, "x.json")).check().top
        self.assertEqual((top["machine"]["names"], top["note_at_end"]), (["dram", "cxl"], "end"))
        self.assertEqual([(step.get("name"), step.get("note")) for step in top["steps"]], [("app", None), ("heap", "before\nthe heap")])

    def test_left_out(self):
        m, p, _ = self.three_pages()
        with self.assertRaisesRegex(AttributeError, "Process has no set_mempolicy: the model leaves out the policy of a process: docs/LINUX.md"):
            p.set_mempolicy("MPOL_BIND", 1)
        with self.assertRaisesRegex(AttributeError, "^Machine has no move_page$"):
            m.move_page(p, 0)

    def test_pictures(self):
        m, _, _ = self.three_pages()
        m.look()
        m.note("ends")
        for name, begins in [("x.html", "<!DOCTYPE html>"), ("x.svg", "<svg")]:
            m.picture(os.path.join(self.there, name))
            self.assertTrue(read(os.path.join(self.there, name)).startswith(begins))
        self.assertIn('"notes":[[9,"ends"]]', read(os.path.join(self.there, "x.html")))
        self.assertIn("steps 5 to 8", read(os.path.join(self.there, "x.svg")))

    def test_look(self):
        m, _, _ = self.three_pages()
        m.look()
        self.assertEqual([step["op"] for step in m.trace()["steps"][5:]], ["free", "free", "pagemap", "numa_maps"])


class Ends(Case):
    """Programs that are not there, or end."""

    def test_no_program(self):
        with self.assertRaisesRegex(ValueError, "there is no program /nowhere"):
            Machine([4], program="/nowhere")

    def test_a_program_that_ends(self):
        program = self.written("program", "#!/bin/sh\nread top; read line; echo 'fault: not JSON'; echo; read line; echo '0 spawn ok'; echo\n"
                               "read line; echo out of memory >&2; exit 3\n")
        os.chmod(program, stat.S_IRWXU)
        m = Machine([4], program=program)
        p = m.spawn("app")
        with self.assertRaisesRegex(Failed, r"has ended: out of memory \(status 3\)"):
            p.map(1)
        with self.assertRaisesRegex(Failed, "the session has ended"):
            p.exit()
        m.save(os.path.join(self.there, "x.json"))
        self.assertEqual([step["op"] for step in load(os.path.join(self.there, "x.json")).check().steps], ["spawn", "map"])
        self.assertEqual(m.report(), "0 spawn ok\n")

    def test_closed(self):
        with Machine([4], program=PROGRAM) as m:
            m.spawn()
        with self.assertRaisesRegex(Failed, "the session has ended"):
            m.free(0)
        self.assertEqual(m.report(), "0 spawn ok\n")


if __name__ == "__main__":
    unittest.main()

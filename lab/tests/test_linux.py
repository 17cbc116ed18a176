"""The comparison with real kernels, as far as it can be tested without one: the rows and the page, the scenarios and what kernels
answered, rules, instructions, the command lines of guests, and what strace wrote."""
import json
import os
import re
import unittest
from unittest import mock

from support import ROOT, Case, read, run
from numalab import model
from numalab.faults import verdict
from numalab.linux import compare, differences, guest, instructions, kernel, many, player, recorded, replayed, strace, worlds
from numalab.traces import Bad, Trace, json_text
from numalab.translate import trace_from

DATA = os.path.join(ROOT, "lab/tests/data")
# Rows for which no trace can be played, apart from those of a document: what a kernel does by itself, and what is chance.
UNPLAYED = {"vmstat-compaction", "move-room-made"}
HEAD = "nodes 2x8\nspawn p\nmap p A 2\n"


class Rows(Case):
    """The data of the page."""

    def test_page(self):
        page = read("docs/LINUX.md")
        self.assertEqual(differences.page_with_tables(page), page, "lab/numalab/linux/differences.py docs/LINUX.md makes the tables")
        tables = set(re.findall(r"<!-- differences: (.+) -->", page))
        self.assertEqual(tables, {row["table"] for row in differences.rows()})

    def test_form(self):
        rows = differences.rows()
        self.assertEqual(len({row["id"] for row in rows}), len(rows))
        for row in rows:
            self.assertLessEqual(set(row), {"id", "table", "calls", "situation", "model", "kernels", "until", "reason", "functions", "privilege"})
            self.assertTrue(row["calls"] and row["situation"] and row["model"])
            series = list(row["kernels"])
            if series == ["document"]:
                continue
            # Each series was asked, in their order, and a row that ends does so before the last.
            self.assertEqual(series, [one for one in differences.ASKED if one in series])
            self.assertTrue(series)
            if "until" in row:
                self.assertIn(row["until"], differences.ASKED[differences.ASKED.index(series[-1]) : -1])

    def test_each_has_a_scenario(self):
        there = {name[:-3] for name in os.listdir(many.SCENARIOS) if name.endswith(".nt")}
        wanted = {row["id"] for row in differences.rows() if "document" not in row["kernels"]} - UNPLAYED
        self.assertEqual(wanted - there, set())
        self.assertEqual({name for name in there if not name.startswith("same-")}, wanted)
        self.assertGreaterEqual(len(there), 60)

    def test_each_scenario_shows_its_row(self):
        for trace, privilege in many.scenarios():
            name = os.path.basename(trace.name)[:-3]
            fired = {row for version in differences.KERNELS for one in worlds.given(trace.top, version, privilege) for row in one.rows}
            if name.startswith("same-"):
                continue
            self.assertTrue(name in fired or name == "offline-shared" or name == "offline-pinned", f"{name}: {fired}")


class Series(Case):
    """Of which series of Linux a row holds."""

    ROW = {"id": "r", "table": "t", "situation": "s", "model": "m", "reason": "why", "kernels": {"6.1": "a", "6.12": "b"}, "until": "6.12"}

    def test_a_series_that_was_not_asked_goes_by_the_one_before_it(self):
        for version, series in [("6.1", "6.1"), ("6.6", "6.1"), ("5.10", "6.1"), ("6.12", "6.12"), ("6.15", "6.12"), ("6.17", "6.16"), ("6.120", "6.18"), ("6.18", "6.18"),
                                ("9.0", "7.3")]:
            self.assertEqual(differences.asked_for(version), series)

    def test_from_and_until(self):
        for version, series in [("5.4", "6.1"), ("6.1", "6.1"), ("6.11", "6.1"), ("6.12", "6.12"), ("6.13", "6.12"), ("6.18", None), ("9.0", None)]:
            self.assertEqual(differences.since(self.ROW, version), series)
        self.assertIsNone(differences.since({**self.ROW, "kernels": {"6.12": "b"}}, "6.11"))
        self.assertEqual(differences.since({"kernels": {"6.12": "b"}}, "9.0"), "6.12")
        self.assertEqual([differences.told_of(self.ROW, version) for version in ("6.1", "6.12", "6.18")], ["a", "b", "as this model"])

    def test_what_the_page_says(self):
        """The answers with their series, and the series of which a row holds."""
        for kernels, until, cells in [({"6.1": "a"}, None, "a | all"), ({"6.1": "a"}, "6.1", "a | 6.1"), ({"6.1": "a", "6.12": "b"}, "6.12", "a; from 6.12 on b | 6.1 to 6.12"),
                                      ({"6.12": "b"}, None, "b | from 6.12 on")]:
            row = {**self.ROW, "kernels": kernels, "until": until}
            row = row if until else {key: value for key, value in row.items() if key != "until"}
            self.assertEqual(differences.table_text("t", [row]).split("\n")[2], f"| s | m | {cells} | why |")

    def test_rules_go_by_it(self):
        """Of some things in which the series differ from one another, what each is expected to answer."""
        untouched = self.report_of(HEAD + "query p A[0]\n", 2)
        self.assertEqual([untouched[version] for version in ("6.1", "6.6", "6.12", "6.18", "9.0")], ["0: -14", "0: -14", "0: -2", "0: -2", "0: -2"])
        weighted = self.report_of(HEAD + "mbind p A 6 all\n", 2)
        self.assertEqual([weighted[version] for version in ("6.1", "6.6", "6.12", "6.18", "9.0")], ["error EINVAL"] * 2 + ["0"] * 3)
        # A page that was touched, and then gets the policy of the page behind it, which was not.
        merged = self.report_of(HEAD + "mbind p A[1] MPOL_BIND 1\nwrite p A[0] 61\nmbind p A[0] MPOL_BIND 1\nnuma_maps p\n", 5)
        self.assertEqual([merged[version] for version in ("6.1", "6.6", "6.12", "6.15", "6.18", "9.0")], ["2"] * 4 + ["1"] * 2)
        # A policy whose only node goes offline.
        bound = self.report_of("nodes 3x64\nspawn p\nmap p A 4\nmbind p A MPOL_BIND 2\noffline 2\nnuma_maps p\n", 4, 1)
        self.assertEqual([bound[version] for version in ("6.1", "6.12", "6.16", "6.18", "7.0", "7.1", "7.2")],
                         ["00010000 bind:0"] * 2 + ["00010000 bind:2"] * 3 + ["00010000 bind:0"] * 2)

    def report_of(self, text, step, line=0):
        """What some series are expected to answer to a step."""
        top, found = trace_from(text.encode(), "t.nt"), {}
        for version in ("6.1", "6.6", "6.12", "6.15", "6.16", "6.18", "7.0", "7.1", "7.2", "9.0"):
            told = str(worlds.given(top, version)[step].lines[line])
            found[version] = told if line else told.split(" ", 2)[2]
        return found


class Kept(Case):
    """What kernels answered, compared with the model and the rules."""

    def compared(self, version):
        scenarios = many.scenarios()
        for (trace, privilege), text in zip(scenarios, many.kept(scenarios, version)):
            told = replayed.read_replayed(text, trace.name)
            self.assertTrue(told.release.startswith(version + "."))
            self.assertEqual(len(told.steps), len(trace.steps))
            yield trace, compare.compared(trace.top, model.report(trace.top).encode(), told, privilege)

    def test_every_difference_is_explained(self):
        for version in differences.KERNELS:
            for trace, found in self.compared(version):
                name = os.path.basename(trace.name)
                self.assertNotEqual(compare.worst(found), compare.OTHER, name)
                if name.startswith("same-"):
                    self.assertEqual(compare.worst(found), compare.SAME, name)

    def test_the_page_has_the_tally(self):
        page = read("docs/LINUX.md")
        for version in differences.KERNELS:
            kinds = [compare.worst(found) for _, found in self.compared(version)]
            same, told = kinds.count(compare.SAME), kinds.count(compare.EXPLAINED)
            self.assertTrue(f"| {version} | {len(kinds)} | {same} | {told} | 0 |" in page, f"{version}: {same} the same, {told} as documented")

    def test_a_wrong_answer_is_none_of_the_rows(self):
        scenarios = many.scenarios()
        texts = many.kept(scenarios, "6.1")
        for (trace, _), text in zip(scenarios, texts):
            if trace.name.endswith("/move-pinned.nt"):
                path = self.written("wrong", text.replace("6 move_pages 1: - - -", "6 move_pages 2: - - -"))
                told = replayed.read_replayed(read(path), path)
                found = compare.compared(trace.top, model.report(trace.top).encode(), told)
                self.assertEqual([one.step for one in found if one.kind == compare.OTHER], [6])
                self.assertIn("     6  move_pages     DIFFERS", list(compare.lines_of(found, told.release)))

    def test_unknown_nodes(self):
        self.assertTrue(worlds.fits(["7 pagemap 2: 00010000=? 00011000=?"], ["7 pagemap 2: 00010000=1 00011000=0"]))
        self.assertTrue(worlds.fits(["00010000 interleave:0-1 anon=2 ? kernelpagesize_kB=4"], ["00010000 interleave:0-1 anon=2 N0=1 N1=1 kernelpagesize_kB=4"]))
        self.assertFalse(worlds.fits(["7 pagemap 1: 00010000=?"], ["7 pagemap 1: 00010000=zero"]))
        self.assertFalse(worlds.fits(["7 pagemap 1: 00010000=1"], ["7 pagemap 1: 00010000=0"]))


class Replays(Case):
    """Reading what a replay printed."""

    def test_cut(self):
        trace = self.written("t.nt", HEAD)
        for text, told in [("0 spawn ok\n1 map segment=0\n# end\n", "# Linux RELEASE"), ("# Linux 6.1.0\n0 spawn ok\n", "the report was cut off"),
                           ("# Linux 6.1.0\n1 map segment=0\n# end\n", "line 1: expected the line of step 0"),
                           ("# Linux 6.1.0\n\x80\n# end\n", "does not belong in a report")]:
            path = self.written("r", text.encode("latin-1"))
            with mock.patch("numalab.commands.compare.program_found"), mock.patch("numalab.commands.compare.played", return_value=b"0 spawn ok\n1 map segment=0\n"):
                status, out, err = run("compare", trace, path)
            self.assertEqual((status, out), (2, ""))
            self.assertIn(told, err)
            self.assertEqual(err.count("\n"), 1)

    def test_several(self):
        texts = [f"# Linux 6.1.0\n# trace {name}\n0 vmstat x\n# end\n" for name in ("a.nt", "b.nt")]
        whole = replayed.joined(texts)
        self.assertEqual(list(replayed.parts(whole).values()), texts)
        self.assertEqual(replayed.part_for(whole, "b.nt", "f"), texts[1])
        with self.assertRaisesRegex(Bad, "none of c.nt"):
            replayed.part_for(whole, "c.nt", "f")


class Playing(Case):
    """The player's instructions, and what it cannot play."""

    def instructions(self, text, **words):
        return instructions.Instructions(Trace("t.nt", b"", trace_from(text.encode(), "t.nt")), **words)

    def test_full_nodes_and_pins(self):
        text = self.instructions("nodes 8, 1\nspawn p\nspawn q home 1\nmap q B 1\nmap p A 1\nwrite q B 61\nwrite p A 62\npin p A\npin p A+5\nunpin p A\npin q 0x0").text()
        lines = text.split("\n")
        self.assertEqual(lines[lines.index("4 write 2 0x10000 61") + 1], "fill 1 0")
        self.assertIn("7 pin 1 0x20005 1\n8 unpin 1 1\n9 say pin error EFAULT\n", text)

    def test_what_cannot_be_played(self):
        for text, told, here in [
                (HEAD + "write p A[0] 61\nmove_pages p A[0] to 1 during\nread p A[0]\nend", "step 3: accesses in flight", False),
                ("nodes 8, 1\nspawn p\nmap p A 2\nwrite p A 61\nmove_pages p A to 1", "step 4: node 1 fills up within the step", False),
                ("nodes 1, 1\nspawn p\nmap p A 2\nwrite p A 61\nvmstat", "step 4: all nodes are full", False),
                ("nodes 8, 1\nspawn p home 1\nmap p A 1\nwrite p A 61\nvmstat", "step 3: node 1 is full, and --here", True),
                (HEAD + "map p B 1 at 0x7f0000000000", "step 2: only areas from", False),
                ("nodes 8, 8\nspawn p\nunmap p 0x10000 pages 34359738000", "step 1: a range that ends above", False),
                (HEAD + "offline 1", "step 2: --here does not take nodes", True),
                ("nodes 2x8\nspawn p allowed 1", "step 0: the process may not use all nodes", True)]:
            with self.assertRaisesRegex(Bad, re.escape(told)):
                self.instructions(text, here=here)

    def test_words_of_a_guest(self):
        words = guest.words_of("vmlinuz", "/there", ([8, 8], ((10, 20), (21, 10)), frozenset({1})))
        text = " ".join(words)
        for part in ("-numa dist,src=0,dst=1,val=20", "-numa dist,src=1,dst=0,val=21", "-numa node,nodeid=1,cpus=1 ", "pc-dimm,id=d1,memdev=m1,node=1",
                     "-m 193M,slots=2,maxmem=16G", "-accel tcg,thread=single", "-initrd /there/initrd"):
            self.assertIn(part, text)

    def test_missing_programs(self):
        trace = self.written("t.nt", "nodes 8\nspawn p\n")
        with mock.patch.dict(os.environ, {"PATH": self.there, "XDG_CACHE_HOME": self.there}):
            self.assertEqual(run("replay", trace), (2, "", "numalab: there is no gcc: it is in Debian's package gcc, with libc6-dev\n"))
            self.assertEqual(run("record", "--", "true"), (2, "", "numalab: there is no strace: it is in Debian's package strace\n"))
            with mock.patch.object(player, "built", return_value=trace), mock.patch.object(guest, "kernel_asked", return_value=trace):
                self.assertEqual(run("replay", trace, "--qemu"), (2, "", f"numalab: {guest.NO_QEMU}\n"))
        with mock.patch.dict(os.environ, {"NUMALAB_KERNELS": self.there}), mock.patch.object(guest, "kernels", return_value={}):
            self.assertEqual(run("replay", trace, "--qemu"), (2, "", f"numalab: {guest.NO_KERNEL}\n"))
            status, _, err = run("replay", trace, "--qemu", "--kernel", "6.1")
            self.assertEqual((status, err[:29]), (2, "numalab: there is no kernel 6"))
        self.assertEqual(run("replay", trace, "--qemu", "--kernel", trace), (2, "", f"numalab: {trace} is not a kernel image\n"))

    def test_nodes_that_are_not_there(self):
        trace = self.written("t.nt", "nodes 64x8\nspawn p\n")
        status, out, err = run("replay", trace, "--here")
        self.assertEqual((status, out), (2, ""))
        self.assertRegex(err, "the trace has 64 nodes, and this machine has [0-9]+: --qemu plays it|no NUMA")

    def test_a_guest_that_hangs(self):
        wait = self.written("qemu-system-x86_64", "#!/bin/sh\nfor word; do case $word in file:*/console) echo last words > \"${word#file:}\" ;; esac; done\nexec sleep 60\n")
        os.chmod(wait, 0o755)
        with mock.patch.dict(os.environ, {"PATH": self.there + os.pathsep + os.environ["PATH"], "TMPDIR": self.there}), \
                mock.patch.object(guest, "BOOT_LIMIT", 0.5), mock.patch.object(guest, "STEP_LIMIT", 0.5), mock.patch("tempfile.tempdir", self.there):
            with self.assertRaisesRegex(Bad, "has told nothing for 0.5 seconds; its console shows\n  last words"):
                guest.boot("k", wait, "", ([8], ((10,),), frozenset()))
        self.assertEqual(os.listdir(self.there), ["qemu-system-x86_64"])

class Predicting(Case):
    """The rules as a command."""

    def test_predict(self):
        path = self.written("t.nt", HEAD + "write p A[0] 61\nmove_pages p A[0], A[0], A[1] to 1\npagemap p\n")
        for version, last in [("6.1", -14), ("6.12", -2)]:
            self.assertEqual(run("predict", path, "--kernel", version), (
                0, f"# Linux {version}\n0 spawn ok\n1 map segment=0\n2 write ok\n3 move_pages 0: 1 -16 {last}\n4 pagemap 1: 00010000=1\n# end\n", ""))
        status, _, err = run("predict", self.written("u.nt", HEAD + "move_pages p A[0] to 1 during\nread p A[0]\nend"), "--kernel", "6.1")
        self.assertEqual((status, err.count("\n")), (2, 1))

    def test_order_of_nodes_as_near(self):
        orders = kernel.Kernel({"version": 1, "machine": {"nodes": [1] * 4, "distance": [[10 if a == b else 20 for b in range(4)] for a in range(4)]},
                                "steps": []}, "6.1").orders
        self.assertEqual([orders[node][0] for node in range(4)], [0, 1, 2, 3])
        self.assertEqual(orders[1][1], 2)


class Recording(Case):
    """What strace wrote, as a trace."""

    MACHINE = {"nodes": [4096, 4096], "distance": [[10, 20], [20, 10]]}

    def recorded(self, name, seen=None, scale=1):
        from numalab.commands.record import events_of
        events = [(event, seen if getattr(event, "name", "") in recorded.ABOUT_NODES and seen else {}) for event, _ in events_of(os.path.join(DATA, name))]
        top = recorded.recorded(events, dict(self.MACHINE), scale)
        self.assertEqual(verdict(json_text(top).encode()), "good")
        return top

    def test_five_calls(self):
        top = self.recorded("five_calls.strace")
        told = [(step["op"], step.get("addr", step.get("pages"))) for step in top["steps"] if step["op"] not in ("spawn", "map")]
        self.assertEqual(told, [
            ("mbind", 0x200000000), ("write", 0x200000000), ("write", 0x200001000), ("move_pages", [0x200000000, 0x200001000, 0x200007000]),
            ("query", [0x200000000, 0x200001000, 0x200007000]), ("migrate_pages", None), ("unmap", 0x200002000), ("exit", None)])
        self.assertEqual(top["left_out"], ["mappings of files: 5"])
        report = model.report(top)
        self.assertIn("move_pages 0: 0 0 -2", report)

    def test_thread_and_child(self):
        top = self.recorded("thread_and_child.strace")
        self.assertEqual(len([step for step in top["steps"] if step["op"] == "spawn"]), 2, "a thread is no process, a child is one")
        self.assertIn("memory that a child has from its parent (fork): 1", top["left_out"])
        self.assertIn("madvise that drops pages or asks for huge ones: 1", top["left_out"])

    def test_migratepages(self):
        events = [event for event, _ in self.events("migratepages.strace") if getattr(event, "name", "") == "migrate_pages"]
        target = strace.number(events[0].arguments[0])
        seen = {target: recorded.Seen(5, False, 1, [0, 1], [(16, 20, False), (32, 33, True)], {16: 1, 17: 0, 32: 1}),
                events[0].pid: recorded.Seen(0, True, 0, [0, 1], [], {})}
        top = self.recorded("migratepages.strace", seen)
        steps = [step for step in top["steps"] if target in (step.get("pid"), step.get("caller"))]
        self.assertEqual([step["op"] for step in steps], ["spawn", "map", "map", "write", "write", "write", "move_pages", "migrate_pages"])
        self.assertEqual((steps[0]["home"], steps[0]["uid"], steps[6]["nodes"]), (1, 5, [0]))
        self.assertIn("set_mempolicy: 2", top["left_out"])
        self.assertIn("migrate_pages error EPERM", model.report(top), "strace alone does not show that the caller is privileged")

    def events(self, name):
        from numalab.commands.record import events_of
        return events_of(os.path.join(DATA, name))

    def test_too_many_pages(self):
        there = {place: 0 for place in range(16, 16 + 9000)}
        seen = {7: recorded.Seen(5, False, 0, [0], [(16, 16 + 9000, False)], there)}
        call = strace.Call(8, "migrate_pages", ["7", "65", "[0x1]", "[0x2]"], 0, None)
        with self.assertRaisesRegex(Bad, "9,000 pages .* --scale 2"):
            recorded.recorded([(call, seen)], dict(self.MACHINE))
        top = recorded.recorded([(call, seen)], dict(self.MACHINE), 4)
        self.assertEqual(len([step for step in top["steps"] if step["op"] == "write"]), 2250)
        self.assertEqual(top["scale"], 4)

    def test_masks_and_lists(self):
        self.assertEqual(strace.nodes_of_mask("[0x00000000000005, 0000000000000000]", 1025), [0, 2])
        self.assertEqual(strace.nodes_of_mask("[0x0000000000000f]", 3), [0, 1])
        self.assertEqual(strace.nodes_of_mask("NULL", 65), [])
        self.assertEqual(strace.numbers("[0x10, -2]"), [16, -2])
        self.assertIsNone(strace.numbers("[0x10, ...]"))
        self.assertEqual(strace.split('3, "a,\\"b", {x=[1, 2]}, NULL'), ["3", '"a,\\"b"', "{x=[1, 2]}", "NULL"])

    def test_bad_input(self):
        for text, told in [("mmap(NULL, 1) = 0\n", "run strace with -f"), ("7 <... mmap resumed>) = 0\n", "the beginning was cut off"),
                           ("7 mmap(NULL, 8192, 0x3\n", "the output was cut off"), ("7 munmap(0x1000, 4096) = 0", "no line feed")]:
            path = self.written("s", text)
            status, out, err = run("record", "--from", path, "--machine", self.written("m", json.dumps(self.MACHINE)))
            self.assertEqual((status, out, err.count("\n")), (2, "", 1), text)
            self.assertIn(told, err)
        self.assertEqual(run("record")[0], 2)
        self.assertEqual(run("record", "--from", path, "--machine", self.written("m", "[]"))[0], 2)

if __name__ == "__main__":
    unittest.main()

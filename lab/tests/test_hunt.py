"""Drawing, hunting and reducing, with the rules themselves in the place of a kernel; and guests that end early."""
import os
import re
import signal
import subprocess
import sys
import time
import unittest
from unittest import mock

from support import COMMAND, LAB, Case, run
from numalab import model
from numalab.commands.hunt import text_of_find
from numalab.faults import Form, verdict
from numalab.linux import drawn, guest, hunting, instructions, kernel, many, reducing, worlds
from numalab.notate import notation_of
from numalab.traces import Bad, Trace, json_text
from numalab.translate import trace_from

RELEASE = "6.12.0-rules"


def trace_of(text, name="t.nt"):
    top = trace_from(text.encode(), name)
    return Trace(name, json_text(top).encode(), top)


def told_by_rules(trace, rules=kernel.Kernel):
    """What a kernel would tell that goes by the rules, in the first of the ways in which it can go."""
    with mock.patch.object(worlds, "Kernel", rules):
        prediction, lines = worlds.Prediction(trace.top, "6.12"), []
        for step in trace.steps:
            prediction.give(step)
            prediction.worlds = prediction.worlds[:1]
            lines += [str(line) for line in prediction.given[0][1].lines]
    return "".join(f"{line}\n" for line in [f"# Linux {RELEASE}", f"# trace {trace.name}", *lines, "# end"])


class Rules:
    """A kernel that goes by the rules. It can be interrupted before a lot."""

    release = RELEASE

    def __init__(self, stop_before=None):
        self.stop_before, self.played = stop_before, 0

    def play(self, traces, lot, stop=None):
        if self.stop_before == self.played:
            raise KeyboardInterrupt
        self.played += 1
        return [told_by_rules(trace) for trace in traces]

    def drawn(self, seed, kind, number):
        return drawn.drawn(seed, kind, number)

    def about(self, kind):
        return drawn.KINDS[kind].about


class SeesTwo(kernel.Kernel):
    """A wrong rule: a page that two mappings show counts as one process's own."""

    def is_shared(self, page, row):
        return self.mappings(page) > 2 and super().is_shared(page, row)


class Drawn(Case):
    """Traces that are drawn."""

    def test_they_can_be_played(self):
        for kind, numbers in [("small", range(20)), ("large", [*range(5), 55, 105, 155, 205, 255, 305])]:
            for number in numbers:
                trace = drawn.drawn(7, kind, number)
                self.assertEqual(verdict(trace.data), "good")
                lines = instructions.Instructions(trace).body
                self.assertEqual(len([line for line in lines if line[0].isdigit()]), len(trace.steps))
                self.assertGreaterEqual(len(trace.steps), drawn.KINDS[kind].steps * 2 // 3)

    def test_what_they_have(self):
        """All that the laboratory can make: full nodes, cpusets, users, pins, shared memory, nodes that go, and refusals."""
        traces = [drawn.drawn(7, kind, number) for kind, count in [("small", 100), ("large", 800)] for number in range(0, count, 10)]
        steps = [(step, len(trace.top["machine"]["nodes"])) for trace in traces for step in trace.steps]
        self.assertEqual({step["op"] for step, _ in steps}, set(model.CALLS) - {"free"})
        spawns = [(step, count) for step, count in steps if step["op"] == "spawn"]
        self.assertEqual({step["uid"] for step, _ in spawns}, {100, 200})
        self.assertEqual({step["privileged"] for step, _ in spawns}, {False, True})
        self.assertTrue(any(len(step["allowed"]) < count for step, count in spawns))
        self.assertTrue(any("fill " in instructions.Instructions(trace).text() for trace in traces))
        self.assertEqual({step["mode"] & 7 for step, _ in steps if step["op"] == "mbind"}, set(range(8)))
        self.assertTrue(any(step["mode"] > 1 << 13 for step, _ in steps if step["op"] == "mbind"))

    def test_a_trace_depends_on_its_number_alone(self):
        one, other = (drawn.drawn(7, "large", 60) for _ in range(2))
        self.assertEqual(one.data, other.data)
        self.assertNotEqual(one.top["steps"], drawn.drawn(8, "large", 60).top["steps"])
        self.assertEqual(one.top["machine"], drawn.drawn(7, "large", 99).top["machine"])

    def test_those_for_this_machine(self):
        """They have its nodes, and no cpusets; for those who are not root one user, and no privilege."""
        for root in (True, False):
            traces = [drawn.drawn(7, kind, number, 2, root) for kind in drawn.KINDS for number in range(20)]
            spawns = [step for trace in traces for step in trace.steps if step["op"] == "spawn"]
            self.assertEqual({tuple(step["allowed"]) for step in spawns}, {(0, 1)})
            self.assertEqual({(step["uid"], step["privileged"]) for step in spawns},
                             {(100, False), (100, True), (200, False), (200, True)} if root else {(100, False)})
            for trace in traces:
                self.assertEqual(len(trace.top["machine"]["nodes"]), 2)
                instructions.Instructions(trace, here=True)

    def test_a_process_that_would_be_killed(self):
        top = trace_of("nodes 200, 2\nspawn p home 1 allowed 1\nmap p A 3\nwrite p A[*] 61\npagemap p\n").top
        self.assertEqual(drawn.killed_at(top), 4)
        self.assertEqual([step["op"] for step in drawn.playable(top, "t.nt")["steps"]], ["spawn", "map", "write", "pagemap"])


class Hunting(Case):
    """Hunts and reductions."""

    def setUp(self):
        super().setUp()
        patch = mock.patch.dict(os.environ, {"XDG_CACHE_HOME": self.there})
        patch.start()
        self.addCleanup(patch.stop)

    def test_nothing_is_found_where_the_rules_are_right(self):
        for kind, count in [("small", 60), ("large", 50)]:
            seen = hunting.Hunt(Rules(), 3, kind, count).run(2, lambda total: None)
            self.assertEqual((seen.traces, [find for find in seen.finds if find[2] != "vmstat"], seen.troubles), (count, [], []))
            self.assertGreater(seen.steps, count * drawn.KINDS[kind].steps * 2 // 3)

    def test_a_wrong_rule_is_found_and_reduced(self):
        with mock.patch.object(worlds, "Kernel", SeesTwo):
            hunt = hunting.Hunt(Rules(), 3, "small", 150)
            seen = hunt.run(1, lambda total: None)
            self.assertTrue(seen.finds)
            for number, *_ in seen.finds[:3]:
                text = text_of_find(hunt.reduced(number), RELEASE)
                lines = [line for line in text.split("\n") if line and not line.startswith("#")]
                self.assertLessEqual(len(lines), 12, text)
                # It is notation, and still a find.
                again = trace_of(text)
                self.assertIsNotNone(reducing.find_in(again, told_by_rules(again), "6.12")[0])

    def test_interrupted_and_going_on(self):
        whole = hunting.Hunt(Rules(), 5, "small", 170).run(1, lambda total: None)
        first = hunting.Hunt(Rules(stop_before=2), 6, "small", 170)
        self.assertEqual(first.load(), 0)
        with self.assertRaises(KeyboardInterrupt):
            first.run(1, lambda total: None)
        second = hunting.Hunt(Rules(), 6, "small", 170)
        self.assertEqual(second.load(), 100)
        self.assertEqual(second.run(1, lambda total: None).traces, 170)
        self.assertEqual(second.kernel.played, 2)
        self.assertEqual(whole.traces, 170)
        # Of a hunt for more traces, the last lot is not whole.
        self.assertEqual(hunting.Hunt(Rules(), 6, "small", 190).load(), 150)
        second.forget()
        self.assertEqual(hunting.Hunt(Rules(), 6, "small", 170).load(), 0)

    def test_the_command(self):
        with mock.patch("numalab.commands.hunt.Guests", lambda path: Rules()), mock.patch.object(guest, "kernel_asked", lambda asked: asked):
            status, out, err = run("hunt", "--kernel", "6.12", "--count", "20", "--seed", "4", "--kind", "small")
            self.assertEqual((status, err), (0, ""))
            self.assertRegex(out, r"^Linux 6.12.0-rules: 20 traces of three nodes and 30 calls; seed 4; [67]\d\d steps as expected; 0 unexplained\n$")
            with mock.patch.object(worlds, "Kernel", SeesTwo):
                folder = os.path.join(self.there, "finds")
                status, out, err = run("hunt", "--kernel", "6.12", "--count", "100", "--seed", "3", "--kind", "small", "--most", "1", "-o", folder)
            self.assertEqual((status, err), (1, ""))
            self.assertRegex(out, r"(?s)small trace \d+ of seed 3, step \d+, [a-z_]+, made shorter:\nnodes .*# Linux 6.12.0-rules: .*# expected: ")
            self.assertRegex(out, r"\n.* [1-9]\d* unexplained\n$")
            short = [name for name in os.listdir(folder) if name.endswith(".short.nt")]
            self.assertEqual(len(short), 1)
        self.assertEqual(run("hunt", "--kernel", "6.12", "--count", "-1")[0], 2)
        self.assertEqual(run("hunt")[0], 2)

    def test_reducing_one_trace(self):
        text = "nodes 2x2000\nspawn p\nspawn q\nmap p A 4\nwrite p A[*] 61\nmap p S 2 shared\nattach q T of S\nwrite p S 62\nread q T[0]\nvmstat\nmove_pages p A, S to 1\nlook\n"
        path = self.written("t.nt", text)
        with mock.patch.object(many, "replay_here", lambda trace, privilege: told_by_rules(trace)):
            self.assertEqual(run("reduce", path)[:2], (0, f"{path}: Linux {RELEASE} answers all steps as expected\n"))
            with mock.patch.object(worlds, "Kernel", SeesTwo):
                status, out, err = run("reduce", path)
        self.assertEqual((status, err), (1, ""))
        lines = out.strip().split("\n")
        # A page of two processes moves by the wrong rule: its map, its attach and two touches are needed to see that.
        self.assertEqual([line.split(" ")[0] for line in lines], ["nodes", "spawn", "spawn", "map", "attach", "write", "read", "move_pages", "#", "#"])
        self.assertRegex(lines[-2], "^# Linux 6.12.0-rules: 6 move_pages 0: -13$")
        self.assertRegex(lines[-1], "^# expected: 6 move_pages 0: 1$")

    def test_segments_keep_their_numbers(self):
        trace = trace_of("nodes 2x50\nspawn p\nmap p A 2 shared\nmap p B 2 shared\nattach p C of B\nread p C[0]\n")
        part = reducing.Part(trace.top).without({1})
        self.assertEqual([step.get("segment") for step in part.trace("u").steps], [None, None, 0, None])
        self.assertEqual([step["op"] for step in part.without({1}).trace("u").steps], ["spawn", "read"])


class Ways(Case):
    """Predictions where the number of an inode decides."""

    TEXT = "nodes 3x2000\nspawn p\nmap p S 3 shared\nmbind p S MPOL_INTERLEAVE 0-2\nwrite p S[0] 61\nwrite p S[1] 62\nmove_pages p S[0] to 1\n" \
           "pagemap p\nnuma_maps p\nvmstat\n"

    def test_what_follows_from_what_is_unknown_is_unknown(self):
        lines = [line for one in worlds.given(trace_of(self.TEXT).top, "6.12") for line in one.lines]
        self.assertEqual(lines[5:], ["5 move_pages 0: 1", "6 pagemap 2: 00010000=1 00011000=?", "7 numa_maps 1",
                                     "00010000 interleave:0-2 anon=2 ? kernelpagesize_kB=4", "8 vmstat pgmigrate_success ? pgmigrate_fail 0"])

    def test_what_is_told_leaves_one_way(self):
        prediction = worlds.Prediction(trace_of(self.TEXT).top, "6.12")
        steps = trace_of(self.TEXT).steps
        for step in steps[:6]:
            prediction.give(step)
        prediction.give(steps[6])
        # The second page has the turn after that of the first: where it is on node 0, the first was on node 2, and has moved.
        self.assertIsNotNone(prediction.settle(["6 pagemap 2: 00010000=1 00011000=0"]))
        self.assertEqual(prediction.give(steps[7]).lines[1], "00010000 interleave:0-2 anon=2 N0=1 N1=1 kernelpagesize_kB=4")
        self.assertEqual(prediction.give(steps[8]).lines, ["8 vmstat pgmigrate_success 1 pgmigrate_fail 0"])
        self.assertIsNone(prediction.settle(["8 vmstat pgmigrate_success 0 pgmigrate_fail 0"]))

    def test_merging(self):
        self.assertEqual(worlds.merged([["3 read 61"], ["3 read error EFAULT"]]), ["3 read ?"])
        self.assertEqual(worlds.merged([["3 query 0: 1 -2"], ["3 query 0: 2 -2"]]), ["3 query 0: ? -2"])
        self.assertTrue(worlds.fits(["3 read ?"], ["3 read error EFAULT"]))
        self.assertFalse(worlds.fits(["3 read ?"], ["3 write ok"]))
        self.assertFalse(worlds.fits(["3 vmstat pgmigrate_success ? pgmigrate_fail 0"], ["3 vmstat pgmigrate_success 3 pgmigrate_fail 1"]))


QEMU = """#!/bin/sh
for word; do case $word in file:*/report) report=${word#file:} ;; file:*/console) console=${word#file:} ;; esac; done
echo 'Kernel panic - not syncing: a test' > "$console"
"""


def heeds_interrupts():
    """What a command in the foreground does; a shell starts those in its background so that they ignore SIGINT."""
    signal.signal(signal.SIGINT, signal.SIG_DFL)


class EarlyEnds(Case):
    """Guests that hang, whose kernels panic, or that tell nothing."""

    def setUp(self):
        super().setUp()
        self.group = [(trace_of("nodes 2x50\nspawn p\n", f"{name}.nt"), many.BOTH) for name in "abc"]

    def play(self, script):
        path = self.written("qemu-system-x86_64", QEMU + script)
        os.chmod(path, 0o755)
        temporary = os.path.join(self.there, "tmp")
        os.makedirs(temporary, exist_ok=True)
        with mock.patch.dict(os.environ, {"PATH": self.there + os.pathsep + os.environ["PATH"]}), mock.patch("tempfile.tempdir", temporary), \
                mock.patch.multiple(guest, BOOT_LIMIT=5, STEP_LIMIT=0.4), mock.patch.object(many.player, "built", lambda: path):
            try:
                return many.play_in_guests("k", self.group, ([50, 50], ((10, 20), (20, 10)), frozenset()))
            finally:
                self.assertEqual(os.listdir(temporary), [])

    # The guest plays what is named in its instructions, as far as trace b.
    TELL = "names=$(tr '\\000' '\\n' < \"$(dirname \"$report\")/initrd\" | grep -a '^trace ' | cut -d' ' -f2)\necho '# Linux 6.1.0' > \"$report\"\n" \
           "for name in $names; do\n  echo \"# trace $name\"; [ $name = b.nt ] && { %s; }; echo '0 spawn ok'\ndone >> \"$report\"\n[ -n \"$name\" ] && echo '# end' >> \"$report\"\n"

    def test_the_others_go_on(self):
        for script, told in [("exit 0", r"ended after \d+ seconds without a whole report"), ("exec sleep 60 > /dev/null", "has told nothing for 0.4 seconds")]:
            texts = self.play(self.TELL % script)
            self.assertEqual(texts[0], "# Linux 6.1.0\n# trace a.nt\n0 spawn ok\n# end\n")
            self.assertEqual(texts[2], "# Linux 6.1.0\n# trace c.nt\n0 spawn ok\n# end\n")
            self.assertIsInstance(texts[1], many.Stopped)
            self.assertEqual(str(texts[1]).split("\n")[1:], ["  Kernel panic - not syncing: a test"])
            self.assertRegex(str(texts[1]), f"^b.nt: the guest {told}; its console shows")

    def test_a_second_chance(self):
        """A guest that ends before its first trace is booted once more."""
        texts = self.play(f"[ -e {self.there}/tried ] || {{ : > {self.there}/tried; exit 0; }}\n" + self.TELL % "true")
        self.assertEqual(texts, [f"# Linux 6.1.0\n# trace {name}.nt\n0 spawn ok\n# end\n" for name in "abc"])

    def test_nothing_at_all(self):
        with self.assertRaisesRegex(Bad, "without a whole report; its console shows\n  Kernel panic"):
            self.play("exit 0\n")
        with self.assertRaisesRegex(Bad, "ended with status 3: no memory$"):
            self.play("echo no memory >&2; exit 3\n")

    def test_nothing_is_left_where_it_is_ended(self):
        """A request to end ends the guest too."""
        path = self.written("qemu-system-x86_64", f"#!/bin/sh\necho $$ > {self.there}/pid\nexec sleep 600\n")
        os.chmod(path, 0o755)
        temporary = os.path.join(self.there, "tmp")
        os.makedirs(temporary)
        words = f"from numalab.linux import guest\nguest.told_by('k', {path!r}, '', ([8], ((10,),), frozenset()))\n"
        environment = {**os.environ, "PATH": self.there + os.pathsep + os.environ["PATH"], "TMPDIR": temporary, "PYTHONPATH": LAB}
        for sent in (signal.SIGTERM, signal.SIGKILL):
            with subprocess.Popen([sys.executable, "-B", "-c", words], env=environment) as ran:
                while not os.path.exists(os.path.join(self.there, "pid")) or not self.read_pid():
                    time.sleep(0.01)
                pid = self.read_pid()
                ran.send_signal(sent)
                self.ended(ran)
            for _ in range(200):
                if not os.path.exists(f"/proc/{pid}"):
                    break
                time.sleep(0.01)
            self.assertFalse(os.path.exists(f"/proc/{pid}"), sent)
            if sent == signal.SIGTERM:
                self.assertEqual(os.listdir(temporary), [])
            os.remove(os.path.join(self.there, "pid"))

    def test_a_hunt_that_is_interrupted(self):
        """Its guests end, nothing is left, and it says how it goes on."""
        path = self.written("qemu-system-x86_64", f"#!/bin/sh\necho $$ > {self.there}/pid\nexec sleep 600\n")
        os.chmod(path, 0o755)
        temporary = os.path.join(self.there, "tmp")
        os.makedirs(temporary)
        head = bytearray(0x400)
        head[0x202:0x206], head[0x20E:0x210] = b"HdrS", (0x100).to_bytes(2, "little")
        head[0x300:0x316] = b"6.12.5-test (someone) "
        kernel = self.written("vmlinuz", bytes(head))
        environment = {**os.environ, "PATH": self.there + os.pathsep + os.environ["PATH"], "TMPDIR": temporary, "XDG_CACHE_HOME": self.there}
        words = [COMMAND, "hunt", "--kernel", kernel, "--seed", "5", "--count", "60", "--jobs", "2"]
        for sent, status in [(signal.SIGINT, 130), (signal.SIGTERM, 143)]:
            with subprocess.Popen(words, env=environment, stdout=subprocess.PIPE, stderr=subprocess.PIPE, preexec_fn=heeds_interrupts) as ran:
                while not os.path.exists(os.path.join(self.there, "pid")) or not self.read_pid():
                    time.sleep(0.01)
                pid = self.read_pid()
                ran.send_signal(sent)
                self.ended(ran)
                out, err = ran.communicate()
            self.assertEqual((ran.returncode, out, err), (status, b"", b"numalab: interrupted: --seed 5 goes on from here\n"))
            self.assertFalse(os.path.exists(f"/proc/{pid}"))
            self.assertEqual(os.listdir(temporary), [])
            os.remove(os.path.join(self.there, "pid"))

    def ended(self, process):
        """Waits for a process that is to end at once."""
        try:
            process.wait(30)
        except subprocess.TimeoutExpired:
            process.kill()
            self.fail("it did not end")

    def read_pid(self):
        with open(os.path.join(self.there, "pid"), encoding="ascii") as file:
            return file.read().strip()


class Notation(Case):
    def test_a_find_is_notation(self):
        trace = drawn.drawn(9, "small", 4)
        find = reducing.Find(trace, 6, ["6 read 61"], ["6 read 62"])
        text = text_of_find(find, RELEASE)
        self.assertEqual(trace_of(text).steps, [{**step, "at": told["at"], **({"name": told["name"]} if "name" in told else {})}
                                                for step, told in zip(trace.steps[:7], trace_of(text).steps)])
        self.assertTrue(text.startswith(notation_of(Form(), {**trace.top, "steps": trace.steps[:7]})))
        self.assertEqual(re.findall("(?m)^# .*", text), [f"# Linux {RELEASE}: 6 read 62", "# expected: 6 read 61"])


if __name__ == "__main__":
    unittest.main()

"""The notation: what it means, the way back, the examples, and the faults."""
import json
import os
import random
import unittest

from support import EXAMPLES, TRACES, Case, loaded, read, run
from numalab.faults import Form, verdict
from numalab.notate import SAID as SAID_KEYS, known_keys, notation_of
from numalab.traces import json_text
from numalab.translate import translated

HEAD = "nodes 2x4\nspawn p uid 100\nmap p A 4\n"
DRAWN, MUTATED = 300, 2000
# Words that are put into mutated files.
ODD = ["!", "!!0", "0-", "-", "[", "A[", "A[]", "A[:]", "A[::0]", "A[1:0]", "A+", "A[0]+", "0x", "1x", "x", '"', '""', '"\\"', '"\\u"', "1M*", "A[i]",
       "18446744073709551616", "18446744073709551615", "99999999999999999999", "1K", "repeat", "end", "during", "i", "as", "of", "to", "none",
       "all", "A[*]+1", "0[0:0]", "0[5:1]", "2x", "64x1", "65x1", "0x4", "1-0", "0-63", "63-0", "64", "#", "/", ",", ",,", "A,B", "\x00", "\u00e4",
       "A[1%0]", "pages", "len", "at", "look", "nodes", "distance", "A", "p1", "flags", "MPOL_MF_MOVE|", "MPOL_BIND", "16385", "4294967296"]

# A statement after the head, and the steps that it makes.
SAID = [
    ("map p B 64K shared", [{"op": "map", "pid": 1, "addr": 0x20000, "pages": 16, "shared": True}]),
    ("spawn q privileged home 1 allowed !0", [{"op": "spawn", "pid": 2, "uid": 1000, "home": 1, "allowed": [1], "privileged": True}]),
    ("spawn 7 allowed 1,0-1", [{"op": "spawn", "pid": 7, "uid": 1000, "home": 0, "allowed": [1, 0, 1]}]),
    ("attach p B of A[1:3] at 0x50000", [{"op": "attach", "pid": 1, "addr": 0x50000, "segment": 0, "offset": 1, "pages": 2}]),
    ("attach 9 B segment 5", [{"op": "attach", "pid": 9, "addr": 0x20000, "segment": 5, "offset": 0, "pages": 1}]),
    ("unmap p A[1:]", [{"op": "unmap", "pid": 1, "addr": 0x11000, "pages": 3}]),
    ("unmap p 0x10001 pages 18446744073709551615", [{"op": "unmap", "pid": 1, "addr": 0x10001, "pages": (1 << 64) - 1}]),
    ("pin p A[::3]", [{"op": "pin", "pid": 1, "addr": 0x10000}, {"op": "pin", "pid": 1, "addr": 0x13000}]),
    ("read p A[1]+4095 len 2", [{"op": "read", "pid": 1, "addr": 0x11FFF, "len": 2}]),
    ('write p A[3] "\\u00e4#\\""', [{"op": "write", "pid": 1, "addr": 0x13000, "data": "c3a42322"}]),
    ("write p 0 aF # text", [{"op": "write", "pid": 1, "addr": 0, "data": "aF"}]),
    ("move_pages p A[1:3], 0x99001 to 1, A[0] to 0", [
        {"op": "move_pages", "caller": 1, "pid": 0, "pages": [0x11000, 0x12000, 0x99001, 0x10000], "nodes": [1, 1, 1, 0], "flags": 2}]),
    ("move_pages p of 3 A to 0,1 flags MPOL_MF_MOVE|MPOL_MF_STRICT", [
        {"op": "move_pages", "caller": 1, "pid": 3, "pages": [0x10000, 0x11000, 0x12000, 0x13000], "nodes": [0, 1, 0, 1], "flags": 3}]),
    ("move_pages p none during\nend", [
        {"op": "move_pages", "caller": 1, "pid": 0, "pages": [], "nodes": [], "flags": 2, "during": []}]),
    ("move_pages p A[0] to 1 during # now\n  read p A[0]\n\n  run 0 write p A[1] 61 # and\nend", [
        {"op": "move_pages", "caller": 1, "pid": 0, "pages": [0x10000], "nodes": [1], "flags": 2, "during": [
            {"run": 0, "op": "read", "pid": 1, "addr": 0x10000, "len": 1}, {"run": 0, "op": "write", "pid": 1, "addr": 0x11000, "data": "61"}]}]),
    ("move_pages p A[-1],A[:-3] to 1", [
        {"op": "move_pages", "caller": 1, "pid": 0, "pages": [0x13000, 0x10000], "nodes": [1, 1], "flags": 2}]),
    ("spawn q allowed 1\nmove_pages p of q A[0] to +0", [{"op": "spawn", "pid": 2, "uid": 1000, "home": 0, "allowed": [1]}, {
        "op": "move_pages", "caller": 1, "pid": 2, "pages": [0x10000], "nodes": [1], "flags": 2}]),
    ("migrate_pages p from +0 to +1\nmbind p A MPOL_BIND !+0", [
        {"op": "migrate_pages", "caller": 1, "pid": 0, "old": [0], "new": [1]},
        {"op": "mbind", "caller": 1, "addr": 0x10000, "len": 16384, "mode": 2, "nodes": [1], "flags": 0}]),
    ("query p A[-3:-1]", [{"op": "query", "caller": 1, "pid": 0, "pages": [0x11000, 0x12000], "flags": 0}]),
    ("spawn q\nmap q A 1\nmap q B 1\nquery p A[3]\nquery p B\nquery q A", [
        {"op": "spawn", "pid": 2, "uid": 1000, "home": 0, "allowed": [0, 1]}, {"op": "map", "pid": 2, "addr": 0x20000, "pages": 1},
        {"op": "map", "pid": 2, "addr": 0x30000, "pages": 1}, {"op": "query", "caller": 1, "pid": 0, "pages": [0x13000], "flags": 0},
        {"op": "query", "caller": 1, "pid": 0, "pages": [0x30000], "flags": 0}, {"op": "query", "caller": 2, "pid": 0, "pages": [0x20000], "flags": 0}]),
    ("exit p\nspawn p", [{"op": "exit", "pid": 1}, {"op": "spawn", "pid": 2, "uid": 1000, "home": 0, "allowed": [0, 1]}]),
    ("spawn p pid 1", [{"op": "spawn", "pid": 1, "uid": 1000, "home": 0, "allowed": [0, 1]}]),
    ("query p none", [{"op": "query", "caller": 1, "pid": 0, "pages": [], "flags": 0}]),
    ("migrate_pages p from all to !0", [{"op": "migrate_pages", "caller": 1, "pid": 0, "old": [0, 1], "new": [1]}]),
    ("mbind p A[0:2] MPOL_LOCAL", [{"op": "mbind", "caller": 1, "addr": 0x10000, "len": 8192, "mode": 4, "nodes": [], "flags": 0}]),
    ("mbind p 7 len 5 9 63 flags 99", [{"op": "mbind", "caller": 1, "addr": 7, "len": 5, "mode": 9, "nodes": [63], "flags": 99}]),
    ("offline !1", [{"op": "offline", "node": 0}]),
    ("free all", [{"op": "free", "node": 0}, {"op": "free", "node": 1}]),
    ("look", [{"op": "free", "node": 0}, {"op": "free", "node": 1}, {"op": "pagemap", "pid": 1}, {"op": "numa_maps", "pid": 1}]),
    ("repeat 2 as i\nrepeat 2 as j\nread p A[i*2+j] len i%2+1\nend\nend", [
        {"op": "read", "pid": 1, "addr": 0x10000 + 4096 * k, "len": k // 2 + 1} for k in range(4)]),
    ("repeat 0\nlook\nend", []),
]

# A file with names of all kinds, as numalab writes it.
NAMED = """nodes ram 2x4 + cxl 8, 2
spawn app uid 100 home 0 allowed ram
note "begins"
map app heap 4
spawn db uid 1000 home 1
map db log 2 shared
attach app seen segment 1 offset 0 pages 2
note "pages"
write app heap[*] "a"
pin app heap[0]
move_pages app heap[1:3] to cxl, heap[3] to 3 during
    run 0 read db log[0]
end
query db of app seen[*]
migrate_pages db of app from ram to cxl
mbind app heap[*] MPOL_BIND ram
offline cxl
free all
numa_maps db
unmap db log[*]
note "ends"
"""

# Lines after the head, and what is said of them: line, column and words.
WRONG = [
    ("wirte p A 61", [(4, 1, "wirte is not a statement: did you mean write?")]),
    ("read p A[0:9]", [(4, 8, "A[0:9] ends past the last page: A has 4 pages, A[0] to A[3]")]),
    ("read p A[4]", [(4, 8, "A[4] is past the last page: A has 4 pages, A[0] to A[3]")]),
    ("read p A[-5]", [(4, 8, "A[-5] is before the first page: A has 4 pages, A[0] to A[3]")]),
    ("read p 0x10000[-1]", [(4, 8, "0x10000[-1] counts from an end, which only an area with a name has")]),
    ("move_pages p A[0] to 1,A[1] to 0", [(4, 22, "A[1] is not a node: further pages follow after a comma and a space")]),
    ("spawn p home 1", [(4, 7, "p is a process already, with pid 1: give this one another name, or the pid that it has")]),
    ("set_mempolicy p MPOL_BIND 1", [(4, 1, "set_mempolicy is not a statement: the model leaves out the policy of a process: docs/LINUX.md, 'Left out'")]),
    ("fork p", [(4, 1, "fork is not a statement: the model leaves out fork and copy on write: docs/LINUX.md, 'Left out'")]),
    ("hugepages p A", [(4, 1, "hugepages is not a statement: the model leaves out huge pages: docs/LINUX.md, 'Left out'")]),
    ("migrate_pages p from +0 to +2", [(4, 28, "+2 is past the last of the 2 nodes that the process may use")]),
    ("free +0", [(4, 6, "+0 counts the nodes that a process may use, and here no process is known")]),
    ("read q A", [(4, 6, "there is no process q")]),
    ("note x", [(4, 6, 'x is not a text in quotes, such as "the second phase"')]), ("note", [(4, 5, 'a text, such as "the second phase" is missing')]),
    ('note "\\ud800"', [(4, 6, '"\\ud800" is not a valid text')]),
    ("read p B", [(4, 8, "there is no area B")]),
    ("read p A[4:4:0]", [(4, 8, "A[4:4:0] is not a range of pages of the area")]),
    ("read p A[0:2]+1", [(4, 8, "A[0:2]+1 has a byte offset for more than one page")]),
    ("read p 0x10000[*]", [(4, 8, "[*] is only for an area with a name")]),
    ("read p A[0", [(4, 8, "A[0 does not name pages")]),
    ("read p", [(4, 7, "a page is missing")]),
    ("read p A len", [(4, 13, "a number of bytes is missing")]),
    ("read p A leng 2", [(4, 10, "leng is not expected here: did you mean len?")]),
    ("write p A 616", [(4, 11, "616 is neither a text in quotes nor an even number of hexadecimal digits")]),
    ('write p A "a', [(4, 11, "a text has no closing quote")]),
    ("move_pages p A", [(4, 15, "to is missing")]),
    ("move_pages p A to 1 flags MPOL_MF_MOV", [(4, 27, "MPOL_MF_MOV is not a flag: did you mean MPOL_MF_MOVE?")]),
    ("move_pages p 0[0:16385] to 1", [(4, 14, "0[0:16385] is 16,385 pages, and a batch has at most 16,384")]),
    ("mbind p A MPOL_BID 1", [(4, 11, "MPOL_BID is not a mode: did you mean MPOL_BIND?")]),
    ("mbind p A[::2] MPOL_BIND 1", [(4, 9, "A[::2] has gaps, where adjacent pages are expected")]),
    ("spawn q allowed 64", [(4, 1, "spawn: allowed[0] is 64: expected a whole number from 0 to 63, in digits only")]),
    ("move_pages p A[0] to 1 during\nrun 1 read p A\nend", [(4, 1, "move_pages: during[0].run is 1: expected a number below 1, the number of runs")]),
    ("spawn p hom 1", [(4, 9, "hom is not expected here: did you mean home?")]),
    ("spawn p home 0-1", [(4, 14, "0-1 is 2 nodes, where one is expected")]),
    ("map p B 5K", [(4, 9, "5K is not a whole number of 4K pages")]),
    ("free cxl", [(4, 6, "cxl is not a node")]),
    ("nodes 4", [(4, 1, "nodes must come before all steps")]),
    ("repeat 4000\nrepeat 4000\nend\nend", [(5, 8, "blocks would be played more than 4,194,304 times")]),
    ("repeat 2\nlook", [(4, 1, "the block has no end")]),
    ("end", [(4, 1, "end without a block")]),
    ("repeat 3\nread q A\nend", [(5, 6, "there is no process q")]),
    ("move_pages p A[0] to 1 during\npin p A[0]\nend", [(5, 1, "pin is neither read nor write")]),
    ("look now\nread p A[9]\nlok", [(4, 6, "now is not expected here"), (5, 8, "A[9] is past the last page: A has 4 pages, A[0] to A[3]"),
                                     (6, 1, "lok is not a statement: did you mean look?")]),
    ("write p 0[0:99999999999999] 61", [(4, 9, "the trace would have more than 16,777,216 bytes")]),
    ("read p 18446744073709551615[0:2]", [(4, 8, "18446744073709551615[0:2] is past the last address")]),
    ("read p A[0-1]", [(4, 8, "0-1 is not a number from 0 to 18,446,744,073,709,551,615")]),
]
MACHINES = [
    ("nodes 4", [4], [[10]]),
    ("nodes cpu 2x8, 4 + cxl 64K + 2x1", [8, 8, 4, 16, 1, 1], [
        [10, 20, 20, 30, 40, 40], [20, 10, 20, 30, 40, 40], [20, 20, 10, 30, 40, 40], [30, 30, 30, 10, 40, 40],
        [40, 40, 40, 40, 10, 40], [40, 40, 40, 40, 40, 10]], "cpu", "cpu", None, "cxl", None, None),
    ("nodes ram 4, cxl 8, ram 2", [4, 8, 2], [[10, 20, 20], [20, 10, 20], [20, 20, 10]], "ram", "cxl", "ram"),
    ("nodes 4, 8\ndistance 10 255\ndistance 11 10", [4, 8], [[10, 255], [11, 10]]),
    ("distance 10 20 / 30 10\nnodes 2x1", [1, 1], [[10, 20], [30, 10]]),
]


class Notation(Case):
    """What the notation means, and what is said of faults."""

    def test_said(self):
        for text, steps in SAID:
            top, faults = translated((HEAD + text + "\n").encode(), "x.nt")
            self.assertEqual((known_keys(Form(), top)["steps"][2:], faults), (steps, []), text)

    def test_wrong(self):
        for text, wanted in WRONG:
            self.assertEqual(translated((HEAD + text + "\n").encode(), "x.nt")[1], wanted, text)

    def test_machines(self):
        for text, sizes, rows, *names in MACHINES:
            top, faults = translated(text.encode(), "x.nt")
            machine = {"nodes": sizes, "distance": rows, **({"names": names} if names else {})}
            self.assertEqual((top, faults), ({"version": 1, "machine": machine, "steps": []}, []))
        top, _ = translated(b"run_limit 3\r\nnodes 1\r\n", "x.nt")
        self.assertEqual((top["version"], top["run_limit"]), (2, 3))

    def test_places(self):
        top, _ = translated((HEAD + "move_pages p A[0] to 1 during\nread p A[0]\nend\n").encode(), "dir/x.nt")
        self.assertEqual([step["at"] for step in top["steps"]], ["dir/x.nt:2", "dir/x.nt:3", "dir/x.nt:4"])
        self.assertEqual(top["steps"][2]["during"][0]["at"], "dir/x.nt:5")

    def test_other_files(self):
        for data, fault in [(b"", (1, 1, "nodes is missing: expected a line such as `nodes 2x4`")), (b"nodes 1\n\xff", (2, 1, "not UTF-8")),
                            (b"look", (1, 1, "nodes must come first, with a line such as `nodes 2x4`")),
                            (b"nodes 2x1\nvmstat\n\n", None), (b"run_limit 0\nnodes 1", (1, 1, "run_limit is 0: expected a whole number from 1 to 16,384, in digits only")),
                            (b"nodes 4, 0", (1, 1, "machine.nodes[1] is 0: expected a whole number from 1 to 16,384, in digits only")),
                            (b"nodes 2x4\n\ndistance 10 20 / 20 10 / 10", (3, 1, "machine.distance has 3 rows: expected one for each of 2 nodes")),
                            (b"nodes 65x1", (1, 7, "65x1 makes 65 nodes, where 1 to 64 are allowed"))]:
            self.assertEqual((translated(data, "x.nt")[1] or [None])[0], fault, data)


def mutated(rng, text):
    """A file in the notation with up to four words or lines changed."""
    lines = text.split("\n")
    for _ in range(rng.randint(1, 4)):
        k = rng.randrange(len(lines))
        words = lines[k].split(" ")
        place, other = rng.randrange(len(words)), rng.choice(ODD)
        change = rng.randrange(4)
        if change == 3:
            lines.insert(k, rng.choice(lines))
            continue
        words[place : place + (change != 1)] = [other] if change < 2 else []
        lines[k] = " ".join(words)
    return "\n".join(lines)


class Odd(Case):
    """Whatever stands in a file, what is said of it is a fault, or a good trace."""

    def test_mutated(self):
        rng = random.Random(7)
        texts = [read(path[: -len("json")] + "nt") for path in EXAMPLES]
        for _ in range(MUTATED):
            text = mutated(rng, rng.choice(texts))
            top, faults = translated(text.encode(), "x.nt")
            if not faults:
                self.assertEqual(verdict(json_text(top).encode()), "good", text)


class Back(Case):
    """From traces to the notation, and to the same trace again."""

    def check_back(self, top, what):
        form = Form()
        back, faults = translated(notation_of(form, top).encode(), "x.nt")
        self.assertEqual(faults, [], what)
        self.assertEqual(known_keys(form, back), known_keys(form, top), what)

    def test_traces(self):
        for path in TRACES:
            with open(path, encoding="utf-8") as file:
                self.check_back(json.load(file), path)

    def test_drawn(self):
        drawn = loaded("tests/drawn.py")
        for number in range(DRAWN):
            self.check_back(drawn.Drawing(number).draw().trace, number)

    def test_examples(self):
        for path in EXAMPLES:
            with open(path[: -len("json")] + "nt", "rb") as file:
                top, faults = translated(file.read(), "x.nt")
            self.assertEqual((known_keys(Form(), top), faults), (json.loads(read(path)), []), path)

    def test_names(self):
        for text in (NAMED, NAMED.replace("spawn db", "exit app\nspawn app").replace("db", "app")):
            top, faults = translated(text.encode(), "x.nt")
            self.assertEqual(faults, [])
            again, _ = translated(notation_of(Form(), top).encode(), "x.nt")
            self.assertEqual(known_keys(Form(), again, SAID_KEYS), known_keys(Form(), top, SAID_KEYS))
        self.assertEqual(notation_of(Form(), translated(NAMED.encode(), "x.nt")[0]), NAMED)

    def test_names_that_occur_again(self):
        top, _ = translated(b"nodes 2x4\nspawn a\nmap a h 2\nspawn b\nmap b h 2\nread b h\nexit b\nspawn b pid 9\nunmap a h\nmap a h 1\n", "x.nt")
        top["steps"][0]["name"], top["steps"][1]["name"] = "all", ["h"]
        self.assertEqual(notation_of(Form(), top), (
            "nodes 2x4\nspawn p1 uid 1000 home 0\nmap p1 A 2\nspawn b uid 1000 home 0\nmap b h 2\nread b h[*]\nexit b\n"
            "spawn b pid 9 uid 1000 home 0\nunmap p1 A[*]\nmap p1 h 1\n"))
        top["steps"][0]["name"], top["steps"][1]["name"] = "b", "h"
        self.assertEqual(notation_of(Form(), top).splitlines()[1:5], [
            "spawn b uid 1000 home 0", "map b h 2", "spawn b_2 uid 1000 home 0", "map b_2 h 2"])

    def test_notes(self):
        text = 'nodes 4\nrepeat 2 as i\nnote "turn {i}, \\"{j}\\""\nfree 0\nend\nnote "a"\nnote "b"\n'
        top, faults = translated(text.encode(), "x.nt")
        self.assertEqual((faults, [step["note"] for step in top["steps"]], top["note_at_end"]), ([], ['turn 0, "{j}"', 'turn 1, "{j}"'], "a\nb"))
        self.assertEqual(notation_of(Form(), top), 'nodes 4\nnote "turn 0, \\"{j}\\""\nfree all\nnote "turn 1, \\"{j}\\""\nfree all\nnote "a"\nnote "b"\n')

    def test_ten_lines(self):
        text = read("examples/half_demoted.nt")
        self.assertEqual(sum(not line.startswith("#") for line in text.splitlines()), 9)
        top, _ = translated(text.encode(), "x.nt")
        self.assertEqual(len([step for step in top["steps"] if step["op"] == "write"]), 2000)
        self.assertEqual([len(step["pages"]) for step in top["steps"] if step["op"] == "move_pages"], [1000])
        self.assertEqual(verdict(json_text(top).encode()), "good")


class Command(Case):
    """numalab write: files, folders and statuses."""

    def test_there_and_back(self):
        source = self.written("a.nt", HEAD + "read p A[0]\n")
        self.assertEqual(run("write", "a.nt", "-o", "b.json", folder=self.there), (0, "", ""))
        self.assertEqual(run("write", "b.json", "-o", "c.nt", folder=self.there), (0, "", ""))
        self.assertEqual(read(os.path.join(self.there, "c.nt")), HEAD.replace("100", "100 home 0") + "read p A[0]\n")
        self.assertIn('"at":"a.nt:4"', read(os.path.join(self.there, "b.json")))
        self.assertEqual(run("write", "--no-places", given=HEAD), run("write", "--no-places", "-", given=HEAD))
        self.assertEqual(run("write", source, source)[0], 2)
        self.assertEqual(run("write", source, "-o", source)[0], 2)

    def test_folder(self):
        self.assertEqual(run("write", *(path[:-4] + "nt" for path in EXAMPLES), "-o", self.there), (0, "", ""))
        self.assertEqual(len(os.listdir(self.there)), len(EXAMPLES))

    def test_faults(self):
        self.assertEqual(run("write", given=HEAD + "lok\nlook 1\n"), (
            2, "", "numalab: -:4:1: lok is not a statement: did you mean look? (numalab why - shows 1 more)\n"))
        self.assertEqual(run("write", "--from", given="{}")[0], 2)
        self.assertEqual(run("write", "none.nt", folder=self.there), (2, "", "numalab: none.nt: No such file or directory\n"))


if __name__ == "__main__":
    unittest.main()

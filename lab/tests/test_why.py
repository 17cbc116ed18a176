"""numalab why: all faults with their places, unknown keys, the strict schema, hints, and its statuses."""
import json
import os
import unittest

from support import EXAMPLES, TRACES, Case, loaded, read, run, started
from numalab.faults import Form, ignored_keys, strict_schema
from numalab.jsontext import places

BAD = """{"version":1,"machine":{"nodes":[4,0],"distance":[[10,20],[20,10]],"node":1},
"steps":[
{"op":"spawn","pid":1,"uid":100,"home":0,"allowed":[0,1],"priviledged":true},
  {"op":"wirte","pid":1},
{"op":"map","pid":1,"addr":"0x10000","pages":-1},
{"op":"mbind","caller":1,"addr":0,"len":0,"mode":"MPOL_BIN","nodes":[64],"flags":"MPOL_MF_MOVE|MPOL_MF_STRCT","at":"a.nt:7"},
{"op":"move_pages","caller":1,"pid":0,"page":[0],"nodes":[0],"flags":2,"during":[{"op":"raed"}]}],"run_limit":1}
"""
U32 = "expected a whole number from 0 to 4,294,967,295, in digits only"
U64 = "expected a whole number from 0 to 18,446,744,073,709,551,615, in digits only"
TOLD = [
    "x.json:1:36: bad machine: machine.nodes[1] is 0: expected a whole number from 1 to 16,384, in digits only",
    "x.json:4:9: bad step 1: op is \"wirte\": expected one of " + ", ".join(Form().steps) + ": did you mean write?",
    f"x.json:5:28: bad step 2: map: addr is \"0x10000\": {U64}: did you mean 65536?",
    f"x.json:5:46: bad step 2: map: pages is -1: {U64}",
    f"a.nt:7: bad step 3: mbind: mode is \"MPOL_BIN\": {U32}: did you mean 2 (MPOL_BIND)?",
    "a.nt:7: bad step 3: mbind: nodes[0] is 64: expected a whole number from 0 to 63, in digits only",
    f"a.nt:7: bad step 3: mbind: flags is \"MPOL_MF_MOVE|MPOL_MF_STRCT\": {U32}: did you mean 3 (MPOL_MF_MOVE|MPOL_MF_STRICT)?",
    "x.json:7:1: bad step 4: move_pages: pages is missing: expected a list of at most 16,384 elements: did you mean pages instead of page?",
    "x.json:7:88: bad step 4: move_pages: during[0].op is \"raed\": expected one of read, write: did you mean read?",
    'x.json:7:99: warning: "run_limit" is an unknown key',
    'x.json:1:68: warning: "node" is an unknown key: did you mean nodes?',
    'x.json:3:58: warning: step 0: "priviledged" is an unknown key: did you mean privileged?',
    'x.json:7:39: warning: step 4: "page" is an unknown key: did you mean pages?',
]
HEAD = "nodes 2x4\nspawn p uid 100 allowed 0\nspawn q uid 200\nmap p A 4\nmap p S 2 shared\n"
HINTS = [
    ("read 3 A", "read is refused, ESRCH: pid 3 was never spawned"),
    ("exit q\npagemap q", "pagemap is refused, ESRCH: q (process 2) has ended"),
    ('write p A[0]+4095 "ab"', "write is refused, EINVAL: the write crosses a page: 2 bytes from 0x10fff, and the page ends at 0x10fff"),
    ("read q A[0]", "read is refused, EFAULT: no area covers 0x10000"),
    ("move_pages p A[0] to 0 flags MPOL_MF_STRICT", "move_pages is refused, EINVAL: flag 1 (MPOL_MF_STRICT) is only for mbind"),
    ("move_pages p A[0] to 1", "move_pages is refused, EACCES: entry 0: p (process 1) may not use node 1 (it may use 0)"),
    ("offline 1\nmove_pages q S[0] to 1", "move_pages is refused, ENODEV: entry 0: node 1 is offline"),
    ("move_pages q of p A[0] to 0", "move_pages is refused, EPERM: p (process 1) belongs to user 100, and the caller belongs to user 200 and is not privileged"),
    ("migrate_pages p from 0 to 1", "migrate_pages is refused, EPERM: p (process 1) may not use node 1 (it may use 0), and the caller is not privileged"),
    ("mbind p A MPOL_BIND", "mbind is refused, EINVAL: MPOL_BIND needs nodes"),
    ("mbind p A MPOL_BIND 1", "mbind is refused, EINVAL: none of the nodes (1) is online and allowed for p (process 1)"),
    ("mbind p 0x10000[0:5] MPOL_LOCAL", "mbind is refused, EFAULT: no area covers 0x14000"),
    ("attach q B segment 0", "attach is refused, EINVAL: segment 0 is private"),
    ("attach q B segment 1 offset 1 pages 2", "attach is refused, EINVAL: segment 1 has 2 pages, and the area would need 3"),
    ("attach q B segment 7", "attach is refused, EINVAL: segment 7 was never made"),
    ("unmap p S\nattach q B segment 1", "attach is refused, EINVAL: segment 1 is gone: no area shows it any more"),
    ("map p B 1 at 0x11000", "map is refused, EINVAL: there is already an area, from 0x10000 to 0x13fff"),
    ("write p A[1] 61\npin p A[1]\nunmap p A", "unmap is refused, EBUSY: the page at A[1] is pinned"),
    ("pin p A[0]", "pin is refused, ENOENT: nothing has been touched at A[0]"),
    ("offline 0\noffline 1", "offline is refused, EBUSY: node 1 is the only one online"),
    ("mbind p A MPOL_BIND 0\noffline 0\nwrite p A[0] 61",
     "write is refused, ENOMEM: no nodes to take from (bind:0): none that may be used is online"),
    ("write p A[0] 61\nmove_pages p A[0] to 0 during\nread 9 A[0]\nend", "access 0 in flight is refused, ESRCH: pid 9 was never spawned"),
]


class Why(Case):
    """What is said, and the statuses."""

    def why(self, text, *words, name="x.json"):
        self.written(name, text)
        return run("why", *words, name, folder=self.there)

    def test_all_faults(self):
        status, out, err = self.why(BAD)
        self.assertEqual((status, out.splitlines(), err), (2, TOLD, ""))

    def test_strict(self):
        text = read("examples/three_pages.json").replace('"pages":3', '"pages":3,"share":true')
        self.assertEqual(self.why(text), (0, 'x.json:3:44: warning: step 1: "share" is an unknown key: did you mean shared?\ngood\n', ""))
        self.assertEqual(self.why(text, "--strict"), (2, 'x.json:3:44: step 1: "share" is an unknown key: did you mean shared?\n', ""))
        known = read("examples/three_pages.json").replace('"pages":3', '"pages":3,"at":"x:1","note":[]').replace('"version"', '"$schema":"","version"')
        self.assertEqual(self.why(known, "--strict"), (0, "good\n", ""))

    def test_doubles(self):
        text = read("examples/three_pages.json").replace('"pid":1,"uid"', '"pid":1,"pid":2,"note":{"a":[{"a":0}],"b":{}},\n"uid":7,"uid"')
        told = ['x.json:2:23: {}"pid" occurs again here: the last one counts', 'x.json:3:9: {}"uid" occurs again here: the last one counts']
        status, out, _ = self.why(text, "--no-hints")
        self.assertEqual((status, out.splitlines()), (0, [line.format("warning: ") for line in told] + ["good"]))
        self.assertEqual(self.why(text, "--strict")[:2], (2, "".join(line.format("") + "\n" for line in told)))

    def test_hints(self):
        for text, hint in HINTS:
            status, out, err = self.why(HEAD + text + "\n", name="x.nt")
            self.assertEqual((status, out.splitlines()[-1], err), (0, "good", ""), text)
            self.assertIn(": hint: step ", out, text)
            self.assertEqual(out.splitlines()[-2].split(": ", 3)[3], hint, text)
        self.assertEqual(self.why(HEAD + "read 3 A\n", "--no-hints", name="x.nt"), (0, "good\n", ""))

    def test_notation(self):
        self.assertEqual(self.why("nodes 4\nlok\nread p\n", name="x.nt"), (
            2, "x.nt:2:1: lok is not a statement: did you mean look?\nx.nt:3:6: there is no process p\n", ""))

    def test_streams(self):
        self.assertEqual(run("why", given="["), (2, "-:1:2: not JSON: expecting value\n", ""))
        self.assertEqual(run("why", "-", given="[]"), (2, "-:1:1: bad machine: the top level is a list: expected an object\n", ""))
        good, bad = EXAMPLES[0], self.written("bad.json", "7")
        self.assertEqual(run("why", "--no-hints", good, bad), (
            2, f"{good}: good\n{bad}:1:1: bad machine: the top level is 7: expected an object\n", ""))
        self.assertEqual(run("why", "none", folder=self.there), (2, "", "numalab: none: No such file or directory\n"))
        self.assertEqual(run("why", "--sevre")[0], 2)

    def test_many_faults(self):
        text = '{"version":1,"machine":{"nodes":[1],"distance":[[10]]},"steps":[%s]}' % ",\n".join(["{}"] * 5000)
        out = self.why(text)[1].splitlines()
        self.assertEqual((len(out), out[-1]), (201, "x.json: and 4,800 more"))

    def test_help(self):
        for words in (["--help"], ["why", "--help"], ["show", "--help"], ["write", "--help"], ["picture", "--help"]):
            status, out, err = run(*words)
            self.assertEqual((status, err), (0, ""))
            self.assertIn("is proved. Nothing that numalab", " ".join(out.split()))
        self.assertEqual(run()[0], 2)

    def test_links(self):
        link = os.path.join(self.there, "link")
        os.symlink(os.path.relpath(os.path.join(os.path.dirname(EXAMPLES[0]), "../numalab"), self.there), link)
        self.assertEqual(started("why", EXAMPLES[0], "--no-hints", command=link, folder=self.there), (0, "good\n", ""))


class Schema(unittest.TestCase):
    """The strict schema: the traces of the repository fit it, except for those that have unknown keys."""

    def test_strict_schema(self):
        checker, strict = loaded("tests/schema.py"), strict_schema(Form().top)
        self.assertEqual(json.loads(read("docs/trace.strict.schema.json")), strict)
        for path in TRACES:
            top = json.loads(read(path))
            self.assertEqual(checker.fault_of(strict, top, strict) is None, not ignored_keys(Form(), top), path)
        text = read("examples/three_pages.json")
        for old, new, fits in [('"pages":3', '"pages":3,"share":true', False), ('"pages":3', '"pages":3,"at":"x:1","note":7', True),
                               ('"version":1', '"version":1,"run_limit":3', False), ('"version":1', '"version":2,"run_limit":3', True),
                               ('"machine"', '"$schema":"","machine"', True), ('"distance"', '"distances":0,"distance"', False),
                               ('"flags":2', '"flags":2,"during":[{"op":"read","pid":1,"addr":0,"len":1,"run":0,"runs":0}]', False)]:
            fault = checker.fault_of(strict, json.loads(text.replace(old, new, 1)), strict)
            self.assertEqual(fault is None, fits, (new, fault))

    def test_places(self):
        text = '{"a":[1,{"b":2,\n "b":[3]}],"c":{}, "\\u0063":"x"}'
        paths = {(), ("a",), ("a", 0), ("a", 1, "b"), ("a", 1, "b", 0), ("c",), ("none",)}
        found = {path: [text[at : at + 2] for at in pair] for path, pair in places(text, paths).items()}
        self.assertEqual(found, {(): ['{"', '{"'], ("a",): ['"a', "[1"], ("a", 0): ["1,", "1,"], ("a", 1, "b"): ['"b', "[3"],
                                 ("a", 1, "b", 0): ["3]", "3]"], ("c",): ['"\\', '"x']})


if __name__ == "__main__":
    unittest.main()

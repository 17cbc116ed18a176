"""Machines from numactl -H, hwloc's XML and sysfs, scaled to a trace; their picture; and what is said of bad input."""
import json
import os
import re
import unittest
import xml.etree.ElementTree as ElementTree

from support import ROOT, Case, read, run
from numalab import Machine
from numalab.faults import verdict
from test_machine import PROGRAM

# (in the form of numactl 2.0: two nodes with processors, one without memory, one without processors)
NUMACTL = """available: 4 nodes (0-1,4,8)
node 0 cpus: 0 1 2 3 8 9 10 11
node 0 size: 64215 MB
node 0 free: 51234 MB
node 1 cpus: 4 5 6 7 12 13 14 15
node 1 size: 64506 MB
node 1 free: 60011 MB
node 4 cpus:
node 4 size: 0 MB
node 4 free: 0 MB
node 8 cpus:
node 8 size: 131072 MB
node 8 free: 131001 MB
node distances:
node   0   1   4   8 
  0:  10  21  30  24 
  1:  21  10  30  34 
  4:  30  30  10  40 
  8:  24  34  40  10 
"""
# 64,215 MB are 16,439,040 pages, or 4,013 frames of 4,096 pages; 2,048 pages would make 32,473 frames together.
FROM_NUMACTL = """# one frame stands for 4,096 pages of 4 KiB, 16 MiB
# node 4 has no memory and is left out
# node 8 of the machine is node 2
nodes 4013, 4031, cpuless 8192
distance 10 21 24
distance 21 10 34
distance 24 34 10
"""
HWLOC = """<?xml version="1.0" encoding="UTF-8"?>
<!DOCTYPE topology SYSTEM "hwloc2.dtd">
<topology version="2.0">
  <object type="Machine" os_index="0" cpuset="0x0000000f" nodeset="0x00000007">
    <object type="Package" os_index="0" cpuset="0x00000003">
      <object type="NUMANode" os_index="0" cpuset="0x00000003" local_memory="33554432" subtype="DRAM"><page_type size="4096" count="8192"/></object>
      <object type="NUMANode" os_index="2" cpuset="0x00000003" local_memory="8388608" subtype="HBM"/>
    </object>
    <object type="Package" os_index="1" cpuset="0x0000000c">
      <object type="NUMANode" os_index="1" cpuset="0x0000000c" local_memory="33554432" subtype="DRAM"/>
    </object>
  </object>
  <distances2 type="NUMANode" nbobjs="3" kind="5" name="NUMALatency" indexing="os">
    <indexes length="6">0 2 1 </indexes>
    <u64values length="18">10 13 20 13 10 23 20 23 10 </u64values>
  </distances2>
</topology>
"""
FROM_HWLOC = """# one frame stands for 2 pages of 4 KiB, 8 KiB
# node 2 of the machine is node 1
# node 1 of the machine is node 2
nodes dram 4096, hbm 1024, dram 4096
distance 10 13 20
distance 13 10 23
distance 20 23 10
"""
OLD_HWLOC = """<topology><object type="Machine"><distances nbobjs="2" relative_depth="1" latency_base="10.000000"><latency value="1.000000"/>
<latency value="2.100000"/><latency value="2.100000"/><latency value="1.000000"/></distances>
<object type="NUMANode" os_index="0" local_memory="4096000"/><object type="NUMANode" os_index="1" local_memory="2048000"/></object></topology>"""


class Machines(Case):
    """Each form, and what it makes."""

    def told(self, name, text, *words):
        return run("machine", self.written(name, text), *words)

    def test_numactl(self):
        self.assertEqual(self.told("x", NUMACTL), (0, FROM_NUMACTL, ""))
        self.assertEqual(run("machine", "-", given=NUMACTL), (0, FROM_NUMACTL, ""))

    def test_page(self):
        shown = read("lab/docs/RECORDING.md").split("    # one frame stands for 4,096 pages")[1].split("\n\n")[0].splitlines()[1:]
        self.assertEqual([line.strip() for line in shown], [line for line in FROM_NUMACTL.splitlines()[1:] if "left out" not in line])

    def test_hwloc(self):
        self.assertEqual(self.told("x.xml", HWLOC, "--scale", "2"), (0, FROM_HWLOC, ""))
        self.assertEqual(self.told("x.xml", OLD_HWLOC)[1], "# one frame stands for 1 page of 4 KiB\nnodes 1000, 500\ndistance 10 21\ndistance 21 10\n")

    def test_no_distances(self):
        text = re.sub("(?s)<distances.*?</distances>", "", OLD_HWLOC)
        self.assertEqual(self.told("x.xml", text)[1].splitlines()[1:], ["# no distances are given: it is 20 from each node to another", "nodes 1000, 500"])
        self.assertEqual(self.told("x.xml", HWLOC.replace("NUMALatency", "NUMABandwidth"))[1].splitlines()[1][:24], "# no distances are given")

    def folder(self):
        for name, text in [("online", "0-2\n"), ("has_memory", "0,2\n"), ("node0/meminfo", "Node 0 MemTotal:       8000 kB\n"), ("node0/cpulist", "0-3\n"),
                           ("node0/distance", "10 20 30\n"), ("node2/meminfo", "Node 2 MemTotal:       4000 kB\nNode 2 MemFree: 1 kB\n"),
                           ("node2/cpulist", "\n"), ("node2/distance", "30 40 10\n")]:
            os.makedirs(os.path.dirname(os.path.join(self.there, "node", name)), exist_ok=True)
            self.written("node/" + name, text)
        return os.path.join(self.there, "node")

    def test_sysfs(self):
        self.assertEqual(run("machine", self.folder()), (0, "# one frame stands for 1 page of 4 KiB\n# node 2 of the machine is node 1\n"
                                                            "nodes 2000 + cpuless 1000\n", ""))
        self.assertEqual(run("machine", self.folder(), "--frames", "100")[1].splitlines()[::2], ["# one frame stands for 32 pages of 4 KiB, 128 KiB", "nodes 62 + cpuless 31"])

    def test_heads(self):
        out = os.path.join(self.there, "x.json")
        self.assertEqual(self.told("x", NUMACTL, "-o", out), (0, "", ""))
        with open(out, "rb") as file:
            data = file.read()
        self.assertEqual(verdict(data), "good")
        top = json.loads(data)
        self.assertEqual((top["machine"]["names"], top["steps"]), ([None, None, "cpuless"], []))
        self.assertEqual(run("why", "--strict", out)[1], "good\n")
        with Machine.of_trace(out, PROGRAM) as m:
            self.assertEqual(len(m.free("cpuless")), 8192)
        self.assertEqual(run("machine", f"{ROOT}/examples/half_demoted.nt")[1], "nodes 2x1200 + cxl 4096\n")
        self.assertEqual(run("machine", out)[1], FROM_NUMACTL.split("\n", 3)[3])

    def test_picture(self):
        out = os.path.join(self.there, "x.svg")
        self.assertEqual(self.told("x", NUMACTL, "--picture", out), (0, "", ""))
        texts = [element.text for element in ElementTree.parse(out).getroot().iter() if element.tag.endswith("text")]
        for words in ["x: 3 nodes, 16,236 frames", "tier 1", "tier 2", "node 2 (cpuless)", "8,192 frames", "34", "node 8 of the machine is node 2"]:
            self.assertIn(words, texts)
        svg = run("machine", f"{ROOT}/examples/many_nodes.nt", "--picture", "-")[1]
        width = int(re.search(r'viewBox="0 0 (\d+)', svg)[1])
        self.assertLessEqual(max(float(x) for x in re.findall(r'<text x="([\d.]+)"', svg)), width)

    def test_bad(self):
        for text, words in [("", "neither what numactl -H prints, nor XML of lstopo --of xml, nor a trace"), ("<a", "not XML: unclosed token: line 1, column 0"),
                            ("available: 1 nodes (0)\n", "there is no line such as `node 0 size: 16384 MB`"),
                            (NUMACTL.replace(" 40 \n", "\n", 1), "the node distances are not a row for each node, as numactl -H prints them"),
                            ('<topology><object type="NUMANode"/></topology>', "not a topology as lstopo --of xml writes it: int() argument")]:
            status, out, err = self.told("x", text)
            self.assertEqual((status, out), (2, ""), text)
            self.assertTrue(err.startswith(f"numalab: {self.there}/x: {words}"), err)
        self.assertEqual(self.told("x", NUMACTL, "--scale", "2048")[::2], (2, "numalab: the machine would have 32,473 frames, and at most 16,384 are allowed: "
                                                                               "a scale of 4096 is enough\n"))
        self.assertEqual(self.told("x", NUMACTL, "--frames", "2")[::2], (2, "numalab: 3 nodes cannot have fewer than 3 frames\n"))
        self.assertEqual(self.told("x", "<topology/>")[::2], (2, "numalab: the machine has 0 nodes with memory, and a trace has 1 to 64\n"))
        self.assertEqual(run("machine", self.there)[::2], (2, f"numalab: {self.there}/online: No such file or directory: this is no folder of nodes as "
                                                              "/sys/devices/system/node\n"))
        self.assertEqual(run("machine", "--scale", "0")[0], 2)


if __name__ == "__main__":
    unittest.main()

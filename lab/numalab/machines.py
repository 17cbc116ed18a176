"""Machines as other tools describe them: what `numactl -H` prints, the XML of hwloc's `lstopo --of xml`, and the folder
/sys/devices/system/node. Scaled, they are machines of a trace."""
import os
import re
import xml.etree.ElementTree as ElementTree
from collections import namedtuple

from .faults import MOST_FRAMES
from .names import is_name
from .notation import NEAR
from .traces import Bad
from .words import PAGE, counted

NODES = "/sys/devices/system/node"
MOST_NODES, OWN, LEAST_APART, MOST_APART = 64, 10, 11, 255
NO_PROCESSORS = "cpuless"

# A node as it is described: its number there, its size in pages of 4 KiB, its name or None, and its distances by number.
Node = namedtuple("Node", "number pages name distances")


def listed(text):
    """The numbers of a list such as 0-2,5."""
    return [value for part in text.split(",") if part.strip()
            for value in range(int(part.split("-")[0]), int(part.split("-")[-1]) + 1)]


# ---- what others write


def of_numactl(text, name):
    """The nodes in what `numactl -H` prints."""
    sizes = {int(node): int(size) * 256 for node, size in re.findall(r"(?m)^node (\d+) size: (\d+) MB", text)}
    bare = {int(node) for node in re.findall(r"(?m)^node (\d+) cpus:\s*$", text)}
    head = re.search(r"(?m)^node distances:\s*\nnode\s+([\d ]+)$", text)
    rows = {int(node): [int(one) for one in row.split()] for node, row in re.findall(r"(?m)^ *(\d+):\s+([\d ]+)$", text)}
    columns = [int(one) for one in head[1].split()] if head else []
    if not sizes:
        raise Bad(f"{name}: there is no line such as `node 0 size: 16384 MB`")
    if any(len(rows.get(node, ())) != len(columns) for node in sizes):
        raise Bad(f"{name}: the node distances are not a row for each node, as numactl -H prints them")
    return [Node(node, size, NO_PROCESSORS if node in bare else None, dict(zip(columns, rows[node]))) for node, size in sorted(sizes.items())]


def of_hwloc(data, name):
    """The nodes in hwloc's XML, of version 1 or 2."""
    try:
        top = ElementTree.fromstring(data)
    except ElementTree.ParseError as error:
        raise Bad(f"{name}: not XML: {error}") from error
    found = [one for one in top.iter("object") if one.get("type") == "NUMANode"]
    try:
        numbers = [int(one.get("os_index")) for one in found]
        rows = hwloc_distances(top, numbers)
        return [Node(number, int(one.get("local_memory", 0)) // PAGE, (one.get("subtype") or "").lower() or None, dict(zip(numbers, rows[k])))
                for k, (number, one) in enumerate(zip(numbers, found))]
    except (TypeError, ValueError, IndexError) as error:
        raise Bad(f"{name}: not a topology as lstopo --of xml writes it: {error}") from error


def hwloc_distances(top, numbers):
    """The rows of distances between nodes, which are empty where the file has none."""
    count = len(numbers)
    for part in top.iter("distances2"):
        if part.get("type") == "NUMANode" and "Latency" in part.get("name", "Latency"):
            indexes = [int(one) for text in part.iter("indexes") for one in text.text.split()]
            values = [int(one) for text in part.iter("u64values") for one in text.text.split()]
            order = [indexes.index(number) for number in numbers] if part.get("indexing") == "os" else range(count)
            return [[values[own * len(indexes) + to] for to in order] for own in order]
    for part in top.iter("distances"):
        if int(part.get("nbobjs", 0)) == count:
            values = [round(float(one.get("value")) * float(part.get("latency_base", 10))) for one in part.iter("latency")]
            return [values[own * count:(own + 1) * count] for own in range(count)]
    return [[] for _ in numbers]


def of_folder(folder):
    """The nodes in a folder such as /sys/devices/system/node."""
    def read(*parts):
        with open(os.path.join(folder, *parts), encoding="utf-8", errors="replace") as file:
            return file.read()

    def node_of(node, online):
        size = re.search(r"MemTotal:\s+(\d+)", read(f"node{node}", "meminfo"))
        there = os.path.exists(os.path.join(folder, f"node{node}", "cpulist"))
        bare = there and not read(f"node{node}", "cpulist").strip()
        return Node(node, int(size[1]) // 4, NO_PROCESSORS if bare else None, dict(zip(online, map(int, read(f"node{node}", "distance").split()))))

    try:
        online = listed(read("online").strip())
        with_memory = listed(read("has_memory").strip()) if os.path.exists(os.path.join(folder, "has_memory")) else online
        return [node_of(node, online) for node in with_memory]
    except OSError as error:
        raise Bad(f"{error.filename}: {error.strerror}: this is no folder of nodes as {NODES}") from error
    except (TypeError, ValueError) as error:
        raise Bad(f"{folder}: not as {NODES} is: {error}") from error


def of_bytes(data, name):
    """The nodes in a file, whatever of these it is."""
    if data.lstrip()[:1] == b"<":
        return of_hwloc(data, name)
    text = data.decode("utf-8", "replace")
    if re.search(r"(?m)^(available: \d+ nodes|node \d+ size:)", text):
        return of_numactl(text, name)
    raise Bad(f"{name}: neither what numactl -H prints, nor XML of lstopo --of xml, nor a trace")


# ---- as a trace has them


def scale_for(nodes, most):
    """The least power of two such that the nodes have at most so many frames, if each stands for that many pages."""
    scale = 1
    while sum(max(1, node.pages // scale) for node in nodes) > most:
        scale *= 2
        if scale > max(node.pages for node in nodes):
            raise Bad(f"{counted(len(nodes), 'node')} cannot have fewer than {counted(len(nodes), 'frame')}")
    return scale


def scaled(nodes, scale=None, most=MOST_FRAMES):
    """The machine of a trace for these nodes, and what there is to say of it."""
    notes, empty = [], [node.number for node in nodes if node.pages == 0]
    nodes = [node for node in nodes if node.pages]
    if not 1 <= len(nodes) <= MOST_NODES:
        raise Bad(f"the machine has {counted(len(nodes), 'node')} with memory, and a trace has 1 to {MOST_NODES}")
    scale = scale_for(nodes, most) if scale is None else scale
    sizes = [max(1, node.pages // scale) for node in nodes]
    if sum(sizes) > most:
        raise Bad(f"the machine would have {sum(sizes):,} frames, and at most {most:,} are allowed: a scale of {scale_for(nodes, most)} is enough")
    size = next(f"{scale * 4 >> shift} {unit}" for shift, unit in ((20, "GiB"), (10, "MiB"), (0, "KiB")) if scale * 4 >> shift << shift == scale * 4)
    notes.append(f"one frame stands for {counted(scale, 'page')} of 4 KiB" + (f", {size}" if scale > 1 else ""))
    notes += [f"node {node} has no memory and is left out" for node in empty]
    if len(nodes) > 1 and not any(node.distances for node in nodes):
        notes.append(f"no distances are given: it is {NEAR} from each node to another")
    notes += [f"node {node.number} of the machine is node {k}" for k, node in enumerate(nodes) if node.number != k]
    rows = []
    for own, node in enumerate(nodes):
        row = [node.distances.get(other.number, OWN if other is node else NEAR) for other in nodes]
        far = [OWN if own == to else min(max(value, LEAST_APART), MOST_APART) for to, value in enumerate(row)]
        notes += [f"the distance from node {own} to {to} is {row[to]} there, and {far[to]} here" for to in range(len(row)) if row[to] != far[to]]
        rows.append(far)
    names = [node.name if is_name(node.name) else None for node in nodes]
    return {"nodes": sizes, "distance": rows, **({"names": names} if any(names) else {})}, notes


def checked_scale(text):
    """A number of pages that a frame stands for."""
    if not re.fullmatch("[1-9][0-9]{0,11}", text):
        raise ValueError(text)
    return int(text)

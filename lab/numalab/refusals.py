"""Why a call is refused: the conditions of each call in the order in which they count, in words.

Each function takes a machine of the plain model, in which a refused call has changed nothing, and the step. It yields the errors
that the call may have, each with whether its condition holds and what there is to say; the first that holds decides. Each may
rely on those before it not holding. Nothing here is proved."""
from .model import END, MODES as KINDS, MOST_ADDRESS, MOST_PINS, MOST_PROCESSES, MOST_SEGMENTS, MOVE, MOVE_ALL, STRICT, ZERO
from .words import FLAGS, MODES, PAGE, counted, nodes_text

LAST = END * PAGE - 1


def no_process(machine, pid, who="pid"):
    """That there is no such process."""
    ended = pid in machine.ended
    told = f"{who} 0 is not a process" if pid == 0 else f"{machine.names.process_text(pid)} has ended" if ended else f"{who} {pid} was never spawned"
    return "ESRCH", pid not in machine.processes, told


def no_node(machine, node):
    most = len(machine.nodes) - 1
    return "EINVAL", node not in machine.nodes, f"there is no node {node}: the machine has {'only node 0' if most == 0 else f'nodes 0 to {most}'}"


def no_area(process, number):
    return "EFAULT", process.area(number) is None, f"no area covers {number * PAGE:#x}"


def whole_pages(step):
    address, pages = step["addr"], step["pages"]
    yield "EINVAL", address % PAGE != 0, f"{address:#x} is inside a page, which begins at {address // PAGE * PAGE:#x}"
    yield "EINVAL", pages == 0, "no pages are asked for"
    yield "EINVAL", address // PAGE + pages > END, f"{counted(pages, 'page')} from {address:#x} end past the last address, {LAST:#x}"


def spawn(machine, step):
    pid = step["pid"]
    yield "EINVAL", pid == 0, "pid 0 stands for the caller, and no process has it"
    yield "EINVAL", pid in machine.processes, f"process {pid} is already alive"
    yield "EINVAL", not step["allowed"], "no node is allowed"
    for node in [step["home"], *step["allowed"]]:
        yield no_node(machine, node)
    yield "ENOMEM", len(machine.processes) >= MOST_PROCESSES, f"{MOST_PROCESSES:,} processes are alive, which is the limit"


def new_area(machine, step):
    yield no_process(machine, step["pid"])
    yield from whole_pages(step)
    first, end = step["addr"] // PAGE, step["addr"] // PAGE + step["pages"]
    for area in machine.processes[step["pid"]].areas:
        yield "EINVAL", bool(area.part(first, end)), f"there is already an area, from {area.first * PAGE:#x} to {area.end * PAGE - 1:#x}"


def map_(machine, step):
    yield from new_area(machine, step)
    yield "ENOMEM", machine.segments_made >= MOST_SEGMENTS, f"{MOST_SEGMENTS:,} segments have been made, which is the limit"


def attach(machine, step):
    yield from new_area(machine, step)
    number, segment = step["segment"], machine.segments.get(step["segment"])
    gone = "no area shows it any more" if number < machine.segments_made else "was never made"
    yield "EINVAL", segment is None, f"segment {number} {'is gone: ' if number < machine.segments_made else ''}{gone}"
    yield "EINVAL", not segment.shared, f"segment {number} is private"
    end = step["offset"] + step["pages"]
    yield "EINVAL", end > segment.pages, f"segment {number} has {counted(segment.pages, 'page')}, and the area would need {end:,}"


def pinned(machine, pid, first, end):
    process = machine.processes[pid]
    for page in [page for page, count in machine.pins.items() if count]:
        numbers = [area.number_of(page) for area in process.areas]
        inside = [number for number in numbers if number is not None and first <= number < end]
        yield "EBUSY", bool(inside), f"the page at {machine.names.place(pid, min(inside, default=0) * PAGE)} is pinned"


def unmap(machine, step):
    yield no_process(machine, step["pid"])
    yield from whole_pages(step)
    first = step["addr"] // PAGE
    yield from pinned(machine, step["pid"], first, first + step["pages"])


def exit_(machine, step):
    yield no_process(machine, step["pid"])
    yield from pinned(machine, step["pid"], 0, END)


def page_to_pin(machine, step):
    yield no_process(machine, step["pid"])
    process, number = machine.processes[step["pid"]], step["addr"] // PAGE
    yield no_area(process, number)
    page, place = process.seen.get(number), machine.names.place(step["pid"], number * PAGE)
    yield "EFAULT", page == ZERO, f"{place} is the page of zeros: it was read but never written"
    yield "ENOENT", page is None, f"nothing has been touched at {place}"


def pin(machine, step):
    yield from page_to_pin(machine, step)
    yield "EBUSY", True, f"the page has {MOST_PINS:,} pins, which is the limit"


def unpin(machine, step):
    yield from page_to_pin(machine, step)
    yield "EINVAL", True, f"the page at {machine.names.place(step['pid'], step['addr'] // PAGE * PAGE)} has no pin"


def access(machine, step):
    yield no_process(machine, step["pid"])
    process, (number, offset) = machine.processes[step["pid"]], divmod(step["addr"], PAGE)
    length = step["len"] if step["op"] == "read" else len(step["data"]) // 2
    yield "EINVAL", length == 0, "no bytes are asked for"
    crosses = f"the {step['op']} crosses a page: {counted(length, 'byte')} from {step['addr']:#x}, and the page ends at {number * PAGE + PAGE - 1:#x}"
    yield "EINVAL", offset + length > PAGE, crosses
    yield no_area(process, number)
    area = process.area(number)
    order = machine.order(process, area.policy, area.page(number)[1])
    asked = machine.order_text(process, area.policy, order)
    yield "ENOMEM", True, f"no node in {asked} has a free frame" if order else f"{asked}: none that may be used is online"


def rights(machine, step):
    """The refusals of a call on a process: who calls, and whose pages they are."""
    caller, pid = machine.processes[step["caller"]], step["pid"] or step["caller"]
    yield no_process(machine, pid)
    owner = machine.processes[pid]
    yield ("EPERM", owner.user != caller.user and not caller.privileged,
           f"{machine.names.process_text(pid)} belongs to user {owner.user}, and the caller belongs to user {caller.user} and is not privileged")


def unprivileged(machine, step):
    not_allowed = step["flags"] & MOVE_ALL and not machine.processes[step["caller"]].privileged
    return "EPERM", bool(not_allowed), f"{FLAGS[MOVE_ALL]} is only for privileged callers, and {machine.names.process_text(step['caller'])} is not one"


def query(machine, step):
    yield no_process(machine, step["caller"], "caller")
    flags = step["flags"]
    known = f"{MOVE} ({FLAGS[MOVE]}) and {MOVE_ALL} ({FLAGS[MOVE_ALL]}) are known"
    yield "EINVAL", bool(flags & ~(MOVE | MOVE_ALL | STRICT)), f"flags {flags}: only {known}"
    yield "EINVAL", bool(flags & STRICT), f"flag {STRICT} ({FLAGS[STRICT]}) is only for mbind"
    yield unprivileged(machine, step)
    yield from rights(machine, step)


def move_pages(machine, step):
    yield from query(machine, step)
    pid = step["pid"] or step["caller"]
    allowed = machine.processes[pid].allowed
    for place, node in enumerate(step["nodes"]):
        absent = f"{machine.names.node_text(node)} is offline" if node in machine.nodes else no_node(machine, node)[2]
        yield "ENODEV", node not in machine.online, f"entry {place}: {absent}"
        yield "EACCES", node not in allowed, f"entry {place}: {machine.names.process_text(pid)} may not use {machine.names.node_text(node)} (it may use {nodes_text(sorted(allowed))})"


def migrate_pages(machine, step):
    yield no_process(machine, step["caller"], "caller")
    for node in step["old"] + step["new"]:
        yield no_node(machine, node)
    yield from rights(machine, step)
    caller, pid = machine.processes[step["caller"]], step["pid"] or step["caller"]
    allowed = machine.processes[pid].allowed
    others = sorted(set(step["new"]) - allowed)
    which = f"node{'s' if len(others) > 1 else ''} {nodes_text(others)}"
    yield ("EPERM", bool(others) and not caller.privileged,
           f"{machine.names.process_text(pid)} may not use {which} (it may use {nodes_text(sorted(allowed))}), and the caller is not privileged")
    yield "EINVAL", True, f"none of the new nodes ({nodes_text(sorted(set(step['new'])))}) is online and allowed for {machine.names.process_text(pid)}"


def policy(machine, step):
    """The refusals of the policy that mbind asks for."""
    flags, mode, nodes = step["flags"], step["mode"], step["nodes"]
    process = machine.processes[step["caller"]]
    yield "EINVAL", flags > STRICT | MOVE | MOVE_ALL, f"flags {flags}: only 1, 2 and 4 are known"
    yield "EINVAL", mode >= len(MODES), f"mode {mode}: only 0 to {len(MODES) - 1} are known"
    kind = KINDS[mode]
    yield "EINVAL", bool(nodes) and kind in ("default", "local"), f"{MODES[mode]} takes no nodes"
    yield "EINVAL", not nodes and kind in ("bind", "interleave"), f"{MODES[mode]} needs nodes"
    for node in nodes:
        yield no_node(machine, node)
    kept = machine.usable(nodes, process)
    yield "EINVAL", bool(nodes) and not kept, f"none of the nodes ({nodes_text(sorted(set(nodes)))}) is online and allowed for {machine.names.process_text(step['caller'])}"
    yield unprivileged(machine, step)


def mbind(machine, step):
    yield no_process(machine, step["caller"], "caller")
    yield from policy(machine, step)
    process, address = machine.processes[step["caller"]], step["addr"]
    first, end = address // PAGE, (address + step["len"] + PAGE - 1) // PAGE
    yield "EINVAL", address % PAGE != 0, f"{address:#x} is inside a page, which begins at {address // PAGE * PAGE:#x}"
    yield "EINVAL", end * PAGE > MOST_ADDRESS, f"{step['len']:,} bytes from {address:#x} end past 2^64 - 1"
    hole = first_hole(process, first, end)
    yield "EFAULT", hole is not None, f"no area covers {(hole or 0) * PAGE:#x}"
    strays = machine.strays(step, first, end)
    late = " after the moves" if step["flags"] & (MOVE | MOVE_ALL) else ""
    yield "EIO", bool(strays), f"{FLAGS[STRICT]}: not all pages follow {machine.asked_text(step)}{late}: " + machine.some(
        strays, lambda stray: f"{machine.names.place(step['caller'], stray[0] * PAGE)} is on {machine.node_text(stray[1])}")


def first_hole(process, first, end):
    """The first page number of a range without an area."""
    for area in process.areas:
        if area.first <= first < area.end:
            first = area.end
    return first if first < end else None


def offline(machine, step):
    node = step["node"]
    yield no_node(machine, node)
    yield "EBUSY", machine.online == {node}, f"{machine.names.node_text(node)} is the only one online"
    stay = [page for page in sorted(machine.place) if machine.node(page) == node]
    yield "EBUSY", True, f"{counted(len(stay), 'page')} of {machine.names.node_text(node)} {'stays' if len(stay) == 1 else 'stay'}: {machine.some(stay, machine.page_text)}"


def node_alone(machine, step):
    yield no_node(machine, step["node"])


def process_alone(machine, step):
    yield no_process(machine, step["pid"])


REFUSALS = {
    "spawn": spawn, "map": map_, "attach": attach, "unmap": unmap, "exit": exit_, "pin": pin, "unpin": unpin, "read": access,
    "write": access, "move_pages": move_pages, "query": query, "migrate_pages": migrate_pages, "mbind": mbind,
    "offline": offline, "online": node_alone, "free": node_alone, "pagemap": process_alone, "numa_maps": process_alone,
}


def refusal(machine, step):
    """The error of a refused call, and why; or None, and that the reason is not known."""
    for error, is_so, text in REFUSALS[step["op"]](machine, step):
        if is_so:
            return error, text
    return None, "no rule known here refuses this"

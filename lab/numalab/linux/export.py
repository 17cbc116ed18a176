"""Tests in C: a trace's calls, made for real, and the answers that are expected, in one file.

The file is calls.c, which the player has too, the steps as data, checks.c, which compares, and one of tap.c, ltp.c and kselftest.c,
which report. What the machine lacks is found out where the test runs, from what the data say that it needs."""
import os
import re
from collections import namedtuple

from ..faults import Form
from ..model import PAGE
from ..names import notes_of
from ..notate import Notator, notation_of
from ..table import Plain
from ..words import nodes_text, printable
from .compare import partings
from .differences import KERNELS
from .instructions import HIGHEST, Instructions, Unplayable, short_name
from .player import HERE, source_text
from .replayed import by_step, frames_apart
from .worlds import given

FORMS = ("tap", "ltp", "kselftest")
COMPILED = {
    "tap": "gcc -O1 -static-pie -o {0} {0}.c (where there is no static C library, without -static-pie)",
    "ltp": "the Linux Test Project's build, which has tst_test.h",
    "kselftest": "the kernel's build of its own tests: the file is for a folder of tools/testing/selftests",
}
MADE = "made by numalab export"
MOST_LETTERS, MOST_COLUMNS, MOST_NODES, MOST_LINES = 100, 118, 64, 200
UNCHECKED_FREE = "kernels do not show their free frames"
UNCHECKED_OPEN = "what decides it is not known beforehand"
UNCHECKED_OWN = "the model alone refuses it: it is not made"

# What a step of a test has: what it is called, its instructions, the answer that is expected, what is said of that answer, and why it is
# not checked.
Step = namedtuple("Step", "name instructions expected remark unchecked")


class Titles(Plain):
    """The steps as names of tests: batches with their entries where these are short."""

    def set(self, nodes):
        return super().set(nodes) if self.count > 1 else nodes_text(nodes) or "none"  # all is a strange word for one node

    def short(self, step, whole, counted):
        text = whole(self, step)
        return text if len(text) <= MOST_LETTERS else counted(step)

    def tell_move_pages(self, step):
        return self.short(step, Notator.tell_move_pages, super().tell_move_pages)

    def tell_query(self, step):
        return self.short(step, Notator.tell_query, super().tell_query)


def titles_of(top):
    """For each step its name: its note, or the last before it, and the statement."""
    titles, note, found = Titles(top), "", []
    for step in top["steps"]:
        note = "; ".join(notes_of(step)) or note
        titles.names.made(step)
        text = titles.text(step)
        if step["op"] == "write" and len(text) > MOST_LETTERS:
            text = text[:MOST_LETTERS] + ".."
        found.append(printable(f"{note}: {text}" if note else text))
    return found


def answer_text(lines):
    """The answer of a step as calls.c says it, where N? stands for the pages of an area that may be on any node."""
    answer = ";".join([str(lines[0]).split(" ", 2)[2], *map(str, lines[1:])])
    return answer.replace(" ? kernelpagesize", " N? kernelpagesize")


def unwritten(lines):
    """The entries of a batch for which a kernel writes no status."""
    words = str(lines[0]).split(" ")
    return {place for place, word in enumerate(words[3:]) if word == "-"} if words[1] in ("move_pages", "query") else set()


def remark_of_entries(places, who):
    return f"{who} no status for {'entries' if len(places) > 1 else 'entry'} {nodes_text(sorted(places))}: not checked" if places else ""


def answers_of_kernel(trace, version, privilege):
    """For each step the answer that a kernel is expected to give, and a remark."""
    for one in given(trace.top, version, privilege):
        yield answer_text(one.lines), remark_of_entries(unwritten(one.lines), f"Linux {version} writes")


def answers_of_model(trace, report, privilege):
    """For each step the answer of the model, without the statuses that neither kernel writes, and what is known of kernels."""
    own = [frames_apart(trace.top, lines) for lines in by_step(report.decode().split("\n")[:-1], "the report")]
    expected = {version: given(trace.top, version, privilege) for version in KERNELS}
    differ = {version: partings(trace.top, report, version, privilege) for version in KERNELS}
    for k, lines in enumerate(own):
        places = set.intersection(*(unwritten(told[k].lines) for told in expected.values()))
        words = lines[0].split(" ")
        if words[1] == "move_pages" and words[2] != "error":
            lines = [" ".join("-" if place - 3 in places else word for place, word in enumerate(words))]
        known = [f"known to differ on Linux {version}: {', '.join(differ[version][k].rows)}" for version in KERNELS if k in differ[version]]
        yield answer_text(lines), "; ".join([*filter(None, [remark_of_entries(places, "kernels write")]), *known])


def instructions_by_step(instructions):
    """The lines for each step, with those that come before it."""
    lines, found = list(instructions.shared), []
    for line in instructions.body:
        lines.append(line)
        if line[:1].isdigit():
            found.append(lines)
            lines = []
    return found


def steps_of(trace, instructions, answers):
    """The steps of a test."""
    for lines, title, (expected, remark) in zip(instructions_by_step(instructions), titles_of(trace.top), answers):
        said = lines[-1].split(" ")[1:3]
        unchecked = UNCHECKED_OPEN if expected == "?" else "" if said[0] != "say" else UNCHECKED_FREE if said[1] == "free" else UNCHECKED_OWN
        yield Step(title, "\n".join(lines), expected, remark, unchecked)


# ---- what a test needs

def addresses_of(step):
    """The ends of what a step names."""
    if isinstance(step.get("pages"), list):
        return [address + 1 for address in step["pages"]]
    if "addr" not in step:
        return []
    return [step["addr"] + (step["pages"] * PAGE if "pages" in step else step.get("len", 1))]


def nodes_named(step):
    """The nodes that a call names."""
    return [node for key in ("nodes", "old", "new") for node in step.get(key, [])]


def bits(nodes):
    return sum(1 << node for node in set(nodes))


def needs_of(trace, instructions):
    """What the machine must have, as the members of the data."""
    count, spawns = instructions.nodes, [step for step in trace.steps if step["op"] == "spawn"]
    filled = sorted({int(line.split(" ")[1]) for line in instructions.body if line.startswith("fill ")})
    offline = sorted({node for node in instructions.offlined if node < count})
    cpusets = any(len(set(step["allowed"])) < count for step in spawns)
    ends = [end for step in trace.steps for end in addresses_of(step) if end <= HIGHEST]
    disturbs = [f"it {does.format(nodes_text(nodes))}" for does, nodes in [("fills node {}", filled), ("takes node {} offline", offline)] if nodes]
    root = [why for why, holds in [("several users", len({step["uid"] for step in spawns}) > 1),
                                   ("privileged processes", any(step.get("privileged", False) for step in spawns)),
                                   ("cpusets", cpusets), ("full nodes", filled), ("nodes that go offline", offline)] if holds]
    return {
        "nodes": count, "homes": f"{bits(step['home'] for step in spawns if step['home'] < count):#x}UL",
        "beyond": f"{bits(node for step in trace.steps for node in nodes_named(step) if count <= node < MOST_NODES):#x}UL",
        "end": f"{max(ends, default=0):#x}UL", "offline": f"{bits(offline):#x}UL", "cpusets": "true" if cpusets else "false",
        "root": c_text("it has " + ", ".join(root) if root else ""), "disturbs": c_text(" and ".join(disturbs)),
    }


# ---- C

def c_text(text, indent=8):
    """A text in C, on several lines where it is long."""
    pieces, piece = [], ""
    for byte in text.encode("utf-8", "backslashreplace"):
        letter = chr(byte)
        piece += {"\n": "\\n", '"': '\\"', "\\": "\\\\", "?": "\\?" if piece.endswith("?") else "?"}.get(letter) or (
            letter if 32 <= byte < 127 else f"\\{byte:03o}")
        if letter == "\n" or len(piece) > MOST_COLUMNS - indent:
            pieces.append(piece)
            piece = ""
    if piece or not pieces:
        pieces.append(piece)
    return ("\n" + " " * indent).join(f'"{one}"' for one in pieces)


def c_step(step):
    """A step as data in C."""
    members = [f".{name} = {c_text(value, 12)}," for name, value in step._asdict().items() if value or name == "expected"]
    return "    {\n        " + "\n        ".join(members) + "\n    },\n"


def data_of(trace, steps, answers, needs):
    """The data of a test in C."""
    machine = trace.top["machine"]
    members = {"trace": c_text(short_name(trace.name)), "answers": c_text(answers), **needs}
    about = "".join(f"    .{name} = {value},\n" for name, value in members.items())
    rows = "".join("    " + ", ".join(map(str, row)) + ",\n" for row in machine["distance"])
    return f"""// ---- the trace

// What the test is, and what it needs: the nodes on which processes are at home, those that it names beyond its own, and those that go
// offline, as bits; the end of its areas; and why it is for root, or disturbs the machine.
static const struct {{
    const char *trace, *answers;
    unsigned long nodes, homes, beyond, end, offline;
    bool cpusets;
    const char *root, *disturbs;
}} about = {{
{about}}};

static const unsigned distances[] = {{
{rows}}};

static const unsigned long frames[] = {{{", ".join(map(str, machine["nodes"]))}}};

// A step: what is made, the answer expected (- is not checked, ? any number, =? any node, N? any nodes), what is said of it, and why it is
// not checked where it is not.
struct step {{
    const char *name, *instructions, *expected, *remark, *unchecked;
}};

static const struct step steps[] = {{
{"".join(map(c_step, steps))}}};

"""


def head_of(trace, name, answers, form):
    """What the file is, as comments, with the trace in the notation where that is short."""
    notation = [printable(line) for line in notation_of(Form(), trace.top).rstrip("\n").split("\n")]
    lines = [f"A test of Linux, {MADE} from {short_name(trace.name)}: the calls of this trace, made for real, with the answers of {answers}.",
             f"It is compiled by {COMPILED[form].format(name)}.",
             "What the machine lacks is skipped, with the reason. A test that fills nodes or takes them offline wants NUMATRACE_DISTURB=1.", "",
             *(notation if len(notation) <= MOST_LINES else [f"(The trace has {len(notation):,} lines.)"])]
    return "".join(f"// {line}".replace("??", "? ?").rstrip().rstrip("\\") + "\n" for line in lines) + "\n"


def source_of(trace, form, answers, expected, privilege):
    """The whole file. The answers are told by a name, such as Linux 6.12, and expected for each step."""
    if not trace.steps:
        raise Unplayable(f"{trace.name}: it has no steps, and so there is nothing to test")
    instructions = Instructions(trace, privilege=privilege)
    steps = list(steps_of(trace, instructions, expected))
    if form == "tap":  # There, # begins a directive.
        steps = [step._replace(name=step.name.replace("\\", "\\\\").replace("#", "\\#")) for step in steps]
    data = data_of(trace, steps, answers, needs_of(trace, instructions))
    calls, checks, front = (source_text(os.path.join(HERE, name)) for name in ("calls.c", "checks.c", form + ".c"))
    return "".join([head_of(trace, test_name(trace.name), answers, form), calls, "\n", data, checks, "\n", front])


# ---- suites

def test_name(path):
    """The name of a test, after its trace."""
    return re.sub(r"^[^A-Za-z0-9_]", "_", os.path.splitext(short_name(path))[0])


def makefile_of(names, form):
    """The Makefile of a suite."""
    head = f"# This Makefile is {MADE}.\n"
    if form == "kselftest":
        return head + f"CFLAGS += -O1 -Wall -Wextra\nTEST_GEN_PROGS := {' '.join(names)}\n\ninclude ../lib.mk\n"
    if form == "ltp":
        return head + ("top_srcdir ?= ../../../..\n\ninclude $(top_srcdir)/include/mk/testcases.mk\n"
                       "include $(top_srcdir)/include/mk/generic_leaf_target.mk\n")
    tests = " ".join(name + ".t" for name in names)
    return head + f"""# make check runs all tests; prove -e '' *.t does so too, where there is Perl. Without a static C library: make LDFLAGS=
CFLAGS = -O1 -Wall -Wextra
LDFLAGS = -static-pie
TESTS = {tests}

all: $(TESTS)

%.t: %.c
	$(CC) $(CFLAGS) $(LDFLAGS) -o $@ $<

check: all
	@status=0; for test in $(TESTS); do echo "# $$test"; ./$$test || status=1; done; exit $$status

clean:
	rm -f $(TESTS)

.PHONY: all check clean
"""

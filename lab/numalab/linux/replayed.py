"""Reports of kernels: the form of the program's, with nodes in place of frames, and lines that begin with # around them."""
import re
from collections import namedtuple

from ..report import node_ranges
from ..traces import Bad

END = "# end\n"
HEAD = re.compile(r"# Linux (\S+)")
STEP = re.compile(r"(0|[1-9][0-9]*) ([a-z_]+) (.*)")
ENTRY = re.compile(r"=(\d+)")

# What a kernel answered to a trace: its release, for each step its lines, and the steps before which it compacted memory by itself.
Replayed = namedtuple("Replayed", "release steps compacted")


def by_step(lines, name):
    """The lines of a report by steps."""
    steps = []
    for number, line in enumerate(lines, 1):
        match = STEP.fullmatch(line)
        if match and match[1] == str(len(steps)):
            steps.append([line])
        elif steps and re.match(r"[0-9a-f]{8,}[ ;]|\d+\.\d+ ", line):
            steps[-1].append(line)
        else:
            raise Bad(f"{name}: line {number}: expected the line of step {len(steps)}")
    return steps


def read_replayed(text, name):
    """What a replay of one trace says."""
    release, lines = None, []
    compacted = {int(step) for step in re.findall(r"(?m)^# compacted (\d+)$", text)}
    for line in text.split("\n"):
        head = HEAD.match(line)
        if head:
            release = head[1]
        elif line and not line.startswith("#"):
            lines.append(line)
    if release is None:
        raise Bad(f"{name}: the line '# Linux RELEASE' is missing: this is not a report of a replay")
    if not text.endswith(END):
        raise Bad(f"{name}: the line '# end' is missing: the report was cut off")
    return Replayed(release, by_step(lines, name), compacted)


def parts(text):
    """The reports of several traces in one text, by the names of the traces, each with its head and end."""
    head, *rest = re.split(r"(?m)^# trace (.*)\n", text)
    bodies = [body[: -len(END)] if body.endswith(END) else body for body in rest[1::2]]
    return {name: f"{head}# trace {name}\n{body}{END}" for name, body in zip(rest[::2], bodies)}


def joined(texts):
    """Reports of one kernel as one text, which parts() takes apart again."""
    head = texts[0].split("# trace ", 1)[0]
    return head + "".join(text[len(head) : -len(END)] for text in texts) + END


def part_for(text, name, file):
    """The report for a trace, where a text has several."""
    found = parts(text)
    if len(found) < 2 or not text.endswith(END):
        return text
    if name not in found:
        raise Bad(f"{file}: it has the replays of {len(found)} traces, but none of {name}")
    return found[name]


def frames_apart(top, lines):
    """The lines of a step with nodes in place of frames, and without lists of free frames."""
    ranges = node_ranges(top)

    def node(match):
        return "=" + str(next(place for place, frames in enumerate(ranges) if int(match[1]) in frames))

    _, op, answer = lines[0].split(" ", 2)
    if op == "free" and not answer.startswith("error "):
        return [lines[0].split(" ", 2)[0] + " free -"]
    if op == "pagemap" and not answer.startswith("error "):
        return [ENTRY.sub(node, lines[0])]
    return lines

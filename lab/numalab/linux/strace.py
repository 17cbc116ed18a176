"""What strace writes (`-f -X raw -e abbrev=none`): each call once, with its arguments and what it returned."""
import re
from collections import namedtuple

from ..traces import Bad

LINE = re.compile(r"\s*(?:\[pid +)?(\d+)\]? +(.*)")
CALL = re.compile(r"([a-z_0-9]+)\((.*)\) += (0x[0-9a-f]+|-?\d+|\?)(?: ([A-Z][A-Z0-9]*))?.*", re.S)
OPEN, CLOSE = "[{(", "]})"

# Who calls, the name, the arguments as texts, the result as a number (None where there is none), and the error's name.
Call = namedtuple("Call", "pid name arguments result error")
# A process that ended, or began to run another program.
Ended = namedtuple("Ended", "pid")


def split(text):
    """Arguments as they are between commas, with brackets and texts kept whole."""
    found, depth, start, quoted, place = [], 0, 0, False, 0
    while place < len(text):
        letter = text[place]
        if quoted:
            place += letter == "\\"
            quoted = letter != '"'
        elif letter == '"':
            quoted = True
        elif letter in OPEN:
            depth += 1
        elif letter in CLOSE:
            depth -= 1
        elif letter == "," and depth == 0:
            found.append(text[start:place].strip())
            start = place + 1
        place += 1
    return [*found, text[start:].strip()] if text.strip() else []


def number(text):
    """A number as strace writes it, or None."""
    text = text.split(" /*")[0].strip()
    try:
        return 0 if text == "NULL" else int(text, 0)
    except ValueError:
        return int(text) if text.lstrip("-").isdecimal() else None


def numbers(text):
    """A list of numbers, or None where it is not shown in full."""
    if not text.startswith("["):
        return []
    found = [number(part) for part in split(text[1:].rpartition("]")[0])]
    return None if None in found else found


def nodes_of_mask(text, most):
    """The nodes of a mask of 64-bit words, of which the first `most` - 1 bits count."""
    words = re.findall(r"0x[0-9a-f]+|\b0{2,}\b|\b\d+\b", text) if text.startswith("[") else []
    mask = sum(int(word, 16) << 64 * place for place, word in enumerate(words)) & ((1 << max(most - 1, 0)) - 1)
    return [node for node in range(mask.bit_length()) if mask >> node & 1]


class Reader:
    """Reads lines one by one. A call that another process's line interrupts is returned once it has ended."""

    def __init__(self, name):
        self.name, self.count, self.begun = name, 0, {}

    def read(self, line):
        """The call or the end that a line shows, or None."""
        self.count += 1
        match = LINE.fullmatch(line.rstrip("\n"))
        if not match:
            raise Bad(f"{self.name}: line {self.count}: no process is named: run strace with -f")
        pid, text = int(match[1]), match[2]
        if text.startswith("+++ "):
            return Ended(pid)
        if text.startswith("--- "):
            return None
        if text.endswith("<unfinished ...>"):
            self.begun[pid] = text[: -len("<unfinished ...>")].rstrip()
            return None
        resumed = re.match(r"<\.\.\. ([a-z_0-9]+) resumed>(.*)", text)
        if resumed:
            if pid not in self.begun:
                raise Bad(f"{self.name}: line {self.count}: a call resumes that has not begun: the beginning was cut off")
            text = self.begun.pop(pid) + resumed[2]
        call = CALL.fullmatch(text)
        if not call:
            raise Bad(f"{self.name}: line {self.count}: {text[:60]} is not a call as strace writes it: the output was cut off")
        result = None if call[3] == "?" else number(call[3])
        return Call(pid, call[1], split(call[2]), result, call[4])


def begun_call(text):
    """The process and the call of a line that is not complete yet, as (pid, name, arguments), or None."""
    match = LINE.match(text)
    call = match and re.match(r"([a-z_0-9]+)\((.*)", match[2], re.S)
    return (int(match[1]), call[1], split(call[2].rstrip(") "))) if call else None

#!/usr/bin/env python3
"""Gives the built program hostile input, and checks what it says.

The input: bad traces and bad arguments, a trace that is cut after each byte, 10,000 that are mutated from those of examples/ and
tests/traces/, the largest that there can be, streams that fail or move a byte at a time, and little memory.

`tests/hostile.py [PROGRAM]` tests crates/numatrace/out/numatrace by default, as `rt ci` and `./build` leave it. Tables say what the
program must say about some traces, and lab/numalab/faults.py, which knows the schema of traces, about the others. Nothing is
printed where all is well; otherwise what differs, and then the status is 1. With --short it runs only the parts that take seconds,
with --times it prints what each part took. The traces are the same each time."""
import argparse
import collections
import ctypes
import fcntl
import glob
import json
import multiprocessing
import os
import random
import re
import resource
import signal
import socket
import struct
import subprocess
import sys
import tempfile
import termios
import time

sys.dont_write_bytecode = True
ROOT = os.path.dirname(os.path.dirname(os.path.abspath(__file__)))
sys.path.insert(0, os.path.join(ROOT, "lab"))
from numalab import faults  # noqa: E402

PROGRAM = os.path.join(ROOT, "crates/numatrace/out/numatrace")
MUTATED = 10000
MOST_BYTES = 16777216
# What one run may take: seconds of processor time, and KiB of memory; and how long it may take in all.
MOST_SECONDS = 10
MOST_KIB = 1200 * 1000 * 1000 // 1024
MOST_WAIT = 120
SETTINGS = {"program": PROGRAM}


class Fault(Exception):
    """What differs from what should be."""


def text_of(name):
    with open(os.path.join(ROOT, name), encoding="utf-8") as file:
        return file.read()


FIRST = text_of("examples/three_pages.json").rstrip("\n")
FIRST_REPORT = text_of("examples/three_pages.report").encode()


# ---- one run


def play(data, words=()):
    """Status, standard output and standard error of the program on a trace."""
    try:
        ran = subprocess.run([SETTINGS["program"], *words], input=data, capture_output=True, timeout=MOST_WAIT, check=False)
    except subprocess.TimeoutExpired as late:
        raise Fault(f"no end after {MOST_WAIT} seconds") from late
    return ran.returncode, ran.stdout, ran.stderr


def is_report(out, steps):
    """Whether lines are those of these steps: one for each, after that of numa_maps as many as it says, and after that of a
    batch that is not refused one for each access in flight."""
    lines = out.decode("ascii", "replace").split("\n")
    at = 0
    for k, step in enumerate(steps):
        words = lines[at].split(" ") if at < len(lines) else []
        if len(words) < 3 or words[:2] != [str(k), step["op"]]:
            return False
        at += 1
        if step["op"] == "numa_maps" and words[2] != "error":
            at += int(words[2])
        if step["op"] == "move_pages" and words[2] != "error":
            wanted = [[f"{k}.{j}", access["op"]] for j, access in enumerate(step.get("during", []))]
            if [line.split(" ")[:2] for line in lines[at : at + len(wanted)]] != wanted:
                return False
            at += len(wanted)
    return lines[at:] == [""]


def told(verdict):
    """The status and standard error that follow from what numalab says about a trace."""
    if verdict == "good":
        return 0, b""
    head = verdict.split(":")[0]
    return (4 if head == "read fault" else 2), f"numatrace: {head}\n".encode()


def check_trace(data, words=(), verdict=None):
    """Fails where the program does not say what it should about a trace. Returns how it ended."""
    verdict = verdict or faults.verdict(data)
    status, out, err = play(data, words)
    if (status, err) != told(verdict):
        raise Fault(f"status {status} and {err[:200]!r}, where it should say: {verdict[:200]}")
    if status != 0:
        if out:
            raise Fault("something was written before the fault")
    elif len(data) < 1 << 20 and not is_report(out, json.loads(data)["steps"]):
        raise Fault("the lines are not those of the steps")
    return verdict.split(" ")[1] if status == 2 else str(status)


# ---- bad traces, other spellings, and arguments


def changed(old, new):
    if FIRST.count(old) < 1:
        raise Fault(f"{old} is not in the first example")
    return FIRST.replace(old, new, 1)


# The first example with one change, and its fault.
BAD = [
    ("[[10,20],[20,10]]", "[[10,10],[20,10]]", "bad machine"),
    ('"nodes":[4,4]', '"nodes":[4,0]', "bad machine"),
    ('"version":1', '"version":0', "bad machine"),
    ('"version":1', '"version":3', "bad machine"),
    ('"version":1', '"version":2', "bad machine"),
    ('"version":1', '"version":2,"run_limit":0', "bad machine"),
    ('"version":1', '"version":2,"run_limit":16385', "bad machine"),
    ('"version":1', '"version":2,"run_limit":"1"', "bad machine"),
    ('"version":1', '"version":1.0', "bad machine"),
    ('"version":1', '"version":1e0', "bad machine"),
    ('"version":1', '"version":"1"', "bad machine"),
    ('"version":1', '"version":true', "bad machine"),
    ('"version":1', '"version":01', "not JSON"),
    ('"version":1', '"version":+1', "not JSON"),
    ('"version":1', '"version":1.', "not JSON"),
    ('"version":1', '"version":1,"note":1e999', "not JSON"),
    ('"version":1', '"version":1,"note":NaN', "not JSON"),
    ('"version":1', '"version":1,"note":"\\ud800"', "not JSON"),
    ('"version":1', '"version":1,"note":"\t"', "not JSON"),
    ('"len":2}]}', '"len":2}]} .', "not JSON"),
    ('"op":"write","pid":1,', '"op":"write",', "bad step 2"),
    ('"nodes":[1,1,1]', '"nodes":[1,1]', "bad step 5"),
    ('"data":"62"', '"data":"6"', "bad step 3"),
    ('"flags":2', '"flags":4294967296', "bad step 5"),
    ('"allowed":[0,1]', '"allowed":[0,64]', "bad step 0"),
    ('"allowed":[0,1]', '"allowed":[0,1],"privileged":null', "bad step 0"),
    ('"pages":3', '"pages":3,"shared":null', "bad step 1"),
    ('"pages":3', '"pages":3,"shared":1', "bad step 1"),
    ('"op":"map"', '"op":"attach","segment":0', "bad step 1"),
    ('"op":"free","node":0', '"op":"pin","pid":1', "bad step 6"),
    ('"op":"free","node":0', '"op":"exit","pid":-1', "bad step 6"),
    ('"op":"free","node":0', '"op":"unmap","pid":1,"addr":65536', "bad step 6"),
    ('"op":"free","node":0', '"op":"unpin","addr":65536', "bad step 6"),
    ('"uid":100', '"uid":4294967296', "bad step 0"),
    ('"uid":100', '"uid":-0', "bad step 0"),
    ('"uid":100', '"uid":1e2', "bad step 0"),
    ('"uid":100', '"uid":null', "bad step 0"),
    ('"len":2', '"len":18446744073709551616', "bad step 9"),
    ('"steps":[', '"stages":[', "bad machine"),
    ('"pid":1', '"pid":1.5', "bad step 0"),
    ('"allowed":[0,1]', '"allowed":[64]', "bad step 0"),
    ('"addr":65536', '"addr":18446744073709551616', "bad step 1"),
]

# What is in `during` of the first example's batch, which has one run: all of them are bad steps.
DURING = [
    "null", "{}", "0", "7", "[7]", "[null]", "[[]]", "[{}]", '[{"op":"pin","pid":1,"addr":65536,"run":0}]',
    '[{"pid":1,"addr":65536,"len":1,"run":0}]', '[{"op":"read","addr":65536,"len":1,"run":0}]', '[{"op":"read","pid":1,"len":1,"run":0}]',
    '[{"op":"read","pid":1,"addr":65536,"run":0}]', '[{"op":"read","pid":1,"addr":65536,"len":1}]',
    '[{"op":"write","pid":1,"addr":65536,"len":1,"run":0}]', '[{"op":"write","pid":1,"addr":65536,"data":"6","run":0}]',
    '[{"op":"write","pid":1,"addr":65536,"data":"6g","run":0}]', '[{"op":"read","pid":1,"addr":65536,"len":1,"run":null}]',
    '[{"op":"read","pid":1,"addr":65536,"len":1,"run":-1}]', '[{"op":"read","pid":1,"addr":65536,"len":1,"run":0.0}]',
    '[{"op":"read","pid":1,"addr":65536,"len":1,"run":1}]', '[{"op":"read","pid":1,"addr":65536,"len":1,"run":4294967296}]',
    '[{"op":"read","pid":1,"addr":65536,"len":1,"run":18446744073709551615}]',
    '[{"op":"read","pid":1,"addr":65536,"len":1,"run":18446744073709551616}]',
    '[{"op":"read","pid":1,"addr":65536,"len":1,"run":0},{"op":"read","pid":1,"addr":65536,"len":1,"run":1}]',
    '[{"op":"exit","pid":1,"run":0}]', '[{"op":"read","pid":1,"addr":65536,"len":1,"run":0},[]]',
]

# Whole traces and their faults.
WHOLE = [
    (b"", "not JSON"),
    (b"\xef\xbb\xbf[]", "not JSON"),
    (b'["\xff"]', "not JSON"),
    (b"[]", "bad machine"),
    (b"[" * 127 + b"]" * 127, "bad machine"),
    (b"[" * 128 + b"]" * 128, "not JSON"),
    (b"[" * 200 + b"]" * 200, "not JSON"),
    (FIRST.encode().replace(b'"op":"spawn"', b'"op":"spa\xffwn"', 1), "not JSON"),
    (changed('"op":"map"', '"op":"jump"').replace('"op":"write","pid":1', '"op":"write","pid":-1', 1).encode(), "bad step 1"),
    (changed('"data":"62"', '"data":"6"').replace('"op":"free"', '"op":"offline"', 1).encode(), "bad step 3"),
    (b" " * MOST_BYTES, "not JSON"),
    (b" " * (MOST_BYTES + 1), "read fault"),
    (FIRST.encode().ljust(MOST_BYTES + 1), "read fault"),
]

# The first example with one change that makes no difference.
SAME = [
    ('"version":1', '"version":2,"version":1'),
    ('"version":1', '"version":2,"run_limit":1'),
    ('"version":1', '"version":2,"run_limit":16384'),
    ('"version":1', '"version":1,"run_limit":"none","note":[{}]'),
    ('"allowed":[0,1]', '"allowed":[1,0,1],"privileged":false'),
    ('"pages":3', '"pages":3,"shared":false'),
    ('"pages":3', '"pages":3,"during":7'),
    ('"flags":2', '"flags":2,"during":[]'),
    ('"steps"', ' "st\\u0065ps" '),
]

# Arguments that are refused: all but the option, and numbers of workers that are not from 1 to 64.
REFUSED = [
    ["trace.json"], ["--help"], ["-h"], ["--version"], ["-V"], ["--workers"], ["--workers", "0"], ["--workers", "65"],
    ["--workers", "x"], ["--workers", ""], ["--workers", "-1"], ["--workers", "4.0"], ["--workers", "18446744073709551617"],
    ["--workers=0"], ["--worker", "4"], ["--workers", "4", "4"], ["--workers", "4", "--workers", "4"], ["4"],
]

# Arguments that are accepted.
TAKEN = [[], ["--workers", "1"], ["--workers=2"], ["--workers", "+4"], ["--workers", "04"], ["--workers", "64"], ["--workers=064"]]


def check_bad(row):
    old, new, fault = row
    check_trace(changed(old, new).encode(), verdict=fault)


def check_during(during):
    """Bad accesses in flight, as they are written and with their run first."""
    for text in {during, re.sub(r'\{([^{}]*),("run":[^,{}]*)\}', r"{\2,\1}", during)}:
        check_trace(changed('"flags":2', '"flags":2,"during":' + text).encode(), verdict="bad step 5")


def check_whole(row):
    data, fault = row
    check_trace(data, verdict=fault)


def expect(report, data, words=()):
    """Fails where the program's report on a good trace is not this one."""
    status, out, err = play(data, words)
    if (status, out, err) != (0, report, b""):
        raise Fault(f"status {status}, {err[:200]!r} and {len(out)} bytes of a report that should have {len(report)}: {out[-200:]!r}")


def check_same(row):
    old, new = row
    expect(FIRST_REPORT, changed(old, new).encode())


def check_taken(words):
    expect(FIRST_REPORT, FIRST.encode(), words)


def check_refused(words):
    status, out, err = play(FIRST.encode(), words)
    if status != 2 or out or not err:
        raise Fault(f"bad arguments end with status {status}, {out[:200]!r} and {err[:200]!r}")


def check_told(_):
    """What the program says about itself goes to standard error, as clap prints it. An argument that is not UTF-8 has its own line."""
    if play(FIRST.encode(), ["--version"]) != (2, b"", b"numatrace 1.1.0\n"):
        raise Fault("--version prints something else")
    err = play(FIRST.encode(), ["--help"])[2]
    if not err.startswith(b"Plays a trace of page migration calls") or not err.endswith(b"what they answer.\n"):
        raise Fault(f"--help prints something else: {err!r}")
    if play(FIRST.encode(), [b"\xff"]) != (2, b"", b"numatrace: a word is not UTF-8\n"):
        raise Fault("an argument that is not UTF-8 is reported as something else")


def check_runs(_):
    """A batch of three entries with at most two per run has a second run, but no third."""
    limited_runs = changed('"version":1', '"version":2,"run_limit":2')
    read = '"flags":2,"during":[{"run":%d,"op":"read","pid":1,"addr":65536,"len":1}]'
    moved = b"5 move_pages 0: 1 1 1\n"
    expect(FIRST_REPORT.replace(moved, moved + b"5.0 read 61\n", 1), limited_runs.replace('"flags":2', read % 1, 1).encode())
    check_trace(limited_runs.replace('"flags":2', read % 2, 1).encode(), verdict="bad step 5")


def named(entries):
    """The first example up to its batch, and then a batch that names one page `entries` times and moves it to node 1."""
    pages, nodes = ",".join(["65536"] * entries), ",".join(["1"] * entries)
    front = FIRST[: FIRST.index('{"op":"move_pages"')]
    return front + f'{{"op":"move_pages","caller":1,"pid":0,"pages":[{pages}],"nodes":[{nodes}],"flags":2}}'


def check_limits(_):
    """16,384 entries in a batch, and one more; 1,024 processes, and one more; the greatest length; the highest address."""
    front = FIRST_REPORT[: FIRST_REPORT.index(b"5 move_pages")]
    free = ',\n{"op":"free","node":1}]}'
    expect(front + b"5 move_pages 0:" + b" 1" * 16384 + b"\n6 free 3: 5 6 7\n", (named(16384) + free).encode())
    check_trace((named(16385) + "]}").encode(), verdict="bad step 5")
    spawned = b"".join(b"%d spawn ok\n" % k for k in range(1024))
    expect(spawned + b"1024 spawn error ENOMEM\n", trace_of([1], [spawn(pid, 1) for pid in range(1, 1026)]))
    expect(FIRST_REPORT, FIRST.encode().ljust(MOST_BYTES))
    status, out, _ = play(changed('"addr":65536', '"addr":18446744073709551615').encode())
    if status != 0 or out.split(b"\n")[1] != b"1 map error EINVAL":
        raise Fault("the highest address is not refused by the call")


def check_front(length):
    """A trace that is cut off is not JSON."""
    check_trace(FIRST.encode()[:length], verdict="not JSON")


# ---- streams


def drained(end):
    """Waits until what was sent has been read: an error would overtake it."""
    late = time.monotonic() + MOST_WAIT
    while struct.unpack("i", fcntl.ioctl(end, termios.TIOCOUTQ, bytes(4))) != (0,):
        if time.monotonic() > late:
            raise Fault(f"a piece is unread after {MOST_WAIT} seconds")
        time.sleep(0.0002)


def served(pieces, broken=False):
    """What the program answers where each call of its reader gets one of these pieces, and where reading then fails if it is to
    break."""
    ours, its = socket.socketpair(socket.AF_UNIX, socket.SOCK_SEQPACKET)
    child = subprocess.Popen([SETTINGS["program"]], stdin=its, stdout=subprocess.PIPE, stderr=subprocess.PIPE)
    if broken:
        its.send(b"unread")  # Closing our end with something unread is an error at the other end.
    its.close()
    try:
        for piece in pieces:
            ours.send(piece)
        if broken:
            drained(ours)
    finally:
        ours.close()
    out, err = child.communicate(timeout=MOST_WAIT)
    return child.returncode, out, err


def check_reader():
    """A reader that returns one byte per call, and one that fails after some bytes, or after some pieces of 64."""
    data = FIRST.encode()
    pieces = [data[at : at + 1] for at in range(len(data))]
    if served(pieces) != (0, FIRST_REPORT, b""):
        raise Fault("a trace that comes one byte at a time does not get its report")
    fronts = [pieces[:count] for count in [0, 1, 2, 100, len(data) - 1, len(data)]]
    pieces = [data[at : at + 64] for at in range(0, len(data), 64)]
    for front in fronts + [pieces[:count] for count in range(1, len(pieces) + 1)]:
        if served(front, broken=True) != (4, b"", b"numatrace: read fault\n"):
            raise Fault(f"a reader that fails after {len(front)} pieces is not reported as a read fault")
    folder = os.open(ROOT, os.O_RDONLY)
    ran = subprocess.run([SETTINGS["program"]], stdin=folder, capture_output=True, check=False)
    os.close(folder)
    if (ran.returncode, ran.stdout, ran.stderr) != (4, b"", b"numatrace: read fault\n"):
        raise Fault("a folder as input is not reported as a read fault")


def without_random_bytes():
    """Has the kernel refuse getrandom(2) to this process, and fails where the C library has random bytes all the same."""
    libc = ctypes.CDLL(None)
    # (by seccomp(2): the call's number; unless it is that of getrandom, skip one; fail with EPERM; allow)
    rules = [(0x20, 0, 0, 0), (0x15, 0, 1, 318), (0x06, 0, 0, 0x50001), (0x06, 0, 0, 0x7FFF0000)]
    code = ctypes.create_string_buffer(b"".join(struct.pack("HBBI", *rule) for rule in rules))
    libc.prctl(38, 1, 0, 0, 0)
    libc.prctl(22, 2, struct.pack("HxxxxxxP", len(rules), ctypes.addressof(code)))
    if libc.getentropy(ctypes.create_string_buffer(8), 8) == 0:
        raise OSError("random bytes without getrandom(2)")


def check_random_bytes():
    """A host without random bytes: what is read cannot be read, and words are answered as ever."""
    version = play(b"", ("--version",))
    for words, answer in (((), (4, b"", b"numatrace: read fault\n")), (("--version",), version)):
        try:
            ran = subprocess.run([SETTINGS["program"], *words], input=FIRST.encode(), capture_output=True,
                                 preexec_fn=without_random_bytes, timeout=MOST_WAIT, check=False)
        except subprocess.SubprocessError:
            return
        if (ran.returncode, ran.stdout, ran.stderr) != answer:
            raise Fault(f"without random bytes the program ends with {ran.returncode}, {ran.stderr!r}")


def limited(most):
    """Limits the files of a child to this length: the write that exceeds it is short, and the next fails."""
    signal.signal(signal.SIGXFSZ, signal.SIG_IGN)
    resource.setrlimit(resource.RLIMIT_FSIZE, (most, most))


def written(data, most):
    """Status and standard error where standard output is a file of limited length, and what is in the file afterwards."""
    with tempfile.TemporaryFile() as trace, tempfile.TemporaryFile() as out:
        trace.write(data)
        trace.seek(0)
        ran = subprocess.run([SETTINGS["program"]], stdin=trace, stdout=out, stderr=subprocess.PIPE, restore_signals=False,
                             preexec_fn=lambda: limited(most), timeout=MOST_WAIT, check=False)
        out.seek(0)
        return ran.returncode, ran.stderr, out.read()


def check_writer(data, report, places):
    """Writers that take some bytes and then fail: what was written is a prefix of the report."""
    for most in places:
        fault = (4, b"numatrace: write fault\n", report[:most])
        if written(data, most) != (fault if most < len(report) else (0, b"", report)):
            raise Fault(f"a writer that takes {most} of {len(report)} bytes is reported as {written(data, most)[:2]}")


def check_closed_writers():
    """A full device, and a pipe that nobody reads: as standard output, and as standard error, where the status is the same."""
    ends = os.pipe()
    os.close(ends[0])
    with open("/dev/full", "wb") as full, os.fdopen(ends[1], "wb") as pipe:
        for out in (full, pipe):
            ran = subprocess.run([SETTINGS["program"]], input=FIRST.encode(), stdout=out, stderr=subprocess.PIPE, check=False)
            if (ran.returncode, ran.stderr) != (4, b"numatrace: write fault\n"):
                raise Fault(f"a writer that fails at once is reported as {ran.returncode}, {ran.stderr!r}")
            ran = subprocess.run([SETTINGS["program"]], input=b"[]", stdout=subprocess.PIPE, stderr=out, check=False)
            if (ran.returncode, ran.stdout) != (2, b""):
                raise Fault(f"where standard error fails at once, the status is {ran.returncode}, with {ran.stdout!r}")


def check_short_error():
    """Standard error that takes three bytes and then fails: the status is the same."""
    with tempfile.TemporaryFile() as err:
        ran = subprocess.run([SETTINGS["program"]], input=b"[]", stdout=subprocess.PIPE, stderr=err, restore_signals=False,
                             preexec_fn=lambda: limited(3), timeout=MOST_WAIT, check=False)
        err.seek(0)
        if (ran.returncode, ran.stdout, err.read()) != (2, b"", b"num"):
            raise Fault(f"where standard error fails after three bytes, the status is {ran.returncode}")


# ---- mutated traces

# JSON values, and what is not JSON.
ODD = """0 1 2 -1 -0 1.0 1e0 1E+2 0.5 63 64 255 256 4095 4096 4097 16384 16385 65535 65536 65537 2147483647 2147483648 4294967295
4294967296 140737488351232 140737488355327 140737488355328 9223372036854775807 9223372036854775808 18446744073709547520
18446744073709551615 18446744073709551616 99999999999999999999999999 1e308 1e-999 1e999 -1e999 0e999999999999 true false null
"" "0" "61" "6" "6g" "AaFf" "\\ud83d\\ude00" "\\ud800" "\\udc00\\ud800" "\\u0000" "\\x" [] {} [0] [0,1] [64] [-1] [1.5] [[]] [null]
{"op":"vmstat"} {"op":1} NaN Infinity - 01 +1 1. .5 0x10 'a' tru nul [1,] {"a":1,} {"a"} {1:1} //""".split()
ODD += ["1" + "0" * 308, "1" + "0" * 309, "7" * 400, "0." + "0" * 5000 + "1", '"' + "61" * 4096 + '"', '"' + "61" * 4097 + '"']
ODD += ["[" * depth + "]" * depth for depth in (100, 123, 124, 125, 126, 127, 128, 200)]
ODD += ['{"a":' * depth + "0" + "}" * depth for depth in (100, 124, 125, 126, 127, 128)]
OPS = list(faults.Form().steps)
KEYS = """version machine nodes distance steps run_limit op pid uid home allowed privileged addr pages shared segment offset len data
caller flags old new mode node during run note""".split()
TOKEN = re.compile(r'"[^"\\]*(?:\\.[^"\\]*)*"|-?[0-9][0-9.eE+-]*|true|false|null|[\[\]{}:,]')
KEY = re.compile(r'"[a-z_]+":')
PAIR = re.compile(r'"[a-z_]+":(?:"[^"]*"|[0-9]+|true|false|null|\[[0-9,]*\]),?')


def put(text, match, new):
    return text[: match.start()] + new + text[match.end() :]


def values(text):
    """The tokens of a text that are values and not keys."""
    found = [match for match in TOKEN.finditer(text) if match[0] not in "[]{}:,"]
    return [match for match in found if text[match.end() : match.end() + 1] != ":"]


def odd_value(rng, text, _):
    return put(text, rng.choice(values(text)), rng.choice(ODD))


def near_number(rng, text, _):
    """A number a little off, or another one of the trace."""
    numbers = [match for match in values(text) if match[0].isdigit()]
    match = rng.choice(numbers)
    number = int(match[0])
    return put(text, match, str(rng.choice([number + 1, max(number, 1) - 1, number * 2, number + 4096, int(rng.choice(numbers)[0])])))


def other_key(rng, text, _):
    return put(text, rng.choice(list(KEY.finditer(text))), f'"{rng.choice(KEYS)}":')


def without_pair(rng, text, _):
    return put(text, rng.choice(list(PAIR.finditer(text))), "")


def twice(rng, text, _):
    """A key that occurs twice, with the other value before it or after it."""
    match = rng.choice(list(PAIR.finditer(text)))
    pair = match[0].rstrip(",")
    other = pair.split(":")[0] + ":" + rng.choice(ODD)
    both = rng.choice([f"{other},{pair}", f"{pair},{other}"])
    return put(text, match, both + match[0][len(pair) :])


def note(rng, text, _):
    """A key that is ignored."""
    match = rng.choice(list(re.finditer(r"\{", text)))
    return put(text, match, '{"%s":%s,' % (rng.choice(["note", "During", "Op", "op ", ""]), rng.choice(ODD)))


def other_op(rng, text, _):
    found = list(re.finditer(r'"op":"[a-z_]+"', text))
    return put(text, rng.choice(found), f'"op":"{rng.choice(OPS)}"') if found else text


def other_steps(rng, text, others):
    """Steps left out, repeated, in another order, or taken from another trace."""
    try:
        top = json.loads(text)
        steps = top["steps"]
        more = json.loads(rng.choice(others))["steps"]
        for _ in range(rng.randint(1, 6)):
            at = rng.randrange(len(steps) + 1)
            steps[at : at + rng.randint(0, 2)] = rng.choice([steps[: rng.randint(0, 4)], rng.sample(more, min(len(more), 2)), []])
        if rng.random() < 0.3:
            rng.shuffle(steps)
        return json.dumps(top, separators=(",", ":"))
    except (ValueError, TypeError, KeyError, RecursionError):
        return text


def in_flight(rng, text, others):
    """Accesses in flight of a batch: reads and writes of the trace or another one, good or nearly so."""
    flags = rng.choice(list(re.finditer(r'"flags":[0-9]+', text)))
    found = re.findall(r'\{"op":"(?:read|write)","pid":[^{}]*\}', text + rng.choice(others))
    made = [access[:-1] + f',"run":{rng.choice(["0", "0", "0", "0", "1", "2", rng.choice(ODD)])}}}' for access in found if rng.random() < 0.9]
    made = rng.sample(made, min(len(made), rng.choice([0, 1, 2, 3, 8]))) + rng.choice([[], [], [], [rng.choice(ODD)]])
    return put(text, flags, flags[0] + f',"during":[{",".join(made)}]')


def spelt(rng, text, _):
    """A letter of a text by its number, or white space between tokens."""
    match = rng.choice(list(TOKEN.finditer(text)))
    token = match[0]
    if len(token) > 2 and token[0] == '"' and "\\" not in token:
        at = rng.randrange(1, len(token) - 1)
        return put(text, match, token[:at] + f"\\u{ord(token[at]):04x}" + token[at + 1 :])
    return put(text, match, rng.choice([" ", "\t", "\r\n", "\v", "\u00a0", "\ufeff"]) + token)


def broken(rng, text, others):
    """Characters lost, doubled, changed or taken from another trace, or the end cut off."""
    at, end = sorted(rng.randrange(len(text) + 1) for _ in range(2))
    end = min(end, at + rng.choice([1, 1, 2, 8, 100]))
    other = rng.choice(others)
    into = rng.choice(["", text[at:end] * 2, chr(rng.randrange(128)), rng.choice('[]{}",:0\\'), other[at:end], "\u00e4"])
    return text[:at] if rng.random() < 0.1 else text[:at] + into + text[end:]


MUTATIONS = [odd_value] * 5 + [near_number] * 4 + [other_steps] * 4 + [twice] * 2 + [in_flight] * 2
MUTATIONS += [other_key, without_pair, note, other_op, spelt, broken]


def mutated(number, texts):
    """The mutated trace of a number, as bytes."""
    rng = random.Random(number)
    text = rng.choice(texts)
    for _ in range(rng.choice([1, 1, 1, 2, 3, 5])):
        try:
            text = rng.choice(MUTATIONS)(rng, text, texts)
        except IndexError:  # Nothing of that kind is left.
            break
    data = text.encode("utf-8", "surrogatepass")
    if rng.random() < 0.05 and data:
        at = rng.randrange(len(data))
        data = data[:at] + bytes([rng.randrange(256)]) + data[at + rng.randrange(2) :]
    return data


def check_mutated(number):
    return check_trace(mutated(number, SETTINGS["texts"]), ("--workers", str(1 + number % 64)))


# ---- the largest traces


def square(count):
    return [[10 if own == to else 20 for to in range(count)] for own in range(count)]


def trace_of(sizes, steps, **top):
    machine = {"nodes": sizes, "distance": square(len(sizes))}
    return json.dumps({"version": 1, "machine": machine, "steps": steps, **top}, separators=(",", ":")).encode()


def spawn(pid, nodes, **more):
    return {"op": "spawn", "pid": pid, "uid": 0, "home": 0, "allowed": list(range(nodes)), **more}


def filled(pid, count, **more):
    """A process that maps some pages and writes each."""
    steps = [{"op": "map", "pid": pid, "addr": 65536, "pages": count, **more}]
    return steps + [{"op": "write", "pid": pid, "addr": 65536 + 4096 * page, "data": "61"} for page in range(count)]


def batch(op, pages, **more):
    return {"op": op, "caller": 1, "pid": 0, "pages": pages, "flags": 0, **more}


def ended(pid):
    """The looks at the end, and a process that exits with all that it has."""
    looks = [{"op": "pagemap", "pid": pid}, {"op": "numa_maps", "pid": pid}, {"op": "vmstat"}]
    return looks + [{"op": "exit", "pid": pid}, {"op": "free", "node": 0}]


def whole_nodes():
    """64 nodes of 256 frames, all pages of a process: moved to nodes in turn, each entry a run, there and back by node, and
    bound in turns."""
    pages = [65536 + 4096 * page for page in range(8192)]
    turns = [page % 64 for page in range(8192)]
    steps = [spawn(1, 64), *filled(1, 8192), batch("move_pages", pages, nodes=turns)]
    low, high = list(range(32)), list(range(32, 64))
    steps += [{"op": "migrate_pages", "caller": 1, "pid": 0, "old": old, "new": new} for old, new in [(low, high), (high, low)] * 4]
    for mode, nodes in [(3, low), (2, high), (1, [63]), (3, list(range(64))), (2, [5])]:
        steps.append({"op": "mbind", "caller": 1, "addr": 65536, "len": 4096 * 8192, "mode": mode, "nodes": nodes, "flags": 3})
    return trace_of([256] * 64, steps + ended(1))


def whole_batches():
    """16,384 entries in a step: pages that are not there, one page, pages downwards, and a page of each second kind, so that
    each entry is a run."""
    down = [65536 + 4096 * page for page in reversed(range(8192))]
    both = [address for address in down for _ in range(2)]
    steps = [spawn(1, 2), *filled(1, 8192), batch("query", [4096 * page for page in range(16384)]), batch("query", both)]
    for nodes in [[1] * 16384, [0] * 16384, [1, 0] * 8192, [0, 1] * 8192]:
        steps.append(batch("move_pages", both, nodes=nodes))
    steps.append(batch("move_pages", [65536] * 16384, nodes=[1, 0] * 8192))
    return trace_of([8192, 8192], steps + ended(1), version=2, run_limit=1)


def whole_flight():
    """16,384 runs of one entry with 200,000 accesses in flight, not ordered by run, and then one run with held accesses, those
    of pages without a frame until none is left, and refused ones."""
    pages = [65536 + 4096 * page for page in range(8192)]
    steps = [spawn(1, 2), *filled(1, 8192), {"op": "map", "pid": 1, "addr": 1 << 32, "pages": 1 << 20}]
    reads = [{"op": "read", "pid": 1, "addr": pages[k % 8192], "len": 1, "run": k * 7919 % 16384} for k in range(200000)]
    steps.append(batch("move_pages", [address for address in pages for _ in range(2)], nodes=[1, 0] * 8192, during=reads))
    touch = {"pid": 1, "run": 0, "len": 1, "data": "61"}
    far = [{**touch, "op": op, "addr": (1 << 32) + 4096 * 97 * k} for op in ("read", "write") for k in range(9000)]
    held = [{"op": "write", "pid": 1, "addr": address, "data": "62", "run": 0} for address in pages]
    lost = [{"op": "read", "pid": pid, "addr": 4096, "len": 1, "run": 0} for pid in (1, 2)]
    steps.append(batch("move_pages", pages[:4096], nodes=[1] * 4096, during=held + far + lost))
    return trace_of([8193, 8191], steps + ended(1))


def whole_table():
    """1,024 processes that all see 60 pages of one segment, which move with all of them, and go one after another; one process
    more is refused."""
    steps = [spawn(pid, 2, privileged=pid == 1) for pid in range(1, 1026)] + filled(1, 60, shared=True)
    window = {"op": "attach", "addr": 65536, "segment": 0, "offset": 0, "pages": 60}
    steps += [{**window, "pid": pid} for pid in range(2, 1025)]
    steps += [{"op": "read", "pid": pid, "addr": 65536 + 4096 * page, "len": 1} for pid in range(2, 1025) for page in range(60)]
    pages = [65536 + 4096 * page for page in range(60)]
    for node in (1, 0, 1):
        steps.append(batch("move_pages", pages, nodes=[node] * 60, flags=4) | {"flags": 4})
    steps += [{"op": "numa_maps", "pid": 7}, {"op": "exit", "pid": 1}]
    return trace_of([64, 64], steps + [{"op": "exit", "pid": pid} for pid in range(2, 1025)] + [{"op": "free", "node": 1}])


def longest(front, piece, back):
    """A trace as long as a trace may be, the pieces between the two ends and blanks behind them, and how many pieces."""
    room = (MOST_BYTES - len(front) - len(back)) // len(piece)
    return (front + piece * room + back).ljust(MOST_BYTES), room


NOTE = FIRST.encode()[:-1] + b',"note":'
SMALL = b'{"version":1,"machine":{"nodes":[1],"distance":[[10]]},"steps":['

BATCH = b'{"op":"move_pages","caller":1,"pid":0,"pages":[0],"nodes":[0],"flags":2,"during":['
READ = b'{"run":0,"op":"read","pid":1,"addr":0,"len":1}'

# Traces as long as a trace may be, in the shapes that cost a reader most: front, piece, back, and what must be said.
LONG = [
    (NOTE + b"[[]", b",[]", b"]}", "good"),
    (NOTE + b"[{}", b",{}", b"]}", "good"),
    (NOTE + b"[0", b",0", b"]}", "good"),
    (NOTE + b'[""', b',""', b"]}", "good"),
    (NOTE + b"[0", b",[0]", b"]}", "good"),
    (b"", b"[", b"", "not JSON"),
    (b"", b'{"":', b"", "not JSON"),
    (NOTE + b'"', b"a", b'"}', "good"),
    (NOTE + b'"', b"\\u0000", b'"}', "good"),
    (NOTE + b'{"', b"\\u20ac", b'":0}}', "good"),
    (NOTE + b'{"a":0', b',"a":0', b"}}", "good"),
    (NOTE + b"9", b"9", b"}", "not JSON"),
    (NOTE + b"0.", b"7", b"}", "good"),
    (NOTE + b"0.1e-", b"9", b"}", "good"),
    (SMALL + b'{"op":"exit","pid":1.', b"7", b"}]}", "bad step 0"),
    (SMALL + b'{"op":"vmstat","data":"', b"61", b'"}]}', "good"),
    (SMALL + b"0", b",0", b"]}", "bad step 0"),
    (SMALL, b'{"op":"vmstat"},', b"0]}", "bad step {pieces}"),
    (SMALL + b'{"op":"vmstat"}', b',{"op":"vmstat"}', b"]}", "good"),
    (SMALL + b'{"op":"vmstat"}', b',{"op":"exit","pid":0}', b"]}", "good"),
    (SMALL + BATCH + READ, b"," + READ, b"]}]}", "good"),
    (SMALL + BATCH + READ, b"," + READ, b",0]}]}", "bad step 0"),
    (SMALL + json.dumps(spawn(1, 1)).encode() + b"," + BATCH + READ, b"," + READ, b"]}]}", "good"),
    (b'{"version":1,"machine":{"nodes":[1],"distance":[[10]', b",[10]", b']},"steps":[]}', "bad machine"),
    (b'{"version":1,"machine":{"nodes":[1', b",1", b'],"distance":[[10]]},"steps":[]}', "bad machine"),
    (NOTE + b"[0", b',{"":0}', b"]}", "good"),
    (NOTE + b"[0", b"," + b'{"":' * 125 + b"0" + b"}" * 125, b"]}", "good"),
]


# A shape that takes a little more memory: a list of one value has room for four.
HEAVY = [(NOTE + b"[0", b"," + b"[" * 125 + b"]" * 125, b"]}", "good")]
MOST_KIB_OF_HEAVY = 1300 * 1000 * 1000 // 1024


def check_long(shape):
    front, piece, back, verdict = shape
    data, pieces = longest(front, piece, back)
    check_trace(data, verdict=verdict.format(pieces=pieces))


def check_heavy(shape):
    check_long(shape)


def check_great(make):
    check_trace(make())


# ---- numbers at the edges of their ranges, in each field

EDGES = ["0", "63", "64", "2147483648", "4294967295", "4294967296", "9223372036854775807", "9223372036854775808"]
EDGES += ["18446744073709551615", "18446744073709551616", "-1", "1.0"]


def with_edges(schema, edge):
    """A value that fits a part of the schema, with the number at its edge in it, or None where it takes no number."""
    if "$ref" in schema:
        return with_edges(faults.Form().resolved(schema), edge)
    if "oneOf" in schema or schema["type"] != "array":
        return edge if schema.get("type") == "integer" else None
    item = with_edges(schema["items"], edge)
    return item and f"[{item}]"


def usual(schema):
    """A value that fits a part of the schema."""
    schema = faults.Form().resolved(schema)
    return with_edges(schema, "1") or {"boolean": "true", "string": '"61"', "array": "[]"}[schema["type"]]


def edges_of(op, schema):
    """An object of this op for each of its fields and each number at an edge."""
    parts = {key: part for key, part in schema["properties"].items() if key != "op"}
    for key, part in parts.items():
        for edge in EDGES:
            value = with_edges(part, edge)
            if value is not None:
                pairs = "".join(f',"{name}":{value if name == key else usual(other)}' for name, other in parts.items())
                yield '{"op":"%s"%s}' % (op, pairs)


def edges():
    """For each field of each step, and each number at an edge, a trace that has the number there."""
    form, front = faults.Form(), FIRST[: FIRST.index('{"op":"move_pages"')]
    for op, schema in form.steps.items():
        for step in edges_of(op, schema):
            yield front + step + "]}"
    for op, schema in form.ops(form.top["$defs"]["access"]).items():
        for access in edges_of(op, schema):
            yield changed('"nodes":[1,1,1],"flags":2', '"nodes":[1,0,1],"flags":2,"during":[%s]' % access)
    for old in ['"version":1', '"nodes":[4', '"distance":[[10', '"distance":[[10,20']:
        for edge in EDGES:
            yield changed(old, re.sub("[0-9]+$", edge, old))
            yield changed('"version":1', f'"version":2,"run_limit":{edge}')


def check_edge(trace):
    check_trace(trace.encode())


# ---- all of it


def tried(item):
    """One check: what differs, or how the trace ended, with the seconds of processor time and the KiB that it took; the KiB are
    the most that any check of this process has taken."""
    check, argument = item
    before = resource.getrusage(resource.RUSAGE_CHILDREN)
    try:
        ended_as = check(argument)
    except (Fault, OSError) as differs:
        return str(differs), None, 0, 0
    used = resource.getrusage(resource.RUSAGE_CHILDREN)
    seconds = used.ru_utime + used.ru_stime - before.ru_utime - before.ru_stime
    fault = None
    if used.ru_maxrss > (MOST_KIB_OF_HEAVY if check is check_heavy else MOST_KIB):
        fault = f"{used.ru_maxrss * 1024 // 1000000} MB of memory"
    elif seconds > MOST_SECONDS and check not in (check_streams, check_little, check_memory):
        fault = f"{seconds:.1f} seconds"
    return fault, ended_as, seconds, used.ru_maxrss


def check_streams(_):
    check_reader()
    check_writer(FIRST.encode(), FIRST_REPORT, range(len(FIRST_REPORT) + 1))
    steps = [{"op": "vmstat"}] * 5000
    report = b"".join(b"%d vmstat pgmigrate_success 0 pgmigrate_fail 0\n" % k for k in range(5000))
    check_writer(trace_of([1], steps), report, [*range(0, len(report), 4099), 65535, 65536, 65537, len(report)])
    check_closed_writers()
    check_short_error()
    check_random_bytes()


def within(data, most, words):
    """Status, standard output and standard error with a limited number of bytes of address space."""
    ran = subprocess.run([SETTINGS["program"], *words], input=data, capture_output=True, timeout=MOST_WAIT, check=False,
                         preexec_fn=lambda: resource.setrlimit(resource.RLIMIT_AS, (most, most)))
    return ran.returncode, ran.stdout, ran.stderr


def ended(data, report, words, most):
    """The status of a run with so many KiB, whose report is whole, or a prefix with as many steps as standard error says. None
    where the program does not even start: that is what the kernel or the dynamic linker says, and not the program."""
    try:
        status, out, err = within(data, most << 10, words)
    except OSError:
        return None
    if status in (127, -signal.SIGKILL, -signal.SIGSEGV) and not err.startswith(b"numatrace: "):
        return None
    made = sum(b"." not in line.split(b" ")[0] for line in out.split(b"\n")[:-1])
    refused = (3, f"numatrace: host memory refused after {made} steps\n".encode())
    if (status, err) not in ((0, b""), refused) or (out != report if status == 0 else not report.startswith(out)):
        raise Fault(f"with {most} KiB: status {status}, {len(out)} bytes and {err[:200]!r}")
    return status


def least(holds):
    """The least number of KiB, up to the page, for which this holds, as it does for all greater ones."""
    low, high = 0, 1 << 18
    while high - low > 1:
        middle = (low + high) // 2
        low, high = (low, middle) if holds(4 * middle) else (middle, high)
    return 4 * high


def bounds(data, report, words):
    """The least KiB with which the program starts, and the least with which its report is whole."""
    return (least(lambda most: ended(data, report, words, most) is not None),
            least(lambda most: ended(data, report, words, most) == 0))


def check_little(_):
    """The words, and a short trace, with each number of pages of memory from the least with which the program starts to the least
    with which its report is whole: words that find no memory are no bad words."""
    run = FIRST.encode(), FIRST_REPORT, ["--workers", "64"]
    starts, whole = bounds(*run)
    ends = {most: ended(*run, most) for most in range(starts, whole + 64, 4)}
    if not {0, 3} <= set(ends.values()):
        raise Fault(f"memory was refused never or always: {ends}")
    if None in [end for most, end in ends.items() if most >= starts + 64]:
        raise Fault(f"the program does not start with more memory than it needs: {ends}")


def check_memory(_):
    """Little memory, from the least with which the program starts to the least with which its report is whole, and then so little
    that threads are refused."""
    with tempfile.TemporaryDirectory() as there:
        paths = [os.path.join(there, "trace"), os.path.join(there, "report")]
        subprocess.run([os.path.join(ROOT, "tests/long_run.py"), *paths], check=True)
        data, report = (open(path, "rb").read() for path in paths)
    run = data, report, ["--workers", "64"]
    starts, whole = bounds(*run)
    rows = [*range(starts + 64, whole, max(4, (whole - starts) // 80)), *range(whole, 655360, 32768)]
    ends = {ended(*run, most) for most in rows}
    if ends != {0, 3}:
        raise Fault(f"memory was refused never or always: {ends}")


PARTS = ("rows", "streams and memory", "fronts", "edges", "greatest", "mutated")
SHORT = PARTS[:3]


def rows():
    """The check of each row of the tables, and the checks that have no table."""
    tables = [(check_bad, BAD), (check_during, DURING), (check_whole, WHOLE), (check_same, SAME), (check_refused, REFUSED)]
    made = [(check, row) for check, table in [*tables, (check_taken, TAKEN)] for row in table]
    return made + [(check, None) for check in (check_told, check_runs, check_limits)]


def parts():
    """Each part: its name, its checks, and how many of them one process runs."""
    fronts = [(check_front, length) for length in range(len(FIRST))]
    great = [(check_great, make) for make in (whole_nodes, whole_batches, whole_flight, whole_table)]
    yield PARTS[0], rows(), None
    yield PARTS[1], [(check_streams, None), (check_little, None), (check_memory, None)], 1
    yield PARTS[2], fronts, None
    yield PARTS[3], [(check_edge, trace) for trace in edges()], None
    yield PARTS[4], great + [(check_long, shape) for shape in LONG] + [(check_heavy, shape) for shape in HEAVY], 1
    yield PARTS[5], [(check_mutated, number) for number in range(MUTATED)], None


def run_part(name, checks, most):
    """Runs the checks of a part in parallel. Exits where one fails."""
    begun = time.monotonic()
    with multiprocessing.Pool(maxtasksperchild=most) as pool:
        results = pool.map(tried, checks, chunksize=1 if most else max(1, min(50, len(checks) // 16)))
    for (check, argument), (fault, *_) in zip(checks, results):
        if fault:
            sys.exit(f"tests/hostile.py: {check.__name__}, {str(argument)[:300]}: {fault}")
    ends = collections.Counter(str(ended_as) for _, ended_as, _, _ in results)
    longest_run, most_memory = (max(result[place] for result in results) for place in (2, 3))
    return (f"{name}: {len(checks)} in {time.monotonic() - begun:.1f} s, none over {longest_run:.1f} s of processor time and "
            f"{most_memory * 1024 // 1000000} MB; {dict(ends)}")


def main():
    words = argparse.ArgumentParser(description=__doc__.split("\n", maxsplit=1)[0])
    words.add_argument("program", nargs="?", default=PROGRAM)
    words.add_argument("--times", action="store_true", help="print what each part took")
    words.add_argument("--trace", type=int, help="write the mutated trace with this number, and play none")
    which = words.add_mutually_exclusive_group()
    which.add_argument("--part", choices=PARTS, help="run only this part")
    which.add_argument("--short", action="store_true", help=f"run only the parts that take seconds: {', '.join(SHORT)}")
    asked = words.parse_args()
    traces = sorted(glob.glob(os.path.join(ROOT, "examples/*.json")) + glob.glob(os.path.join(ROOT, "tests/traces/*.json")))
    SETTINGS["program"] = os.path.abspath(asked.program)
    SETTINGS["texts"] = [text_of(path) for path in traces if os.path.getsize(path) < 20000]
    if asked.trace is not None:
        sys.stdout.buffer.write(mutated(asked.trace, SETTINGS["texts"]))
        return
    if not os.access(SETTINGS["program"], os.X_OK):
        sys.exit(f"tests/hostile.py: there is no program {asked.program}: run ./build first")
    wanted = (asked.part,) if asked.part else SHORT if asked.short else PARTS
    for name, checks, most in parts():
        if name in wanted:
            line = run_part(name, checks, most)
            if asked.times:
                print(line, flush=True)


if __name__ == "__main__":
    main()

#!/usr/bin/env python3
"""Plays the random traces of tests/drawn.py step by step, and compares the replies with the reports on the whole traces.

`tests/sessions.py [PROGRAM [SESSION_PROGRAM]]` tests crates/numatrace_session/out/numatrace_session against
crates/numatrace/out/numatrace by default, as `rt ci` and `./build` leave them. Most traces are sent in one go, a line for each step.
Of every twenty, one waits for each reply before it sends the next step, and one has lines that are no steps between its steps. Then
it tries exit statuses, and the three examples of examples/session, as far as their compilers are there. Nothing is printed where
all is well; otherwise what differs, and then the status is 1. With --times it prints how many traces were played in how many
seconds."""
import argparse
import json
import multiprocessing
import os
import random
import shutil
import subprocess
import sys
import tempfile
import threading
import time

sys.dont_write_bytecode = True
ROOT = os.path.dirname(os.path.dirname(os.path.abspath(__file__)))
sys.path.insert(0, os.path.join(ROOT, "tests"))
import drawn  # noqa: E402

SESSION = os.path.join(ROOT, "crates/numatrace_session/out/numatrace_session")
EXAMPLES = os.path.join(ROOT, "examples/session")
MOST_WAIT = 120
SETTINGS = {"program": drawn.PROGRAM, "session": SESSION}

# Lines that are no steps of any trace. They are no JSON; or JSON, but not of a step.
NO_JSON = [b"", b" ", b"x", b"{", b'{"op":"free","node":0', b'{"op":"free","node":0}{"op":"free","node":0}', b"\0", b"\xff", b'"\\ud800"',
           b"[" * 200, b"NaN", b'{"op":"free","node":00}']
NO_STEP = [b"{}", b"[]", b"null", b"0", b'"free"', b'{"op":"leap"}', b'{"op":"free"}', b'{"op":"free","node":-1}', b'{"op":"free","node":0.0}',
           b'{"op":"write","pid":1,"addr":65536,"data":"6"}', b'{"op":"exit","pid":4294967296}', b'[{"op":"free","node":0}]',
           b'{"op":"move_pages","caller":1,"pid":0,"pages":[65536],"nodes":[],"flags":2}',
           b'{"version":1,"machine":{"nodes":[4],"distance":[[10]]},"steps":[]}']

# First lines that are no top of a trace, and what is said of them.
TOP = b'{"version":1,"machine":{"nodes":[4,4],"distance":[[10,20],[20,10]]}}\n'
BAD_TOPS = [
    (b"", "not JSON"), (b"\n", "not JSON"), (b"x\n", "not JSON"), (b"\xff\n", "not JSON"), (TOP[:-2], "not JSON"), (TOP[:-1] + TOP, "not JSON"),
    (b"null\n", "bad machine"), (b"[]\n", "bad machine"), (b"{}\n", "bad machine"), (b'{"op":"free","node":0}\n', "bad machine"),
    (TOP.replace(b":1,", b":3,"), "bad machine"), (TOP.replace(b":1,", b":2,"), "bad machine"), (TOP.replace(b"4,4", b"4,0"), "bad machine"),
    (TOP.replace(b"4,4", b"4,16384"), "bad machine"), (TOP.replace(b"20,10", b"20,11"), "bad machine"), (TOP.replace(b",[20,10]", b""), "bad machine"),
]
LOOK, ANSWER = b'{"op":"free","node":1}', b"0 free 4: 4 5 6 7\n\n"


class Fault(Exception):
    """What differs from what should be."""


def run(command, data):
    """Status, standard output and standard error of a command with some input."""
    try:
        ran = subprocess.run(command, input=data, capture_output=True, timeout=MOST_WAIT, check=False)
    except (subprocess.TimeoutExpired, OSError) as failure:
        raise Fault(str(failure)) from failure
    return ran.returncode, ran.stdout, ran.stderr


def well(command, data):
    """The output of a command that should end well, and say nothing."""
    status, out, err = run(command, data)
    if status or err:
        raise Fault(f"{command[0]} ended with {status} and said {err[:200]!r}")
    return out


# ---- one trace


def line_of(value):
    return json.dumps(value).encode() + b"\n"


def sent(number, trace):
    """The first line for a trace, the lines after it, and for each of these what its reply has to say if it is no step."""
    top = {key: value for key, value in trace.items() if key != "steps"}
    # Now and then the first line is the whole trace, whose steps are not read.
    first = line_of(trace if number % 20 == 3 else top)
    rng, lines = random.Random(number), []
    for k, step in enumerate(trace["steps"]):
        if number % 20 == 10:
            for _ in range(rng.choice([0, 0, 1, 2])):
                is_json = rng.random() < 0.5
                fault = f"bad step {k}" if is_json else "not JSON"
                lines.append((rng.choice(NO_STEP if is_json else NO_JSON) + b"\n", f"fault: {fault}\n".encode()))
        lines.append((line_of(step), None))
    return first, lines


def in_one_go(number, first, lines):
    """The replies to lines that are sent without waiting, each without the empty line at its end."""
    data = first + b"".join(line for line, _ in lines)
    out = well([SETTINGS["session"]], data[:-1] if number % 20 == 7 else data)
    replies = out.split(b"\n\n")
    if replies.pop() != b"":
        raise Fault(f"the last reply does not end with an empty line: {out[-80:]!r}")
    return [reply + b"\n" for reply in replies]


def one_by_one(first, lines):
    """The replies to lines each of which is sent only when the one before has its reply."""
    replies = []
    with subprocess.Popen([SETTINGS["session"]], stdin=subprocess.PIPE, stdout=subprocess.PIPE, stderr=subprocess.PIPE) as process:
        late = threading.Timer(MOST_WAIT, process.kill)
        late.start()
        try:
            process.stdin.write(first)
            for line, _ in lines:
                process.stdin.write(line)
                process.stdin.flush()
                replies.append(b"".join(until_empty(process.stdout)))
            out, err = process.communicate()
        except OSError as failure:
            raise Fault(str(failure)) from failure
        finally:
            late.cancel()
    if process.returncode or out or err:
        raise Fault(f"the session ended with {process.returncode}, wrote {out[:200]!r} after its last reply, and said {err[:200]!r}")
    return replies


def until_empty(stream):
    """The lines of a reply, up to the empty one."""
    for line in stream:
        if line == b"\n":
            return
        yield line
    raise Fault(f"the session ended, or {MOST_WAIT} seconds were over, before the empty line of a reply")


def compare(trace, lines, replies, report):
    """Each reply is that of its line, and those to steps are the report."""
    if len(replies) != len(lines):
        raise Fault(f"{len(lines)} lines have {len(replies)} replies")
    for (line, fault), reply in zip(lines, replies):
        if fault and reply != fault:
            raise Fault(f"the reply to {line[:80]!r} is {reply[:200]!r} and not {fault!r}")
    answers = [reply for (_, fault), reply in zip(lines, replies) if not fault]
    for k, (step, reply) in enumerate(zip(trace["steps"], answers)):
        if not reply.startswith(f"{k} {step['op']} ".encode()):
            raise Fault(f"the reply to step {k} is {reply[:200]!r}")
    if b"".join(answers) != report:
        mine, its = (data.decode("ascii", "replace").split("\n") for data in (report, b"".join(answers)))
        at = next((k for k, pair in enumerate(zip(mine, its)) if pair[0] != pair[1]), min(len(mine), len(its)))
        raise Fault(f"the report says\n  {mine[at:at + 1]}\nand the replies\n  {its[at:at + 1]}")


def check(number):
    """What differs for the trace with a number, or None."""
    trace = drawn.Drawing(number).draw().trace
    first, lines = sent(number, trace)
    try:
        report = well([SETTINGS["program"], "--workers", str(drawn.workers(number))], json.dumps(trace).encode())
        replies = one_by_one(first, lines) if number % 20 == 0 else in_one_go(number, first, lines)
        compare(trace, lines, replies, report)
    except Fault as fault:
        return f"trace {number}: {fault}\n`tests/drawn.py --trace {number}` writes the trace"
    return None


# ---- statuses


def expect(what, want, got):
    if want != got:
        raise Fault(f"{what}: expected {want}, and it is {got}")


def statuses():
    """Good and bad tops, and streams that fail."""
    session = [SETTINGS["session"]]
    for top, words in BAD_TOPS:
        # (to a first line without an end, what follows would belong)
        for more in (b"", LOOK + b"\n") if top.endswith(b"\n") else (b"",):
            expect(f"after {top!r}", (2, b"", f"numatrace_session: {words}\n".encode()), run(session, top + more))
    for data, replies in [(TOP, b""), (TOP[:-1], b""), (TOP + LOOK, ANSWER), (TOP + LOOK + b"\n", ANSWER), (TOP + LOOK + b"\r\n", ANSWER),
                          (TOP + b"\n", b"fault: not JSON\n\n"), (TOP + LOOK[:-1], b"fault: not JSON\n\n")]:
        expect(f"after {data!r}", (0, replies, b""), run(session, data))
    with open("/dev/full", "wb") as full:
        ran = subprocess.run(session, input=TOP + LOOK, stdout=full, stderr=subprocess.PIPE, timeout=MOST_WAIT, check=False)
    expect("with a full output", (4, b"numatrace_session: a stream failed\n"), (ran.returncode, ran.stderr))
    folder = os.open(ROOT, os.O_RDONLY)
    try:
        ran = subprocess.run(session, stdin=folder, capture_output=True, timeout=MOST_WAIT, check=False)
    finally:
        os.close(folder)
    expect("with a folder as its input", (4, b"", b"numatrace_session: a stream failed\n"), (ran.returncode, ran.stdout, ran.stderr))


# ---- the examples


def examples(there):
    """Each example prints what is expected, and a program that cannot be started, or a bad one, is an error."""
    with open(os.path.join(EXAMPLES, "expected"), "rb") as file:
        expected = file.read()
    tried = [[sys.executable, os.path.join(EXAMPLES, "session.py")]]
    for compiler, source, words in [("cc", "session.c", "-Wall -Wextra -Werror -std=c99 -D_POSIX_C_SOURCE=200809L"), ("rustc", "session.rs", "")]:
        if not shutil.which(compiler):
            print(f"tests/sessions.py: skipped: there is no {compiler} for {source}", file=sys.stderr)
            continue
        made = os.path.join(there, compiler)
        well([compiler, *words.split(), "-o", made, os.path.join(EXAMPLES, source)], b"")
        tried.append([made])
        if compiler == "cc" and shutil.which("valgrind"):
            tried.append(["valgrind", "-q", "--leak-check=full", "--show-leak-kinds=all", "--errors-for-leak-kinds=all", "--error-exitcode=9", made])
    os.environ.update(PYTHONPATH=os.path.join(ROOT, "lab"), PYTHONDONTWRITEBYTECODE="1")
    for command in tried:
        expect(f"{command[-1]} prints", expected, well([*command, SETTINGS["session"]], b""))
        status, out, err = run([*command, "/bin/false"], b"")
        if status == 0 or out or not err:
            raise Fault(f"{command[-1]} with a program that ends at once ends with {status}, prints {out!r} and says {err!r}")


def main():
    words = argparse.ArgumentParser(description=__doc__.split("\n", maxsplit=1)[0])
    words.add_argument("program", nargs="?", default=drawn.PROGRAM)
    words.add_argument("session", nargs="?", default=SESSION)
    words.add_argument("--count", type=int, default=drawn.TRACES, help="how many traces to play")
    words.add_argument("--first", type=int, default=0, help="the number of the first trace")
    words.add_argument("--times", action="store_true", help="print how long that took")
    asked = words.parse_args()
    for name in SETTINGS:
        SETTINGS[name] = os.path.abspath(getattr(asked, name))
        if not os.access(SETTINGS[name], os.X_OK):
            sys.exit(f"tests/sessions.py: there is no program {getattr(asked, name)}: run ./build first")
    begun = time.monotonic()
    try:
        statuses()
        with tempfile.TemporaryDirectory() as there:
            examples(there)
    except Fault as fault:
        sys.exit(f"tests/sessions.py: {fault}")
    with multiprocessing.Pool(initializer=SETTINGS.update, initargs=(SETTINGS,)) as pool:
        for fault in pool.imap(check, range(asked.first, asked.first + asked.count), chunksize=10):
            if fault:
                pool.terminate()
                sys.exit(f"tests/sessions.py: {fault}")
    if asked.times:
        print(f"{asked.count} traces in {time.monotonic() - begun:.1f} s")


if __name__ == "__main__":
    main()

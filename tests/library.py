#!/usr/bin/env python3
"""Tests the library for programs in C, crates/nm_library/out/lib, as ./build leaves it.

- It exports the functions of include/numatrace.h and nothing else, the shared one under the version NUMATRACE_1, and needs the C
  library alone.
- The examples in C, Rust and Python write what they should, that in C without a leak under valgrind, as far as the tools are there.
- The steps of the random traces of tests/drawn.py, in JSON and by calls on numbers, have the lines of the model's report, which is the program's.
- Each allocation refused in turn leaves status and machine as promised, and random wrong arguments end in statuses alone.

Nothing is printed where all is well; otherwise what differs, and then the status is 1."""
import argparse
import ctypes
import json
import multiprocessing
import os
import re
import shutil
import subprocess
import sys
import tempfile
import time

sys.dont_write_bytecode = True
ROOT = os.path.dirname(os.path.dirname(os.path.abspath(__file__)))
sys.path[:0] = [os.path.join(ROOT, "tests"), os.path.join(ROOT, "tests", "library")]
import by_numbers  # noqa: E402
import drawn  # noqa: E402

FOLDER = os.path.join(ROOT, "crates/nm_library/out/lib")
SHARED, STATIC = os.path.join(FOLDER, "libnumatrace.so.1"), os.path.join(FOLDER, "libnumatrace.a")
STRICT = ["-std=c99", "-Wall", "-Wextra", "-Werror", "-I", os.path.join(ROOT, "include")]
WILD, MOST_WAIT = "100000", 1200
LIBRARY = []


class Fault(Exception):
    """What differs from what should be."""


def run(command, **more):
    """The output of a command that is to end well."""
    ran = subprocess.run(command, capture_output=True, text=True, timeout=MOST_WAIT, check=False, **more)
    if ran.returncode:
        raise Fault(f"{' '.join(command[:4])} .. ended with {ran.returncode}: {(ran.stdout + ran.stderr)[-1500:]}")
    return ran.stdout


# ---- what it exports


def expect(found, wanted, what):
    if found != wanted:
        raise Fault(f"{what}: {' '.join(sorted(found ^ wanted))}")


def functions():
    """The functions that the header declares."""
    with open(os.path.join(ROOT, "include/numatrace.h"), encoding="utf-8") as file:
        return set(re.findall(r"^(?:int32_t|void) (numatrace_\w+)\(", file.read(), re.MULTILINE))


def exports():
    kit = os.path.dirname(os.path.dirname(os.path.realpath(shutil.which("rt"))))
    clang, names = os.path.join(kit, "toolchain/bin/clang"), functions()
    defined = run(["llvm-nm", "-D", "--defined-only", "--format=just-symbols", SHARED], executable=clang).split()
    expect(set(defined), {f"{name}@@NUMATRACE_1" for name in names} | ({"NUMATRACE_1"} & set(defined)), "exports of libnumatrace.so.1")
    defined = run(["llvm-nm", "--defined-only", "--extern-only", "--format=just-symbols", "--quiet", STATIC], executable=clang)
    expect({word for word in defined.split() if not word.endswith(":")}, names, "exports of libnumatrace.a")
    needed = run(["llvm-readelf", "-d", SHARED], executable=clang)
    expect(set(re.findall(r"\(NEEDED\).*\[(.*)\]", needed)), {"libc.so.6"}, "what libnumatrace.so.1 needs")


# ---- examples


def example(room, words):
    """Runs an example, which is to write what is expected."""
    with open(os.path.join(ROOT, "examples/library/expected"), encoding="utf-8") as file:
        wanted = file.read()
    said = run(words, cwd=room)
    if said != wanted:
        raise Fault(f"{words[-1]}: {said!r}")


def compiled(room, source, name, *more):
    """A program in C, linked with the static library."""
    program = os.path.join(room, name)
    run(["cc", *STRICT, "-g", "-O1", "-o", program, os.path.join(ROOT, source), STATIC, *more])
    return program


def examples(room):
    python = {**os.environ, "PYTHONPATH": os.path.join(ROOT, "lab"), "NUMALAB_BY": "library"}
    os.environ.update(python)
    example(room, [sys.executable, os.path.join(ROOT, "examples/library/machine.py")])
    if shutil.which("cc"):
        program = compiled(room, "examples/library/machine.c", "machine")
        example(room, [program])
        linked = os.path.join(room, "linked")
        run(["cc", *STRICT, "-o", linked, os.path.join(ROOT, "examples/library/machine.c"), SHARED, f"-Wl,-rpath,{FOLDER}"])
        example(room, [linked])
        if shutil.which("valgrind"):
            example(room, ["valgrind", "-q", "--leak-check=full", "--errors-for-leak-kinds=all", "--error-exitcode=9", program])
        if shutil.which("c++"):
            header = os.path.join(ROOT, "include/numatrace.h")
            run(["c++", "-x", "c++", "-std=c++11", "-Wall", "-Wextra", "-Werror", "-fsyntax-only", header])
    if shutil.which("cargo"):
        target = os.path.join(room, "target")
        words = ["cargo", "build", "--offline", "--quiet", "--example", "machine", "--target-dir", target]
        run(words, cwd=os.path.join(ROOT, "bindings/rust"))
        example(room, [os.path.join(target, "debug/examples/machine")])


# ---- traces


def lines_of(session, number, step, is_json):
    """The lines of a step, in JSON or by a call on numbers, which has no accesses in flight."""
    if is_json:
        return session.step(step)
    if step.get("during"):
        return session.renumbered(session.step(step), number)
    return session.by_numbers(number, step)


def whole(trace):
    """The report on a whole trace, by the library."""
    data = json.dumps(trace).encode()
    needed, room = ctypes.c_size_t(), (ctypes.c_uint8 * 64)()
    status = LIBRARY[0].numatrace_run(data, len(data), room, 64, needed)
    if status == by_numbers.SMALL_ROOM:
        room = (ctypes.c_uint8 * needed.value)()
        status = LIBRARY[0].numatrace_run(data, len(data), room, needed.value, needed)
    assert status == 0, f"status {status}"
    return bytes(room[: needed.value])


def play(number):
    """What differs in a trace, or None."""
    drawing = drawn.Drawing(number).draw()
    trace, report = drawing.trace, "".join(line + "\n" for line in drawing.lines).encode()
    if whole(trace) != report:
        return f"trace {number}: the whole trace has another report"
    for is_json in (True, False):
        session, said = by_numbers.Session(LIBRARY[0], {key: value for key, value in trace.items() if key != "steps"}), []
        for k, step in enumerate(trace["steps"]):
            said.append(lines_of(session, k, step, is_json))
        session.close()
        if b"".join(said) != report:
            return f"trace {number}: its steps {'in JSON' if is_json else 'by numbers'} have other lines"
    return None


def traces(count):
    with multiprocessing.Pool() as pool:
        for fault in pool.imap_unordered(play, range(count), chunksize=20):
            if fault:
                pool.terminate()
                raise Fault(fault)


# ---- refused memory and wrong arguments


def hostile(room):
    if not shutil.which("cc"):
        return
    refusing = [compiled(room, "tests/library/refuse.c", "refuse", "-Wl,--wrap=malloc", "-Wl,--wrap=realloc")]
    run(refusing)
    if shutil.which("valgrind"):
        run(["valgrind", "-q", "--leak-check=full", "--errors-for-leak-kinds=all", "--error-exitcode=9", *refusing])
    run([compiled(room, "tests/library/wild.c", "wild", "-fsanitize=address"), WILD])


def main():
    words = argparse.ArgumentParser(description=__doc__.split("\n", maxsplit=1)[0])
    words.add_argument("--traces", type=int, default=drawn.TRACES, metavar="N", help="so many random traces (default: %(default)s)")
    words.add_argument("--times", action="store_true", help="print how long each part took")
    given = words.parse_args()
    if not os.path.isfile(SHARED):
        sys.exit(f"tests/library.py: there is no {SHARED}: ./build makes it")
    LIBRARY.append(by_numbers.loaded(SHARED))
    with tempfile.TemporaryDirectory() as room:
        parts = {"exports": exports, "examples": lambda: examples(room), "traces": lambda: traces(given.traces), "hostile": lambda: hostile(room)}
        for name, part in parts.items():
            began = time.monotonic()
            try:
                part()
            except Fault as fault:
                sys.exit(f"tests/library.py: {name}: {fault}")
            if given.times:
                print(f"{name}: {time.monotonic() - began:.1f} s")


if __name__ == "__main__":
    main()

#!/usr/bin/env python3
"""Speaks as numatrace_session does, and plays by the plain model: for tests of what talks to it, where nothing is built."""
import os
import sys

sys.dont_write_bytecode = True
sys.path.insert(0, os.path.join(os.path.dirname(os.path.abspath(__file__)), ".."))
from numalab import model  # noqa: E402
from numalab.faults import MOST_ENTRIES, Form, machine_faults, step_faults  # noqa: E402
from numalab.jsontext import first_fault  # noqa: E402


def top_of(form, line):
    """The top of a trace, and what is wrong with it."""
    top, _, fault = first_fault(line)
    if isinstance(top, dict):
        top["steps"] = []
    return top, "not JSON" if fault else "bad machine" if machine_faults(form, top) else None


def reply(form, machine, top, line):
    """The lines of a step, or its fault."""
    step, _, fault = first_fault(line)
    if fault:
        return ["fault: not JSON"]
    if step_faults(form, step, top["run_limit"] if top["version"] == 2 else MOST_ENTRIES):
        return [f"fault: bad step {machine.steps}"]
    return machine.play(step)


def main():
    form, lines = Form(), sys.stdin.buffer
    top, fault = top_of(form, lines.readline())
    if fault:
        print(f"numatrace_session: {fault}", file=sys.stderr)
        return 2
    machine = model.Machine(top)
    for line in lines:
        print(*reply(form, machine, top, line), "", sep="\n", flush=True)
    return 0


if __name__ == "__main__":
    try:
        sys.exit(main())
    except OSError:
        os.write(2, b"numatrace_session: a stream failed\n")
        os._exit(4)  # (without trying once more to write what could not be written)

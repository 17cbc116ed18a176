#!/usr/bin/env python3
"""Runs a command, such as ./check or rt ci NAME, and prints what each crate cost in it, as a table: seconds of
processor time for its proof, for its tests, for edits by rounds, for its proof again under the edits of must-fail/, and for all of
these and the most expensive one.

It looks at the prover's processes once a second (Linux), so the last second of each is not counted. An environment variable that
the command gets, NUMATRACE_COSTS, tells its processes from those of other commands."""
import collections
import glob
import os
import re
import subprocess
import sys
import time

ROOT = os.path.dirname(os.path.dirname(os.path.abspath(__file__)))
TICKS = os.sysconf("SC_CLK_TCK")


def read(path):
    with open(path, "rb") as file:
        return file.read().decode(errors="replace")


def prover_runs(mark):
    """The prover's processes under the command: each with its arguments and the seconds that it has used so far."""
    for folder in glob.glob("/proc/[0-9]*"):
        try:
            words = read(f"{folder}/cmdline").split("\0")
            is_prover = os.path.basename(words[0]) == "rattle" and words[1] in ("check", "build") and "--crate-name" in words
            if is_prover and mark in read(f"{folder}/environ").split("\0"):
                fields = read(f"{folder}/stat").rpartition(")")[2].split()
                yield (folder, fields[19]), words, (int(fields[11]) + int(fields[12])) / TICKS
        except (OSError, IndexError):
            continue  # It has ended.


def kind_of(words):
    """The crate that a run is for, and its purpose: proof, tests, rounds, again (the proof under the edits), the number of an edit, or
    turn, where the edits of a crate are tried in turn in one folder, which shows no numbers."""
    crate = words[words.index("--crate-name") + 1]
    over = words[words.index("--incremental") + 1] if "--incremental" in words else ""
    edit = re.search(r"/rt-edits-[^/]+(?:/(seed|\d+))?$", over)
    if edit:
        return crate, "again" if edit[1] == "seed" else int(edit[1]) if edit[1] else "turn"
    if re.search(r"/edits-[^/]+/.*/try-[^/]+/kept$", over):
        return crate, "rounds"
    return crate, "tests" if "--test" in words else "proof"


def numbered(runs):
    """The runs by when they began, with those in turn separated: the first proves the crate under its first edit, and the last tries
    it as it is."""
    turns = collections.Counter(crate for (crate, kind), _ in runs if kind == "turn")
    made = collections.Counter()
    for (crate, kind), seconds in runs:
        if kind == "turn":
            at = made[crate]
            made[crate] += 1
            kind = "again" if at in (0, turns[crate] - 1) else at
        yield crate, kind, seconds


def watched(command):
    """Runs the command; returns the seconds of each crate by purpose, and the command's status."""
    used, mark = {}, str(os.getpid())
    ran = subprocess.Popen(command, env={**os.environ, "NUMATRACE_COSTS": mark})
    while ran.poll() is None:
        for run, words, seconds in prover_runs("NUMATRACE_COSTS=" + mark):
            used[run] = kind_of(words), seconds
        time.sleep(1)
    costs = collections.defaultdict(collections.Counter)
    for crate, kind, seconds in numbered([used[run] for run in sorted(used, key=lambda run: int(run[1]))]):
        costs[crate][kind] += seconds
    return costs, ran.returncode


def edits_text(crate, costs):
    """What the edits cost: all of them, one of them, and the most expensive by its name."""
    edits = {number: seconds for number, seconds in costs.items() if isinstance(number, int)}
    if not edits:
        return ""
    names = sorted(glob.glob(os.path.join(ROOT, "crates", crate, "must-fail/*.edit")))
    dearest = max(edits, key=edits.get)
    name = os.path.basename(names[dearest])[: -len(".edit")] if dearest < len(names) else f"edit {dearest}"
    total = sum(edits.values())
    return f"{total:.0f}, {total / len(edits):.0f} ({name} {edits[dearest]:.0f})"


def main():
    if not sys.argv[1:]:
        sys.exit("tools/costs.py: name a command, such as ./check")
    costs, status = watched(sys.argv[1:])
    print("| Crate | Its proof | Its tests | Edits by rounds | Its proof again, for must-fail/ | These edits, one of them, and the most expensive |")
    print("|---|---|---|---|---|---|")
    for crate, used in costs.items():
        parts = [f"{used[kind]:.0f}" if used[kind] else "" for kind in ("proof", "tests", "rounds", "again")]
        print(f"| {crate} | {' | '.join(parts)} | {edits_text(crate, used)} |")
    print(f"{sum(sum(used.values()) for used in costs.values()) / 60:.0f} minutes of processor time")
    return status


if __name__ == "__main__":
    sys.exit(main())

#!/usr/bin/env python3
"""Tries the edits that must fail, those of crates/CRATE/must-fail and of tests/edits/CRATE: the prover must refuse each for its meaning.
They are tried many at once, by rounds: an edit changes the body of a function, and callers see only its contract, so one check tells of
edits of many functions. Ends with a status other than 0 unless each is refused for its meaning, and prints those that are not."""
import argparse
import os
import resource
import shutil
import signal
import sys
import tempfile
import threading
import time
from concurrent.futures import ThreadPoolExecutor

ROOT = os.path.dirname(os.path.dirname(os.path.abspath(__file__)))
sys.dont_write_bytecode = True
sys.path.insert(0, os.path.join(ROOT, "tools"))
from rounds.checks import Fault, begin, checks_of, jobs  # noqa: E402
from rounds.choice import Choice, changing, crates_of, edits_of, is_own, note_seconds  # noqa: E402
from rounds.logs import REFUSED  # noqa: E402
from rounds.passed import Passed  # noqa: E402
from rounds.texts import reader  # noqa: E402
from rounds.tries import Tries  # noqa: E402

PRINTING = threading.Lock()


def say(text):
    with PRINTING:
        print(text, flush=True)


def stop(text):
    sys.exit(f"tests/edits.py: {text}")


def words_given():
    words = argparse.ArgumentParser(description=__doc__)
    words.add_argument("crates", nargs="*", metavar="CRATE", help="only the edits of these crates")
    words.add_argument("--function", metavar="F", help="only edits of the functions whose names end so, as ReverseMap::pin")
    words.add_argument("--edit", metavar="NAME", action="append", help="only this edit (repeatable)")
    words.add_argument("--chosen", action="store_true", help="the check's choice: one for each public function, and more, but not those of must-fail/, "
                       "which rt ci tries")
    words.add_argument("--proved", action="store_true", help="the crates are proved as they stand, and the libraries below them are built: "
                       "prove none without an edit")
    words.add_argument("--anew", action="store_true", help="try also what was refused before, where nothing has changed since")
    words.add_argument("--apply", action="store_true", help="prove nothing: see only whether each edit can be applied, and has its name alone")
    words.add_argument("--compile", action="store_true", help="prove nothing: see only which edits do not compile; the libraries below are built")
    words.add_argument("--times", action="store_true", help="write down in tests/edits/seconds what each took: --chosen takes the cheapest")
    words.add_argument("--jobs", type=int, metavar="N", help="so many crates at once")
    words.add_argument("--logs", metavar="FOLDER", help="keep what each check prints there")
    words.add_argument("--root", metavar="FOLDER", default=ROOT, help="the repository (default: this one)")
    words.add_argument("-v", "--verbose", action="store_true", help="also print what refuses each edit")
    return words.parse_args()


def wanted(given):
    """The edits that are asked for, by crate."""
    crates = crates_of(given.root)
    for crate in given.crates:
        if crate not in crates:
            stop(f"{crate} is no crate with edits")
    edits = {crate: edits_of(given.root, crate) for crate in crates}
    if given.chosen:
        edits = {crate: [edit for edit in ours if not is_own(edit.path)] for crate, ours in Choice(given.root, edits).made().items()}
    if given.edit:
        edits = {crate: [edit for edit in ours if edit.name in given.edit] for crate, ours in edits.items()}
    if given.function:
        edits = {crate: changing(given.root, crate, ours, given.function) for crate, ours in edits.items()}
    found = {crate: ours for crate, ours in edits.items() if ours and (not given.crates or crate in given.crates)}
    if not found:
        stop(f"no edit changes a function {given.function}" if given.function else "there is no such edit")
    return found


def faults(root, edits):
    """A line for each edit that cannot be applied, or has the name of another of its crate."""
    for crate, ours in edits.items():
        text_of, names = reader(os.path.join(root, "crates", crate)), [edit.name for edit in ours]
        for edit in ours:
            why = edit.fault(text_of) or ("another edit of the crate has its name" if names.count(edit.name) > 1 else None)
            if why:
                yield f"{os.path.relpath(edit.path, root)}: {why}"


class Counts:
    """What came of the edits of all crates."""

    def __init__(self):
        self.tried = self.refused = self.kept = self.rounds = 0
        self.faults = 0
        self.seconds = {}


def try_crate(crate, edits, room, given):
    """Tries edits of a crate, and returns the counts."""
    counts, began, before = Counts(), time.monotonic(), 0
    try:
        checks = checks_of(crate, room, given.root)
        checks.logs = given.logs and os.path.abspath(given.logs)
        passed = Passed(checks)
        new = [edit for edit in edits if given.anew or not passed.has(edit)]
        counts.kept = len(edits) - len(new)
        tries = Tries(checks, new)
        if tries.left():
            tries.base(given.proved)
            before = checks.seconds
            tries.run(say)
    except Fault as fault:
        say(f"{crate}: NOT JUDGED: {fault}")
        counts.faults = 1
        return counts
    for one in tries.tries:
        if one.verdict == REFUSED:
            passed.add(one.edit)
        if one.verdict != REFUSED or given.verbose:
            verdict = one.verdict if one.verdict == REFUSED else one.verdict.upper()
            say(f"{crate}/{one.edit.name}: {verdict} ({one.place()}){': ' if one.why else ''}{one.why}")
    counts.seconds = {f"{crate}/{one.edit.name}": one.seconds for one in tries.tries if one.seconds}
    counts.tried, counts.rounds = len(tries.tries), tries.rounds
    counts.refused = sum(one.verdict == REFUSED for one in tries.tries)
    if counts.tried:
        say(f"{crate}: {counts.refused} of {counts.tried} edits are refused for their meaning, in {tries.rounds} rounds, "
            f"{checks.seconds - before:.0f} s of a processor, {before:.0f} before them, and {time.monotonic() - began:.0f} by the clock")
    return counts


def compile_crate(crate, edits, room, given):
    """Prints which edits of a crate do not compile, and returns the counts."""
    counts = Counts()
    try:
        broken = Tries(checks_of(crate, room, given.root), edits).broken()
    except Fault as fault:
        say(f"{crate}: NOT JUDGED: {fault}")
        counts.faults = len(edits)
        return counts
    for one in broken:
        say(f"{crate}/{one.edit.name}: {one.verdict.upper()} ({one.place()}): {one.why}")
    counts.faults = len(broken)
    return counts


def leave(room):
    """Ends at once. (The checks end with this process, and are not waited for.)"""
    shutil.rmtree(room, ignore_errors=True)
    os._exit(130)


def try_all(edits, given):
    """Tries edits, several crates at once, and returns whether all are refused for their meaning, or, if that is asked, whether all compile."""
    began = time.monotonic()
    begin()
    order = sorted(edits, key=lambda crate: -sum(os.path.getsize(edit.path) for edit in edits[crate]))
    with tempfile.TemporaryDirectory(prefix="edits-") as room, ThreadPoolExecutor(given.jobs or jobs()) as pool:
        for number in (signal.SIGHUP, signal.SIGINT, signal.SIGTERM):
            signal.signal(number, lambda *_: leave(room))
        one = compile_crate if given.compile else try_crate
        found = list(pool.map(lambda crate: one(crate, edits[crate], room, given), order))
    total = {name: sum(getattr(counts, name) for counts in found) for name in ("tried", "refused", "kept", "rounds", "faults")}
    if given.compile:
        every = sum(len(ours) for ours in edits.values())
        say(f"edits: {every - total['faults']} of {every} compile; {time.monotonic() - began:.0f} s by the clock")
        return not total["faults"]
    if given.times:
        note_seconds(given.root, {name: seconds for counts in found for name, seconds in counts.seconds.items()})
    took = resource.getrusage(resource.RUSAGE_CHILDREN)
    kept = f"; {total['kept']} more were refused before, and nothing has changed since" if total["kept"] else ""
    say(f"edits: {total['refused']} of {total['tried']} are refused for their meaning{kept}; {total['rounds']} rounds, "
        f"{took.ru_utime + took.ru_stime:.0f} s of a processor, {time.monotonic() - began:.0f} by the clock")
    return total["refused"] == total["tried"] and not total["faults"]


def main():
    given = words_given()
    given.root = os.path.abspath(given.root)
    edits = wanted(given)
    bad = list(faults(given.root, edits))
    for line in bad:
        say(line)
    if bad or given.apply:
        return int(bool(bad))
    return int(not try_all(edits, given))


if __name__ == "__main__":
    sys.exit(main())

#!/usr/bin/env python3
"""Tests tests/edits.py: how it reads sources and logs; and, over a small repository that it makes, edits that are refused, one that is
let through, one that does not compile, one that cannot be applied, and a crate that is not proved. Prints what differs, and then ends
with status 1."""
import os
import subprocess
import sys
import tempfile

HERE = os.path.dirname(os.path.abspath(__file__))
sys.dont_write_bytecode = True
sys.path.insert(0, os.path.join(os.path.dirname(HERE), "tools"))
from rounds import logs  # noqa: E402
from rounds.functions import functions_of, names_of  # noqa: E402

SOURCE = """//! Numbers.
#![tactic(auto)]

ghost use Rattle.std.specs.Prelude.{◌≡◌, ◌≤◌, ◌<◌, ◌+◌};

/// The next number.
pub fn next(x: u8) -> u8
    requires { x < 255 }
    ensures { result ≡ x + 1 }
{
    let one = 1;
    x + one
}

/// The number after the next.
pub fn after_next(x: u8) -> u8
    requires { x < 254 }
    ensures { x < result }
{
    let first = next(x);
    next(first)
}

/// A number that is not greater.
pub fn lower(x: u8) -> u8
    ensures { result ≤ x }
{
    let half = x / 2;
    half
}
"""

# For each edit the text in the source, and what stands in its place.
EDITS = {
    "next_is_one_too_many": ("let one = 1;", "let one = 2;"),
    "first_is_lost": ("let first = next(x);", "let first = x;"),
    "nothing_is_next": ("    next(first)", "    let _ = next(first); x"),
    "half_is_all": ("let half = x / 2;", "let half = x;"),
    "half_is_more": ("let half = x / 2;", "let half = 255;"),
    "half_of_nothing": ("let half = x / 2;", "let half = y / 2;"),
    "whole_is_lost": ("let whole = x;", "let whole = 0;"),
}

BROKEN = SOURCE.replace("let one = 1;", "let one = 0;")


class Repository:
    """A repository of one crate, in a folder of its own."""

    def __init__(self, room, name, source):
        self.top, self.bad = os.path.join(room, name), 0
        self.write("crates.txt", "numbers:\n")
        self.write("crates/numbers/src/lib.rt", source)
        os.makedirs(os.path.join(self.top, ".git"))

    def write(self, path, text):
        at = os.path.join(self.top, path)
        os.makedirs(os.path.dirname(at), exist_ok=True)
        with open(at, "w", encoding="utf-8") as file:
            file.write(text)

    def plant(self, *names, folder="tests/edits/numbers"):
        for name in names:
            old, new = EDITS[name]
            self.write(f"{folder}/{name}.edit", f"file: src/lib.rt\nold: {old}\nnew: {new}\n")

    def said(self, *words):
        """The status of the script, and what it prints."""
        cache = {**os.environ, "XDG_CACHE_HOME": os.path.join(self.top, "cache")}
        script = [os.path.join(HERE, "edits.py"), "--root", self.top, "--jobs", "1", *words]
        run = subprocess.run(script, stdout=subprocess.PIPE, stderr=subprocess.STDOUT, text=True, env=cache, check=False)
        return run.returncode, run.stdout

    def expect(self, status, *texts, words=()):
        """The script ends so, and prints each of these texts."""
        ended, said = self.said(*words)
        lost = [text for text in texts if text not in said]
        if lost or (ended == 0) != (status == 0):
            print(f"tests/edits_test.py: {' '.join(words) or 'no words'}: status {ended}, and it does not print {lost}; it prints\n{said}")
            self.bad = 1


# Functions in every place where an edit may change one, and the names that a check's log has of them.
PLACES = """
mod inner {
    impl<'a, T: Fn(u8) -> bool> Shown<'a> for Text<T> where T: Copy {
        fn shown(&self) -> Vec<u8> { let closed = '}'; vec![closed] }
    }
}
impl From<Errno> for Fault { fn from(errno: Errno) -> Fault { Fault { text: "{" } } }
impl From<Refused<u8>> for Fault { fn from(refused: Refused<u8>) -> Fault { Fault { text: "" } } }
impl Drop for Text { fn drop(&mut self) {} }
trait Gate {
    fn asks(&self) -> bool;
    fn worth(&self) -> u8 { 1 } // {
}
pub fn all(numbers: &[u8; 2]) -> bool
    requires some { (record { from = 1; to = 2 }) ≡ x' }
    ensures { result }
{
    numbers.iter().all(|number| *number > 0)
}
#[cycle(round)]
fn turns(number: u8) -> u8 { if number == 0 { 0 } else { turns(number - 1) } }
"""
NAMES = {
    "inner::TextShown::shown": ["numbers::places::inner::TextShown::shown"],
    "FaultFrom::from": ["numbers::places::FaultFromErrno::from", "numbers::places::FaultFromRefused::from"],
    "TextDrop::drop": ["numbers::text::Text::drop"],
    "Gate::worth": ["numbers::places::Gate::worth", "numbers::places::OpenGate::worth"],
    "all": ["numbers::places::all", "numbers::places::fn::all::all", "numbers::places::fn::all::all+FnMut::call_mut"],
    "turns": ["numbers::places::turns"],
}
# The proof of the cycle that the last of them is in.
CYCLE = "numbers::places::+round"

# A log of a check of five edits, and what it says of each function.
LOG = """./proofs/gone/Answers.antt:5:1: error: `returns`: module `Rattle.numbers.proofs.gone.Goals` has no `returns-then` that can be named
./proofs/fits_no_more/Answers.antt:5:1: error: `returns`: the two types differ
note: src/lib.rt:8:1: it is not proved that what the function ensures holds when it returns (`returns`)
fn numbers::open: no proof: expected answers in ./proofs/open/Answers.antt; `search` did not prove `returns`; it calls `numbers::gone`, which is not proved
fn numbers::gone: not proved
fn numbers::fits_no_more: not proved; it calls `numbers::open`, which is not proved
fn numbers::stands: not proved; it stands on `Rattle.numbers.proofs.gone.Answers.returns`, which antt refuses; it calls `numbers::gone`, which is not proved
fn numbers::stands_too: not proved; it stands on `Rattle.numbers.proofs.gone.Answers.returns`, `Rattle.numbers.proofs.stands_too.Answers.returns`, which antt refuses
fn numbers::places::turns: not proved; it stands on `Rattle.numbers.proofs.places.+round.Answers.turns-returns`, which antt refuses
fn numbers::by_lemma: not proved; it stands on `Rattle.numbers.proofs.Lemmas.more`, which antt refuses
fn numbers::waits: no proof: it calls `numbers::open` and `numbers::gone`, which are not proved
fn numbers::turns_too: no proof: in `numbers::back`, of this cycle of calls: it calls `numbers::open`, which is not proved
fn numbers::same: proved, may abort
fn numbers::lost: could not tell
impl numbers::NumberDisplay: not proved; it waits for the proof of `fmt`
fn numbers::NumberDisplay::fmt: not proved
fn numbers::shows: no proof: it calls `numbers::NumberDisplay::fmt`, which is not proved; it passes the block `numbers::NumberDisplay`, which is not proved
logic=not-proved
"""
SAID = {
    "open": logs.REFUSED,
    "gone": logs.BY_NAME,
    "fits_no_more": logs.REFUSED,
    "stands": logs.WAITS,
    "stands_too": logs.REFUSED,
    "by_lemma": logs.REFUSED,
    "waits": logs.WAITS,
    "turns_too": logs.WAITS,
    "same": logs.LET_THROUGH,
    "lost": logs.NOT_JUDGED,
    "NumberDisplay": logs.WAITS,
    "shows": logs.WAITS,
}


def test_names():
    """Whether each function is found, with its names."""
    functions = functions_of("src/places.rt", PLACES)
    found = {}
    for function, names in names_of("numbers", functions, [name for names in NAMES.values() for name in names]).items():
        found.setdefault(function.key.removeprefix("places::"), []).extend(names)
    if found != NAMES:
        print(f"tests/edits_test.py: functions have the names {found}, not {NAMES}")
    in_cycles = [(PLACES[function.begin :].split("\n")[0], *function.proofs("numbers")) for function in functions if function.cycle]
    if in_cycles != [("#[cycle(round)]", CYCLE)]:
        print(f"tests/edits_test.py: functions in cycles begin so, and have these proofs: {in_cycles}, not {[CYCLE]}")
    return found != NAMES or in_cycles != [("#[cycle(round)]", CYCLE)]


def test_logs():
    """Whether a log says of each function what it should."""
    log = logs.Log(1, LOG, {})
    found = {name: logs.of_functions(log, [f"numbers::{name}"], "numbers", [])[0] for name in SAID}
    none = logs.of_functions(log, [], "numbers", [])
    in_cycle = [logs.of_functions(log, ["numbers::places::turns"], "numbers", [], own)[0] for own in ((), (CYCLE,))]
    are_right = found == SAID and none[0] == logs.NOT_JUDGED and in_cycle == [logs.WAITS, logs.REFUSED] and log.has_verdict()
    if not are_right:
        print(f"tests/edits_test.py: a log says {found}, not {SAID}; of no function it says {none}, of one in a cycle {in_cycle}")
    return not are_right


def main():
    bad = test_names() + test_logs()
    with tempfile.TemporaryDirectory(prefix="edits-test-") as room:
        plain = Repository(room, "plain", SOURCE)
        plain.plant("next_is_one_too_many", "nothing_is_next", "half_is_more")
        plain.plant("half_is_all", folder="crates/numbers/must-fail")
        plain.plant("first_is_lost", "half_of_nothing")
        plain.expect(
            1,
            "numbers/half_is_all: LET THROUGH (lower)",
            "numbers/first_is_lost: LET THROUGH (after_next)",
            "numbers/half_of_nothing: REFUSED BY A NAME ALONE (lower): it does not compile: src/lib.rt:28",
            "edits: 3 of 6 are refused for their meaning",
        )
        plain.expect(1, "numbers/half_of_nothing: REFUSED BY A NAME ALONE (lower): it does not compile: src/lib.rt:28", "edits: 5 of 6 compile",
                     words=["--compile"])
        plain.expect(0, "edits: 0 of 0 are refused for their meaning; 3 more were refused before", words=[
            "--edit", "next_is_one_too_many", "--edit", "nothing_is_next", "--edit", "half_is_more"])
        words = ["--anew", "--proved", "--function", "next", "--edit", "next_is_one_too_many"]
        plain.expect(0, "edits: 1 of 1 are refused for their meaning", words=words)
        # (with stand-ins for the proofs of what is not edited)
        plain.expect(1, "numbers/half_is_all: LET THROUGH (lower)", "numbers/first_is_lost: LET THROUGH (after_next)",
                     "edits: 0 of 2 are refused for their meaning; 1 rounds", words=["--proved", "--edit", "half_is_all", "--edit", "first_is_lost"])
        plain.expect(1, "no edit changes a function last", words=["--function", "last"])
        plain.expect(1, "letters is no crate with edits", words=["letters"])
        plain.plant("whole_is_lost")
        plain.expect(1, "tests/edits/numbers/whole_is_lost.edit: an 'old:' text occurs 0 times in src/lib.rt, not once", words=["--apply"])
        plain.expect(1, "whole_is_lost.edit: an 'old:' text occurs 0 times in src/lib.rt, not once")
        broken = Repository(room, "broken", BROKEN)
        broken.plant("half_is_more")
        broken.expect(1, "numbers: NOT JUDGED: it is not proved without an edit", "edits: 0 of 0")
    return int(bool(bad or plain.bad or broken.bad))


if __name__ == "__main__":
    sys.exit(main())

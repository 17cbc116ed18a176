#!/usr/bin/env python3
"""Checks that tools/pages.py finds what it should: names that exist and names that do not, headings as a forge makes them, lines of
reports, words, and what commands print. And that tools/proved.py finds functions with their comments and clauses. Prints those that
they get wrong, and then ends with status 1."""
import os
import sys
import tempfile

sys.dont_write_bytecode = True
sys.path.insert(0, os.path.join(os.path.dirname(os.path.abspath(__file__)), "../tools"))
import pages
import proved

GOOD_PATHS = "./build docs/MODEL.md nm_requests/specs/Calls.antt specs/Calls.antt crates/NAME/x crates/numatrace/out/x tests/*.none /proc/x docs/DEFINITIONS_ALL.md"
BAD_PATHS = "./nothing docs/NOTHING.md nm_calls/specs/Nothing.antt specs/Nothing.antt crates/nothing/src tests/nothing.json"
GOOD_NAMES = "System::call Vpn::offset(addr) nm_calls::System CallError::HostMemory laws::pages_migrate Vec::nothing"
BAD_NAMES = "System::nothing Nothing::call nm_calls::nothing laws::nothing CallError::Nothing"
PAGE = "# One `two`: it's\n## a_b\n```\n# code\n```\n## a_b\n"

sources = pages.Sources()
wrong = [word for words, lacks in ((GOOD_PATHS, False), (BAD_PATHS, True)) for word in words.split() if sources.lacks_path(word) != lacks]
wrong += [word for words, lacks in ((GOOD_NAMES, False), (BAD_NAMES, True)) for word in words.split() if sources.lacks_name(word) != lacks]
if pages.headings(PAGE) != {"one-two-its", "a_b", "a_b-1"}:
    wrong.append(f"headings {pages.headings(PAGE)}")
if not pages.bad_link("docs/MODEL.md", "#nothing", {}) or pages.bad_link("docs/MODEL.md", "../README.md", {}):
    wrong.append("links")
REPORT = "0 spawn ok\n1 map segment=0\n2 numa_maps 1\n00010000 default\n"
SHOWN = "text\n\n    1 map segment=0\n    2 numa_maps 1\n    00010000 default\n\n    0 spawn ok\n    2 numa_maps 1\n"
if list(pages.unreported(SHOWN, [REPORT])) != [(7, "no report has the lines that begin with '0 spawn ok'")]:
    wrong.append("reports")

# Words: what a script makes of a page does not count, and a page that is too long is known.
if pages.words_of("one two\n<!-- made by tools/x from y -->\nthree\n<!-- the end of what is made -->\nfour\n") != 3:
    wrong.append("words")
if any(page not in pages.pages() for page in pages.LIMITS):
    wrong.append("the pages that have a greatest length")

# Commands in blocks of code, each with the lines after it.
BLOCK = "text\n    ./numalab show x.nt   # why\n    one\n    ..\n    ./build \\\n        --first\n    two\n\ntext\n    not one\n"
if pages.commands_of(BLOCK) != [(2, "./numalab show x.nt   # why", ["one", ".."]), (5, "./build --first", ["two"])]:
    wrong.append(f"commands {pages.commands_of(BLOCK)}")
CAN_BE_MADE = "./numalab show examples/shortage.nt|./numalab picture examples/shortage.nt -o a.svg|./numatrace < examples/shortage.json|./numalab policies --list|tools/proved.py --whole nm_areas"
CANNOT = "./numalab show nothing.nt|./numalab replay examples/shortage.nt|./numalab compare examples/shortage.nt --qemu|./numalab policies --machine examples/policies/cxl.nt|./build"
wrong += [one for words, can in ((CAN_BE_MADE, True), (CANNOT, False)) for one in words.split("|") if pages.can_be_made(one) != can]
PRINTED = ["a", "b", "c", "d"]
for wanted, lacking in [("a b c d", None), ("a .. d", None), (".. b c ..", None), (".. c b ..", "c"), ("b c d", "b"), ("a b", "b"), ("a ..", None), ("a x ..", "a")]:
    if pages.lacks_lines(PRINTED, wanted.split()) != lacking:
        wrong.append(f"lines {wanted}")
known = pages.Arguments()
for command, lacking in [("./numalab show --why --jsonl x.nt | cat --nothing", []), ("numalab show --wyh x.nt", ["--wyh"]), ("./check --all", []),
                         ("./check --some", ["--some"]), ("bench/run.py --against PROGRAM", []), ("./numatrace --workers 2 < x", []),
                         ("numalab record -o t.json -- COMMAND --nothing", []), ("rt ci --nothing", [])]:
    if known.lacking(command) != lacking:
        wrong.append(f"arguments of {command}: {known.lacking(command)}")
with tempfile.TemporaryDirectory() as folder:
    environment = pages.prepared(folder)
    for command, wanted, is_ill in [("./numatrace < examples/three_pages.json", ["0 spawn ok", ".."], False), ("./numatrace < examples/three_pages.json", ["0 spawn no", ".."], True),
                                    ("./numatrace < nothing.json", [], True)]:
        if bool(pages.ill(command, wanted, folder, environment)) != is_ill:
            wrong.append(f"{command} {wanted}: {pages.ill(command, wanted, folder, environment)}")

# Promises: functions with their types, comments and clauses; what a crate does not hand out is left out.
found, types = proved.promises("nm_nodes")
names = {one.whole: one for _, one in found}
front = names.get("NodePool::take_front")
if not front or front.named != ["front", "rest"] or len(front.clauses) < 2 or not front.comment:
    wrong.append("the promises of NodePool::take_front")
if any(one.owner == "List" or one.name == "upwards" for one in names.values()) or "NodePool" not in types:
    wrong.append("what nm_nodes hands out")
if "run_words" not in [one.name for _, one in proved.promises("numatrace")[0]]:
    wrong.append("the functions of a program")
for word in wrong:
    print(f"tools/pages.py or tools/proved.py is wrong about {word}")
sys.exit(1 if wrong else 0)

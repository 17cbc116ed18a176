#!/usr/bin/env python3
"""Checks the pages. `tools/pages.py --check` prints a line `page:line: text` for each fault, and ends with status 1 if there is one.
`tools/pages.py --words` prints how many words each page has, and may have.

- What they name exists: links and their headings, paths, source files, and functions of crates, types and modules. It reads Markdown
  links, and what is in backticks. A path is looked for if it begins with a folder of the repository, a crate or `./`; what has a `*`,
  a brace, a placeholder in capitals or a folder that a build makes is left alone, and so is what is in a block of code.
- No page has more words than LIMITS says, without what a script makes of it, between two lines that say so.
- Each stretch of a report in the manual and in the pages of lab/docs is in the report of an example, or in a replay of a kernel's
  answers.
- The arguments of commands that begin with two hyphens are arguments of these commands.
- Commands in blocks of code that need no build are made, in a folder of links to the repository where the plain model in Python
  stands for the program, if the files that they name exist: they end with status 0, and print the lines that follow them in the
  block, where a line `..` stands for any."""
import collections
import concurrent.futures
import glob
import os
import re
import shlex
import subprocess
import sys
import tempfile

sys.dont_write_bytecode = True
ROOT = os.path.dirname(os.path.dirname(os.path.abspath(__file__)))
PAGES = ("README.md", "CHANGELOG.md", "lab/README.md", "docs/*.md", "lab/docs/*.md")
LIMITS = {
    "README.md": 900, "docs/ARCHITECTURE.md": 1400, "docs/DECISIONS.md": 4500, "docs/MANUAL.md": 4500, "docs/PERFORMANCE.md": 2000,
    "docs/PROVED.md": 2500, "docs/PROVING.md": 3000, "docs/RECORDS.md": 1800, "lab/docs/COMPARING.md": 1400, "lab/docs/DRAWING.md": 800,
    "lab/docs/POLICIES.md": 2200, "lab/docs/RECORDING.md": 900,
}
REPORTS = ("examples/*.report", "lab/scenarios/*.replayed")
SOURCES = ("crates", "tests", "tools", "bench", "lab", "examples")
MADE = {"out", "dist", "__pycache__", ".git"}
# What a script makes, and git does not keep.
MADE_FILES = {"docs/DEFINITIONS_ALL.md"}
# Names of std, of the kit and of libraries that are no part of the repository.
FOREIGN = ("std::", "core::", "alloc::", "crate::", "json::", "serde_json::", "libc::", "rayon::", "atomic_table::", "indexmap::", "itoa::",
    "thiserror::", "clap::", "rt ", "Vec::", "VecDeque::", "String::", "BTreeMap::", "BTreeSet::", "Box::", "Option::", "Result::", "Some::",
    "Ok::", "Err::")
# What a page names although it does not exist, as pairs of the page and what is in backticks, each with the reason in a comment.
EXCEPTIONS = set()

SPAN = re.compile(r"(`+)(.+?)\1")
LINK = re.compile(r"\]\(\s*<?([^)\s>]+)>?[^)]*\)|(?:src|href)=\"([^\"]+)\"")
HEADING = re.compile(r"#{1,6}\s+(.*?)\s*#*$")
FILE = re.compile(r"[\w./+-]*\w\.(?:antt|rt|py)")
REPORTED = re.compile(r" {4}(\d+(?:\.\d+)? [a-z_]+ \S.*|[0-9a-f]{8} (?:default|local|prefer|bind|interleave)\b.*)")
NAMED = re.compile(r"(\w+(?:::\w+)+)(?:\(.*\))?")
DEFINED = re.compile(r"\b(?:fn|struct|enum|trait|type|const(?! fn\b)|static|mod|macro_rules!)\s+(\w+)|^\s+([A-Z]\w*)\s*[,({=]", re.M)
MADE_PART = re.compile(r"<!-- made by [^>]*-->.*?<!-- the end of what is made -->", re.S)
# The commands that need neither a build nor a kernel, as words that begin them, and files that they take.
RUNNABLE = re.compile(r"\./numalab (?:write|why|show|compare|predict|picture|export|machine --picture|policies --list)\b|\./numatrace <"
    r"|tools/(?:definitions\.py --count|proved\.py --whole) ")
INPUT = re.compile(r"[\w./-]+\.(?:nt|json|report|replayed)")
COMMAND = re.compile(r"(?:\./)?((?:tools|tests|bench|lab|packaging)/[\w./]+|build|check|install|numalab|numatrace|release)(?: +(.*))?")
OWNERS = re.compile(r"\b(?:struct|enum|trait|type)\s+(\w+)|\bimpl\b(?:<[^{]*?>)?\s+(?:[^{;]*?\bfor\s+)?&?(?:\w+::)*(\w+)", re.M)


def read(path):
    with open(os.path.join(ROOT, path), encoding="utf-8", errors="replace") as file:
        return file.read()


def lines_of(text):
    """The lines of a page outside blocks of code, each with its number."""
    fence = None
    for number, line in enumerate(text.split("\n"), 1):
        mark = re.match(r"\s*(```+|~~~+)", line)
        if mark and (fence is None or line.strip().startswith(fence)):
            fence = mark[1] if fence is None else None
        elif fence is None:
            yield number, line


def headings(text):
    """The anchors of a page: those of its headings, as the forge makes them, and those that it sets."""
    seen, anchors = collections.Counter(), set(re.findall(r"<a (?:id|name)=\"([^\"]+)\"", text))
    for _, line in lines_of(text):
        heading = HEADING.match(line)
        if heading:
            words = re.sub(r"\[([^\]]*)\]\([^)]*\)", r"\1", heading[1])
            anchor = re.sub(r"[^\w\- ]", "", words.lower()).replace(" ", "-")
            anchors.add(anchor + (f"-{seen[anchor]}" if seen[anchor] else ""))
            seen[anchor] += 1
    return anchors


class Sources:
    """What the repository has: its paths, and what each source of a crate defines."""

    def __init__(self):
        self.top = {name for name in os.listdir(ROOT) if os.path.isdir(os.path.join(ROOT, name)) and name not in MADE}
        self.crates = set(os.listdir(os.path.join(ROOT, "crates")))
        self.files, self.ends = set(), set()
        # By the name of a crate, a type or a module: what is defined with it.
        self.names = collections.defaultdict(set)
        for folder in SOURCES:
            for at, folders, files in os.walk(os.path.join(ROOT, folder)):
                folders[:] = [name for name in folders if name not in MADE]
                for file in files:
                    self.add(os.path.relpath(os.path.join(at, file), ROOT))

    def add(self, path):
        parts = path.split("/")
        self.ends.update("/".join(parts[k:]) for k in range(len(parts)))
        if not path.endswith((".rt", ".antt")) or parts[0] != "crates":
            return
        text = read(path)
        if path.endswith(".antt"):
            self.names[parts[1]].update(re.findall(r"\bpub (?:record |data )?([^\s({:]+)", text))
            return
        defined = {name for pair in DEFINED.findall(text) for name in pair if name}
        owners = {name for pair in OWNERS.findall(text) for name in pair if name}
        for owner in owners | {parts[1]} | {part.removesuffix(".rt") for part in parts[3:]}:
            self.names[owner] |= defined

    def lacks_path(self, word):
        """Whether a word looks like a path of the repository, and there is no such path."""
        word = re.sub(r"(:\d+)?[,;:)'\"]*$", "", word.lstrip("('\""))
        parts = [part for part in word.split("/") if part not in ("", ".")]
        if "/" not in word or re.search(r"[*{}<>$\[\]|\u2026]|\.\.", word) or not parts:
            return False
        if MADE & set(parts) or "/".join(parts) in MADE_FILES or any(re.fullmatch(r"[A-Z]{2,}\.?", part) for part in parts):
            return False
        if parts[0] in self.crates and not word.startswith((".", "/")) and len(parts) > 1:
            parts.insert(0, "crates")
        elif not word.startswith("./") and parts[0] not in self.top or word.startswith("/"):
            return bool(FILE.fullmatch(word)) and not word.startswith("/") and word not in self.ends
        return not os.path.exists(os.path.join(ROOT, *parts))

    def lacks_name(self, span):
        """Whether a span names a function, a variant or a constant of ours by its crate, type or module, and there is no such name."""
        named = NAMED.fullmatch(span)
        if not named or span.startswith(FOREIGN):
            return False
        *_, owner, name = named[1].split("::")
        return name not in self.names.get(owner, ())


def bad_link(page, target, anchors):
    """Why a link of a page leads nowhere, or None."""
    if re.match(r"[a-z][a-z0-9+.-]*:|//", target):
        return None
    path, _, heading = target.partition("#")
    there = os.path.normpath(os.path.join(os.path.dirname(page), path)) if path else page
    if not os.path.exists(os.path.join(ROOT, there)):
        return f"the link {target} leads to a file that does not exist"
    if heading and there.endswith(".md"):
        if there not in anchors:
            anchors[there] = headings(read(there))
        if heading not in anchors[there]:
            return f"the link {target} leads to a heading that {there} does not have"
    return None


def faults_of(page, sources, anchors):
    """What a page names that is not there: the number of the line, and a text."""
    for number, line in lines_of(read(page)):
        for link in LINK.finditer(SPAN.sub("", line)):
            why = bad_link(page, link[1] or link[2], anchors)
            if why:
                yield number, why
        for _, span in SPAN.findall(line):
            span = span.strip()
            if (page, span) in EXCEPTIONS:
                continue
            lacking = [word for word in span.split() if sources.lacks_path(word)]
            if lacking:
                yield number, f"there is no {' and no '.join(lacking)}"
            elif "/" not in span and FILE.fullmatch(span) and span not in sources.ends:
                yield number, f"there is no file {span}"
            elif sources.lacks_name(span):
                yield number, f"{span} is not defined"


def unreported(text, reports):
    """The stretches of lines of a report in a page that are in none of these reports: the number of the first line, and a text."""
    stretch = []
    for number, line in enumerate(text.split("\n") + [""], 1):
        found = REPORTED.fullmatch(line)
        if found:
            stretch.append(found[1])
        elif stretch:
            lines = "\n" + "\n".join(stretch) + "\n"
            if not any(lines in "\n" + report for report in reports):
                yield number - len(stretch), f"no report has the lines that begin with {stretch[0]!r}"
            stretch = []


def words_of(text):
    """How many words a page has, without what scripts make of it."""
    return len(MADE_PART.sub("", text).split())


def commands_of(text):
    """The commands in blocks of code, as the number of the line, the command and the lines that follow it in its block."""
    found, wanted = [], None
    for number, line in enumerate(text.split("\n"), 1):
        if not line.startswith("    "):
            wanted = None
        elif found and wanted == [] and found[-1][1].endswith("\\"):
            found[-1] = (found[-1][0], found[-1][1][:-1] + line.strip(), wanted)
        elif re.match(r"(\./)?(num|build|check|install|release|tools/|tests/|bench/|lab/|gcc|printf|numactl|lstopo|for|done|\()", line[4:]):
            wanted = []
            found.append((number, line[4:], wanted))
        elif wanted is not None:
            wanted.append(line[4:])
    return found


def begins_at(lines, part, place):
    """Where a part of lines begins in them, from a place on, or None."""
    return next((k for k in range(place, len(lines) - len(part) + 1) if lines[k : k + len(part)] == part), None)


def lacks_lines(out, wanted):
    """Which line of what a page says is not printed in its place, or None. A line `..` stands for any lines."""
    parts, place = [[]], 0
    for line in wanted:
        if line.strip() == "..":
            parts.append([])
        else:
            parts[-1].append(line.rstrip())
    for at, part in enumerate(parts):
        found = begins_at(out, part, place)
        if found is None or at == 0 and found != 0:
            return part[0]
        place = found + len(part)
    if parts[-1] and out[-len(parts[-1]) :] != parts[-1]:
        return parts[-1][-1]
    return None


def prepared(folder):
    """Fills a folder with links to the repository, and the plain model as the program."""
    for name in os.listdir(ROOT):
        if name not in ("numatrace", ".git"):
            os.symlink(os.path.join(ROOT, name), os.path.join(folder, name))
    path = os.path.join(folder, "numatrace")
    with open(path, "w", encoding="utf-8") as file:
        file.write(f"#!{sys.executable}\nimport sys\nsys.dont_write_bytecode = True\nsys.path.insert(0, {os.path.join(ROOT, 'lab')!r})\n"
                   "import json\nfrom numalab import model\nsys.stdout.write(model.report(json.load(sys.stdin)))\n")
    os.chmod(path, 0o755)
    return {**os.environ, "NUMATRACE": path}


def ill(command, wanted, folder, environment):
    """What is wrong with a command that can be made here, or None."""
    ran = subprocess.run(command, shell=True, cwd=folder, env=environment, stdin=subprocess.DEVNULL, capture_output=True, text=True, check=False)
    if ran.returncode:
        return f"the command ends with {ran.returncode}: {(ran.stderr or ran.stdout).strip()[:200]}"
    lacking = wanted and lacks_lines([line.rstrip() for line in (ran.stdout + ran.stderr).splitlines()], wanted)
    return f"the command does not print {lacking!r} in this place" if lacking else None


def can_be_made(command):
    """Whether a command needs no build and no kernel, and the files that it takes exist."""
    if not RUNNABLE.match(command) or re.search("--(qemu|model|all)\\b", command):
        return False
    taken = re.sub(r"-o +\S+|--picture +\S+|#.*", "", command)
    return all(os.path.exists(os.path.join(ROOT, name)) for name in INPUT.findall(taken))


class Arguments:
    """The arguments that begin with two hyphens, as commands know them: those of numalab by its help, of others by their sources."""

    def __init__(self):
        self.known = {}

    def of(self, name, word):
        key = (name, word) if name == "numalab" else name
        if key not in self.known:
            if name == "numalab":
                words = [os.path.join(ROOT, name), *([word] if word else []), "--help"]
                self.known[key] = subprocess.run(words, capture_output=True, text=True, check=False).stdout
            else:
                self.known[key] = read("completions/numatrace" if name == "numatrace" else name)
        return self.known[key]

    def lacking(self, command):
        """The arguments of a command that it does not know."""
        found = COMMAND.fullmatch(re.split(r"  #| [|<>&;]", command)[0].strip())
        if not found or not os.path.isfile(os.path.join(ROOT, found[1])):
            return []
        try:
            words = shlex.split(found[2] or "")
        except ValueError:
            return []
        word = words[0] if words and found[1] == "numalab" and words[0].isalpha() else ""
        if word.isupper():
            return []
        asked = [one.split("=")[0] for one in words[: words.index("--") if "--" in words else None] if re.match("--[a-z]", one)]
        return [one for one in asked if not re.search(re.escape(one) + r"\b", self.of(found[1], word))]


def faults_of_commands(texts):
    """What is wrong with commands: the page, the number of the line, and a text."""
    known, made = Arguments(), []
    for page, text in texts.items():
        if page == "CHANGELOG.md":
            continue
        blocks = commands_of(text)
        spans = [(number, span.strip()) for number, line in lines_of(text) for _, span in SPAN.findall(line) if not line.startswith("    ")]
        for number, command in [(number, command) for number, command, _ in blocks] + spans:
            for one in known.lacking(command):
                yield page, number, f"the command {command.split()[0]} has no argument {one}"
        made += [(page, number, command, wanted) for number, command, wanted in blocks if can_be_made(command)]
    with tempfile.TemporaryDirectory() as folder, concurrent.futures.ThreadPoolExecutor(4) as pool:
        environment = prepared(folder)
        asked = [pool.submit(ill, command, wanted, folder, environment) for _, _, command, wanted in made]
        for (page, number, _, _), answer in zip(made, asked):
            if answer.result():
                yield page, number, answer.result()


def pages():
    """The pages, by their paths in the repository."""
    return [page for pattern in PAGES for page in sorted(os.path.relpath(path, ROOT) for path in glob.glob(os.path.join(ROOT, pattern)))
            if page not in MADE_FILES]


def main():
    texts = {page: read(page) for page in pages()}
    if sys.argv[1:] == ["--words"]:
        for page, text in texts.items():
            print(f"{page}: {words_of(text):,} words{f', at most {LIMITS[page]:,}' if page in LIMITS else ''}")
        return 0
    if sys.argv[1:] != ["--check"]:
        sys.exit("tools/pages.py: the only arguments are --check and --words")
    sources, anchors, found = Sources(), {}, []
    reports = [read(path) for pattern in REPORTS for path in glob.glob(os.path.join(ROOT, pattern))]
    for page, text in texts.items():
        found += [(page, *fault) for fault in faults_of(page, sources, anchors)]
        if words_of(text) > LIMITS.get(page, sys.maxsize):
            found.append((page, 1, f"it has {words_of(text):,} words, and should have at most {LIMITS[page]:,}"))
        if page == "docs/MANUAL.md" or page.startswith("lab/docs/"):
            found += [(page, *fault) for fault in unreported(text, reports)]
    found += faults_of_commands(texts)
    for page, number, text in sorted(found):
        print(f"{page}:{number}: {text}")
    return 1 if found else 0


if __name__ == "__main__":
    sys.exit(main())

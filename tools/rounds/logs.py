"""What the log of a check says of an edit: one of four verdicts, or that it waits for another function's proof."""
import re

# The four verdicts, and what is none: its function waits for one that another edit spoils.
REFUSED, BY_NAME, LET_THROUGH, NOT_JUDGED, WAITS = "refused for its meaning", "refused by a name alone", "let through", "not judged", "waits"

STATUS = re.compile(r"(fn|struct|enum|trait|impl|law|const|static|type) (\S+): (.*)")
TOLD = re.compile(r"(?:note: )?(?:\./)?((?:src|specs|proofs)/\S+?):(\d+):\d+: (.*)")
# A proof file that names what the edit took away, and what cites that proof: the words by which `rt must-fail` goes.
OF_NAMES = re.compile(r"has no field|is not in scope|has no `|was not admitted")
# A proof that was not admitted since another was not.
OF_OTHERS = re.compile(r"was not admitted")
# A function with no open goal of its own, which waits for those that it calls. (`not proved; it calls ..` has one.)
CALLS = re.compile(r"no proof: (?:in `[^`]*`, of this cycle of calls: )?it calls (.*), which (?:is|are) not proved")
# A function whose proof stands on refused answers: its own, or those of a function that it calls, directly or not.
STANDS = re.compile(r"not proved; it stands on ((?:`[^`]*`(?:, | and )?)+)")
OF_PROOF = re.compile(r"Rattle\.(\w+)\.proofs\.(.+)\.(?:Answers|Invariants|Proof)\.[^.]+")
# The block of an impl, which waits for one of its functions.
BLOCK = re.compile(r"not proved; it waits for the proof of (.*)")
# A text of src/ or specs/ that cannot be read; an edit that only makes a statement false reads well.
UNREAD = re.compile(r"is not in scope|has no field|is no name|operand is missing|expected the end|cannot continue")
COMPILES_NOT = re.compile(r"(src/\S+?):(\d+):\d+: (error\[[\w-]+\].*)")
STALE = re.compile(r"module .Rattle-(\w+)-.*Run the lower steps again")
LIMIT = re.compile(r"antt ran out of (?:stack|the (?:steps|memory) that)|outgrew the memory limit|stopped at the step limit")


def proved_by(name):
    """The function whose proof files have the declaration with this name, or None if a file of lemmas has it."""
    found = OF_PROOF.fullmatch(name)
    return f"{found[1]}::{found[2].replace('.', '::')}" if found else None


def callees(name, text, own=()):
    """The functions whose proofs a function or a block waits for, by its status; none where it has an open goal of its own, in its proof or
    in one of these."""
    called, waits, stands = CALLS.match(text), BLOCK.fullmatch(text), STANDS.match(text)
    if stands:
        others = {proved_by(each) for each in re.findall(r"`([^`]+)`", stands[1])}
        return set() if others.intersection((name, None, *own)) else others
    if waits:
        return {f"{name}::{each}" for each in re.findall(r"`([^`]+)`", waits[1])}
    return set(re.findall(r"`([^`]+)`", called[1])) if called else set()


def waited_for(log, names, own):
    """The functions whose proofs these functions wait for, directly or through others."""
    found, left = set(), set(names)
    while left:
        left = {callee for name in left for callee in callees(name, log.of.get(name, ""), own)} - found
        found |= left
    return found


def is_open(name, text, own=()):
    """Whether a status says that its function is not proved, for a reason of its own."""
    return text.startswith(("not proved", "no proof")) and not callees(name, text, own)


class Line:
    """A line about a place: its file and number, what it says, and whether it is an error."""

    def __init__(self, file, number, said, is_note):
        self.file, self.number, self.said = file, number, said
        self.counts = is_note or said.startswith("error")

    def names(self):
        """Whether it says only that a proof file names what is not there."""
        return self.file.startswith("proofs/") and bool(OF_NAMES.search(self.said))

    def is_unread(self):
        """Whether it says that a text of src/ or specs/ cannot be read."""
        if self.file.startswith("proofs/") or not self.said.startswith("error: "):
            return False
        goal = re.match(r"error: (?:(`[^`]*`): )?(.*)", self.said)
        return not goal[1] or bool(UNREAD.search(re.sub(r"`[^`]*`", "", goal[2])))

    def __str__(self):
        return f"{self.file}:{self.number}: {self.said}"[:170]


class Log:
    """A check's log: how it ended, the status of each function and type, the lines about places, and the seconds for each function."""

    def __init__(self, status, text, took):
        self.status, self.text, self.took, lines = status, text, took, text.rstrip("\n").split("\n")
        self.first, self.last, self.of, self.told, self.broken = lines[:6], lines[-1], {}, [], []
        self.stale, self.limit = STALE.search(text), LIMIT.search(text)
        for line in lines:
            found, at, broken = STATUS.fullmatch(line), TOLD.match(line), COMPILES_NOT.match(line)
            if found:
                self.of[found[2]] = found[3]
            if broken:
                self.broken.append((broken[1], int(broken[2]), broken[3]))
            elif at:
                self.told.append(Line(at[1], int(at[2]), at[3], line.startswith("note: ")))

    def has_verdict(self):
        """Whether the prover ran to its end."""
        return self.status in (0, 1) and self.last.startswith(("logic=", "only=")) and bool(self.of)

    def why_none(self):
        """Why there is no verdict."""
        if self.stale:
            return f"the library {self.stale[1]} below was not proved from these sources"
        if self.status < 0:
            return f"its check was stopped by signal {-self.status}" + (", most likely for want of memory" if self.status == -9 else "")
        if self.limit:
            return f"the prover came to a limit of its own: {self.limit[0]}"
        return f"its check ended with status {self.status}: {' '.join(self.first)[:300]}"


def told_of(log, names, crate, spans):
    """The lines of a log about some functions: about their proof files, or about the lines of sources that spans are of."""
    folders = [name.split("::")[1:] for name in names]

    def is_theirs(line):
        if line.file.startswith("proofs/"):
            return line.file.split("/")[1:-1] in folders
        return any(line.file == file and first <= line.number <= last for file, first, last in spans)

    return [line for line in log.told if line.counts and is_theirs(line)]


def by_lines(told):
    """The verdict on what is not proved, by the lines about it, and the line that tells most."""
    unread = next((line for line in told if line.is_unread()), None)
    if unread:
        return BY_NAME, f"the prover cannot read the edited text: {unread}"
    meant = next((line for line in told if not line.names()), None)
    if told and not meant:
        return BY_NAME, str(told[0])
    return REFUSED, str(meant) if meant else ""


def of_functions(log, names, crate, spans, own=()):
    """The verdict on an edit of functions with these names and further proofs of their own, and why; for one that waits, the functions that
    it waits for."""
    if not names:
        return NOT_JUDGED, "the check's log has no line of its function"
    said = {name: log.of[name] for name in names}
    lost = [name for name, text in said.items() if "could not tell" in text]
    if lost:
        return NOT_JUDGED, f"the prover could not tell of {lost[0]}: {log.why_none()}"
    told = told_of(log, [*names, *own], crate, spans)
    unread = [line for line in told if line.is_unread()]
    if unread:
        return by_lines(unread)
    open_ones = [text for name, text in said.items() if is_open(name, text, own)]
    if open_ones:
        verdict, why = by_lines(told)
        return verdict, why or open_ones[0][:170]
    waits = waited_for(log, names, own)
    if waits - set(names):
        return WAITS, sorted(waits - set(names))
    return (NOT_JUDGED, f"the log says '{list(said.values())[0]}'") if waits else (LET_THROUGH, "")


def of_crate(log):
    """The verdict on one edit that was tried alone, by all that the log says, and why."""
    if log.status == 0:
        return LET_THROUGH, ""
    told = [line for line in log.told if line.counts]
    verdict, why = by_lines([line for line in told if line.is_unread()] or told)
    lost = [name for name, text in log.of.items() if "could not tell" in text]
    if not told and lost:
        return NOT_JUDGED, f"the prover could not tell of {lost[0]}"
    return verdict, why or next((f"{name}: {text}" for name, text in log.of.items() if text.startswith(("not proved", "no proof"))), "")[:170]

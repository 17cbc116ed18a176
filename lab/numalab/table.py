"""Steps and their answers side by side, as lines for people."""
import re

from .answers import Refusal, answer_of
from .names import Names, notes_of
from .notate import BY_PAGE, MOST_APART, Notator, stretches
from .report import is_refused, node_ranges
from .traces import Bad, left_out_of
from .words import PAGE, counted, printable, status_text

WIDTH, MOST_BYTES, MOST_RANGES, MOST_ROWS, MOST_ENTRIES = 58, 24, 12, 64, 16
# What may differ between reasons that are told as one.
VARYING = re.compile(r"\b(frame|page) (\d+)\b")


class Plain(Notator):
    """Steps in the notation, with the names that people gave, and pids and addresses where they gave none."""

    def __init__(self, top):
        super().__init__(top, brief=False)
        self.names = Names(top)

    def process(self, pid):
        return self.names.process(pid)

    def area_at(self, pid, address):
        return self.names.area_at(pid, address)

    def named_area(self, step):
        name = self.names.process(step["pid"])
        return name + (f" {step['name']}" if self.names.area_at(step["pid"], step["addr"]) else "")

    def text(self, step):
        text = super().text(step)
        return f"{step['op']} {self.names.node_number(step['node'])}" if step["op"] in ("offline", "online", "free") else text

    def tell_map(self, step):
        flag = {True: " shared", False: " private", None: ""}[step.get("shared")]
        return f"{self.named_area(step)} {counted(step['pages'], 'page')} at {step['addr']:#x}{flag}"

    def tell_attach(self, step):
        return (f"{self.named_area(step)} segment {step['segment']} offset {step['offset']} {counted(step['pages'], 'page')} at {step['addr']:#x}")

    def tell_spawn(self, step):
        flag = {True: " privileged", False: " unprivileged", None: ""}[step.get("privileged")]
        name, pid = self.names.process(step["pid"]), step["pid"]
        number = "" if name.endswith(f"({pid})") or name == str(pid) else f" ({pid})"
        return f"{name}{number} uid {step['uid']} home {step['home']} allowed {self.set(step['allowed'])}{flag}"

    def tell_exit(self, step):
        return self.process(step["pid"])

    def tell_unmap(self, step):
        return f"{self.process(step['pid'])} {self.address(step['pid'], step['addr'])} pages {step['pages']}"

    def tell_move_pages(self, step):
        return f"{self.target(step)} {counted(len(step['pages']), 'entry', 'entries')}{self.flags(step, 2)}"

    def tell_query(self, step):
        return f"{self.target(step)} {counted(len(step['pages']), 'entry', 'entries')}{self.flags(step, 0)}"


def at_one_distance(before, address):
    """Whether an address is whole pages behind the last of some addresses, as far as that is behind the one before it."""
    apart = address - before[-1]
    return 0 <= apart <= MOST_APART and apart % PAGE == 0 and (len(before) == 1 or apart == before[-1] - before[-2])


def ranges_text(numbers):
    """Numbers in their order, three or more consecutive ones as a range."""
    texts = []
    for group in stretches(numbers, lambda group, number: number == group[-1] + 1):
        texts += [f"{group[0]}..{group[-1]}"] if len(group) > 2 else map(str, group)
    more = f" .. and {len(texts) - MOST_RANGES:,} more" if len(texts) > MOST_RANGES else ""
    return " ".join(texts[:MOST_RANGES]) + more


def pages_text(first, last, step, times):
    """Pages at one distance, by address; or one page, with the number of times that it is named."""
    if first == last:
        return f"{first:#x}" + (f", {times:,} times" if times > 1 else "")
    apart = f", {step // PAGE} pages apart" if step > PAGE else ""
    return f"{first:#x}..{last:#x} ({counted((last - first) // step + 1, 'page')}{apart})"


def data_shown(data):
    """Bytes in hexadecimal, and as text where they are printable or zero."""
    if len(data) > 2 * MOST_BYTES:
        return f"{data[: 2 * MOST_BYTES]}.. ({counted(len(data) // 2, 'byte')})"
    plain = bytes.fromhex(data)
    if any(plain) and all(32 <= byte < 127 or byte == 0 for byte in plain):
        return f'{data}  "{"".join(chr(byte) if byte else "." for byte in plain)}"'
    return data


def masked(text):
    """A reason without what may differ between reasons that are told as one."""
    return VARYING.sub(r"\1 #", text)


def sorted_out(items, kind):
    """Items by their kind, in the order in which kinds first occur."""
    found = {}
    for item in items:
        found.setdefault(tuple(kind(item)), []).append(item)
    return list(found.values())


def joined_text(texts):
    """Reasons that are alike as one, with all their frames and pages."""
    numbers = iter([[int(match[2]) for match in matches] for matches in zip(*(VARYING.finditer(text) for text in texts))])

    def all_of(match):
        found = next(numbers)
        return f"{match[1]} {found[0]}" if len(set(found)) == 1 else f"{match[1]}s {ranges_text(found)}"

    return VARYING.sub(all_of, texts[0])


class Table:
    """The lines for each step."""

    def __init__(self, top, all_rows=True):
        self.plain, self.top, self.steps, self.all_rows = Plain(top), top, top["steps"], all_rows
        self.owner = [node for node, frames in enumerate(node_ranges(top)) for _ in frames]
        self.names = self.plain.names

    def row(self, left, right, head=""):
        front = f"{head:>6}  "
        if len(left) > WIDTH - len(head):
            return f"{front}{left}\n{'':{WIDTH + 2}}  {right}" if right else front + left
        return f"{front}{left:<{WIDTH + 2 - len(front)}}  {right}".rstrip()

    def passes(self, k, line):
        """Notes the names that a step gives."""
        if not is_refused(line):
            self.names.made(self.steps[k])

    def head(self, k, line, value=None):
        """A step, and as much of its answer as fits on its line."""
        step = self.steps[k]
        text = self.plain.text(step if step["op"] != "move_pages" else {key: step[key] for key in step if key != "during"})
        return text, self.answer(line, value or answer_of(line))

    def groups(self, lines, reasons=None):
        """The lines for all steps, each time with the steps that they are for, which are several where these are alike."""
        yield [], [self.note(f"left out when it was recorded: {what}") for what in left_out_of(self.top)]
        group = []
        for k, line in enumerate(lines):
            if group and not self.continues(group, k, lines):
                yield group, self.told(group, lines, reasons)
                group = []
            if not group:
                self.passes(k, line)
            group.append(k)
        yield group, self.told(group, lines, reasons) if group else []
        if len(lines) == len(self.steps):
            yield [], [self.note(text) for text in notes_of(self.top, "note_at_end")]

    def continues(self, group, k, lines):
        """Whether a step differs from those before it only in its page."""
        if lines[k].answer != lines[group[0]].answer or lines[k].op not in BY_PAGE:
            return False
        shown = group if len(group) == 1 else (group[0], *group[-2:])
        return self.plain.may_merge([self.steps[one] for one in shown], self.steps[k])

    def told(self, group, lines, reasons):
        """The lines for steps that are shown together."""
        first, last = group[0], group[-1]
        notes = [self.note(text) for text in notes_of(self.steps[first])]
        if first == last:
            return notes + self.lines(first, lines[first], reasons and reasons[first])
        text = self.plain.merged([self.steps[k] for k in group])
        row = self.row(text, self.answer(lines[first], answer_of(lines[first])), f"{first}..{last}")
        return [*notes, row, *(self.reasons_of_pages(group, reasons) if reasons else ())]

    def reasons_of_pages(self, group, reasons):
        """The reasons of steps that are shown together; where they are not all alike, each with its pages."""
        kinds = sorted_out([(self.steps[k]["addr"], reasons[k]) for k in group], lambda one: [masked(reason.text) for reason in one[1]])
        for members in kinds[:MOST_RANGES]:
            where = "" if len(kinds) == 1 else self.pieces(self.steps[group[0]]["pid"], [address for address, _ in members]) + ": "
            for texts in zip(*([reason.text for reason in told] for _, told in members)):
                yield self.because(texts, where)
        if len(kinds) > MOST_RANGES:
            yield f"{'':11}and {len(kinds) - MOST_RANGES:,} more reasons, which --jsonl has"

    def lines(self, k, line, reasons=None):
        """The lines for step k, each with its reasons where these are given."""
        told, value = {}, answer_of(line)
        for reason in reasons or ():
            told.setdefault(reason.about, []).append(reason)
        found = [self.row(*self.head(k, line, value), str(k)), *self.whole_step(told.get(None, ()))]
        if not isinstance(value, Refusal):
            found += self.parts(self.steps[k], line, value, told)
        return found

    def whole_step(self, reasons):
        """The reasons of a step itself; those of pages at one distance that are alike share a line."""
        def joins(group, reason):
            last = group[-1]
            if (last.place is None) != (reason.place is None) or masked(last.rest) != masked(reason.rest):
                return False
            if reason.place is None:
                return masked(last.rest) != last.rest
            return self.are_together(reason.place[0], [one.place[1] for one in group[-2:]], reason.place[1])

        for group in stretches(reasons, joins):
            places = [reason.place for reason in group]
            where = "" if places[0] is None else self.places(places[0][0], [address for _, address in places]) + " "
            yield self.because([reason.rest for reason in group], where)

    @staticmethod
    def because(texts, where=""):
        """Reasons that are alike as a line, with the pages that have them."""
        return f"{'':8}   because: {where}{joined_text(texts)}"

    @staticmethod
    def note(text):
        return f"{'':6}  # {printable(text)}"

    @staticmethod
    def answer(line, value):
        """The answer of a step on its own line."""
        if isinstance(value, Refusal) or line.op in ("vmstat", "map"):
            return line.answer
        if line.op in ("move_pages", "query"):
            return f"{value.failed} failed" if line.op == "move_pages" else "0"
        if line.op == "read":
            return data_shown(line.answer)
        if line.op == "free":
            return counted(len(value), "free frame") + (f": {ranges_text(value.frames)}" if value.frames else "")
        if line.op == "pagemap":
            return counted(len(value.entries), "entry", "entries")
        return counted(len(value.areas), "area") if line.op == "numa_maps" else line.answer

    def parts(self, step, line, value, told):
        """The lines under a step: its entries, its accesses in flight, its pages or its areas."""
        if line.op in ("move_pages", "query"):
            if len(value.statuses) != len(step["pages"]):
                raise Bad(f"line {line.number}: expected {counted(len(step['pages']), 'status', 'statuses')}")
            return self.entries(step, value.statuses, told) + self.flights(step, line, told)
        if line.op == "pagemap":
            if any((entry.frame or 0) >= len(self.owner) for entry in value.entries):
                raise Bad(f"line {line.number}: a frame is not in the trace")
            return self.pagemap(step["pid"], value.entries)
        return [self.row("  " + text + self.name_of(step["pid"], area), "") for text, area in zip(line.areas, value.areas)] if line.areas else []

    def name_of(self, pid, area):
        """The name of a line of numa_maps, where it has one."""
        place = self.names.place(pid, area.address)
        return f"  ({place})" if "[" in place else ""

    def are_together(self, pid, before, address):
        """Whether an address continues those before it at one distance, in one area."""
        return at_one_distance(before, address) and self.names.area_at(pid, before[-1]) == self.names.area_at(pid, address)

    def places(self, pid, addresses):
        """Pages at one distance by their area, or by address; or one page, with the number of times that it is named."""
        first, count = addresses[0], len(addresses)
        step = addresses[1] - first if count > 1 else PAGE
        # An address inside a page does not begin a range of pages.
        if self.names.area_at(pid, first) is None or step and count > 1 and first % PAGE:
            return pages_text(first, addresses[-1], step, count)
        if step == 0:
            return f"{self.plain.address(pid, first)}, {count:,} times"
        return self.plain.pages(pid, addresses) + (f" ({counted(count, 'page')})" if count > 1 else "")

    def pieces(self, pid, addresses):
        """Pages in any order, those at one distance together."""
        found = stretches(addresses, lambda group, address: self.are_together(pid, group[-2:], address))
        more = f" .. ({counted(len(addresses), 'page')})" if len(found) > MOST_RANGES else ""
        return ", ".join(self.places(pid, group) for group in found[:MOST_RANGES]) + more

    def entries(self, step, statuses, told):
        """Entries with one target and one status at one distance share a line, where their reasons are alike; in a long batch all
        entries that are alike do."""
        targets = step.get("nodes") or [None] * len(statuses)
        rows = list(zip(step["pages"], targets, statuses, range(len(statuses))))
        pid = step["pid"] or step["caller"]

        def kind(row):
            return [*row[1:3], *(masked(reason.text) for reason in told.get(row[3], ()))]

        groups = stretches(rows, lambda group, row: kind(group[-1]) == kind(row) and self.are_together(pid, [one[0] for one in group[-2:]], row[0]))
        if told and len(groups) > MOST_ENTRIES and not self.all_rows:
            groups = sorted_out(rows, kind)
        found = []
        for group in groups:
            _, target, status, place = group[0]
            moved = "" if target is None else f" to {self.names.node_text(target)}"
            found.append(self.row("  " + self.pieces(pid, [row[0] for row in group]) + moved, status_text(status)))
            found += [self.because([told[row[3]][k].text for row in group]) for k in range(len(told.get(place, ())))]
        return found

    def flights(self, step, line, told):
        found = []
        for j, (access, text) in enumerate(zip(step.get("during", ()), line.flight)):
            answer = text.split(" ", 2)[2]
            left = f"  .{j} in run {access['run']}: {self.plain.text(access)}"
            plain = access["op"] == "write" or answer == "held" or answer.startswith("error ")
            found.append(self.row(left, answer if plain else data_shown(answer)))
            found += [self.because([reason.text]) for reason in told.get(str(j), ())]
        return found

    def pagemap(self, pid, entries):
        """Adjacent pages in adjacent frames share a line; where that makes many lines, all pages of a node do."""
        def joins(group, entry):
            last = group[-1]
            if entry.address != last.address + PAGE or (entry.frame is None) != (last.frame is None):
                return False
            if self.names.area_at(pid, entry.address) != self.names.area_at(pid, last.address):
                return False
            if entry.frame is None:
                return True
            return entry.frame == last.frame + 1 and self.owner[entry.frame] == self.owner[last.frame]

        groups = stretches(entries, joins)
        if len(groups) > MOST_ENTRIES and not self.all_rows:
            groups = sorted_out(entries, lambda entry: [None if entry.frame is None else self.owner[entry.frame]])
        found = []
        for group in groups:
            first, frames = group[0], [entry.frame for entry in group]
            if first.frame is None:
                right = "the page of zeros"
            else:
                told = f"frames {ranges_text(frames)}" if len(frames) > 1 else f"frame {first.frame}"
                right = f"{told} on {self.names.node_text(self.owner[first.frame])}"
            found.append(self.row("  " + self.pieces(pid, [entry.address for entry in group]), right))
        if len(found) > MOST_ROWS and not self.all_rows:
            found[MOST_ROWS:] = [f"{'':10}and {len(found) - MOST_ROWS:,} more rows, which --all shows"]
        return found

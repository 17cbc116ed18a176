"""All that is wrong with a trace, as lines for people."""
import json
import re
from itertools import islice

from .faults import MOST_BYTES, Fault, Form, faults_of, ignored_keys
from .jsontext import doubles, first_fault, has_doubles, line_and_column, places
from .progress import Progress
from .reasons import hints
from .traces import is_notation, json_text, left_out_of
from .translate import translated

MOST_TOLD = 200
AT = re.compile(r"[^\n]*:[0-9]+")


class Diagnosis:
    """What there is to say about the bytes of a trace."""

    def __init__(self, name, data, strict=False, hints=True):
        self.name, self.strict, self.wants_hints = name, strict, hints
        self.faults, self.warnings, self.hints, self.more = [], [], [], 0
        if len(data) > MOST_BYTES:
            self.faults = [f"{name}: read fault: the trace has more than {MOST_BYTES:,} bytes"]
        elif is_notation(name, data):
            self.look_at_notation(data)
        else:
            self.look(data)

    def look_at_notation(self, data):
        """Looks at a file in the notation and, where it has no fault, at its trace."""
        top, faults = translated(data, self.name)
        self.faults = [f"{self.name}:{line}:{column}: {text}" for line, column, text in faults]
        if not faults:
            self.look(json_text(top).encode())

    def look(self, data):
        """Looks at a trace in JSON."""
        self.top, self.text, fault = first_fault(data)
        if fault:
            line, column = line_and_column(self.text, fault[0])
            self.faults = [f"{self.name}:{line}:{column}: not JSON: {fault[1]}"]
            return
        form = Form()
        faults, ignored = faults_of(form, self.top), ignored_keys(form, self.top)
        self.more = max(len(faults) - MOST_TOLD, 0) + max(len(ignored) - MOST_TOLD, 0)
        faults, ignored = faults[:MOST_TOLD], ignored[:MOST_TOLD]
        self.found = places(self.text, {fault.path for fault in faults + ignored}) if faults or ignored else {}
        self.faults = [self.told(fault, "", 1) for fault in faults]
        kind = "" if self.strict else "warning: "
        self.warnings = [self.told(fault, kind, 0) for fault in ignored]
        for key, at in doubles(self.text)[:MOST_TOLD] if has_doubles(self.text) else []:
            line, column = line_and_column(self.text, at)
            self.warnings.append(f"{self.name}:{line}:{column}: {kind}{json.dumps(key)} occurs again here: the last one counts")
        if self.wants_hints and not self.bad:
            self.hint()

    def hint(self):
        """For a good trace, which steps the plain model refuses, and why."""
        with Progress(f"{self.name}: the model plays step") as progress:
            found = list(islice(hints(self.top, progress), MOST_TOLD + 1))
        paths = [("steps", k) + (("during", int(about)) if about is not None else ()) for k, about, _ in found[:MOST_TOLD]]
        self.found = places(self.text, set(paths)) if paths else {}
        steps = [f"step {k}: {text}" for k, _, text in found]
        self.hints = [self.told(Fault(path, text), "hint: ", 1) for path, text in zip(paths, steps)]
        if len(found) > MOST_TOLD:
            self.hints.append(f"{self.name}: and further refusals")

    @property
    def bad(self):
        return bool(self.faults or self.strict and self.warnings)

    def told(self, fault, kind, part):
        """The line for a fault. The place is that of the value (part 1), or that of its key (part 0)."""
        step = self.step_of(fault.path)
        if step is not None:
            where = step
        else:
            line, column = line_and_column(self.text, self.found.get(fault.path, (0, 0))[part])
            where = f"{self.name}:{line}:{column}"
        guess = f": did you mean {fault.guess}?" if fault.guess else ""
        return f"{where}: {kind}{fault.text}{guess}"

    def step_of(self, path):
        """Where a step or an access in flight says that it was written, if it does."""
        if len(path) < 2 or path[0] != "steps":
            return None
        part, at = self.top, None
        for key in path:
            part = part[key] if isinstance(part, list) and isinstance(key, int) else part.get(key) if isinstance(part, dict) else None
            if isinstance(part, dict):
                at = part.get("at", at)
        return at if isinstance(at, str) and AT.fullmatch(at) else None

    def lines(self):
        """All lines, the faults first, up to as many as anyone would read."""
        more = [f"{self.name}: and {self.more:,} more"] if self.more else []
        left_out = [] if self.bad else [f"{self.name}: left out when it was recorded: {what}" for what in left_out_of(self.top)]
        return self.faults + self.warnings + more + left_out + self.hints

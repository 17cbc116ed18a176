"""What in a trace breaks the form that numatrace expects: every fault, with its place.

The words of a fault begin as the program's own text does: `not JSON`, `bad machine` or `bad step k`. The keys of steps and
their ranges are those of trace.schema.json. Nothing here is proved."""
import json
import os
import re
from collections import namedtuple
from difflib import get_close_matches
from itertools import groupby

from .jsontext import Other, first_fault, line_and_column
from .words import FLAGS, MODES, counted, elements, left_out_text

HERE = os.path.dirname(os.path.abspath(__file__))
# The schema is in docs/ of the repository; an installed package holds a copy.
SCHEMAS = [os.path.join(HERE, "trace.schema.json"), os.path.join(HERE, "../../docs/trace.schema.json")]
MOST_BYTES = 16777216
MOST_FRAMES = 16384
MOST_ENTRIES = 16384
TYPES = {"object": dict, "array": list, "string": str, "boolean": bool, "integer": int}
# Keys that any object may have for people, and those of the top, of a machine and of a step that makes something. The program
# ignores them as it does all others.
FOR_PEOPLE = ("at", "note")
OF_TOP, OF_MACHINE, OF_NEW = ("note_at_end", "left_out", "$schema"), ("names",), ("name",)
NEW = ("spawn", "map", "attach")

# Where a fault is, as keys and indices from the top (or from its step) down; what is wrong there; and what may have been
# meant, or None.
Fault = namedtuple("Fault", "path text guess", defaults=(None,))


def under(front, faults, head=""):
    """Faults of a part, as those of the whole."""
    return [Fault(front + path, head + text, guess) for path, text, guess in faults]


def name_of(path):
    """A path as people write it, such as machine.nodes[1]."""
    return "".join(f"[{part}]" if isinstance(part, int) else f".{part}" for part in path).lstrip(".")


# ---- values


def shown(value):
    """A value for people, short and on one line."""
    if isinstance(value, (list, dict)):
        return "a list" if isinstance(value, list) else "an object"
    text = value.text if isinstance(value, Other) else json.dumps(value)
    return text if len(text) <= 40 else text[:40] + ".."


def wanted(schema):
    """What a schema expects of a value itself."""
    if schema["type"] == "integer":
        return f"a whole number from {schema['minimum']:,} to {schema['maximum']:,}, in digits only"
    if schema["type"] == "array":
        bounds = f" of at most {schema['maxItems']:,} elements" if "maxItems" in schema else ""
        return "a list" + bounds
    if schema["type"] == "string":
        return "a text with an even number of hexadecimal digits"
    return {"boolean": "true or false", "object": "an object"}[schema["type"]]


def is_wanted(schema, value):
    """Whether a value itself is what a schema expects; its parts are not checked."""
    if type(value) is not TYPES[schema["type"]]:
        return False
    if schema["type"] == "integer":
        return schema["minimum"] <= value <= schema["maximum"]
    if schema["type"] == "array":
        return schema.get("minItems", 0) <= len(value) <= schema.get("maxItems", len(value))
    return "pattern" not in schema or re.fullmatch(schema["pattern"].strip("^$"), value) is not None


def close(word, words):
    """The word that was meant, if one is near, whatever its case."""
    if not isinstance(word, str):
        return None
    near = {other.lower(): other for other in words}
    found = get_close_matches(word.lower(), list(near), 1, 0.6)
    return near[found[0]] if found else None


def number_meant(path, value):
    """The number that was meant by a text, for a key that takes numbers."""
    if not isinstance(value, str):
        return None
    names = dict(enumerate(MODES)) if path[-1:] == ("mode",) else FLAGS if path[-1:] == ("flags",) else {}
    numbers = {name: number for number, name in names.items()}
    if names and value.replace(" ", "").split("|")[0]:
        meant = [close(word, numbers) for word in value.replace(" ", "").split("|")]
        total = sum({numbers[name] for name in meant if name})
        return None if None in meant else f"{total} ({'|'.join(meant)})"
    match = re.fullmatch(r"0x([0-9A-Fa-f]{1,16})|([0-9]{1,20})", value)
    return match and str(int(match[1], 16) if match[1] else int(match[2]))


class Form:
    """The schema of traces."""

    def __init__(self):
        with open(next(filter(os.path.exists, SCHEMAS)), encoding="utf-8") as file:
            self.top = json.load(file)
        self.steps = self.ops(self.top["$defs"]["step"])

    def resolved(self, schema):
        return self.top["$defs"][schema["$ref"][len("#/$defs/"):]] if "$ref" in schema else schema

    def ops(self, schema):
        """The forms of an object, by their op."""
        parts = [self.resolved(part) for part in schema["oneOf"]]
        return {part["properties"]["op"]["const"]: part for part in parts}

    def faults(self, path, schema, value):
        """The faults of a value at a path, or of its parts, in the order in which the program looks."""
        schema = self.resolved(schema)
        if "oneOf" in schema:
            ops = self.ops(schema)
            return op_faults(path, ops, value) or self.keys_faults(path, ops[value["op"]], value)
        if not is_wanted(schema, value):
            name = name_of(path)
            if isinstance(value, list) and schema["type"] == "array":
                most = "at least one" if not value else wanted(schema)
                return [Fault(path, f"{name} has {elements(value)}: expected {most}")]
            guess = number_meant(path, value) if schema["type"] == "integer" else None
            return [Fault(path, f"{name} is {shown(value)}: expected {wanted(schema)}", guess)]
        if "items" in schema:
            item = self.resolved(schema["items"])
            if item.get("type") == "integer" and all(is_wanted(item, part) for part in value):
                return []
            return [fault for k, part in enumerate(value) for fault in self.faults(path + (k,), item, part)]
        return self.keys_faults(path, schema, value) if "properties" in schema else []

    def keys_faults(self, path, schema, value):
        """The faults of an object's keys."""
        found = []
        for key, part in schema["properties"].items():
            if key in value:
                found += self.faults(path + (key,), part, value[key])
            elif key in schema["required"]:
                guess = close(key, [other for other in value if other not in schema["properties"]])
                text = f"{name_of(path + (key,))} is missing: expected {wanted(self.resolved(part))}"
                found.append(Fault(path, text, guess and f"{key} instead of {guess}"))
        return found


def op_faults(path, ops, value):
    """The fault of a value that must be an object with one of these ops."""
    if not isinstance(value, dict):
        return [Fault(path, f"{name_of(path) or 'the step'} is {shown(value)}: expected an object")]
    if isinstance(value.get("op"), str) and value["op"] in ops:
        return []
    name, one_of = name_of(path + ("op",)), f"expected one of {', '.join(ops)}"
    if "op" not in value:
        return [Fault(path, f"{name} is missing: {one_of}")]
    left_out = left_out_text(value["op"])
    if left_out:
        return [Fault(path + ("op",), f"{name} is {shown(value['op'])}: {left_out}")]
    return [Fault(path + ("op",), f"{name} is {shown(value['op'])}: {one_of}", close(value["op"], ops))]


# ---- what a schema cannot say


def row_faults(own, row, count):
    """The faults of a row of distances that are numbers."""
    path = ("machine", "distance", own)
    if len(row) != count:
        return [Fault(path, f"{name_of(path)} has {elements(row)}: expected one for each of {count} nodes")]
    found = []
    for to, distance in enumerate(row):
        told = f"{name_of(path)}[{to}] is {distance}: expected "
        if own == to and distance != 10:
            found.append(Fault(path + (to,), told + "10, the distance of a node to itself"))
        if own != to and distance < 11:
            found.append(Fault(path + (to,), told + "11 to 255, the distance to another node"))
    return found


def layout_faults(machine):
    """The faults of a machine that fits the schema."""
    nodes, rows, found = machine["nodes"], machine["distance"], []
    if sum(nodes) > MOST_FRAMES:
        text = f"machine.nodes has {sum(nodes):,} frames in total: expected at most {MOST_FRAMES:,}"
        found.append(Fault(("machine", "nodes"), text))
    if len(rows) != len(nodes):
        text = f"machine.distance has {counted(len(rows), 'row')}: expected one for each of {len(nodes)} nodes"
        return [*found, Fault(("machine", "distance"), text)]
    return found + [fault for own, row in enumerate(rows) for fault in row_faults(own, row, len(rows))]


def version_faults(form, top):
    """The faults of the version, and of the limit on runs that version 2 has."""
    version, limit = (part["properties"] for part in form.top["oneOf"])
    schema = form.top["properties"]["version"]
    if "version" not in top:
        return [Fault((), f"version is missing: expected {wanted(schema)}")]
    found = form.faults(("version",), schema, top["version"])
    if found or top["version"] == version["version"]["const"]:
        return found
    if "run_limit" not in top:
        return [Fault((), f"run_limit is missing: expected {wanted(limit['run_limit'])}")]
    return form.faults(("run_limit",), limit["run_limit"], top["run_limit"])


def machine_faults(form, top):
    """The faults of the top level, except for its steps."""
    if not isinstance(top, dict):
        return [Fault((), f"the top level is {shown(top)}: expected an object")]
    found = version_faults(form, top)
    if "machine" not in top:
        found.append(Fault((), "machine is missing: expected an object"))
    else:
        found += form.faults(("machine",), form.top["properties"]["machine"], top["machine"]) or layout_faults(top["machine"])
    if not isinstance(top.get("steps"), list):
        text = f"steps is {shown(top['steps']) if 'steps' in top else 'missing'}: expected a list"
        found.append(Fault(("steps",) if "steps" in top else (), text))
    return found


def run_count(nodes, limit):
    """How many runs a batch has whose entries go to these nodes: one for each stretch of one node, which is cut where it is too long."""
    return sum(-(-sum(1 for _ in stretch) // limit) for _, stretch in groupby(nodes))


def batch_faults(step, limit):
    """The faults of a move_pages step that fits the schema, where a run has at most `limit` entries."""
    if len(step["pages"]) != len(step["nodes"]):
        text = f"nodes has {elements(step['nodes'])}: expected {len(step['pages']):,}, as many as pages has"
        return [Fault(("nodes",), text)]
    runs = run_count(step["nodes"], limit)
    most = f"a number below {runs:,}, the number of runs" if runs else "no access, as the step has no run"
    return [Fault(("during", j, "run"), f"during[{j}].run is {access['run']}: expected {most}")
            for j, access in enumerate(step.get("during", [])) if access["run"] >= runs]


def step_faults(form, step, limit):
    """The faults of a step of a trace in which a run has at most `limit` entries."""
    found = op_faults((), form.steps, step)
    if found:
        return found
    op = step["op"]
    found = form.keys_faults((), form.steps[op], step)
    if not found and op == "move_pages":
        found = batch_faults(step, limit)
    return under((), found, op + ": ") if found else found


def faults_of(form, top):
    """All faults of a trace that is JSON, a bad machine before the first bad step."""
    found = under((), machine_faults(form, top), "bad machine: ")
    if isinstance(top, dict) and isinstance(top.get("steps"), list):
        limit = top.get("run_limit") if top.get("version") == 2 else MOST_ENTRIES
        limit = limit if type(limit) is int and limit > 0 else 1
        for k, step in enumerate(top["steps"]):
            faults = step_faults(form, step, limit)
            if faults:
                found += under(("steps", k), faults, f"bad step {k}: ")
    return found


# ---- keys that are ignored


def keys_for_people(schema):
    """The keys that an object of a schema may have for people."""
    known = schema["properties"]
    special = OF_TOP if "steps" in known else OF_MACHINE if "distance" in known else OF_NEW if known.get("op", {}).get("const") in NEW else ()
    return (*FOR_PEOPLE, *special)


def unknown_keys(path, schema, value, more=()):
    """Keys of an object that its schema does not name."""
    known = schema["properties"]
    if all(key in known for key in value):
        return []
    known = [*known, *keys_for_people(schema), *more]
    return [Fault(path + (key,), f"{json.dumps(key)} is an unknown key", close(key, known)) for key in value if key not in known]


def ignored_in_step(form, step):
    """Keys of a step and of its accesses in flight that the program ignores."""
    if not isinstance(step, dict) or not isinstance(step.get("op"), str) or step["op"] not in form.steps:
        return []
    schema = form.steps[step["op"]]
    found, during = unknown_keys((), schema, step), step.get("during")
    accesses = form.ops(form.top["$defs"]["access"])
    for j, access in enumerate(during if "during" in schema["properties"] and isinstance(during, list) else []):
        if isinstance(access, dict) and isinstance(access.get("op"), str) and access["op"] in accesses:
            found += unknown_keys(("during", j), accesses[access["op"]], access)
    return found


def ignored_keys(form, top):
    """All keys of a trace that the program ignores, except for those that are meant for people."""
    if not isinstance(top, dict):
        return []
    limit = ("run_limit",) if top.get("version") == 2 else ()
    found = unknown_keys((), form.top, top, limit)
    if isinstance(top.get("machine"), dict):
        found += unknown_keys(("machine",), form.top["properties"]["machine"], top["machine"])
    for k, step in enumerate(top["steps"] if isinstance(top.get("steps"), list) else []):
        ignored = ignored_in_step(form, step)
        if ignored:
            found += under(("steps", k), ignored, f"step {k}: ")
    return found


def strict_schema(schema):
    """The schema under which an unknown key is a fault as well."""
    def strict(part):
        if isinstance(part, list):
            return [strict(item) for item in part]
        if not isinstance(part, dict):
            return part
        made = {key: strict(value) for key, value in part.items()}
        if part.get("type") == "object" and "properties" in part and "required" in part:
            made["properties"].update({key: True for key in keys_for_people(part) if key not in made["properties"]})
            made["additionalProperties"] = False
        return made

    made = strict({key: part for key, part in schema.items() if key != "oneOf"})
    made["properties"]["run_limit"] = True
    made["title"] += ", without unknown keys"
    # The limit on runs is a key of version 2 alone.
    first, second = schema["oneOf"]
    made["oneOf"] = [{**first, "not": {"required": ["run_limit"]}}, second]
    return made


# ---- one line for a trace


def verdict(data):
    """The line for a trace of these bytes: its first fault, in the order in which the program looks for them, or `good`."""
    if len(data) > MOST_BYTES:
        return f"read fault: the trace has more than {MOST_BYTES:,} bytes"
    top, text, fault = first_fault(data)
    if fault:
        line, column = line_and_column(text, fault[0])
        return f"not JSON: line {line}, column {column}: {fault[1]}"
    found = faults_of(Form(), top)
    return found[0].text if found else "good"

#!/usr/bin/env python3
"""Checks docs/trace.schema.json (lab/tests check the strict one): each example and each trace of the tests fits it, and traces that
the program refuses do not, wherever a schema can say so. It knows the keywords that the schema uses, and refuses any other."""
import glob
import json
import os
import re
import sys

ROOT = os.path.dirname(os.path.dirname(os.path.abspath(__file__)))
COMMENTS = {"$schema", "$defs", "title", "description"}
TYPES = {"object": dict, "array": list, "string": str, "boolean": bool, "integer": int}

# The first example with one change after which the program plays it as before.
SAME = [
    ('"version":1', '"version":1,"run_limit":"none"'),
    ('"version":1', '"version":2,"run_limit":1'),
    ('"version":1', '"version":2,"run_limit":16384'),
    ('"flags":2', '"flags":2,"during":[]'),
    ('"op":"free"', '"during":null,"op":"free"'),
]

# The same, where the program also makes accesses in flight.
MORE = [
    ('"flags":2', '"flags":2,"during":[{"run":0,"op":"read","pid":1,"addr":65536,"len":1}]'),
    ('"flags":2', '"flags":2,"during":[{"run":0,"op":"write","pid":4294967295,"addr":18446744073709551615,"data":"aF","len":null}]'),
    ('"flags":2', '"during":[{"op":"read","pid":1,"addr":0,"len":0,"run":0,"data":6},{"op":"write","pid":1,"addr":0,"data":"","run":0}],"flags":2'),
]

# The first example with one change after which the program reports a bad machine or a bad step.
FAULTS = [
    ('"version":1', '"version":2'),
    ('"version":1', '"version":3'),
    ('"version":1', '"version":2,"run_limit":0'),
    ('"version":1', '"version":2,"run_limit":16385'),
    ('"version":1', '"version":2,"run_limit":"1"'),
    ('"version":1', '"version":1.0'),
    ('"version":1', '"version":"1"'),
    ('"version":1', '"version":true'),
    ('"version":1', '"other":1'),
    ('"nodes":[4,4]', '"nodes":[4,0]'),
    ('"nodes":[4,4]', '"nodes":[]'),
    ('"nodes":[4,4]', '"nodes":[4,16385]'),
    ('[10,20],[20,10]', '[10,256],[20,10]'),
    ('"machine"', '"engine"'),
    ('"op":"spawn"', '"op":"fork"'),
    ('"pages":3', '"pages":3,"shared":null'),
    ('"op":"map"', '"op":"attach","segment":0'),
    ('"op":"free","node":0', '"op":"pin","pid":1'),
    ('"op":"free","node":0', '"op":"exit"'),
    ('"op":"free","node":0', '"op":"unmap","pid":1,"addr":0'),
    ('"uid":100', '"uid":4294967296'),
    ('"uid":100', '"uid":-1'),
    ('"uid":100', '"uid":1e2'),
    ('"uid":100', '"uid":null'),
    ('"allowed":[0,1]', '"allowed":[0,64]'),
    ('"allowed":[0,1]', '"allowed":[0,1],"privileged":null'),
    ('"op":"write","pid":1,', '"op":"write",'),
    ('"data":"62"', '"data":"6"'),
    ('"data":"62"', '"data":"6g"'),
    ('"flags":2', '"flags":4294967296'),
    ('"len":2', '"len":18446744073709551616'),
    ('"pages":[65536', '"pages":["65536"'),
    ('"flags":2', '"flags":2,"during":null'),
    ('"flags":2', '"flags":2,"during":{}'),
    ('"flags":2', '"flags":2,"during":[7]'),
    ('"flags":2', '"flags":2,"during":[{"run":0,"op":"vmstat"}]'),
    ('"flags":2', '"flags":2,"during":[{"run":0,"op":"pin","pid":1,"addr":65536}]'),
    ('"flags":2', '"flags":2,"during":[{"run":0,"pid":1,"addr":65536,"len":1}]'),
    ('"flags":2', '"flags":2,"during":[{"op":"read","pid":1,"addr":65536,"len":1}]'),
    ('"flags":2', '"flags":2,"during":[{"run":0,"op":"write","pid":1,"addr":65536,"len":1}]'),
    ('"flags":2', '"flags":2,"during":[{"run":0,"op":"write","pid":1,"addr":65536,"data":"6"}]'),
    ('"flags":2', '"flags":2,"during":[{"run":-1,"op":"read","pid":1,"addr":65536,"len":1}]'),
    ('"flags":2', '"flags":2,"during":[{"run":0.0,"op":"read","pid":1,"addr":65536,"len":1}]'),
    ('"flags":2', '"flags":2,"during":[{"run":18446744073709551616,"op":"read","pid":1,"addr":65536,"len":1}]'),
    ('"flags":2', '"flags":2,"during":[{"run":0,"op":"read","pid":4294967296,"addr":65536,"len":1}]'),
]


def fault_of_type(schema, value):
    kind = schema.get("type")
    if kind is None:
        return None
    right = isinstance(value, TYPES[kind]) and (kind == "boolean" or not isinstance(value, bool))
    return None if right else "is not of type " + kind


def fault_of_value(schema, value):
    for word, limit in schema.items():
        if word == "const" and value != limit:
            return "is not %r" % (limit,)
        if word == "minimum" and value < limit or word == "maximum" and value > limit:
            return "is out of range"
        if word == "minItems" and len(value) < limit or word == "maxItems" and len(value) > limit:
            return "has too few or too many items"
        if word == "pattern" and not re.fullmatch(limit.strip("^$"), value):
            return "does not match the pattern"
        if word == "required" and not all(key in value for key in limit):
            return "lacks a key"
        if word == "additionalProperties" and not set(value) <= set(schema["properties"]):
            return "has an unknown key"
    return None


def fault_of_parts(schema, value, top):
    for key, part in schema.get("properties", {}).items():
        if key in value:
            fault = fault_of(part, value[key], top)
            if fault:
                return "%s: %s" % (key, fault)
    for place, item in enumerate(value if "items" in schema else []):
        fault = fault_of(schema["items"], item, top)
        if fault:
            return "%d: %s" % (place, fault)
    if "oneOf" in schema:
        fits = sum(fault_of(part, value, top) is None for part in schema["oneOf"])
        return None if fits == 1 else "fits %d of the forms" % fits
    return None


def fault_of(schema, value, top):
    """The first fault of a value by a schema, or None. In the strict schema a key may have any value, and `not` is about an object."""
    if schema is True:
        return None
    if "not" in schema and fault_of_value(schema["not"], value) is None:
        return "is what it must not be"
    if "$ref" in schema:
        return fault_of(top["$defs"][schema["$ref"].removeprefix("#/$defs/")], value, top)
    return fault_of_type(schema, value) or fault_of_value(schema, value) or fault_of_parts(schema, value, top)


KNOWN = COMMENTS | {"$ref", "type", "const", "minimum", "maximum", "minItems", "maxItems", "pattern", "required"}
KNOWN |= {"properties", "items", "oneOf"}


def check_words(schema):
    """Refuses a keyword that this script does not know."""
    for word, value in schema.items():
        if word not in KNOWN:
            sys.exit("tests/schema.py: the schema has the keyword %s, which this script does not know" % word)
        if word in ("properties", "$defs"):
            for part in value.values():
                check_words(part)
        if word == "items":
            check_words(value)
        if word == "oneOf":
            for part in value:
                check_words(part)


def main():
    with open(os.path.join(ROOT, "docs/trace.schema.json"), encoding="utf-8") as file:
        schema = json.load(file)
    check_words(schema)
    traces = sorted(glob.glob(os.path.join(ROOT, "examples/*.json")) + glob.glob(os.path.join(ROOT, "tests/traces/*.json")))
    for path in traces:
        with open(path, encoding="utf-8") as file:
            fault = fault_of(schema, json.load(file), schema)
        if fault:
            sys.exit("tests/schema.py: %s does not fit the schema: %s" % (os.path.relpath(path, ROOT), fault))
    with open(os.path.join(ROOT, "examples/three_pages.json"), encoding="utf-8") as file:
        text = file.read()
    for old, new in SAME + MORE:
        if fault_of(schema, json.loads(text.replace(old, new, 1)), schema) is not None:
            sys.exit("tests/schema.py: the schema refuses %s for %s" % (new, old))
    for old, new in FAULTS:
        if old not in text:
            sys.exit("tests/schema.py: %s is not in the first example" % old)
        if fault_of(schema, json.loads(text.replace(old, new, 1)), schema) is None:
            sys.exit("tests/schema.py: the schema accepts %s for %s" % (new, old))


if __name__ == "__main__":
    main()

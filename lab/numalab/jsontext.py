"""JSON as the program reads it: strictly, with the place of each fault, and of any value."""
import json
import re

MOST_LEVELS = 127
TOKENS = re.compile(r'"[^"\\]*(?:\\.[^"\\]*)*"|-?[0-9][0-9.eE+-]*|[\[\]{}]|-?Infinity|NaN', re.S)
# The same with everything that separates values, to find where each of them begins.
PIECES = re.compile(r'"[^"\\]*(?:\\.[^"\\]*)*"|[\[\]{}:,]|[^\s\[\]{}:,"]+', re.S)
SURROGATE = re.compile("[\ud800-\udfff]")


class Other:
    """A JSON number that is not written as at most 20 digits, which no key takes, with its text."""

    def __init__(self, text):
        self.text = text


def integer(text):
    """A JSON integer. One with many digits is not converted: Python takes long for that, or refuses it."""
    return int(text) if text.isascii() and text.isdigit() and len(text) <= 20 else Other(text)


def token_fault(token):
    """What is not JSON in a token that Python's reader would accept."""
    if token in ("NaN", "Infinity", "-Infinity"):
        return token + " is not JSON"
    try:
        if token[0] == '"' and "\\u" in token and SURROGATE.search(json.loads(token)):
            return "half of a surrogate pair"
        if token[0] in "-0123456789" and abs(float(token)) == float("inf"):
            return "a number outside the range of 64-bit floating point"
    except ValueError:
        pass  # Python's reader reports it.
    return None


def strict_fault(text):
    """The place of the first thing that Python's reader would accept although it is not JSON here, and what it is."""
    level = 0
    for match in TOKENS.finditer(text):
        token = match[0]
        level += (token in "[{") - (token in "]}")
        fault = token_fault(token)
        if level > MOST_LEVELS:
            fault = "more than 127 levels of nesting"
        if fault:
            return match.start(), fault
    return None


def line_and_column(text, at):
    """A place in a text: its line and column from 1, columns in characters."""
    return text.count("\n", 0, at) + 1, at - text.rfind("\n", 0, at)


def first_fault(data):
    """The value of the bytes as JSON, their text and None; or None, the text as far as it is one, and the place and the words
    of the first fault."""
    try:
        text = data.decode("utf-8")
    except UnicodeDecodeError as error:
        text = data[: error.start].decode("utf-8")
        return None, text, (len(text), "not UTF-8")
    faults = [found for found in [strict_fault(text)] if found]
    value = None
    try:
        value = json.loads(text, parse_int=integer, parse_float=Other)
    except json.JSONDecodeError as error:
        faults.append((error.pos, error.msg[0].lower() + error.msg[1:]))
    except RecursionError:
        pass  # There are more than 127 levels, which strict_fault has reported.
    return value, text, min(faults, key=lambda found: found[0]) if faults else None


def has_doubles(text):
    """Whether a key occurs twice in an object of a JSON text."""
    found = []

    def pairs(items):
        made = dict(items)
        if len(made) < len(items):
            found.append(True)
        return made

    json.loads(text, object_pairs_hook=pairs)
    return bool(found)


def doubles(text):
    """The keys that have occurred before in their object, each with its place."""
    found, keys, wants_key = [], [], False
    for match in PIECES.finditer(text):
        token = match[0]
        if token in "[{":
            keys.append(set() if token == "{" else None)
            wants_key = token == "{"
        elif token in "]}":
            keys.pop()
        elif token == ",":
            wants_key = keys[-1] is not None
        elif wants_key:
            key, wants_key = json.loads(token), False
            if key in keys[-1]:
                found.append((key, match.start()))
            keys[-1].add(key)
    return found


# ---- where values are


def places(text, wanted):
    """Where values of a JSON text begin, and their keys where they have one, by their paths: keys and indices from the
    top down. Of a key that occurs twice the last one counts."""
    found, most, path, in_object, key = {}, max(map(len, wanted), default=0), [], [], None
    for match in PIECES.finditer(text):
        token = match[0]
        if token in "]}":
            in_object.pop()
            path.pop()
        elif token == ",":
            path[-1] = None if in_object[-1] else path[-1] + 1
        elif token == ":":
            continue
        elif in_object and in_object[-1] and path[-1] is None:
            key, path[-1] = match.start(), json.loads(token)
        else:
            if len(path) <= most and tuple(path) in wanted:
                found[tuple(path)] = (key if in_object and in_object[-1] else match.start(), match.start())
            if token in "[{":
                in_object.append(token == "{")
                path.append(None if token == "{" else 0)
    return found

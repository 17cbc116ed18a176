"""Words of the form 'zipf pages=4000 a=0.99': a name, and parameters with values."""
import re
import shlex

from ..notation import guessed
from ..traces import Bad

SIZE = re.compile(r"([0-9.]+(?:e[0-9]+)?)([KMG]?)")
SIZES = {"": 1, "K": 1 << 10, "M": 1 << 20, "G": 1 << 30}


def number_of(text, what, whole=True):
    """A number such as 4000, 5e6, 0.99 or 16K."""
    match = SIZE.fullmatch(text)
    try:
        value = float(match[1]) * SIZES[match[2]] if match else None
    except ValueError:
        value = None
    if value is None or value == float("inf") or (whole and value != int(value)):
        raise Bad(f"{what} is {text}: expected a {'whole ' if whole else ''}number")
    return int(value) if whole else value


def split(text, what):
    """Words as a shell has them, so that a name may have spaces in quotes."""
    try:
        return shlex.split(text)
    except ValueError as error:
        raise Bad(f"{what}: {error}") from None


class Parameters:
    """The parameters of a name, each of which must be asked for."""

    def __init__(self, text, what):
        words = split(text, what)
        if not words or "=" in words[0]:
            raise Bad(f"{what}: {text!r} does not begin with a name")
        self.what, self.name, self.given, self.known = f"{what} {words[0]}", words[0], {}, []
        for word in words[1:]:
            key, sign, value = word.partition("=")
            if not sign or not key or not value or key in self.given:
                raise Bad(f"{self.what}: {word} {'is given twice' if key in self.given else 'is not of the form name=value'}")
            self.given[key] = value

    def text(self, key, default):
        self.known.append(key)
        return self.given.get(key, default)

    def count(self, key, default, least=1, most=None):
        """A whole number."""
        value = number_of(str(self.text(key, default)), f"{self.what}: {key}")
        if value < least or (most is not None and value > most):
            raise Bad(f"{self.what}: {key} is {value:,}: expected {least:,} {'or more' if most is None else f'to {most:,}'}")
        return value

    def number(self, key, default, most=None):
        """A number that may have a fraction, from 0 on."""
        value = number_of(str(self.text(key, default)), f"{self.what}: {key}", False)
        if most is not None and value > most:
            raise Bad(f"{self.what}: {key} is {value:g}: expected 0 to {most:g}")
        return value

    def done(self):
        """Refuses parameters that nobody asked for."""
        for key in self.given:
            if key not in self.known:
                raise Bad(f"{self.what} has no parameter {key}{guessed(key, self.known) or ': it has ' + ', '.join(sorted(self.known))}")

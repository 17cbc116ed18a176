"""The command numalab: runs the command that is asked for, and ends with its status.

A command is a module of numalab.commands with a SUMMARY, arguments(words), which declares its arguments, and run(asked),
which returns the status: 0; 1 where something differs or was refused; 2 for wrong arguments and bad traces."""
import argparse
import gc
import os
import re
import sys

from . import __version__
from .commands import (compare, export, hunt, machine, picture, policies, predict, record, reduce, replay, show,
                       why, write)
from .faults import close
from .program import Failed
from .traces import Bad, EndedEarly
from .words import printable

COMMANDS = {"write": write, "why": why, "show": show, "picture": picture, "machine": machine, "replay": replay, "compare": compare,
            "predict": predict, "export": export, "hunt": hunt, "reduce": reduce, "record": record, "policies": policies}
ABOUT = "Traces for numatrace that a person can write, and its reports as a person can read them."
PROMISE = ("Every report but those of replay and predict comes from the program numatrace, which is proved. Nothing that numalab itself "
           "says is proved.")


class Parser(argparse.ArgumentParser):
    """A parser that says what may have been meant by a command or an option that it does not know."""

    commands, words = {}, ()

    def error(self, message):
        wrong = re.match("argument .*: invalid choice: '(.*?)' ", message)
        if self.commands and wrong:
            message = f"there is no command {wrong[1]}{meant(wrong[1], self.commands)}"
        elif self.commands and message.endswith("required: COMMAND"):
            message = self.unknown(self.words[0]) if self.words else "a command is missing: numalab --help lists them"
        super().error(message)

    def unknown(self, word):
        """That an argument is not known, and which option may have been meant."""
        options = [option for action in self._actions for option in action.option_strings]
        return f"unknown argument {word}" + (meant(word.split("=")[0], options) if word.startswith("-") else "")

    def parse_args(self, args=None, namespace=None):
        self.words = sys.argv[1:] if args is None else args
        asked, rest = self.parse_known_args(args, namespace)
        if rest:
            known = self.commands[asked.command]
            known.error(known.unknown(rest[0]))
        return asked


def meant(word, words):
    found = close(word, words)
    return f": did you mean {found}?" if found else ""


def parser():
    """The parser of all arguments."""
    top = Parser(prog="numalab", description=ABOUT, epilog=PROMISE, allow_abbrev=False)
    top.add_argument("--version", action="version", version=f"numalab {__version__}")
    commands = top.add_subparsers(dest="command", metavar="COMMAND", required=True)
    for name, module in COMMANDS.items():
        words = commands.add_parser(name, help=module.SUMMARY, description=module.__doc__, epilog=PROMISE, allow_abbrev=False,
                                    formatter_class=argparse.RawDescriptionHelpFormatter)
        module.arguments(words)
        top.commands = {**top.commands, name: words}
    return top


def main(words=None):
    """Runs a command; returns the status."""
    for stream in (sys.stdout, sys.stderr):
        stream.reconfigure(encoding="utf-8", errors="backslashreplace")
    asked = parser().parse_args(words)
    gc.disable()  # Traces and reports have a million small parts and no cycles, and looking for cycles takes half of the time.
    try:
        status = COMMANDS[asked.command].run(asked)
        sys.stdout.flush()
        return status
    except (Bad, Failed) as fault:
        sys.stdout.flush()
        lines = str(fault).split("\n") if isinstance(fault, EndedEarly) else [str(fault)]
        print("numalab: " + "\n".join(map(printable, lines)), file=sys.stderr)
        return 2 if isinstance(fault, Bad) else 1
    except BrokenPipeError:
        # Nobody is reading any more: discard what Python would write when it ends.
        os.dup2(os.open(os.devnull, os.O_WRONLY), sys.stdout.fileno())
        return 1
    except KeyboardInterrupt:
        return 130

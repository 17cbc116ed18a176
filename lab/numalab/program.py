"""Finding the built programs, and having numatrace play a trace. Every report comes from it."""
import os
import shutil
import subprocess
import time

from .faults import verdict
from .progress import Progress
from .traces import Bad

HERE = os.path.dirname(os.path.abspath(__file__))
CRATES = os.path.join(os.path.dirname(os.path.dirname(HERE)), "crates")
# Where ./install puts this module, under its prefix.
INSTALLED = "/lib/numatrace/lab/numalab"
# The program for sessions: its name, its command, and the variable that names it.
SESSION = ("numatrace_session", "numatrace-session", "NUMATRACE_SESSION")


class Failed(RuntimeError):
    """The program wrote no report. The command ends with status 1."""


def usable(path):
    return os.path.isfile(path) and os.access(path, os.X_OK)


def found(asked=None, name="numatrace", command="numatrace", variable="NUMATRACE"):
    """The path of a program: the one that is asked for, that of the variable, the one that this repository has built or that was
    installed with this module, or the command on the PATH."""
    for named in (asked, os.environ.get(variable)):
        if named:
            if not usable(named):
                raise Bad(f"there is no program {named}")
            return os.path.abspath(named)
    near = [os.path.join(CRATES, name, "out", name)]
    if HERE.endswith(INSTALLED):
        near.append(os.path.join(HERE[: -len(INSTALLED)], "bin", command))
    path = next(filter(usable, near), None) or shutil.which(command)
    if path is None:
        alone, word = ("", "--program PATH") if name == "numatrace" else (" (the first call of ./numatrace does not)", "program=")
        raise Bad(f"there is no program {name}: ./build makes it{alone}, and {word} or the variable {variable} names another")
    return path


def played(trace, asked=None):
    """The report of a trace, as bytes."""
    program = found(asked)
    try:
        status, out, err = run([program], trace.data)
    except OSError as error:
        raise Failed(f"{program}: {error.strerror}") from error
    told = err.decode("utf-8", "replace").strip().split("\n")[0]
    if status == 2:
        line = verdict(trace.data)
        raise Bad(f"{trace.name}: {line if line != 'good' else told}")
    if status != 0:
        raise Failed(f"{trace.name}: {told or 'the program says nothing'} (status {status} of {program})")
    return out


def run(words, data):
    """Runs a command with some bytes as its input: its status, standard output and standard error."""
    begun = time.monotonic()
    with Progress("seconds that the program has played") as progress, subprocess.Popen(
            words, stdin=subprocess.PIPE, stdout=subprocess.PIPE, stderr=subprocess.PIPE) as process:
        while True:
            try:
                out, err = process.communicate(data, timeout=0.5)
                return process.returncode, out, err
            except subprocess.TimeoutExpired:
                data = None  # What was sent is not sent again.
                progress.at(int(time.monotonic() - begun))

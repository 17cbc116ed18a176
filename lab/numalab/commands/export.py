"""Writes a test in C that makes the calls of a trace for real, and checks each answer against what a kernel is expected to
give (--kernel, as `numalab predict` has it), or against the model's report (--model). The file needs nothing beside it.

It prints TAP, or is in the form of the Linux Test Project (--ltp) or of the kernel's own tests (--kselftest). Each step is a test, named
after its note and its statement. What the machine lacks is skipped with the reason; a test that fills nodes or takes them offline runs
where NUMATRACE_DISTURB=1 is set. Of a folder, or of several traces, it makes a suite with a Makefile in the folder OUT."""
import os
import sys

from ..linux import export
from ..linux.differences import ASKED
from ..linux.instructions import Unplayable
from ..program import found as program_found, played
from ..traces import Bad, load, read_file, traces_named, write_file
from ..words import printable
from .replay import privilege_of

SUMMARY = "a trace as a test in C, for a kernel"


def arguments(words):
    words.add_argument("traces", metavar="TRACE", nargs="+", help="traces, .json or .nt, or a folder of them")
    answers = words.add_mutually_exclusive_group(required=True)
    answers.add_argument("--kernel", metavar="VERSION", choices=ASKED, help=f"expect the answers of Linux {', '.join(ASKED)}")
    answers.add_argument("--model", action="store_true", help="expect the answers of the model")
    forms = words.add_mutually_exclusive_group()
    forms.add_argument("--ltp", action="store_const", dest="form", const="ltp", help="a test for the Linux Test Project")
    forms.add_argument("--kselftest", action="store_const", dest="form", const="kselftest", help="a test for the kernel's own tests")
    words.add_argument("--nice-alone", action="store_true", help="privileged processes have CAP_SYS_NICE without CAP_SYS_PTRACE")
    words.add_argument("-o", metavar="OUT", dest="out", help="a file, or the folder of a suite; standard output if none is named")
    words.add_argument("--program", metavar="PATH", help="with --model, the program numatrace")


def source_for(path, asked):
    """The test of a trace."""
    trace, privilege = load(path).check(), privilege_of(asked)
    if asked.model:
        answers, expected = "the model", export.answers_of_model(trace, played(trace, asked.program), privilege)
    else:
        answers, expected = f"Linux {asked.kernel}", export.answers_of_kernel(trace, asked.kernel, privilege)
    return export.source_of(trace, asked.form or "tap", answers, expected, privilege)


def sources_of(paths, asked):
    """The names of the tests of a suite with their sources, and what is said of the traces that no kernel can be made to play."""
    sources, left_out = {}, []
    for path in paths:
        name = export.test_name(path)
        if name in sources:
            raise Bad(f"{path}: another trace makes a test {name} too")
        try:
            sources[name] = source_for(path, asked)
        except Unplayable as fault:
            left_out.append(str(fault))
    if not sources:
        raise Bad(left_out[0])
    return sources, left_out


def write_suite(folder, files):
    """Writes the files of a suite, unless one would take the place of a file that is none of export's."""
    for name in files:
        path = os.path.join(folder, name)
        if os.path.exists(path) and export.MADE.encode() not in read_file(path)[:1000]:
            raise Bad(f"{path} is there, and numalab export has not made it")
    try:
        os.makedirs(folder, exist_ok=True)
    except OSError as error:
        raise Bad(f"{folder}: {error.strerror}") from error
    for name, text in files.items():
        write_file(os.path.join(folder, name), text)


def run(asked):
    if asked.model:
        program_found(asked.program)
    paths, out = traces_named(asked.traces), asked.out
    suite = len(paths) > 1 or os.path.isdir(asked.traces[0]) or out is not None and (os.path.isdir(out) or out.endswith(os.sep))
    if not suite:
        if out and os.path.exists(out) and os.path.exists(paths[0]) and os.path.samefile(out, paths[0]):
            raise Bad(f"the output would overwrite {paths[0]}")
        write_file(out, source_for(paths[0], asked))
        return 0
    if out is None:
        raise Bad("a suite goes to a folder: -o FOLDER")
    sources, left_out = sources_of(paths, asked)
    write_suite(out, {"Makefile": export.makefile_of(list(sources), asked.form or "tap"), **{name + ".c": text for name, text in sources.items()}})
    for fault in left_out:
        print(f"numalab: left out: {printable(fault)}", file=sys.stderr)
    return 1 if left_out else 0

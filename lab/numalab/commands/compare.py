"""Compares the program's report on a trace with what a kernel answered, step by step: same; differs as a row of docs/LINUX.md says,
with the row; or DIFFERS. A row explains a difference where the plain model with its rule gives the kernel's line.

What the kernel answered is the report of a replay that is named after the traces, or the kernel is asked now (--here, --qemu). Several
traces, or those of a folder, share guests, and have a line each, or are tests in TAP, JUnit's XML or JSON. With --all the scenarios of
the repository are compared with what Linux 6.1 and 6.12 answered when they were last played, which is kept next to them, or with
--qemu with what they answer now. The status is 1 where a step DIFFERS, or where a trace was not played to its end."""
import os

from ..linux import guest, many
from ..linux.compare import OTHER, compared, lines_of, worst
from ..linux.differences import KERNELS
from ..linux.instructions import Unplayable, short_name
from ..linux.outcomes import FORMS, Outcome, fails, text_of
from ..linux.replayed import joined, part_for, read_replayed
from ..program import found as program_found, played
from ..progress import Progress
from ..traces import Bad, is_trace_name, load, read_file, traces_named, write_file
from .replay import arguments_of_kernel, privilege_of, replayed_text

SUMMARY = "the model's report and a kernel's, step by step"


def arguments(words):
    words.add_argument("traces", metavar="TRACE", nargs="*",
                       help="traces, .json or .nt, or a folder of them; and after them what numalab replay printed for them")
    words.add_argument("--all", action="store_true", help="compare all scenarios of the repository")
    words.add_argument("-o", metavar="FOLDER", dest="out", help="with --all: keep what each kernel answered, as VERSION.replayed")
    forms = words.add_mutually_exclusive_group()
    for form, what in [("tap", "TAP"), ("junit", "JUnit's XML"), ("json", "JSON")]:
        forms.add_argument("--" + form, dest="form", action="store_const", const=form, help=f"print {what}, with a test for each trace")
    arguments_of_kernel(words)
    words.add_argument("--program", metavar="PATH", help="the program numatrace")


def compare_one(path, replayed, asked):
    """Compares one trace, step by step."""
    trace = load(path).check()
    if replayed:
        text, name = part_for(many.text_of(read_file(replayed), replayed), short_name(trace.name), replayed), replayed
    else:
        text, name = replayed_text(trace, asked), "the replay"
    told = read_replayed(text, name)
    found = compared(trace.top, played(trace, asked.program), told, privilege_of(asked))
    if len(told.steps) != len(found):
        raise Bad(f"{name}: it has {len(told.steps)} steps, and the trace has {len(found)}")
    for line in lines_of(found, told.release):
        print(line)
    return 1 if worst(found) == OTHER else 0


def outcomes_of(traces, texts, release, program):
    """How traces compare with what a kernel told of them, or with what happened instead."""
    found = []
    for (trace, privilege), text in zip(traces, texts):
        if isinstance(text, Bad):
            found.append(Outcome(trace.name, release, [], str(text), isinstance(text, Unplayable)))
            continue
        told = read_replayed(text, trace.name)
        found.append(Outcome(trace.name, told.release, compared(trace.top, played(trace, program), told, privilege), None, False))
    return found


def texts_now(traces, asked):
    """What the kernel that is asked for tells of traces, and its release."""
    if asked.kernel and not asked.qemu:
        raise Bad("--kernel needs --qemu")
    if asked.qemu:
        kernel = guest.kernel_asked(asked.kernel)
        with Progress(f"guests with Linux {guest.release_of(kernel)}") as progress:
            return many.replay_in_guest(traces, kernel, progress), guest.release_of(kernel)
    texts = []
    with Progress("traces") as progress:
        for place, (trace, privilege) in enumerate(traces):
            progress.at(place, len(traces))
            try:
                texts.append(many.replay_here(trace, privilege))
            except Bad as fault:
                texts.append(fault)
    return texts, os.uname().release


def compare_many(paths, replayed, asked):
    """How several traces compare."""
    traces = [(load(path).check(), privilege_of(asked)) for path in paths]
    names = [short_name(trace.name) for trace, _ in traces]
    for name in names:
        if names.count(name) > 1:
            raise Bad(f"{names.count(name)} traces are called {name}")
    if not replayed:
        texts, release = texts_now(traces, asked)
    else:
        whole = many.text_of(read_file(replayed), replayed)
        texts, release = [part_for(whole, name, replayed) for name in names], ""
    return outcomes_of(traces, texts, release, asked.program)


def compare_all(asked, version, kernel):
    """How all scenarios compare on one kernel, or with its kept answers."""
    scenarios = many.scenarios()
    if kernel is None:
        texts = many.kept(scenarios, version)
    else:
        with Progress(f"guest with Linux {version}") as progress:
            texts = many.replay_in_guest(scenarios, kernel, progress)
    if asked.out:
        os.makedirs(asked.out, exist_ok=True)
        write_file(os.path.join(asked.out, version + ".replayed"), joined([text for text in texts if not isinstance(text, Bad)]))
    return outcomes_of(scenarios, texts, guest.release_of(kernel) if kernel else version, asked.program)


def kernels_asked(asked):
    """The versions to compare with, each with its kernel, or with None for the kept answers."""
    if not asked.qemu:
        return {version: None for version in KERNELS}
    if asked.kernel:
        path = guest.kernel_asked(asked.kernel)
        return {guest.version_of(guest.release_of(path)): path}
    there = {version: path for version, path in guest.kernels().items() if version in KERNELS}
    missing = [version for version in KERNELS if version not in there]
    if missing:
        raise Bad(f"there is no kernel {missing[0]}: lab/kernels fetches those from Debian's packages linux-image-{missing[0]}.*-cloud-amd64")
    return {version: there[version] for version in KERNELS}


def split(paths):
    """The traces that are named, and the replay after them, or None."""
    *most, last = paths
    if most and not os.path.isdir(last) and not is_trace_name(last):
        return most, last
    return paths, None


def run(asked):
    if asked.all != (not asked.traces):
        raise Bad("name a trace, or give --all")
    program_found(asked.program)  # Before a kernel is asked, which takes longer.
    if asked.all:
        if asked.here:
            raise Bad("--all goes with --qemu or with the kept answers: the scenarios have more nodes than this machine")
        found = [one for version, kernel in kernels_asked(asked).items() for one in compare_all(asked, version, kernel)]
    else:
        named, replayed = split(asked.traces)
        if replayed and (asked.here or asked.qemu):
            raise Bad("--here and --qemu do not go together with a replay")
        paths = traces_named(named)
        if len(paths) == 1 and not asked.form and not os.path.isdir(named[0]):
            return compare_one(paths[0], replayed, asked)
        found = compare_many(paths, replayed, asked)
    write_file(None, FORMS[asked.form](found) if asked.form else text_of(found, asked.all))
    return int(fails(found))

"""Prints the report that a kernel is expected to give for a trace: the plain model with the rules of the known differences in place. Its
form is that of `numalab replay`; ? is a node that the rules do not determine. Nothing is claimed: `numalab compare` says where a
kernel answered differently."""
from ..linux import worlds
from ..linux.differences import ASKED
from ..traces import Bad, load, write_file
from .replay import privilege_of

SUMMARY = "the report that a kernel is expected to give"


def arguments(words):
    words.add_argument("trace", metavar="TRACE", help="a trace, .json or .nt")
    words.add_argument("--kernel", metavar="VERSION", choices=ASKED, required=True, help=", ".join(ASKED))
    words.add_argument("--nice-alone", action="store_true", help="privileged processes have CAP_SYS_NICE without CAP_SYS_PTRACE")
    words.add_argument("-o", metavar="OUT", dest="out", help="a file; standard output if none is named")


def run(asked):
    trace = load(asked.trace).check()
    if any(step.get("during") for step in trace.steps):
        raise Bad(f"{trace.name}: accesses in flight exist only in the model, and nothing is predicted about them")
    write_file(asked.out, worlds.report(trace.top, asked.kernel, privilege_of(asked)))
    return 0

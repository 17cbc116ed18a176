"""Makes a trace shorter for as long as the kernel answers a step of the same call in a way that is not expected of it (numalab
predict), and prints it as notation with both answers. All candidates of a round are played in one guest. The status is 1 where there
is such a step, and 0 where all is as expected."""
from ..linux import guest, many
from ..linux.compare import version_in
from ..linux.reducing import Reducer, find_in
from ..traces import Bad, load, write_file
from .hunt import text_of_find
from .replay import arguments_of_kernel, privilege_of

SUMMARY = "the fewest lines with which a kernel answers otherwise than expected"


def arguments(words):
    words.add_argument("trace", metavar="TRACE", help="a trace, .json or .nt")
    arguments_of_kernel(words)
    words.add_argument("-o", metavar="OUT", dest="out", help="a file; standard output if none is named")


def run(asked):
    if asked.kernel and not asked.qemu:
        raise Bad("--kernel needs --qemu")
    trace, privilege = load(asked.trace).check(), privilege_of(asked)
    kernel = guest.kernel_asked(asked.kernel) if asked.qemu else None

    def play(traces):
        if kernel is None:
            return [many.replay_here(one, privilege) for one in traces]
        return many.replay_in_guest([(one, privilege) for one in traces], kernel)

    text = play([trace])[0]
    if isinstance(text, Bad):
        raise text
    release = many.release_in(text)
    version = version_in(release)
    find, _ = find_in(trace, text, version, privilege)
    if find is None:
        print(f"{trace.name}: Linux {release} answers all steps as expected")
        return 0
    write_file(asked.out, text_of_find(Reducer(play, version, privilege).reduced(find), release))
    return 1

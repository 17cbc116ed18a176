"""Makes the calls of a trace with the real system calls of a kernel, and prints what the kernel answers: a report in the program's form, with
nodes in place of frames, between the lines '# Linux RELEASE' and '# end'.

--here uses the kernel of this machine, and its nodes; --qemu boots one under software emulation with the nodes and distances of the
trace. A status that the kernel does not write is -, a list of free frames is -, and a process that the kernel kills is 'killed'."""
from ..linux import guest, many
from ..linux.kernel import BOTH, NICE
from ..traces import Bad, load, write_file

SUMMARY = "make a trace's calls on a real kernel"


def arguments_of_kernel(words):
    """The arguments of all commands that ask a kernel."""
    where = words.add_mutually_exclusive_group()
    where.add_argument("--here", action="store_true", help="use the kernel of this machine (the default)")
    where.add_argument("--qemu", action="store_true", help="use a kernel under software emulation")
    words.add_argument("--kernel", metavar="VMLINUZ", help="with --qemu, a kernel image, or the version of one that is there, such as 6.12")
    words.add_argument("--nice-alone", action="store_true", help="privileged processes have CAP_SYS_NICE without CAP_SYS_PTRACE")


def arguments(words):
    words.add_argument("trace", metavar="TRACE", help="a trace, .json or .nt")
    arguments_of_kernel(words)
    words.add_argument("-o", metavar="OUT", dest="out", help="a file; standard output if none is named")


def privilege_of(asked):
    return NICE if asked.nice_alone else BOTH


def replayed_text(trace, asked):
    """What the requested kernel answers."""
    if asked.kernel and not asked.qemu:
        raise Bad("--kernel needs --qemu")
    if asked.qemu:
        return many.replayed_in_guest([(trace, privilege_of(asked))], guest.kernel_asked(asked.kernel))[0]
    return many.replay_here(trace, privilege_of(asked))


def run(asked):
    write_file(asked.out, replayed_text(load(asked.trace).check(), asked))
    return 0

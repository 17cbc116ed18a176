"""The words of `numalab policies --list`."""
import inspect
import textwrap

from .builtin import POLICIES

WORKLOADS = [
    ("zipf pages a", "the page of rank k is accessed in proportion to 1 / k^a; ranks are scattered over the addresses"),
    ("uniform pages", "every page is as likely as any other"),
    ("scan pages", "from the first page to the last, again and again"),
    ("phases pages hot heat every", "a part `hot` of the pages has a part `heat` of the accesses, and moves on after `every` epochs"),
    ("stencil pages border", "processes read and write pages of their own, and borders that each shares with the next"),
    ("gups pages", "random updates: each a read and a write of one page"),
    ("mix KIND .. share + KIND .. share", "several of these, each with pages and processes of its own"),
    ("lackey FILE", "what valgrind --tool=lackey --trace-mem=yes writes"),
    ("perf FILE", "what perf script prints of a record by perf mem, with times and addresses"),
    ("damon FILE", "the raw report of what DAMON recorded"),
    ("csv FILE", "lines of time, process, address and kind (r or w)"),
    ("numpy FILE", "an array with these four columns (needs NumPy)"),
]
COMMON = ("All have: accesses, epochs (20), processes, homes (the nodes that they run on), allowed (the nodes that they may use), pinned (a "
          "part of the pages) and, where there is a choice, writes (a part of the accesses, 0.25). Files have epochs, scale, homes and allowed.")


def paragraph(text, indent):
    return textwrap.wrap(text, 118, initial_indent=indent, subsequent_indent=indent)


def policy_lines(name, kind):
    """What is said of a policy."""
    parameters = list(inspect.signature(kind.__init__).parameters.values())[1:] if "__init__" in vars(kind) else []
    given = " ".join(f"{one.name}={one.default}" for one in parameters if one.default not in (None, inspect.Parameter.empty))
    return [f"{name} {given}".rstrip(), *paragraph(" ".join(kind.__doc__.split()), "    "),
            *paragraph(f"Modelled on {kind.modelled_on}.", "    "), *paragraph(f"Left out: {kind.left_out}.", "    ")]


def text():
    """Workloads, policies and bounds."""
    lines = ["Workloads", ""]
    for words, what in WORKLOADS:
        lines += [words, *paragraph(what[0].upper() + what[1:] + ".", "    ")]
    lines += ["", *paragraph(COMMON, ""), "", "Policies (none claims to be a kernel's)", ""]
    for name, kind in POLICIES.items():
        lines += policy_lines(name, kind)
    lines += ["", "Bounds, which are always there", "",
              "best static placement", *paragraph("The cheapest placement of the whole stream, known beforehand. No placement that stays passes it.", "    "),
              "best for each epoch", *paragraph("The cheapest placement of each epoch, known beforehand, with free moves. No policy passes it.", "    ")]
    return "\n".join(lines)

"""Names and small texts that all commands share."""

# Flags of move_pages, query and mbind, and the modes of mbind by their numbers.
FLAGS = {1: "MPOL_MF_STRICT", 2: "MPOL_MF_MOVE", 4: "MPOL_MF_MOVE_ALL"}
MODES = ["MPOL_DEFAULT", "MPOL_PREFERRED", "MPOL_BIND", "MPOL_INTERLEAVE", "MPOL_LOCAL"]
# Errors of calls and statuses, by their numbers.
ERRORS = {1: "EPERM", 2: "ENOENT", 3: "ESRCH", 5: "EIO", 12: "ENOMEM", 13: "EACCES", 14: "EFAULT", 16: "EBUSY", 19: "ENODEV",
          22: "EINVAL"}
PAGE = 4096
# What people ask for and the model leaves out, by the words that they use.
LEFT_OUT = {
    **dict.fromkeys(("set_mempolicy", "get_mempolicy", "set_mempolicy_home_node"), "the policy of a process"),
    **dict.fromkeys(("fork", "vfork", "clone"), "fork and copy on write"),
    **dict.fromkeys(("mremap", "mprotect", "madvise", "mlock", "brk"), "changes of areas other than map, attach and unmap"),
    **dict.fromkeys(("hugepage", "hugepages", "huge", "thp", "hugetlb"), "huge pages"),
    **dict.fromkeys(("swap", "swapon", "swapoff"), "swap"),
    **dict.fromkeys(("file", "open", "shm_open"), "files"),
}


def left_out_text(word):
    """That the model leaves out what a word asks for, or None."""
    what = LEFT_OUT.get(word.lower()) if isinstance(word, str) else None
    return what and f"the model leaves out {what}: docs/LINUX.md, 'Left out'"



def elements(values):
    return "1 element" if len(values) == 1 else f"{len(values):,} elements"


def counted(count, one, more=None):
    """A count with its noun."""
    return f"{count:,} {one if count == 1 else more or one + 's'}"


def flags_text(flags):
    """Flags by their names, if all have one."""
    names = [name for flag, name in FLAGS.items() if flags & flag]
    return "|".join(names) if names and flags < 8 else str(flags)


def mode_text(mode):
    return MODES[mode] if mode < len(MODES) else str(mode)


def status_text(status):
    """A status of a page with its name where it is an error."""
    return f"{status} {ERRORS.get(-status, '')}".strip() if status < 0 else str(status)


def nodes_text(nodes):
    """A list of nodes, consecutive ones as a range; read back, the text is the same list."""
    stretches = []
    for node in nodes:
        if stretches and stretches[-1][1] == node - 1:
            stretches[-1][1] = node
        else:
            stretches.append([node, node])
    return ",".join(f"{first}" if first == last else f"{first}-{last}" for first, last in stretches) or "none"


def printable(text):
    return "".join(character if character.isprintable() else "?" for character in text)

"""Stand-ins for proofs: holes. The proof of a function cites the contracts of those that it calls, and nothing else of them; so a check that
is to tell of some functions needs no proof of the others, and with --allow-holes takes a hole for it."""
import os
import re

from rounds.functions import blanked, module_of, names_of

TYPE = re.compile(r"\b(?:struct|enum)\s+(\w+)")
# The files in a function's folder of proofs/.
FILES = {"Answers.antt", "Invariants.antt", "Proof.antt"}
HOLE = """use Rattle.{crate}.proofs.{module}.Statement.{{statement}}

pub {name}_spec : {{M : Type 1}} → statement M
{name}_spec = ?
"""


def written(folder):
    """The folders below proofs/, by their paths from there, that hold files of a function's proof."""
    top = os.path.join(folder, "proofs")
    return sorted(os.path.relpath(at, top) for at, _, names in os.walk(top) if FILES.intersection(names))


def homes(sources, files):
    """For each type of the crate the modules of the files that declare one of that name."""
    found = {}
    for file in files:
        for name in TYPE.findall(blanked(sources.text_of(file) or "")):
            found.setdefault(name, []).append(module_of(file))
    return found


def places(crate, folder, sources, files):
    """For each function the folders below proofs/ that are for its proof: those that are there, or else the one that would be, which is in
    the module of the type that a method is of. None for a function of a cycle of calls, which has no proof of its own, nor for one of a
    trait without such files, whose folder has a name that only a check knows."""
    functions, of_type = sources.all(files), homes(sources, files)
    known = names_of(crate, functions, [f"{crate}::{path.replace('/', '::')}" for path in written(folder)])
    found = {}
    for each in functions:
        paths = ["/".join(name.split("::")[1:]) for name in known[each]]
        if not paths and not each.owner.trait:
            modules = of_type.get(each.owner.type, []) if each.owner.type else [each.modules]
            if len(modules) == 1:
                paths = ["/".join([*modules[0], *([each.owner.type] if each.owner.type else []), each.name])]
        found[each] = [] if each.cycle or each.name == "main" else paths
    return found


def put(crate, folder, paths):
    """Puts a stand-in into each of these folders below proofs/ of a copy of a crate, in place of what is there."""
    for path in paths:
        at = os.path.join(folder, "proofs", path)
        for name in FILES:
            if os.path.isfile(os.path.join(at, name)):
                os.remove(os.path.join(at, name))
        os.makedirs(at, exist_ok=True)
        with open(os.path.join(at, "Proof.antt"), "w", encoding="utf-8") as file:
            file.write(HOLE.format(crate=crate, module=path.replace("/", "."), name=path.rpartition("/")[2]))

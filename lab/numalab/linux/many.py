"""Replays of one trace or many: on this machine, or in guests, each of which plays all traces of one shape."""
import os

from ..traces import Bad, EndedEarly, load, read_file
from . import guest, player
from .differences import rows
from .instructions import Instructions, Unplayable, short_name
from .kernel import BOTH
from .replayed import HEAD, part_for, parts

SCENARIOS = os.path.join(os.path.dirname(os.path.dirname(os.path.dirname(os.path.abspath(__file__)))), "scenarios")


def scenarios():
    """The traces of the repository that kernels are asked with, each with the capabilities of its privileged processes."""
    if not os.path.isdir(SCENARIOS):
        raise Bad("the scenarios are only in the repository, in lab/scenarios, and are not installed")
    privileges = {row["id"]: row["privilege"] for row in rows() if "privilege" in row}
    names = sorted(name for name in os.listdir(SCENARIOS) if name.endswith(".nt"))
    return [(load(os.path.join(SCENARIOS, name)).check(), privileges.get(name[:-3], BOTH)) for name in names]


def kept(scenarios_asked, version):
    """What a kernel answered to the scenarios when they were last played, which is kept next to them."""
    path = os.path.join(SCENARIOS, version + ".replayed")
    text = text_of(read_file(path), path)
    return [part_for(text, short_name(trace.name), path) for trace, _ in scenarios_asked]


def text_of(data, name):
    try:
        return data.decode("ascii")
    except UnicodeDecodeError as error:
        raise Bad(f"{name}: byte {error.start} does not belong in a report") from error


def shape_of(trace, instructions):
    """What traces must have in common to share a guest."""
    machine = trace.top["machine"]
    if len(machine["nodes"]) > guest.MOST_NODES:
        raise Unplayable(f"{trace.name}: a guest has at most {guest.MOST_NODES} nodes")
    if 0 in instructions.offlined:
        raise Unplayable(f"{trace.name}: node 0 of a guest cannot go offline")
    return tuple(map(tuple, machine["distance"])), frozenset(instructions.offlined)


class Stopped(EndedEarly):
    """A trace at which a guest ended early: it hung, or its kernel panicked or told nothing."""


def whole_parts(told):
    """The reports of the traces that a guest has played to the end, by name."""
    found = parts(told.report)
    if told.trouble and found:
        found.popitem()  # The guest was at this one.
    return found


def play_in_guests(kernel, group, shape, stop=None):
    """The reports of traces that share a guest, in their order, each trace with the capabilities of its privileged processes. Where a
    guest ends early, the trace at which it was has what happened (Stopped), and another guest plays those after it."""
    texts, left, again = [], list(group), True
    while left:
        program = "".join(Instructions(trace, privilege=privilege).text() for trace, privilege in left)
        told = guest.told_by(kernel, player.built(), program, shape, stop)
        found = whole_parts(told)
        if told.trouble and "# trace " not in told.report:
            # It has not come to its first trace. A busy host may be why, and so it has a second chance.
            if not again or stop is not None and stop.is_set():
                raise EndedEarly(told.trouble)
            again = False
            continue
        names = [short_name(trace.name) for trace, _ in left]
        done = next((place for place, name in enumerate(names) if name not in found), len(names))
        texts += [found[name] for name in names[:done]]
        if done < len(left):
            texts.append(Stopped(f"{left[done][0].name}: {told.trouble or 'the player has not played it'}"))
        left = left[done + 1 :]
    return texts


def replay_in_guest(traces, kernel, progress=None):
    """The reports of a kernel on traces, in their order, or what happened instead. Each trace comes with the capabilities of its
    privileged processes."""
    groups, texts = {}, {}
    for place, (trace, privilege) in enumerate(traces):
        try:
            groups.setdefault(shape_of(trace, Instructions(trace, privilege=privilege)), []).append((place, trace, privilege))
        except Bad as fault:
            texts[place] = fault
    for number, ((distance, removable), group) in enumerate(groups.items()):
        if progress:
            progress.at(number, len(groups))
        sizes = [max(frames) for frames in zip(*(trace.top["machine"]["nodes"] for _, trace, _ in group))]
        told = play_in_guests(kernel, [(trace, privilege) for _, trace, privilege in group], (sizes, distance, removable))
        texts.update({place: text for (place, _, _), text in zip(group, told)})
    return [texts[place] for place in range(len(traces))]


def replayed_in_guest(traces, kernel, progress=None):
    """The same, where each trace must be played to its end."""
    texts = replay_in_guest(traces, kernel, progress)
    for text in texts:
        if isinstance(text, Bad):
            raise text
    return texts


def release_in(text):
    """The release that a replay names."""
    return HEAD.search(text)[1]


def replay_here(trace, privilege=BOTH):
    return player.play_here(trace, privilege)

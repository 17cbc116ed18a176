"""Hunting for what the rules do not explain: drawn traces, replayed lot by lot, and compared with what is expected."""
import concurrent.futures
import hashlib
import json
import os
import threading
from collections import namedtuple

from ..traces import Bad
from ..words import counted
from . import drawn, guest, many
from .compare import version_in
from .instructions import short_name
from .player import cache_folder, play_here
from .reducing import Reducer, find_in

HERE = os.path.dirname(os.path.abspath(__file__))
SOURCES = ["drawn.py", "differences.py", "differences.json", "kernel.py", "worlds.py", "vmas.py", "instructions.py", "calls.c", "player.c", "../model.py"]
# What a lot of traces has shown: how many traces and steps were compared, the finds with the numbers of their traces, and what is to
# be said of traces that were not played.
Seen = namedtuple("Seen", "traces steps finds troubles")


class Here:
    """This machine's kernel."""

    def __init__(self, nodes):
        self.nodes, self.release = nodes, os.uname().release

    def play(self, traces, lot, stop=None):
        texts = []
        for trace in traces:
            if stop is not None and stop.is_set():
                break
            try:
                texts.append(play_here(trace))
            except Bad as fault:
                texts.append(fault)
        return texts

    def drawn(self, seed, kind, number):
        return drawn.drawn(seed, kind, number, self.nodes, os.geteuid() == 0)

    def about(self, kind):
        return f"{counted(self.nodes, 'node')} and {drawn.KINDS[kind].steps} calls"


class Guests:
    """A kernel in guests."""

    def __init__(self, path):
        self.path, self.release = path, guest.release_of(path)

    def play(self, traces, lot, stop=None):
        group = [(trace, many.BOTH) for trace in traces]
        return many.play_in_guests(self.path, group, (lot.nodes, lot.distance, lot.removable), stop)

    def drawn(self, seed, kind, number):
        return drawn.drawn(seed, kind, number)

    def about(self, kind):
        return drawn.KINDS[kind].about


def state_path(release, seed, kind):
    """Where a hunt notes how far it has come, until it has ended. It begins anew where what it rests on has changed."""
    sources = hashlib.sha256()
    for name in SOURCES:
        with open(os.path.join(HERE, name), "rb") as file:
            sources.update(file.read())
    return os.path.join(cache_folder(), "hunts", f"{short_name(release)}-{kind}-{seed}-{sources.hexdigest()[:12]}.json")


class Hunt:
    """Traces of one kind on one kernel, from a seed."""

    def __init__(self, kernel, seed, kind, count):
        self.kernel, self.seed, self.kind, self.count = kernel, seed, kind, count
        self.version = version_in(kernel.release)
        self.stop = threading.Event()
        self.path = state_path(kernel.release, seed, kind)
        self.done = {}

    @property
    def lots(self):
        return range(-(-self.count // drawn.LOT))

    def numbers(self, lot):
        """The numbers of the traces of a lot."""
        return range(lot * drawn.LOT, min((lot + 1) * drawn.LOT, self.count))

    def lot(self, number):
        return drawn.lot_of(self.seed, self.kind, number)

    # ---- going on

    def load(self):
        """What an earlier hunt from this seed has done, and how many of its traces that were."""
        try:
            with open(self.path, encoding="utf-8") as file:
                known = json.load(file)
        except (OSError, ValueError):
            known = {}
        seen = {int(number): Seen(*told) for number, told in known.items()}
        self.done = {lot: one for lot, one in seen.items() if lot in self.lots and one.traces + len(one.troubles) == len(self.numbers(lot))}
        return sum(seen.traces + len(seen.troubles) for seen in self.done.values())

    def save(self):
        try:
            os.makedirs(os.path.dirname(self.path), exist_ok=True)
            with open(self.path + ".new", "w", encoding="utf-8") as file:
                json.dump({str(number): seen for number, seen in self.done.items()}, file)
            os.replace(self.path + ".new", self.path)
        except OSError as error:
            raise Bad(f"{error.filename or self.path}: {error.strerror}") from error

    def forget(self):
        """The hunt has ended, and begins anew where it is asked for again."""
        if os.path.exists(self.path):
            os.remove(self.path)

    # ---- hunting

    def hunt_lot(self, number):
        """Plays a lot; what is in it."""
        numbers = self.numbers(number)
        traces = [self.kernel.drawn(self.seed, self.kind, one) for one in numbers]
        texts = self.kernel.play(traces, self.lot(number), self.stop)
        played, steps, finds, troubles = 0, 0, [], []
        for one, trace, text in zip(numbers, traces, texts):
            if isinstance(text, Bad):
                troubles.append([one, str(text)])
                continue
            find, fit = find_in(trace, text, self.version)
            played, steps = played + 1, steps + (fit if find else len(trace.steps))
            if find:
                finds.append([one, find.step, trace.steps[find.step]["op"], find.expected, find.told])
        return Seen(played, steps, finds, troubles)

    def run(self, jobs, tell):
        """Plays all lots that are left, several at once; tells of each as it ends."""
        left = [number for number in self.lots if number not in self.done]
        with guest.Signals() as signals, concurrent.futures.ThreadPoolExecutor(jobs) as pool:
            asked = {pool.submit(self.hunt_lot, number): number for number in left}
            waiting = set(asked)
            try:
                while waiting:
                    ended, waiting = concurrent.futures.wait(waiting, guest.PAUSE, concurrent.futures.FIRST_COMPLETED)
                    signals.obey()
                    for future in ended:
                        self.done[asked[future]] = future.result()
                        self.save()
                        tell(self.total())
            except BaseException:
                self.stop.set()
                for future in asked:
                    future.cancel()
                raise
        return self.total()

    def total(self):
        """What all lots so far have shown."""
        seen = [self.done[number] for number in sorted(self.done)]
        return Seen(sum(one.traces for one in seen), sum(one.steps for one in seen), [find for one in seen for find in one.finds],
                    [trouble for one in seen for trouble in one.troubles])

    # ---- finds

    def reduced(self, number):
        """A find made shorter, or None where the kernel answers as expected when the trace is played again."""
        trace, lot = self.kernel.drawn(self.seed, self.kind, number), self.lot(number // drawn.LOT)

        def play(traces):
            return self.kernel.play(traces, lot, self.stop)

        text = play([trace])[0]
        if isinstance(text, Bad):
            raise text
        find, _ = find_in(trace, text, self.version)
        return find and Reducer(play, self.version).reduced(find)

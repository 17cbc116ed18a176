"""Runs policies side by side on one workload: each on a machine of its own, all on one count of the stream."""
import os
import traceback
from array import array
from collections import Counter

from ..program import Failed
from .bounds import EPOCHS, STATIC, Bounds
from .counting import epochs_of
from .loading import policy_of
from .machine import Machine
from .results import Results, bound_row, row_of
from .view import BrokenRule, View, call_text, status_names


class StoppedPolicy(Exception):
    """A policy has broken its rules: what is said of it."""


class Run:
    """One policy, from its start to its end."""

    def __init__(self, recipe, setup, workload, plan, keep=False):
        self.label, self.plan, self.workload = recipe["label"], plan, workload
        self.policy, self.path = policy_of(recipe), recipe.get("path", "")
        self.machine = Machine(setup, workload, plan.program, keep)
        self.sharers, self.placed, self.refused = len(workload.processes), set(), set()
        self.pinned, self.during = set(workload.pinned), []
        self.free_at_start = self.machine.free()
        self.view = View(self.machine, plan.sample)
        self.view.fast = plan.fast
        self.view.slow = [node for node in setup.nodes if node not in plan.fast]
        self.calls = []  # by epoch, in words
        try:
            self.ask(-1, self.policy.start)
            self.at_start = self.view._answers
        except BaseException:
            self.machine.abandon()
            raise

    def ask(self, number, method):
        """Asks the policy. What it raises, and what breaks the rules, is one error that names it and the epoch."""
        self.view._begin()
        try:
            method(self.view)
        except Failed:
            raise
        except Exception as error:
            when = "its start" if number < 0 else f"epoch {number}"
            what = str(error) if isinstance(error, BrokenRule) else f"{type(error).__name__}: {error}"
            raise StoppedPolicy(f"policy {self.label} in {when}: {what}{self.place_of(error)}") from error

    def place_of(self, error):
        """The last line of the policy's own file, if it has one."""
        frames = traceback.extract_tb(error.__traceback__)
        lines = [frame.lineno for frame in frames if self.path and frame.filename == os.path.abspath(self.path)]
        return f" ({self.path}:{lines[-1]})" if lines else ""

    def touch(self, epoch):
        """The first access to each place takes a frame, in the order in which they come; pages that are pinned get their pin."""
        for place in epoch.places:
            if place in self.placed:
                continue
            self.view._forget()
            page, process = divmod(place, self.sharers)
            if not self.machine.touch(page, process):
                self.refused.add(place)
                continue
            self.placed.add(place)
            self.refused.discard(place)
            if page in self.pinned:
                self.machine.pin(page, process)
                self.pinned.discard(page)

    def epoch(self, epoch, last):
        """Plays an epoch, and asks the policy after it unless it is the last; returns the row."""
        first, before = self.machine.made, self.machine.pages_moved()
        self.touch(epoch)
        self.during = list(self.view._where())
        row = row_of(self.label, epoch, self.during, self.refused, self.plan, self.machine.setup.distance)
        self.view._show(epoch, self.sharers)
        stopped = None
        if not last:
            try:
                self.ask(epoch.number, self.policy.epoch)
            except StoppedPolicy as error:
                stopped = error
        answers, self.at_start = [*self.at_start, *([] if last else self.view._answers)], []
        stayed = sum((status_names(answer) for answer in answers), Counter())
        errors = Counter(f"{answer.call} {answer.error}" for answer in answers if answer.error)
        row.update(calls=len(answers), moved=self.machine.pages_moved() - before, stayed=dict(sorted(stayed.items())),
                   refused_calls=dict(sorted(errors.items())), free=[self.view.free(node) for node in self.view.nodes], first_step=first, last_step=self.machine.made - 1)
        self.calls.append([call_text(answer) for answer in answers])
        return row, stopped


class BoundRows:
    """The two bounds, of which the first needs the whole stream."""

    def __init__(self, run, plan):
        processes = run.workload.processes
        self.plan, self.distance = plan, run.machine.setup.distance
        allowed = sorted(set.union(*(set(process.allowed) for process in processes)))
        self.bounds = Bounds(plan.costs, [process.home for process in processes], run.free_at_start, allowed)
        self.total, self.kept = Counter(), []  # of each epoch its number, its places and their counts

    def add(self, epoch):
        """The row of the best placement for an epoch."""
        self.total.update(epoch.places)
        counts = epoch.places.values()
        self.kept.append((epoch.number, array("I", epoch.places), array("I" if max(counts, default=0) < 1 << 32 else "Q", counts)))
        return bound_row(EPOCHS, epoch.number, epoch.places, self.bounds.placement(epoch.places), self.plan, self.distance)

    def static_rows(self):
        placement = self.bounds.placement(self.total)
        for number, places, counts in self.kept:
            yield bound_row(STATIC, number, dict(zip(places, counts)), placement, self.plan, self.distance)


def compare(recipes, setup, workload, plan, progress=None, keep=False, film=None):
    """The results of all policies and both bounds. `keep` keeps the traces; `film` notes where pages are during each epoch."""
    results, runs = Results(workload, setup, plan), []
    try:
        for recipe in recipes:
            begin(recipe, setup, workload, plan, keep, runs, results)
        bounding = None
        for epoch in epochs_of(workload, plan.sample, plan.seed, progress):
            for run in list(runs):
                row, stopped = run.epoch(epoch, epoch.number == workload.epochs - 1)
                bounding = bounding or BoundRows(run, plan)
                results.add(row)
                if film:
                    film.add(run.label, epoch.number, run.during)
                if stopped:
                    results.errors.append(str(stopped))
                    runs.remove(run)
                    end(run, results)
            if bounding:
                results.add(bounding.add(epoch))
        for row in bounding.static_rows() if bounding else ():
            results.add(row)
        for place, count in bounding.total.items() if bounding else ():
            results.heat[place // len(workload.processes)] = results.heat.get(place // len(workload.processes), 0) + count
        while runs:
            end(runs.pop(0), results)
    except BaseException:
        for run in runs:
            run.machine.abandon()
        raise
    return results


def end(run, results):
    """Ends the run of a policy, and keeps its calls and its trace."""
    results.calls[run.label] = run.calls
    if run.machine.kept is not None:
        results.traces[run.label] = run.machine.trace(f"the calls of the policy {run.label} on {run.workload.name}")
    run.machine.close()


def begin(recipe, setup, workload, plan, keep, runs, results):
    """Starts the run of a policy; one that stops at its start has no rows."""
    try:
        runs.append(Run(recipe, setup, workload, plan, keep))
    except StoppedPolicy as stopped:
        results.errors.append(str(stopped))

"""Sweeps: every combination of some values and seeds, shared among processes or the workers of a Dask cluster. What is done is kept
as it comes. The rows are the same whoever computes them."""
import concurrent.futures
import concurrent.futures.process
import csv
import gc
import hashlib
import io
import itertools
import json
import logging
import multiprocessing
import os
import statistics
from collections import namedtuple

from .. import __version__
from ..program import Failed, found
from ..traces import Bad
from .job import parts_of, run_job, setup_of_job
from .loading import policy_of
from .results import BOUNDS, UNKNOWN, above_text, align, cost_text, share_text
from .spec import number_of
from .streams import FORMATS

CACHE = os.path.join("~", ".cache", "numalab", "sweeps")

# A combination: the values by their names as they were given, the seed, and the job.
Combination = namedtuple("Combination", "values seed job")


# ---- what to run


def values_of(text):
    """A sweep such as a=0.8,1.0,1.2."""
    name, sign, values = text.partition("=")
    found_values = values.split(",")
    if not sign or not name or not all(found_values) or len(set(found_values)) < len(found_values):
        raise Bad(f"--sweep {text}: expected a name and different values, such as a=0.8,1.0")
    return name, found_values


def with_parameter(job, policy, name, value):
    """A job with another value of a policy's parameter."""
    recipes = [{**recipe, "parameters": {**recipe["parameters"], name: value}} if recipe["name"] == policy else recipe for recipe in job["policies"]]
    if not any(recipe["name"] == policy for recipe in recipes):
        raise Bad(f"--sweep {policy}.{name}: there is no policy {policy} among those that are compared")
    for recipe in recipes:
        policy_of(recipe)
    return {**job, "policies": recipes}


def with_value(job, name, value):
    """A job with another value: of a policy's parameter, of a node's frames, or of a parameter of the workload."""
    setup, (policy, sign, parameter) = setup_of_job(job), name.partition(".")
    if name in setup.names or name.startswith("node"):
        sized = setup.with_frames(name, number_of(value, f"--sweep {name}"))
        if sized:
            return {**job, "machine": {**job["machine"], "top": sized.top}}
    if sign:
        return with_parameter(job, policy, parameter, value)
    words, given = job["workload"].split(" "), f"{name}={value}"
    places = [k for k, word in enumerate(words) if word.startswith(name + "=")]
    if not places and words[0] == "mix":
        raise Bad(f"--sweep {name}: no part of the mix has this parameter")
    for k in places:
        words[k] = given
    return {**job, "workload": " ".join(words if places else [*words, given])}


def combinations(job, sweeps, seeds):
    """All combinations, each refused before any is run."""
    named = [values_of(text) for text in sweeps]
    if len({name for name, _ in named}) < len(named):
        raise Bad("--sweep names something twice")
    todo = []
    for chosen in itertools.product(*(values for _, values in named)):
        values, now = dict(zip((name for name, _ in named), chosen)), job
        for name, value in values.items():
            now = with_value(now, name, value)
        if now["workload"].split()[0] not in FORMATS:  # Files are long.
            parts_of(now)
        todo += [Combination(values, job["seed"] + k, {**now, "seed": job["seed"] + k}) for k in range(seeds)]
    return todo


# ---- running


def run_combination(job, program=None):
    """The rows of a combination, as plain values."""
    results = run_job(job, program)
    rows = [row for label in results.labels() for row in results.rows_of(label)]
    if not gc.isenabled():  # As in the processes of the command; a worker of Dask looks for cycles by itself.
        gc.collect()
    return {"rows": rows, "totals": results.totals(), "errors": results.errors}


def on_processes(jobs, program):
    """Runs jobs in processes of this machine; gives each one's number and rows as they come."""
    def runner(todo):
        with concurrent.futures.ProcessPoolExecutor(jobs) as pool:
            futures = {pool.submit(run_combination, job, program): number for number, job in todo}
            try:
                for future in concurrent.futures.as_completed(futures):
                    yield futures[future], future.result()
            except BaseException as error:
                pool.shutdown(wait=False, cancel_futures=True)
                for process in multiprocessing.active_children():
                    process.terminate()
                if isinstance(error, concurrent.futures.process.BrokenProcessPool):
                    raise Failed("a process of the sweep has ended before its time") from error
                raise
    return runner


def on_dask(address, program):
    """The same on the workers of a Dask cluster, which need numalab and the program."""
    try:
        import distributed
    except ImportError:
        raise Bad("--dask needs Python's module distributed, which is not installed (Debian's package python3-distributed)") from None

    for name in ("asyncio", "distributed"):  # They also tell of connections that end late, which says nothing of the rows.
        logging.getLogger(name).setLevel(logging.CRITICAL)

    def runner(todo):
        try:
            client = distributed.Client(address, timeout=10)
        except (OSError, ValueError) as error:
            raise Bad(f"--dask {address}: no scheduler answers there ({type(error).__name__})") from error
        with client:
            futures = {client.submit(run_combination, job, program, pure=False): number for number, job in todo}
            for future in distributed.as_completed(list(futures)):
                try:
                    yield futures[future], future.result()
                except ModuleNotFoundError as error:
                    raise Bad(f"--dask {address}: a worker has no module {error.name}: pip install ./lab there") from error
                except (Bad, Failed):
                    raise
                except Exception as error:  # (Dask has many, of which each means that a worker has gone)
                    raise Failed(f"--dask {address}: {type(error).__name__}: {error}") from error
    return runner


class Store:
    """A file with what is done of a job's combinations, a line for each, by a digest of all that its rows come from. Where no file is
    named each job has its own, whatever is swept."""

    def __init__(self, path, job, program):
        with open(found(program, "numatrace_session", "numatrace-session", "NUMATRACE_SESSION"), "rb") as file:
            self.front = __version__ + hashlib.sha256(file.read()).hexdigest()
        self.path = path or os.path.join(os.path.expanduser(CACHE), self.key(job)[:16] + ".jsonl")
        self.done, self.file = {}, None

    def __enter__(self):
        try:
            os.makedirs(os.path.dirname(os.path.abspath(self.path)), exist_ok=True)
            self.file = open(self.path, "a+", encoding="utf-8")
        except OSError as error:
            raise Bad(f"{self.path}: {error.strerror}") from error
        self.file.seek(0)
        whole = True
        for line in self.file:
            whole = line.endswith("\n")
            try:
                one = json.loads(line)
                self.done[one["key"]] = one["found"]
            except (ValueError, KeyError, TypeError):
                continue  # A line that an interrupt cut off.
        if not whole:
            self.file.write("\n")
        return self

    def __exit__(self, *_):
        self.file.close()

    def key(self, job):
        return hashlib.sha256((self.front + json.dumps(job, sort_keys=True)).encode()).hexdigest()

    def get(self, job):
        return self.done.get(self.key(job))

    def count(self, todo):
        """How many of some combinations are done."""
        return sum(self.get(one.job) is not None for one in todo)

    def put(self, job, what):
        self.done[self.key(job)] = what
        self.file.write(json.dumps({"key": self.key(job), "found": what}) + "\n")
        self.file.flush()


def run_sweep(todo, runner, kept, progress):
    """What each combination gave, in their order; those that are not kept are run."""
    done = [kept.get(one.job) for one in todo]
    missing = [(number, one.job) for number, one in enumerate(todo) if done[number] is None]
    progress.at(len(todo) - len(missing), len(todo))
    for count, (number, what) in enumerate(runner(missing) if missing else (), len(todo) - len(missing) + 1):
        done[number] = json.loads(json.dumps(what))  # As it is read back, whoever computed it.
        if not what["errors"]:
            kept.put(todo[number].job, what)
        progress.at(count, len(todo))
    return done


# ---- as text


def values_text(values):
    return " ".join(f"{name}={value}" for name, value in values.items()) or "all"


def errors_of(todo, done):
    return [f"{values_text(one.values)} seed={one.seed}: {error}" for one, what in zip(todo, done) for error in what["errors"]]


def json_lines(todo, done):
    """The rows of all combinations: by epoch, and then over all epochs."""
    for one, what in zip(todo, done):
        front = {"values": one.values, "seed": one.seed}
        for row in what["rows"]:
            yield json.dumps({**front, **row})
        for total in what["totals"]:
            yield json.dumps({**front, "total": True, **total})


def csv_text(todo, done):
    """A row for each combination, seed and policy."""
    names, keys = list(todo[0].values), ["fast_share", "mean_cost", "mean_cost_with_moves", "moved", "refused", "above_static", "above_each_epoch"]
    out = io.StringIO()
    writer = csv.writer(out, lineterminator="\n")
    writer.writerow([*names, "seed", "policy", "accesses", *keys])
    for one, what in zip(todo, done):
        for total in what["totals"]:
            writer.writerow([*one.values.values(), one.seed, total["policy"], total["accesses"], *(total[key] for key in keys)])
    return out.getvalue()


def spread(values, text):
    """A mean, and what it varies by where there are several."""
    values = [value for value in values if value is not None]
    if not values:
        return UNKNOWN
    more = f" ±{text(statistics.stdev(values)).lstrip('+')}" if len(values) > 1 else ""
    return text(statistics.mean(values)) + more


def totals_by_values(todo, done):
    """Combinations without their seeds: the values, and for each policy its totals by seed."""
    groups = {}
    for one, what in zip(todo, done):
        policies = groups.setdefault(tuple(one.values.items()), {})
        for total in what["totals"]:
            policies.setdefault(total["policy"], []).append(total)
    return groups


def table_of(todo, done):
    """Means over the seeds, with their standard deviations."""
    heads = [*(todo[0].values or ["combination"]), "policy", "fast", "mean cost", "moved", "above static", "above each epoch"]
    lines = []
    for values, policies in totals_by_values(todo, done).items():
        for policy, totals in policies.items():
            column = {key: [total[key] for total in totals] for key in ("fast_share", "mean_cost", "moved", "above_static", "above_each_epoch")}
            lines.append([*(value for _, value in values or (("", "all"),)), policy, spread(column["fast_share"], share_text),
                          spread(column["mean_cost"], cost_text),
                          UNKNOWN if policy in BOUNDS else spread(column["moved"], lambda value: f"{value:,.0f}"),
                          spread(column["above_static"], above_text), spread(column["above_each_epoch"], above_text)])
    return align(heads, lines)

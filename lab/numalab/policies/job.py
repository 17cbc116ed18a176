"""A comparison as plain values, so that another process, on this machine or another, can run it."""
from ..traces import Bad
from .costs import Costs
from .laboratory import compare
from .loading import policies_of
from .results import Plan
from .setups import Setup
from .spec import number_of
from .streams import FORMATS, read_from
from .workloads import make_workload


def workload_of(text, setup, seed):
    """The workload that some words describe: a generated one, or a file's."""
    if not text.split():
        raise Bad("--workload is empty")
    return read_from(text, setup) if text.split()[0] in FORMATS else make_workload(text, setup, seed)


def job_of(setup, asked):
    """The job that the arguments of the command ask for. What is wrong with it is told before anything is run."""
    job = {"machine": {"top": setup.top, "names": setup.names, "tiers": setup.tiers}, "workload": asked.workload,
           "policies": policies_of(asked.policy), "latency": asked.latency, "move_cost": number_of(asked.move_cost, "--move-cost", False),
           "fast": asked.fast, "sample": number_of(asked.sample, "--sample"), "seed": number_of(asked.seed, "--seed")}
    if job["sample"] < 1:
        raise Bad("--sample is 1 or more")
    return job


def setup_of_job(job):
    return Setup(job["machine"]["top"], job["machine"]["names"], job["machine"]["tiers"])


def parts_of(job, program=None):
    """The machine, the workload and the plan of a job, or what is wrong with them."""
    setup = setup_of_job(job)
    workload = workload_of(job["workload"], setup, job["seed"])
    homes = [process.home for process in workload.processes]
    fast = setup.node_list(job["fast"], "--fast") if job["fast"] else setup.first_tier() or homes
    frames = sum(setup.frames[node] for node in workload.processes[0].allowed)
    if workload.pages > frames:
        raise Bad(f"the workload has {workload.pages:,} pages, and its processes may use {frames:,} frames")
    costs = Costs(setup, homes, job["latency"], job["move_cost"])
    return setup, workload, Plan(costs, sorted(set(fast)), homes, job["sample"], job["seed"], program)


def run_job(job, program=None, progress=None, keep=False, film=None):
    """The results of a job."""
    setup, workload, plan = parts_of(job, program)
    if film:
        film.begin(workload.epochs)
    return compare(job["policies"], setup, workload, plan, progress, keep, film)

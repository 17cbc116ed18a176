"""What `numalab policies` does: one comparison, or a sweep, and where its results go."""
import os
import sys

from ..progress import Progress
from ..traces import Bad, write_file
from ..words import counted, printable
from . import listing, page, results, setups, sweeps
from .film import Film
from .job import job_of, run_job
from .spec import number_of

MOST_TRACE = 16777216


def endings(asked):
    """The form of the output file, refused before anything is run."""
    ending = os.path.splitext(asked.out or "")[1]
    if asked.out and ending not in (".html", ".htm", ".jsonl", ".csv"):
        raise Bad(f"{asked.out}: expected a name that ends in .html, .jsonl or .csv")
    if asked.out and not os.access(os.path.dirname(os.path.abspath(asked.out)), os.W_OK):
        raise Bad(f"{asked.out}: its folder is not there, or not writable")
    if asked.jsonl and asked.csv:
        raise Bad("--jsonl and --csv do not go together")
    return ending


def trace_paths(asked, labels):
    """Where the trace of each policy goes, in a folder that is there."""
    if not asked.save_trace:
        return {}
    if len(labels) == 1 and not os.path.isdir(asked.save_trace) and not asked.save_trace.endswith(os.sep):
        return {labels[0]: asked.save_trace}
    try:
        os.makedirs(asked.save_trace, exist_ok=True)
    except OSError as error:
        raise Bad(f"{asked.save_trace}: {error.strerror}") from error
    names = ["".join(letter if letter.isalnum() or letter in "-_." else "-" for letter in label) + ".json" for label in labels]
    return {label: os.path.join(asked.save_trace, name) for label, name in zip(labels, names)}


def save_traces(traces, paths):
    """Writes the trace of each policy."""
    for label, text in traces.items():
        if len(text) > MOST_TRACE:
            print(f"numalab: {paths[label]} has {len(text):,} bytes, and numatrace reads at most {MOST_TRACE:,}: fewer epochs make a shorter one", file=sys.stderr)
        write_file(paths[label], text)


def one_comparison(asked, job, ending):
    film, paths = Film() if ending.startswith(".htm") else None, trace_paths(asked, [recipe["label"] for recipe in job["policies"]])
    with Progress("accesses counted") as progress:
        found = run_job(job, asked.program, progress, bool(paths), film)
    save_traces(found.traces, paths)
    if ending.startswith(".htm"):
        write_file(asked.out, page.page_of(found, film, paths))
    elif asked.out:
        write_file(asked.out, results.csv_text(found) if ending == ".csv" else "".join(line + "\n" for line in results.json_lines(found)))
    if asked.jsonl:
        lines = list(results.json_lines(found))
    elif asked.csv:
        lines = results.csv_text(found).splitlines()
    else:
        lines = [*results.about(found), "", *(results.epoch_table_of(found) + [""] if asked.each_epoch else []), *results.table_of(found)]
    print("\n".join(map(printable, lines)))
    for error in found.errors:
        print(f"numalab: {printable(error)}", file=sys.stderr)
    return 1 if found.errors else 0


def sweep(asked, job, ending):
    if asked.save_trace or asked.each_epoch:
        raise Bad("--save-trace and --each-epoch are for a single comparison: repeat one combination without --sweep and --seeds")
    seeds = number_of(asked.seeds or "1", "--seeds")
    jobs = number_of(asked.jobs, "--jobs") if asked.jobs else len(os.sched_getaffinity(0))
    if seeds < 1 or jobs < 1:
        raise Bad("--seeds and --jobs are 1 or more")
    todo = sweeps.combinations(job, asked.sweep, seeds)
    runner = sweeps.on_dask(asked.dask, asked.program) if asked.dask else sweeps.on_processes(jobs, asked.program)
    with sweeps.Store(asked.keep, job, asked.program) as kept, Progress("combinations done") as progress:
        try:
            done = sweeps.run_sweep(todo, runner, kept, progress)
        except KeyboardInterrupt:
            print(f"numalab: {kept.count(todo)} of {counted(len(todo), 'combination')} are kept in {kept.path}", file=sys.stderr)
            raise
    if ending.startswith(".htm"):
        write_file(asked.out, page.sweep_page_of(todo, done))
    elif asked.out:
        write_file(asked.out, sweeps.csv_text(todo, done) if ending == ".csv" else "".join(line + "\n" for line in sweeps.json_lines(todo, done)))
    lines = sweeps.json_lines(todo, done) if asked.jsonl else sweeps.csv_text(todo, done).splitlines() if asked.csv else sweeps.table_of(todo, done)
    print("\n".join(map(printable, lines)))
    errors = sweeps.errors_of(todo, done)
    for error in errors:
        print(f"numalab: {printable(error)}", file=sys.stderr)
    return 1 if errors else 0


def run(asked):
    if asked.list:
        print(listing.text())
        return 0
    if not asked.machine or not asked.workload:
        raise Bad("--machine and --workload say what to compare on; --list names workloads and policies")
    ending = endings(asked)
    job = job_of(setups.setup_of(asked.machine), asked)
    if asked.sweep or asked.seeds:
        return sweep(asked, job, ending)
    if asked.jobs or asked.dask or asked.keep:
        raise Bad("--jobs, --dask and --keep are for a sweep: --sweep or --seeds makes one")
    return one_comparison(asked, job, ending)

"""Compares placement policies on a workload: what moved, what could not and why, how many accesses came from which node, and what
that costs. Every call of a policy is made by the program numatrace_session on a modelled machine; nothing else here is proved, and
the model has no notion of time, bandwidth, contention, huge pages or caches.

    numalab policies --machine cxl.nt --workload 'zipf pages=4000 a=0.99 accesses=5e6' \\
        --policy first-touch --policy interleave --policy hints --policy my.py:HotCold -o report.html

A workload is 'KIND name=value ..', and a policy 'NAME name=value ..' or 'FILE.py:CLASS name=value ..'; --list names kinds, policies
and their parameters. OUT is a page (.html), lines of JSON (.jsonl) or CSV (.csv). With --sweep and --seeds every combination is
run, and what is done is kept and not done again."""

SUMMARY = "compare placement policies on a workload"


def arguments(words):
    words.add_argument("--list", action="store_true", help="name the workloads and the built-in policies, with their sources")
    words.add_argument("--machine", metavar="FILE", help="a machine: a trace or notation, whose steps are played first")
    words.add_argument("--workload", metavar="WORDS", help="such as 'zipf pages=4000 a=0.99 accesses=5e6' or 'lackey FILE epochs=10'")
    words.add_argument("--policy", metavar="WORDS", action="append", help="a policy; all built-in ones if none is named")
    words.add_argument("--latency", metavar="NODE=COST,..", help="what an access costs, as 0=90,1=140 or with its process's node, 0:1=140; the distance if not given")
    words.add_argument("--move-cost", metavar="COST", default="0", help="what a moved page costs, in the same unit (0)")
    words.add_argument("--fast", metavar="SET", help="the fast nodes: by default the first tier, or the nodes of the processes")
    words.add_argument("--sample", metavar="N", default="100", help="policies see one access of N (100)")
    words.add_argument("--seed", metavar="N", default="1", help="the seed of all draws (1)")
    words.add_argument("-o", metavar="OUT", dest="out", help="a file .html, .jsonl or .csv")
    words.add_argument("--jsonl", action="store_true", help="print lines of JSON in place of the table")
    words.add_argument("--csv", action="store_true", help="print CSV in place of the table")
    words.add_argument("--each-epoch", action="store_true", help="print a row for each epoch as well")
    words.add_argument("--save-trace", metavar="OUT", help="keep the calls as a trace: a file for one policy, a folder for several")
    words.add_argument("--sweep", metavar="NAME=A,B,..", action="append", default=[], help="run all values of a parameter of the workload, of a policy (hints.scan), or of the frames of a node by its name")
    words.add_argument("--seeds", metavar="N", help="run each combination with N seeds")
    words.add_argument("--jobs", metavar="N", help="how many processes share a sweep (one for each processor)")
    words.add_argument("--dask", metavar="ADDRESS", help="share a sweep among the workers of a Dask cluster")
    words.add_argument("--keep", metavar="FILE", help="where a sweep keeps what is done; by default in ~/.cache/numalab/sweeps")
    words.add_argument("--program", metavar="PATH", help="the path of the program numatrace_session")


def run(asked):
    from ..policies import command  # (NumPy, where it is installed, takes some time to import)
    return command.run(asked)

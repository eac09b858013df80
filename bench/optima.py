"""Time to the proved optimum: the library beside z3, cbc and glpk.

usage: optima.py MEASURE FILE..     MEASURE is the program `measure` of bench/library; the files' names end in -SIZE-NUMBER.batch, sizes rising

Each solver is a process of its own, and its time is the wall clock's from start to end. Where the first run takes under a second there are four more, in turns,
and the median counts. A solver that passes the limit is not asked again. All optima must agree. Prints a line a batch, fields
apart by tabs, a head line first; '>' and the limit where a solver passed it, '-' where it was not asked.
"""
import os
import re
import statistics
import subprocess
import sys
import tempfile
import time

sys.dont_write_bytecode = True
sys.path.insert(0, os.path.join(os.path.dirname(os.path.abspath(__file__)), "..", "tests"))
from batches import apart, stay  # noqa: E402

LIMIT = 30  # seconds for one run
RUNS = 5
SHORT = 1  # seconds up to which a run is repeated


def stop(words):
    print("bench/optima.py: " + words, file=sys.stderr)
    sys.exit(2)


def read_batch(path):
    """Jobs (lists of masks), delays (from, to, weight) and clashes (i, j, d) of a batch file."""
    with open(path) as file:
        frames = [bytes.fromhex(line) for line in file.read().splitlines()]
    edition, n = frames[0][1:3]
    if edition != 1:
        stop("%s is of edition %02X; the models here have no windows and no rests" % (path, edition))
    jobs = [[int.from_bytes(f[k:k + 2], "big") for k in range(2, len(f), 2)] for f in frames[1:1 + n]]
    delays = [(f[1], f[2], int.from_bytes(f[3:5], "big", signed=True)) for f in frames[1 + n:]]
    clashes = [(i, j, d) for i in range(n) for j in range(i + 1, n) for d in sorted(apart(jobs[i], jobs[j]))]
    return jobs, delays, clashes


# ---- models

def smt_model(jobs, delays, clashes):
    """For z3: whole starts, a clash as a choice of two inequalities, the latency to be least."""
    def at_least(j, i, w):
        return "(>= (- t%d t%d) %s)" % (j, i, w if w >= 0 else "(- %d)" % -w)
    starts = range(len(jobs))
    says = ["(>= t%d 0)" % i for i in starts] + ["(>= latency (+ t%d %d))" % (i, stay(jobs[i])) for i in starts]
    says += [at_least(j, i, w) for i, j, w in delays]
    says += ["(or %s %s)" % (at_least(j, i, d + 1), at_least(i, j, 1 - d)) for i, j, d in clashes]
    text = ["(declare-const t%d Int)" % i for i in starts] + ["(declare-const latency Int)"]
    text += ["(assert %s)" % s for s in says]
    return "\n".join(text + ["(minimize latency)", "(check-sat)", "(get-value (latency))", ""])


def horizon(jobs, delays, clashes):
    """A latency that some shortest plan does not pass. Its starts are longest paths over delays and one side of each clash, and a path enters a job at most once."""
    entering = [0] * len(jobs)
    for i, j, w in delays:
        entering[j] = max(entering[j], w)
    for i, j, d in clashes:
        entering[j] = max(entering[j], d + 1)
        entering[i] = max(entering[i], 1 - d)
    return sum(entering) + max(stay(masks) for masks in jobs)


def lp_model(jobs, delays, clashes):
    """For cbc and glpk: a row a delay, one 0/1 variable and two rows a clash with the least big-M that the horizon allows. The starts need not be declared whole:
    once the 0/1 variables are chosen, only differences with whole bounds are left."""
    last = horizon(jobs, delays, clashes)
    starts = range(len(jobs))
    text = ["Minimize", " obj: latency", "Subject To"]
    text += [" finish%d: latency - t%d >= %d" % (i, i, stay(jobs[i])) for i in starts]
    text += [" delay%d: t%d - t%d >= %d" % (k, j, i, w) for k, (i, j, w) in enumerate(delays)]
    for k, (i, j, d) in enumerate(clashes):
        above, below = last - stay(jobs[i]) + d + 1, last - stay(jobs[j]) + 1 - d
        text.append(" above%d: t%d - t%d - %d x%d >= %d" % (k, j, i, above, k, d + 1 - above))
        text.append(" below%d: t%d - t%d + %d x%d >= %d" % (k, i, j, below, k, 1 - d))
    text += ["Bounds"] + [" 0 <= t%d <= %d" % (i, last - stay(jobs[i])) for i in starts] + [" 0 <= latency <= %d" % last]
    text += ["Generals", " latency"]
    if clashes:
        text += ["Binaries"] + [" x%d" % k for k in range(len(clashes))]
    return "\n".join(text + ["End", ""])


# ---- solvers: the command, and the latency ('none' where no plan exists) out of what it wrote

def read_library(printed, _):
    found = re.fullmatch(r"(none|\d+) \d+\n", printed)
    return found and found[1]


def read_z3(printed, _):
    if printed.startswith("unsat"):
        return "none"
    found = re.fullmatch(r"sat\n\(\(latency (\d+)\)\)\n", printed)
    return found and found[1]


def read_cbc(_, solution):
    if re.match("(Integer i|I)nfeasible", solution):
        return "none"
    found = re.match(r"Optimal - objective value (\d+)\.0+\n", solution)
    return found and found[1]


def read_glpk(_, solution):
    found = re.search(r"^s mip \d+ \d+ (o (\d+)|n .*)$", solution, re.MULTILINE)
    return found and (found[2] or "none")


def solvers(measure, path, folder):
    """Name, command and reader of each; the models are written here, outside the time."""
    batch = read_batch(path)
    smt, lp, solution = (os.path.join(folder, name) for name in ("model.smt2", "model.lp", "solution"))
    for name, text in [(smt, smt_model(*batch)), (lp, lp_model(*batch))]:
        with open(name, "w") as file:
            file.write(text)
    return {"library": ([measure, "optimum", path], read_library),
            "z3": (["z3", smt], read_z3),
            "cbc": (["cbc", lp, "solve", "solution", solution], read_cbc),
            "glpk": (["glpsol", "--lp", lp, "--write", solution], read_glpk)}, solution


def timed(command, reader, solution):
    """Seconds and latency of one run; no latency where it passes the limit."""
    if os.path.exists(solution):
        os.remove(solution)
    begin = time.perf_counter()
    try:
        done = subprocess.run(command, capture_output=True, text=True, timeout=LIMIT)
    except subprocess.TimeoutExpired:
        return LIMIT, None
    took = time.perf_counter() - begin
    wrote = ""
    if os.path.exists(solution):
        with open(solution) as file:
            wrote = file.read()
    latency = reader(done.stdout, wrote)
    if latency is None:
        stop("%s ended without an optimum: %s" % (command[0], (done.stderr or done.stdout)[-300:]))
    return took, latency


def measured(commands, solution, racing):
    """Seconds of each solver that is still racing, one list a solver, and the optimum on which they agree. Drops those that pass the limit."""
    seconds, optima = {}, {}
    for run in range(RUNS):
        for name in [n for n in racing if run == 0 or seconds[n][0] < SHORT]:
            took, latency = timed(*commands[name], solution)
            if latency is None:
                racing.remove(name)
                continue
            seconds.setdefault(name, []).append(took)
            optima.setdefault(name, set()).add(latency)
    agreed = set().union(*optima.values())
    if len(agreed) > 1:
        stop("the optima differ: %s" % optima)
    return seconds, agreed.pop() if agreed else "-"


def main(words):
    if len(words) < 2:
        stop("usage: optima.py MEASURE FILE..")
    for path in words:
        if not os.path.isfile(path):
            stop("no file '%s'" % path)
    measure, files = os.path.abspath(words[0]), words[1:]
    names = ["library", "z3", "cbc", "glpk"]
    racing = list(names)
    print("\t".join(["batch", "n", "m", "D", "latency"] + names), flush=True)
    with tempfile.TemporaryDirectory() as folder:
        for path in files:
            commands, solution = solvers(measure, os.path.abspath(path), folder)
            before = list(racing)
            seconds, latency = measured(commands, solution, racing)
            cells = ["%.6f" % statistics.median(seconds[n]) if n in racing else ">%d" % LIMIT if n in before else "-" for n in names]
            jobs, delays, clashes = read_batch(path)
            name = os.path.basename(path).removesuffix(".batch")
            print("\t".join([name, str(len(jobs)), str(len(delays)), str(len(clashes)), latency] + cells), flush=True)


main(sys.argv[1:])

"""Random batches through PLAN; every answer is checked from the batch file alone and asked of z3, which is told the rule of
stations tick by tick. For small batches all plans up to the answer's latency are looked at too.

usage: solver.py PLAN COUNTS     COUNTS gets the numbers of right and wrong cases"""
import random
import re
from collections import Counter, namedtuple

from batches import batch, clash_count, joined, lines, output, rested, stay, windowed, words_of
from plans import faults, outlasted, read_file, shortest

BATCHES = 420
IDLE = 40  # batches whose jobs hold nothing, and as many in which some do
MOST_CLASHES = 40
WINDOWED = 600  # batches of edition 02, each beside itself without its windows
MOST_WINDOWED = 24  # clashes of such a batch
RESTED = 480  # batches with rests, each beside itself without them
MOST_RESTED = 60
SMALL = 240  # small batches with rests, likewise
MOST_START = 14  # up to which all starts of a small batch are tried where it has no plan
# What a plan's latency can show of empty ticks, and in how many plans it must at least.
FEWEST = {"below a start plus all ticks": 80, "a start of a job that holds nothing, past all that others hold": 15, "0": 10}
# What windows can change in the answer to a batch, and in how many batches they must at least; and what rests can.
DECIDED = {"another latency": 120, "other starts, the same latency": 20, "no plan": 30, "refused by 10": 25, "nothing": 100}
BY_RESTS = {"another latency": 100, "other starts, the same latency": 15, "no plan": 50, "nothing": 100}
BY_RESTS_SMALL = {"another latency": 100, "other starts, the same latency": 1, "no plan": 20, "nothing": 40}
# Small batches beside all their plans, by the answer.
ALL_PLANS = {"plan": 300, "no plan": 30, "refused by 10": 40}

Case = namedtuple("Case", "kind starts latency data out found asked")
Question = namedtuple("Question", "text due")


# ---- the batches

def crowded(rng, n, most):
    """A batch of n jobs with clashes, but not too many."""
    made = batch(rng, n, rng.choice([2, 4, 6, 16]))
    while not (n > 3) * n <= clash_count(made[0]) <= most:
        made = batch(rng, n, rng.choice([2, 4, 6, 16]))
    return made


def made_batches(rng):
    """Batches with clashes, but not too many, and batches in which some jobs or all hold nothing."""
    for number in range(BATCHES):
        yield crowded(rng, 1 + number % 12, MOST_CLASHES)
    for number in range(IDLE):
        jobs, delays = batch(rng, 1 + number % 6, 4)
        yield [[0] * len(masks) for masks in jobs], delays
        jobs, delays = batch(rng, 2 + number % 5, 4)
        held, idle = rng.sample(range(len(jobs)), 2)
        jobs[held] = jobs[held] + [1]
        jobs[idle] = [0] * len(jobs[idle])
        yield jobs, delays + [(held, idle, rng.randint(3, 20))]


def windowed_batches(rng):
    """Batches of edition 02, each followed by itself without its windows."""
    for number in range(WINDOWED):
        made = crowded(rng, 1 + number % 9, MOST_WINDOWED)
        yield windowed(rng, made)
        yield made


def with_clashes(rng, draw, most):
    """A batch that `draw` gives, with rests that make more clashes of it, but not too many."""
    while True:
        made = rested(rng, draw())
        if clash_count(made[0]) < clash_count(made[0], made[3]) <= most:
            return made


def rested_batches(rng):
    """Batches with rests, every other one with windows too, each followed by itself without its rests."""
    for number in range(RESTED):
        made = with_clashes(rng, lambda: crowded(rng, 2 + number % 8, MOST_WINDOWED), MOST_RESTED)
        made = windowed(rng, made[:2]) + made[3:] if number % 2 else made
        yield made
        yield made[:3]


def small_batch(rng, n):
    """Some jobs on two stations, with near delays and windows."""
    jobs = [[rng.choice([0, 1, 1, 2, 3]) for _ in range(rng.randint(1, 3))] for _ in range(n)]
    pairs = [rng.sample(range(n), 2) for _ in range(rng.choice([0, 0, 1, 2, 3, 4]))]
    firsts = {job: rng.randint(0, 4) for job in rng.sample(range(n), rng.choice([0, 0, 1, n]))}
    windows = {job: (first, first + rng.randint(0, 9)) for job, first in firsts.items()}
    return jobs, [(i, j, rng.randint(-5, 3)) for i, j in pairs], windows


def small_batches(rng):
    """Batches of two or three jobs with rests, in twos as those above."""
    for number in range(SMALL):
        made = with_clashes(rng, lambda: small_batch(rng, 2 + number % 2), MOST_RESTED)
        yield made
        yield made[:3]


# ---- an answer

def read_answer(text, n):
    """(kind, starts, latency, total) of PLAN's output; kind is wrong if it keeps no form of 01."""
    if not re.fullmatch("(([0-9A-F]{2})+\n)+", text):
        return "wrong", None, None, 0
    frames = [bytes.fromhex(line) for line in text.splitlines()]
    kinds = [frame[0] for frame in frames]
    if kinds == [0xBF] and len(frames[0]) == 2 and frames[0][1] == 10:
        return "refused by 10", None, None, 1
    if kinds == [0xB2] and len(frames[0]) == 5:
        return "no plan", None, None, int.from_bytes(frames[0][1:], "big")
    if kinds == [0xB0] + [0xB1] * n and len(frames[0]) == 9 and frames[0][1:3] == bytes([1, n]) \
            and all(len(f) == 4 and f[1] == k for k, f in enumerate(frames[1:])):
        starts = [int.from_bytes(f[2:], "big") for f in frames[1:]]
        return "plan", starts, int.from_bytes(frames[0][3:5], "big"), int.from_bytes(frames[0][5:], "big")
    return "wrong", None, None, 0


def number(value):
    return str(value) if value >= 0 else "(- %d)" % -value


def at_stations(jobs, rests):
    """For every two ticks in which different jobs hold one station: they are more than its rest apart, one way or the other."""
    held = [(station, i, a) for i, masks in enumerate(jobs) for a, mask in enumerate(masks)
            for station in range(16) if mask >> station & 1]
    for s, i, a in held:
        more = rests.get(s, 0) + 1
        for j, b in ((j, b) for other, j, b in held if other == s and j > i):
            later = "(>= (- t%d t%d) %s)" % (j, i, number(a - b + more))  # t_j + b is more than t_i + a and the rest
            yield "(or %s (>= (- t%d t%d) %s))" % (later, i, j, number(b - a + more))


def question(jobs, delays, windows, rests, stations, latency):
    """Asks for starts that meet the delays and the ends, with or without stations, up to a latency or none."""
    n = len(jobs)
    says = ["(>= (- t%d z) 0)" % i for i in range(n)]
    says += ["(>= (- t%d t%d) %s)" % (j, i, number(w)) for i, j, w in delays]
    for job, (earliest, latest) in (windows or {}).items():
        says += ["(>= (- t%d z) %d)" % (job, earliest), "(<= (- t%d z) %d)" % (job, latest)]
    if stations:
        says += at_stations(jobs, rests)
    if latency is not None:  # nothing is past it: no start, and no tick that is not empty
        ends = [(i, a + 1) for i, masks in enumerate(jobs) for a, mask in enumerate(masks) if mask]
        ends += [(i, 0) for i in range(n)]
        says += ["false" if latency < end else "(<= (- t%d z) %d)" % (i, latency - end) for i, end in ends]
    names = ["z"] + ["t%d" % i for i in range(n)]
    return "\n".join(["(reset)", "(set-logic QF_IDL)"] + ["(declare-const %s Int)" % x for x in names]
                     + ["(assert %s)" % s for s in says] + ["(check-sat)"])


def asked_of(kind, latency):
    """What z3 is asked after an answer, with or without stations and up to a latency or none; and what is due."""
    if kind == "plan":
        return [(True, latency - 1, "unsat"), (True, latency, "sat")]
    return {"no plan": [(True, None, "unsat"), (False, None, "sat")], "refused by 10": [(False, None, "unsat")]}.get(kind, [])


def case_of(plan, made):
    """A batch through PLAN: what is found wrong with the answer, and what z3 must say."""
    data = joined(lines(*made))
    read = jobs, delays, windows, rests = read_file(data)
    out = output([plan], data).decode("latin-1")
    kind, starts, latency, total = read_answer(out, len(jobs))
    found = ["form"] if kind == "wrong" else []
    if not 1 <= total < 2 ** (clash_count(jobs, rests) + 1):
        found.append("total")
    if kind == "plan":
        found += faults(*read, starts, latency)
    asked = [Question(question(*read, stations, most), due) for stations, most, due in asked_of(kind, latency)]
    return Case(kind, starts, latency, data, out, found, asked)


def shown(case):
    """What the latency of a plan shows of empty ticks."""
    jobs = read_file(case.data)[0]
    if outlasted(jobs, case.starts, case.latency):
        yield "below a start plus all ticks"
    ends = [start + stay(masks) for start, masks in zip(case.starts, jobs) if any(masks)]
    if ends and max(ends) < case.latency:
        yield "a start of a job that holds nothing, past all that others hold"
    if case.latency == 0:
        yield "0"


# ---- the comparisons

def compare_all_plans(cases):
    """Small batches beside all their plans: none is valid and shorter, and one is as short, by delays, ends and ticks."""
    for case in cases:
        most = case.latency if case.kind == "plan" else MOST_START
        least = shortest(*read_file(case.data), most)
        if least != case.latency:
            case.found.append("the shortest of all plans with starts up to %d has latency %s" % (most, least))
    kinds = Counter(case.kind for case in cases)
    print("  beside all plans: " + ", ".join("%d %s" % (kinds[kind], kind) for kind in sorted(kinds)))
    return all(kinds[kind] >= least for kind, least in ALL_PLANS.items())


def compare_with_z3(cases):
    """All questions in one process. How many there were."""
    asked = [(case, question) for case in cases for question in case.asked]
    said = output(["z3", "-in"], "\n".join(question.text for _, question in asked).encode(), 600).decode().split()
    print("  z3: %d questions, %d unsat, %d sat" % (len(asked), said.count("unsat"), said.count("sat")))
    for (case, question), answer in zip(asked, said + ["nothing"] * len(asked)):
        if answer != question.due:
            case.found.append("z3 says %s where %s is due" % (answer, question.due))
    return len(asked) == len(said)


def decided(case, plain):
    """What windows or rests change in the answer to a batch."""
    if case.kind != plain.kind:
        return case.kind
    if case.latency != plain.latency:
        return "another latency"
    return "nothing" if case.starts == plain.starts else "other starts, the same latency"


def check_decided(what, cases, fewest):
    """How often windows or rests change what in the answers, which come in twos: with them, and without."""
    changes = Counter(decided(with_them, without) for with_them, without in zip(cases[::2], cases[1::2]))
    print("  %s change: " % what + ", ".join("%s in %d" % (kind, changes[kind]) for kind in sorted(changes)))
    return set(changes) <= set(fewest) and all(changes[kind] >= least for kind, least in fewest.items())


def check_seen(cases):
    """The batches are of every kind, and the latencies show all that they can."""
    kinds = Counter(case.kind for case in cases)
    seen = Counter(what for case in cases if case.kind == "plan" for what in shown(case))
    print("  batches: " + ", ".join("%d %s" % (kinds[kind], kind) for kind in sorted(kinds)))
    print("  latencies: " + ", ".join("%d %s" % (seen[what], what) for what in FEWEST))
    return len(cases) >= 300 and all(kinds[kind] for kind in ("plan", "no plan", "refused by 10")) \
        and all(seen[what] >= least for what, least in FEWEST.items())


def main():
    plan, counts = words_of("solver.py PLAN COUNTS")
    made = [made_batches(random.Random(20240)), windowed_batches(random.Random(20241)),
            rested_batches(random.Random(20242)), small_batches(random.Random(20243))]
    first, windows, rests, small = ([case_of(plan, one) for one in batches] for batches in made)
    cases = first + windows + rests + small
    enough = [compare_all_plans(small), compare_with_z3(cases), check_seen(cases), check_decided("windows", windows, DECIDED),
              check_decided("rests", rests, BY_RESTS), check_decided("rests of small batches", small, BY_RESTS_SMALL)]
    wrong = [case for case in cases if case.found]
    for case in wrong[:5]:
        print("  wrong: %s on %s: %s" % (case.found, case.data.decode().split(), case.out.split()))
    if not all(enough):
        print("  wrong: too few batches compared, or a kind is missing")
    with open(counts, "w") as file:
        file.write("%d %d\n" % (len(cases) - len(wrong), len(wrong) + (not all(enough))))


main()

"""Empty ticks put behind jobs' tables or taken off their ends: answers, plan texts and clashes stay.

Each batch comes in several forms that differ in these ticks alone. What PLAN and CALLS must answer for all of them is
what the independent program answers for the form without any; the clashes are counted in that form too.

usage: padding.py PLAN CALLS INDEPENDENT COUNTS     COUNTS gets the numbers of right and wrong cases"""
import random
from collections import Counter

from batches import answers, clash_count, ending_soon, joined, lines, opening, output, rested, stay, windowed, words_of
from files import NO_STARTS, of_every_size, rest_test_batch, test_batch
from lists import CLASH_GROUPS, most_clashes, turn
from plans import outlasted, starts_of
from tally import Tally

BATCHES = 600
WINDOWED = 240  # more, of edition 02
RESTED = 288  # and with rests, half of them with windows too
IN_CALLS = 120  # of the first, and half as many of each of the others, through CALLS
TICKS = 16  # of the longest table
BUDGETS = [0, 1, 1, 1, 2, 5, 30, 20000]
LISTED = " : " + " ".join(str(60000 + place) for place in range(24))  # a starts list that is unchanged
# Forms of batches by what they are examples of, and how many of each must at least come.
FEWEST = {"a plan": 600, "no plan": 100, "refused by 10": 100, "delays": 500, "no delays": 200,
          "a longer longest table": 500, "a latency below a start plus all ticks": 400, "latency 0": 20,
          "windows, a plan": 400, "windows, no plan": 100, "windows, refused by 10": 150,
          "rests, a plan": 300, "rests, no plan": 100, "rests, refused by 9": 40,
          "clashes counted": 300, "1,024 clashes padded": 40, "1,025 clashes padded": 40}


# ---- the forms

def bare(jobs):
    """Tables without the empty ticks at their ends; a job that holds nothing keeps one."""
    return [masks[:max(1, stay(masks))] for masks in jobs]


def padded(rng, jobs, share):
    """Some of the tables, or all, with empty ticks behind."""
    return [masks + [0] * rng.randint(1, TICKS - len(masks)) if len(masks) < TICKS and rng.random() < share else masks
            for masks in jobs]


def forms(rng, jobs, *rest):
    """The forms of a batch, each as (name, jobs, file). The rest are its delays and, in edition 02, its windows and rests."""
    made = {"as made": jobs, "bare": bare(jobs), "some padded": padded(rng, jobs, 0.5),
            "one padded": jobs[:-1] + padded(rng, jobs[-1:], 1), "all padded": padded(rng, bare(jobs), 1),
            "filled up": [masks + [0] * (TICKS - len(masks)) for masks in jobs]}
    return [(name, form, joined(lines(form, *rest))) for name, form in made.items()]


def rested_batches(rng):
    """Batches with rests, every other one with windows too."""
    return [rested(rng, windowed(rng, one) if k % 2 else one) for k, one in enumerate(of_every_size(rng, RESTED))]


def at_the_limit(rng):
    """Jobs with 1,024 clashes, and the same with one clash more; each with the further lines that it has."""
    for groups in 2 * CLASH_GROUPS:
        jobs, one, _ = most_clashes(rng, groups)
        yield jobs, ()
        yield jobs[:one] + [jobs[one] + jobs[one][:1]] + jobs[one + 1:], ()
    yield test_batch(13), ()
    yield test_batch(14), ()
    for last in (11, 12):
        jobs, _, *further = rest_test_batch(last)
        yield jobs, further


# ---- the comparisons

def examples_of(jobs, delays, windows, rests, form, text):
    """What a form of a batch is an example of, by the text that is due."""
    answer = {b"B0": "a plan", b"B2": "no plan"}.get(text[:2], "refused by %d" % int(text[2:4], 16))
    yield answer
    yield "delays" if delays else "no delays"
    if windows:
        yield "windows, " + answer
    if rests:
        yield "rests, " + answer
    if max(map(len, form)) > max(map(len, bare(jobs))):
        yield "a longer longest table"
    if text.startswith(b"B0"):
        latency = int(text[6:10], 16)
        if outlasted(form, starts_of(text), latency):
            yield "a latency below a start plus all ticks"
        if latency == 0:
            yield "latency 0"


def compare_texts(tally, rng, plan, own, batches):
    """PLAN's text, refusals too: starts, latency and total. What the forms are examples of, and the numbers of jobs."""
    seen, sizes = Counter(), set()
    for jobs, *rest in batches:
        due = output([own, "plan"], joined(lines(bare(jobs), *rest)))
        sizes.add(len(jobs))
        for name, form, data in forms(rng, jobs, *rest):
            got = output([plan], data)
            tally.note("PLAN: " + name, due == got, data[:200], due, got)
            seen.update(examples_of(jobs, *(rest + [None, None])[:3], form, due))
    return seen, sizes


def but_tables(answer):
    """An answer; of one to D all but the check sum, which has the tables in it."""
    return answer.rsplit(" : ", 1)[0] if answer.startswith("D") else answer


def compare_runs(tally, rng, calls, own, batches):
    """Runs of few nodes and of many: answers, starts lists, paths, best, plan text. The batch text is the file."""
    runs = [call for budget in BUDGETS for call in ("R %d 24" % budget, "D")] + ["P 240"]
    for jobs, *rest in batches:
        due = [but_tables(one) for one in answers([own, "calls"], [opening(joined(lines(bare(jobs), *rest)))] + runs)]
        for name, _, data in forms(rng, jobs, *rest):
            written = "B W %d : %s" % (len(data), data.decode().replace("\n", "/"))
            got = [but_tables(one) for one in answers([calls], [opening(data)] + runs + ["B %d" % len(data)])]
            tally.note("CALLS: runs, " + name, due + [written] == got, data[:200], due, got)


def compare_clashes(tally, rng, calls, batches):
    """A turn on the last clash is sound, one on the number after it is not. How many forms had clashes to count."""
    counted = 0
    for jobs, *rest in batches:
        count = clash_count(bare(jobs), *rest[2:])
        numbers = [(count - 1, "R S 0"), (count, "R F 12")] if count else [(0, "R F 12")]
        for name, _, data in forms(rng, jobs, *rest):
            asked = [call for clash, _ in numbers for call in turn(0, clash, 0) + ["R 0 24"]]
            due = ["O 0"] + [one for _, answer in numbers for one in ("S", "S", answer + LISTED)]
            got = answers([calls], [opening(data)] + asked)
            tally.note("CALLS: clashes, " + name, due == got, data[:200], due, got)
            counted += count > 0
    return counted


def compare_limit(tally, rng, calls, tables):
    """1,024 clashes open, or have 10 for their delays; more have 9. How many forms are padded, by their clashes."""
    seen = Counter()
    for jobs, further in tables:
        count = clash_count(jobs, *further[1:])
        for delays, few in (([], "O 0"), (NO_STARTS, "O 10")):
            due = [few if count <= 1024 else "O 9"]
            for name, form, data in forms(rng, jobs, delays, *further):
                got = answers([calls], [opening(data)])
                tally.note("CALLS: clash limit, " + name, due == got, data[:200], due, got)
                seen["{:,} clashes padded".format(count)] += form != bare(jobs)
    return seen


def check_kinds(tally, seen, sizes):
    """The forms are examples of everything, often enough, and the batches of all sizes."""
    print("  forms with: " + "; ".join("%s: %d" % (kind, seen[kind]) for kind in FEWEST))
    for kind, least in FEWEST.items():
        if seen[kind] < least:
            tally.note("forms too much alike", False, kind, least, seen[kind])
    if len(sizes) < 24:
        tally.note("forms too much alike", False, "numbers of jobs", 24, sorted(sizes))


def sifted(own, batches, most):
    """Of batches those that are refused or end soon, and the first so many that open."""
    made = [(one, joined(lines(*one))) for one in batches]
    soon = [one for one, _ in ending_soon([own, "calls"], made)]
    given = answers([own, "calls"], [opening(data) for _, data in made])
    return soon, [one for (one, _), answer in zip(made, given) if answer == "O 0"][:most]


def main():
    plan, calls, own, counts = words_of("padding.py PLAN CALLS INDEPENDENT COUNTS")
    rng, tally, second = random.Random(4), Tally(), random.Random(7)
    soon, opened = sifted(own, of_every_size(rng, BATCHES), IN_CALLS)
    others = sifted(own, [windowed(second, one) for one in of_every_size(second, WINDOWED)], IN_CALLS // 2)
    third = sifted(own, rested_batches(random.Random(13)), IN_CALLS // 2)
    soon, opened = soon + others[0] + third[0], opened + others[1] + third[1]
    limits = list(at_the_limit(rng))
    seen, sizes = compare_texts(tally, rng, plan, own, soon)
    compare_runs(tally, rng, calls, own, opened)
    most = [(jobs, [], *further) for jobs, further in limits if clash_count(jobs, *further[1:]) == 1024]
    seen["clashes counted"] = compare_clashes(tally, rng, calls, opened + most)
    seen += compare_limit(tally, rng, calls, limits)
    check_kinds(tally, seen, sizes)
    tally.show()
    tally.write(counts)


main()

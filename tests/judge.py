"""Plan texts judged: each with a file, through CALLS and through the independent program. PLAN's own plans must pass,
plans of other starts are judged by ticks and stations too, and cases by name have the numbers of the documents.

usage: judge.py PLAN CALLS INDEPENDENT COUNTS     COUNTS gets the numbers of right and wrong cases"""
import glob
import random
import re
from collections import Counter, defaultdict
from concurrent.futures import ThreadPoolExecutor

from batches import answers, ending_soon, joined, lines, opening, output, rested, windowed, words_of
from files import of_every_size
from plans import outlasted, read_file, starts_of
from tally import Tally
from texts import C2, C2_PLAN, C3, C3_PLAN, NO_PLAN, by_name, changed, other_files, other_starts, other_totals

BATCHES = 264
WINDOWED = 144  # more, of edition 02
RESTED = 288  # and with rests, half of them with windows too
# For each kind of case the answers that it is about, each with the number of times that it must come at least.
FEWEST = {"PLAN's text": {0: 100, 17: 5, 10: 5},
          "digit changed": {0: 1000, 17: 2000, 18: 1000, 19: 2000},
          "byte replaced": {17: 2000},
          "byte taken out": {17: 300},
          "byte put in": {17: 500},
          "cut": {17: 300, 18: 20},
          "line taken out": {17: 20, 18: 100},
          "line doubled": {17: 20, 18: 100},
          "line put in": {17: 20, 18: 100},
          "lines swapped": {17: 100, 18: 300},
          "starts: valid and shortest": {0: 100},
          "starts: valid and longer": {0: 300},
          "starts: wrong by latency": {19: 100},
          "starts: wrong by delay": {19: 100},
          "starts: wrong by tick": {19: 100},
          "starts: wrong by end": {19: 100},
          "starts: wrong by rest": {19: 200},
          "starts: wrong by several": {19: 100},
          "starts: latency past 65,535": {19: 100},
          "another total": {0: 300},
          "file damaged": {number: 3 for number in (0, 1, 2, 3, 4, 5, 6, 7, 8, 10, 19, 20, 21)},
          "file of another batch": {0: 5, 18: 50, 19: 50},
          "by name": {**{number: 6 for number in range(1, 11)}, 20: 6, 21: 9, 0: 46, 17: 45, 18: 22, 19: 58}}


# ---- the cases

def printed_texts(rng, plan, own):
    """(file, what PLAN prints) for batches of 1 to 24 jobs whose search ends soon, and for the examples."""
    second, third = random.Random(8), random.Random(12)
    files = [("", joined(lines(*one))) for one in of_every_size(rng, BATCHES)]
    files += [("", joined(lines(*windowed(second, one)))) for one in of_every_size(second, WINDOWED)]
    others = [windowed(third, one) if k % 2 else one for k, one in enumerate(of_every_size(third, RESTED))]
    files += [("", joined(lines(*rested(third, one)))) for one in others]
    soon = [data for _, data in ending_soon([own, "calls"], files)]
    for name in sorted(glob.glob("../examples/*.batch")):
        with open(name, "rb") as file:
            soon.append(file.read())
    return [(data, output([plan], data)) for data in soon]


def due_of(text):
    """The answer to what PLAN printed, with its file: a plan passes, no plan is 17, a refused file has its number."""
    if re.fullmatch(b"BF[0-9A-F]{2}\n", text):
        return int(text[2:4], 16)
    return {b"B0": 0, b"B2": 17}.get(text[:2], "a text of PLAN")


def all_cases(rng, printed):
    plans = [one for one in printed if one[1].startswith(b"B0")]
    made = [("PLAN's text", data, text, due_of(text)) for data, text in printed]
    for part in (changed, other_starts, other_totals, other_files):
        made += part(rng, plans)
    return made + list(by_name())


def judging(data, text):
    """The call that judges a text."""
    return "J %s %s" % (data.hex().upper(), text.hex().upper())


# Lines that keep the form of this call or just do not, with the answers due.
PASSES = judging(C3, C3_PLAN)
FORMS = [("J  ", "J 7"), ("J", "?"), ("J ", "?"), ("J   ", "?"), ("j  ", "?"), (" J  ", "?"), ("JJ  ", "?"),
         ("J  00", "J 7"), ("J 00 ", "J 1"), ("J 00", "?"), ("J 00  00", "?"), ("J  00 ", "?"), ("J 00 00 ", "?"),
         ("J 00 00 00", "?"), ("J 0 ", "?"), ("J  0", "?"), ("J 000 00", "?"), ("J 00 000", "?"), ("J 0G ", "?"),
         ("J  0g", "?"), ("J\t00\t00", "?"), ("J 00,00", "?"), (PASSES, "J 0"), (PASSES + " ", "?"), (PASSES[:-1], "?"),
         (PASSES.replace(" ", "  "), "?"), ("J" + PASSES[1:].lower(), "?"),
         (judging(C2, bytes(65520)), "J 17"), (judging(C2, bytes(65521)), "?"),
         (judging(bytes(65536), bytes(2)), "J 1"), (judging(bytes(65537), b""), "?"),
         (judging(bytes(2), bytes(65536)), "J 1"), (judging(b"", bytes(65537)), "?"),
         (judging(bytes(65536), bytes(65536)), "?"), (PASSES, "J 0")]


# ---- the comparisons

def both(tally, own, calls, asked):
    """The answers of the independent program and of CALLS, call by call."""
    with ThreadPoolExecutor() as pool:  # side by side
        mine, theirs = pool.map(answers, ([own, "calls"], [calls]), (asked, asked))
    if not len(mine) == len(theirs) == len(asked):
        tally.note("number of answers", False, "%d calls" % len(asked), len(mine), len(theirs))
    return list(zip(mine, theirs))


def compare_cases(tally, own, calls, cases):
    """Every case; how often which answer came, by kind."""
    seen = defaultdict(Counter)
    given = both(tally, own, calls, [judging(data, text) for _, data, text, _ in cases])
    for (kind, data, text, due), (mine, theirs) in zip(cases, given):
        due = mine if due is None else "J %s" % due
        group = "by name" if kind.startswith("by name") else kind
        asked = "%s: %.200s with %.200s" % (kind, text, data)
        tally.note(group, due == mine == theirs, asked, due, "%s, independent %s" % (theirs, mine))
        seen[group][mine[2:]] += 1
    return seen


def compare_forms(tally, own, calls):
    given = both(tally, own, calls, [line for line, _ in FORMS])
    for (line, due), (mine, theirs) in zip(FORMS, given):
        tally.note("form of the call", due == mine == theirs, line[:100], due, "%s, independent %s" % (theirs, mine))


def compare_records(tally, own, calls, printed):
    """Judging between other calls: it leaves the present record, whatever that is, and does not look at it."""
    judged = [PASSES, judging(C2, NO_PLAN), judging(b"", b""), judging(C3, C2_PLAN)]
    due = ["J 0", "J 17", "J 7", "J 18"]
    for data, _ in printed[:40]:
        states = ([], [opening(data), "R 1 24"], ["R 20000 24"], ["S 11 0 0 100000001"])
        asked = [call for state in states for call in state + ["D"] + judged + ["D"]]
        given = both(tally, own, calls, asked)
        theirs = [one for _, one in given]
        ends = [k for k, call in enumerate(asked) if call == "D"][1::2]
        stays = len(given) == len(asked) and all(theirs[k - 5] == theirs[k] and theirs[k - 4:k] == due for k in ends)
        tally.note("the record stays", stays and all(a == b for a, b in given), data[:200], due, theirs)


def check_sizes(tally, printed):
    """PLAN's plans are of batches of all sizes, with delays and without, with empty ticks past their latency, with windows and
    with rests."""
    plans = [(data, text) for data, text in printed if text.startswith(b"B0")]
    sizes, free = {data[4:6] for data, _ in plans}, sum(data[6:8] == b"00" for data, _ in plans)
    empty = sum(outlasted(read_file(data)[0], starts_of(text), int(text[6:10], 16)) for data, text in plans)
    ended, resting = (sum(bool(read_file(data)[part]) for data, _ in plans) for part in (2, 3))
    print("  plans that PLAN printed: %d, of %d numbers of jobs, %d with delays, %d without, %d with empty ticks behind, %d with windows,"
          " %d with rests" % (len(plans), len(sizes), len(plans) - free, free, empty, ended, resting))
    if len(sizes) < 24 or len(plans) - free < 50 or free < 20 or empty < 20 or ended < 40 or resting < 40:
        tally.note("plans too much alike", False, "plans that PLAN printed", "24, 50, 20, 20, 40 and 40", "fewer")


def check_answers(tally, seen):
    """Every kind came with every answer that it is about."""
    for kind, fewest in FEWEST.items():
        answers_of = sorted(seen[kind].items(), key=lambda one: (len(one[0]), one[0]))
        print("  answers to %s: %s" % (kind, ", ".join("%s: %d" % one for one in answers_of)))
        for number, least in fewest.items():
            if seen[kind][str(number)] < least:
                tally.note("answers too seldom", False, "%d to %s" % (number, kind), least, seen[kind][str(number)])


def main():
    plan, calls, own, counts = words_of("judge.py PLAN CALLS INDEPENDENT COUNTS")
    rng, tally = random.Random(3), Tally()
    printed = printed_texts(rng, plan, own)
    check_sizes(tally, printed)
    seen = compare_cases(tally, own, calls, all_cases(rng, printed))
    compare_forms(tally, own, calls)
    compare_records(tally, own, calls, printed)
    check_answers(tally, seen)
    tally.show()
    tally.write(counts)


main()

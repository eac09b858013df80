"""Files and lists of calls through CALLS and PLAN and through the independent program, byte for byte.

usage: compare.py PLAN CALLS INDEPENDENT COUNTS     COUNTS gets the numbers of right and wrong cases"""
import random
from collections import Counter, namedtuple
from concurrent.futures import ThreadPoolExecutor

from batches import answers, clash_count, ending_soon, joined, lines, opening, output, words_of
from files import all_files, past_the_cut, some_batch, some_rested, some_windowed
from lists import TEXTS, all_lists, all_lists_02, all_lists_rests
from plans import read_file
from tally import Tally

Known = namedtuple("Known", "data n m clashes total plan")
DUE = ["O %d" % k for k in list(range(11)) + [20, 21]] + ["R S", "R P", "R N", "R F 11", "R F 12", "R F 13", "R F 14", "P W", "P F 12",
                                         "P F 15", "P F 16", "B W", "B F 12", "B F 16", "D", "S"]
# The clauses of soundness by the names that the independent program gives them. For each, so many lists must make a
# call on a record that breaks this clause and no other: a planner without the clause gives them another answer. (But for
# an earliest above its latest: such ends cannot be met either.)
CLAUSES = ["n below 1", "n above 24", "m above 128", "p below 1", "p above 16", "from of n or above",
           "to of n or above", "from = to", "w below -1,000", "w above 1,000", "D above 1,024", "D above 1,024 by rests",
           "delays that cannot be met", "a clash that is not listed", "a side above 1", "one clash twice",
           "a turn after an empty place", "a turn while ended", "total above 100,000,000", "a start above 43,000",
           "latency above 43,016", "edition below 1", "edition above 2", "a line in edition 1", "earliest above 20,000",
           "earliest above latest", "an earliest without a line", "a latest without a line", "ends that cannot be met",
           "a rest above 7", "a rest in edition 1"]
FEWEST = 10
GONE_ON = 100  # lists, for each way to change tables, windows or rests, whose search goes on after it and ends in a plan
WAYS = 27  # to change them, in batches of edition 01, with windows, and with rests


def some_batches(rng):
    return [some_batch(rng, 9) for _ in range(500)] + [
        ([[1, 2], [1, 2]], []), ([[1], [1, 2, 2]], []), ([[1], [1]], [(0, 1, 0), (1, 0, 0)])]


def known_batches(made, independent):
    """Those batches whose search ends soon, with their N by the independent program."""
    calls = [call for one in made for call in (opening(joined(lines(*one))), "R 3000 24")]
    for one, answer in zip(made, answers(independent, calls)[1::2]):
        words = answer.split(" :")[0].split()
        if words[1] in "PN":
            data = joined(lines(*one))
            jobs, delays, _, rests = read_file(data)
            yield Known(data, len(jobs), len(delays), clash_count(jobs, rests), int(words[-1]), words[1] == "P")


def in_cases(cases, given):
    """The answers that were given to all calls, case by case: (kind, calls, answers)."""
    place = 0
    for kind, listed in cases:
        yield kind, listed, given[place:place + len(listed)]
        place += len(listed)


def kind_of(answer):
    """The answer's letter, case and refusal number."""
    words = answer.split()
    return " ".join(words[:3] if words[1:2] == ["F"] else words[:1] if words[0] == "D" else words[:2])


def compare_answers(tally, cases, due, got):
    calls = sum(len(listed) for _, listed in cases)
    if not len(due) == len(got) == calls:
        tally.note("number of answers", False, "%d calls" % calls, len(due), len(got))
    for (kind, listed, mine), (_, _, theirs) in zip(in_cases(cases, due), in_cases(cases, got)):
        k = next((k for k, (a, b) in enumerate(zip(mine, theirs)) if a != b), len(theirs))
        same = mine == theirs and k == len(listed)
        tally.note(kind, same, " ; ".join(listed[:k + 1])[-300:], mine[k:k + 1], theirs[k:k + 1])


def check_kinds(tally, due):
    """Every kind of answer came, and no other."""
    seen = Counter(map(kind_of, due))
    for kind in DUE:
        if not seen[kind]:
            tally.note("answers that never came", False, kind, "", "")
    for kind in set(seen) - set(DUE):
        tally.note("calls out of form", False, kind, "", "")
    print("  answers: " + ", ".join("%s: %d" % (kind, seen[kind]) for kind in sorted(seen)))


def asks_soundness(call):
    """Whether the answer is another for a record that is not sound; a budget that is too large is refused before."""
    words = call.split()
    return words[0] in "PB" or words[0] == "R" and int(words[1]) <= 1000000


def check_clauses(tally, lists, said):
    """For each clause of soundness, enough lists ask it of a record that breaks this clause alone."""
    seen = Counter()
    for _, listed, names in in_cases(lists, said):
        seen.update({name[2:] for call, name in zip(listed, names) if asks_soundness(call)})
    for name in CLAUSES:
        if seen[name] < FEWEST:
            tally.note("clauses asked too seldom", False, name, "%d lists" % FEWEST, seen[name])
    for name in {part for names in seen for part in names.split("; ")} - set(CLAUSES) - {"sound"}:
        tally.note("clauses out of form", False, name, "", "")
    print("  lists that break one clause alone: " + "; ".join("%s: %d" % (name, seen[name]) for name in CLAUSES))


def check_changed(tally, cases, due):
    """Enough searches go on after their tables, windows or rests changed, in each way, and end in a plan."""
    changes = ("list: last ticks", "list: 02: last ticks", "list: 02: windows", "list: rests: last ticks", "list: rests: rests")
    plans = {kind: 0 for kind, _ in cases if kind.startswith(changes)}
    for kind, _, given in in_cases(cases, due):
        if kind in plans:
            plans[kind] += " : B0" in given[-len(TEXTS)]
    for kind, count in plans.items():
        if count < GONE_ON:
            tally.note("batches changed too seldom", False, kind, "%d plans" % GONE_ON, count)
    if len(plans) < WAYS:
        tally.note("batches changed too seldom", False, "ways to change them", WAYS, len(plans))
    print("  plans after a change: " + "; ".join("%s: %d" % (kind[6:], count) for kind, count in plans.items()))


def compare_plan(tally, rng, plan, own, files):
    """PLAN itself: files of every kind that end soon, input past 65,536 bytes, and a batch that takes two runs."""
    soon = ending_soon([own, "calls"], files)
    rng.shuffle(soon)
    chosen = [("past the cut", data) for data in past_the_cut()]
    with open("../bench/batches/twelve.batch", "rb") as file:
        chosen.append(("two runs", file.read()))
    chosen.append(("eight jobs alike", joined(lines([[1, 1]] * 8, []))))
    for kind in dict(files):
        chosen += [one for one in soon if one[0] == kind][:100 if kind.endswith("valid") else 20]
    for kind, data in chosen:
        due, got = output([own, "plan"], data), output([plan], data)
        tally.note("PLAN: " + kind, due == got, data[:200], due, got)
        if kind == "two runs" and int(due[10:18], 16) <= 1000000:
            tally.note("PLAN: " + kind, False, data[:200], "a total above 1,000,000", due)


def main():
    plan, calls, own, counts = words_of("compare.py PLAN CALLS INDEPENDENT COUNTS")
    rng, tally = random.Random(1), Tally()
    files = all_files(rng)
    known = list(known_batches(some_batches(rng), [own, "calls"]))
    lists = [("list: " + kind, listed) for kind, listed in all_lists(rng, known)]
    second = random.Random(6)
    windowed = list(known_batches([some_windowed(second, 8) for _ in range(300)], [own, "calls"]))
    lists += [("list: " + kind, listed) for kind, listed in all_lists_02(second, known, windowed)]
    third = random.Random(11)
    rested = list(known_batches([some_rested(third, 8) for _ in range(300)], [own, "calls"]))
    lists += [("list: " + kind, listed) for kind, listed in all_lists_rests(third, known, rested)]
    cases = [("file: " + kind, [opening(data), "R 40 24", "R 200 25"] + TEXTS) for kind, data in files] + lists
    every = [call for _, listed in cases for call in listed]
    asked = [call for _, listed in lists for call in listed]
    with ThreadPoolExecutor() as pool:  # the programs, side by side
        due, got, said = pool.map(answers, ([own, "calls"], [calls], [own, "clauses"]), (every, every, asked))
    compare_answers(tally, cases, due, got)
    compare_plan(tally, rng, plan, own, files)
    check_kinds(tally, due)
    check_clauses(tally, lists, said)
    check_changed(tally, cases, due)
    tally.show()
    tally.write(counts)


main()

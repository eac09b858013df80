"""The documents' examples: examples.txt through PLAN and CALLS.

usage: examples.py PLAN CALLS EXAMPLES COUNTS     COUNTS gets the numbers of right and wrong cases"""
import re
import sys
from collections import Counter

from batches import output, words_of


def file_bytes(text):
    """The bytes that a text in brackets stands for."""
    while True:
        wider = re.sub(r"\(([^()]*)\*(\d+)\)", lambda x: x[1] * int(x[2]), text)
        if wider == text:
            break
        text = wider
    text = text.replace(" ", "\n")
    return re.sub(r"\{(..)\}", lambda x: chr(int(x[1], 16)), text).encode("latin-1")


def same(due, got):
    due, got = due.rstrip(), got.rstrip()
    return got.startswith(due[:-3]) if due.startswith("D ") and due.endswith("...") else got == due


def main():
    plan, calls, examples, counts = words_of("examples.py PLAN CALLS EXAMPLES COUNTS")
    right, wrong, blocks = Counter(), Counter(), []

    def note(kind, name, due, got, good):
        right[kind] += good
        wrong[kind] += not good
        if not good:
            print("  wrong: %s\n    due %s\n    got %s" % (name, due, got))

    for row in open(examples).read().splitlines():
        whole = re.fullmatch(r"plan (.*?): \[(.*?)\] \[(.*?)\]", row)
        if whole:
            due = file_bytes(whole[3])
            got = output([plan], file_bytes(whole[2]))
            note("plan", whole[1], due, got, got == due)
        elif row.startswith("calls "):
            blocks.append((row[6:], []))
        elif row.startswith("  "):
            blocks[-1][1].append(row.strip().split(" = "))
        elif row and not row.startswith("#"):
            note("rows", row, "a row of one of the forms", "", False)
    for name, pairs in blocks:
        hexed = [re.sub(r"\[(.*?)\]", lambda x: file_bytes(x[1]).hex().upper(), call) for call, _ in pairs]
        text = "".join(call + "\n" for call in hexed)
        got = output([calls], text.encode()).decode("latin-1").split("\n")
        due = [answer for _, answer in pairs]
        note("calls", name, due, got, len(got) == len(due) + 1 and all(map(same, due, got)))
    print("  files through PLAN: %d right, %d wrong" % (right["plan"], wrong["plan"]))
    print("  lists through CALLS: %d right, %d wrong" % (right["calls"], wrong["calls"]))
    with open(counts, "w") as file:
        file.write("%d %d\n" % (sum(right.values()), sum(wrong.values())))


main()

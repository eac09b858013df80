"""Puts the measurements into docs/BENCHMARKS.md and docs/benchmarks.svg.

usage: report.py MACHINE NODES CALLS OPTIMA     MACHINE is a text; the others are what `measure nodes`, `measure calls` and optima.py printed

Only what stands between the markers of the document (<!-- begin NAME --> and <!-- end NAME -->) is written anew.
"""
import os
import re
import statistics
import sys

sys.dont_write_bytecode = True
import chart  # noqa: E402

DOCS = os.path.join(os.path.dirname(os.path.abspath(__file__)), "..", "docs")
SOLVERS = ["library", "z3", "cbc", "glpk"]


def stop(words):
    print("bench/report.py: " + words, file=sys.stderr)
    sys.exit(2)


def rows(path):
    """The lines of a table as dictionaries by its head line."""
    with open(path) as file:
        head, *lines = [line.split("\t") for line in file.read().splitlines()] or [[]]
    if not lines or any(len(line) != len(head) for line in lines):
        stop("%s holds no table" % path)
    return [dict(zip(head, line)) for line in lines]


def table(head, lines):
    """A table in Markdown: the first column to the left, the others to the right."""
    marks = ["---"] + ["---:"] * (len(head) - 1)
    return "\n".join("| " + " | ".join(cells) + " |" for cells in [head, marks] + lines)


def number(text):
    return format(int(text), ",")


def depth(row):
    return "%s (%s)" % (row["depth"], row["deepest"])


def nodes_table(found):
    head = ["batch", "jobs", "delays", "clashes", "nodes", "depth (largest)", "library, nodes/s", "plain Rust, nodes/s", "ratio"]
    return table(head, [[r["batch"], r["n"], r["m"], number(r["D"]), ("" if r["whole"] == "1" else "first ") + number(r["nodes"]), depth(r),
                         number(r["library"]), number(r["plain"]), "%.2f" % float(r["ratio"])] for r in found])


def calls_table(found):
    head = ["batch", "record", "turns on the path", "library, ns", "plain Rust, ns", "ratio"]
    return table(head, [[r["batch"], r["record"], r["depth"], number(r["library"]), number(r["plain"]), "%.2f" % float(r["ratio"])] for r in found])


def sizes(found):
    """For each size: jobs, clashes, and for each solver the median seconds, the limit that it passed ('>30'), or '-' where it was not asked."""
    for n in sorted({int(r["n"]) for r in found}):
        same = [r for r in found if int(r["n"]) == n]
        times = {}
        for name in SOLVERS:
            cells = [r[name] for r in same]
            passed = [cell for cell in cells if cell[0] == ">"]
            times[name] = passed[0] if passed else "-" if "-" in cells else statistics.median(map(float, cells))
        yield n, int(same[0]["D"]), times


def seconds(value):
    if isinstance(value, str):
        return {"-": "not asked"}.get(value, "over " + value[1:])
    return "%.4f" % value if value < 0.1 else "%.2f" % value


def optima_table(found):
    head = ["jobs", "clashes"] + ["%s, s" % name for name in SOLVERS]
    return table(head, [[str(n), str(d)] + [seconds(times[name]) for name in SOLVERS] for n, d, times in sizes(found)])


def main(words):
    if len(words) != 4:
        stop("usage: report.py MACHINE NODES CALLS OPTIMA")
    for path in words:
        if not os.path.isfile(path):
            stop("no file '%s'" % path)
    with open(words[0]) as file:
        machine = file.read().strip()
    optima = rows(words[3])
    parts = {"machine": machine, "nodes": nodes_table(rows(words[1])), "calls": calls_table(rows(words[2])), "optima": optima_table(optima)}
    path = os.path.join(DOCS, "BENCHMARKS.md")
    with open(path) as file:
        text = file.read()
    for name, part in parts.items():
        marked = "(<!-- begin %s -->\n).*?(<!-- end %s -->)" % (name, name)
        text, times = re.subn(marked, lambda found: found[1] + "\n" + part + "\n\n" + found[2], text, flags=re.DOTALL)
        if times != 1:
            stop("docs/BENCHMARKS.md has no place for '%s'" % name)
    with open(path, "w") as file:
        file.write(text)
    with open(os.path.join(DOCS, "benchmarks.svg"), "w") as file:
        file.write(chart.drawn(SOLVERS, list(sizes(optima))))


main(sys.argv[1:])

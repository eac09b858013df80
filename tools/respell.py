#!/usr/bin/env python3
"""Spells this repository's own definitions, lemmas and record fields in snake case, in specs/, proofs/, clauses and must-fail edits.

usage: python3 tools/respell.py            at the top of the repository, once, after the kit's port.py

A name is turned where specs/ or proofs/*.antt declare it: readFile and read-file become read_file. Types, records and modules, whose names begin
with a capital, stay; so do names of the library in the files that import them, and the names that a proof folder declares for the kit (the
goals of a function). Where a lemma would get the name of the function that it speaks of, it gets `_lem` at its end. A name that would still meet
another one stays in all files, and is printed. In the pages of docs/ and in README the same names are turned. At the end `rt fmt` lays each crate out.
"""

import collections
import glob
import os
import re
import subprocess
import sys

NAME = r"[^\s(){}\[\].;,@\"«»]+"
TOKEN = re.compile(NAME)
WORD = re.compile(r"(?<![\w/.-])\w[\w'-]*(?![\w/-]|\.\w)")  # of a page, where a path or a file is no name
DECLARED = re.compile(r"^\s*(?:(?:unfoldable|abbrev|pub|ruleset|data|record)\s+)*(" + NAME + r")((?:\s+[({][^:(){}]*:[^(){}]*[)}])*)\s+:(?:\s|$)")
LIBRARY = re.compile(r"use (?:Rattle\.std|mathlib|native|Prim|borrow|denote|logic)\b[^\n{]*\{([^}]*)\}")

# Names inside a definition, which no signature at the head of a line declares.
LOCAL = ["afterHeader", "afterJobs", "afterWindows", "openedBy", "ranBy", "readN"]
# Lemmas that have the name already which the function that they speak of gets, and the files that name them.
LEMMAS = {
    "open_told": ["crates/promises/proofs/Judging.antt"],
    "rest_ok": ["crates/model/proofs/RestLaws.antt", "crates/model/proofs/OpenLaws.antt"],
}


def snake(name):
    words = re.sub(r"(?<=[a-z0-9])[A-Z](?![A-Z])", lambda m: "_" + m[0].lower(), name)
    words = re.sub(r"(?<=[a-z0-9])[A-Z]", lambda m: "_" + m[0], words)
    return words.replace("-", "_")


def main():
    if not os.path.isfile("crates.txt"):
        print("respell: run it at the top of the repository, where crates.txt is", file=sys.stderr)
        return 2
    antt = sorted(glob.glob("crates/*/specs/**/*.antt", recursive=True) + glob.glob("crates/*/proofs/**/*.antt", recursive=True))
    rust = sorted(glob.glob("crates/*/src/**/*.rt", recursive=True))
    edits = sorted(glob.glob("crates/*/must-fail/*.edit"))
    pages = sorted(glob.glob("docs/**/*.md", recursive=True)) + ["README.md"]
    before = {p: open(p, encoding="utf-8").read() for p in antt + rust + edits + pages}
    texts = dict(before)
    declared, folders = collections.defaultdict(set), set()
    for p in antt:
        own = re.fullmatch(r"crates/\w+/(specs/.*|proofs/[^/]+)\.antt", p)
        for line in texts[p].splitlines():
            found = DECLARED.match(line)
            if not found or line.lstrip().startswith("--"):
                continue
            if own:
                declared[found[1]].add(p)
            else:
                folders.add(found[1])
    for name, files in LEMMAS.items():
        for p in files:
            texts[p] = TOKEN.sub(lambda m: m[0] + "_lem" * (m[0] == name), texts[p])
            declared[name].discard(p)
    declared = {name for name, files in declared.items() if files}
    turned = {name: snake(name) for name in LOCAL}
    for name in declared:
        if name[0].islower() and snake(name) != name and name not in folders:
            turned[name] = snake(name)
    for name, new in turned.items():
        if "-" in name and (new in declared or any(it == new and "-" not in other for other, it in turned.items())):
            turned[name] = new + "_lem"
    words = {p: set(TOKEN.findall(t)) for p, t in texts.items()}
    kept = {}
    for name, new in sorted(turned.items()):
        twins = [other for other, it in turned.items() if it == new and other != name]
        meets = [p for p, w in words.items() if p.endswith(".antt") and name in w and new in w and new in declared]
        if meets or any(words[p] & {name} and words[p] & set(twins) for p in words):
            kept[name] = meets or twins
    for name in kept:
        del turned[name]
    for p, text in texts.items():
        library = {it.strip() for found in LIBRARY.findall(text) for it in found.split(",")}

        def turn(m):
            return turned.get(m[0], m[0]) if m[0] not in library else m[0]

        if p.endswith(".rt"):
            new = text
            for name in sorted(words[p] & turned.keys(), key=len, reverse=True):
                if name not in library:
                    new = re.sub(r"(?<![^\s(){}\[\].;,@\"«»])" + re.escape(name) + r"(?![^\s(){}\[\].;,@\"«»])", turned[name], new)
        else:
            new = (WORD if p.endswith(".md") else TOKEN).sub(turn, text)
        if new != before[p]:
            with open(p, "w", encoding="utf-8") as f:
                f.write(new)
    print(f"respell: {len(turned)} names turned")
    for name, why in sorted(kept.items()):
        print(f"respell: {name} stays: {why[:3]}")
    for folder in sorted(glob.glob("crates/*/src")):
        subprocess.run(["rt", "fmt"], cwd=os.path.dirname(folder), stdout=subprocess.DEVNULL, stderr=subprocess.DEVNULL, check=False)
    return 0


if __name__ == "__main__":
    raise SystemExit(main())

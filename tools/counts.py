"""Counts, in crates/*/src, the places that docs/DESIGN-PASS.md speaks of; with -v it lists them.

    python3 tools/counts.py [-v] [FOLDER]      FOLDER: a checkout, else the one that this file stands in

It reads text, not types, so its lists are places to look at; the page says of each what became of it.
"""
import difflib
import itertools
import pathlib
import re
import sys

KEYWORDS = set("as break const continue else enum extern fn for if impl in let loop match mod mut pub ref return self struct true false type use "
               "while u8 u16 u32 u64 i16 i32 usize bool Some None Ok Err".split())
FUNCTION = re.compile(r'^ *(?:pub )?(?:extern "C" )?fn (\w+)', re.M)


def functions(text):
    """(line, name, head, body) of each function; the clauses between head and body are left out."""
    starts = [m.start() for m in FUNCTION.finditer(text)]
    for at, end in zip(starts, starts[1:] + [len(text)]):
        piece = text[at:end]
        name = FUNCTION.match(piece).group(1)
        lines = piece.split("\n")
        indent = len(lines[0]) - len(lines[0].lstrip())
        head, body, inside = [], [], False
        for line in lines:
            if inside:
                body.append(line)
                if line == " " * indent + "}":
                    break
            elif re.match(r" *(requires|ensures)\b", line):
                continue
            else:
                head.append(line)
                inside = line.endswith("{")
        yield text[:at].count("\n") + 1, name, "\n".join(head), "\n".join(body)


def shape(body):
    names, out = {}, []
    for token in re.findall(r"\w+|[^\w\s]", body):
        if token in KEYWORDS or not re.match(r"\w", token):
            out.append(token)
        elif token[0].isdigit():
            out.append("0")
        else:
            out.append("a")
    return out


def parameters(head):
    inside = head[head.find("(") + 1:head.rfind(")")]
    return len(re.findall(r"\w+: ", inside)) + len(re.findall(r"\bself\b", inside))


def main():
    words = [w for w in sys.argv[1:] if w != "-v"]
    if len(words) > 1 or any(w.startswith("-") for w in words):
        sys.exit("usage: python3 tools/counts.py [-v] [FOLDER]")
    top = pathlib.Path(words[0]) if words else pathlib.Path(__file__).parent.parent
    files = sorted(top.glob("crates/*/src/**/*.rt"))
    if not files:
        sys.exit(f"counts: {top} has no crates/*/src/*.rt")
    found = {key: [] for key in ("1 own enums", "1 flags and answers beside a value", "1 numbers for refusals", "2 pairs of functions of one shape", "3 while loops",
                                 "4 conversions and comparisons by hand", "5 functions of eight and more parameters", "5 records written out in clauses",
                                 "6 fields and parameters that are arrays of 128, 276 or 1,024 numbers", "7 switches on a letter or a number of a kind")}
    lines_of = {
        "1 own enums": r"^(pub )?enum ",
        "1 flags and answers beside a value": r"^    (pub )?(passed|sound|formed|found|more|failed|answer): ",
        "1 numbers for refusals": r"[Rr]efused\((0x[0-9A-F]+|[0-9]+)\)|\bBROKEN\b",
        "3 while loops": r"^\s*while ",
        "4 conversions and comparisons by hand": r"\b(wide|wide16|word|stay_wide|of_byte|of_pair|of_word|of_place|of_flag|flag_of|one_more|larger|longer|minus|same|encode|signed_of|weight_of|raised|is_empty)\(",
        "5 records written out in clauses": r"^\s*(requires|ensures).*\brecord \{",
        "6 fields and parameters that are arrays of 128, 276 or 1,024 numbers": r"^    (pub )?\w+: (&(mut )?)?\[[ui](8|16|64); (128|276|1024)\],|\w+: &(mut )?\[[ui](8|16|64); (128|276|1024)\]",
        "7 switches on a letter or a number of a kind": r"\bmatch (letter|field|kind)\b",
    }
    bodies = []
    for path in files:
        text = path.read_text()
        place = f"{path.relative_to(top)}"
        for number, line in enumerate(text.split("\n"), 1):
            if line.lstrip().startswith("//"):
                continue
            for key, pattern in lines_of.items():
                for _ in re.finditer(pattern, line):
                    found[key].append(f"{place}:{number}: {line.strip()[:110]}")
        for line, name, head, body in functions(text):
            if parameters(head) >= 8:
                found["5 functions of eight and more parameters"].append(f"{place}:{line}: {name} ({parameters(head)})")
            tokens = shape(body)
            if len(tokens) >= 24:
                bodies.append((f"{place}:{line}: {name}", tokens))
    for (one, a), (other, b) in itertools.combinations(bodies, 2):
        if min(len(a), len(b)) * 1.15 < max(len(a), len(b)):
            continue
        matcher = difflib.SequenceMatcher(None, a, b, autojunk=False)
        if matcher.real_quick_ratio() >= 0.93 and matcher.quick_ratio() >= 0.93 and matcher.ratio() >= 0.93:
            found["2 pairs of functions of one shape"].append(f"{one} ~ {other}")
    for key, places in found.items():
        print(f"{len(places):4}  {key}")
        if "-v" in sys.argv:
            for place in places:
                print(f"        {place}")


main()

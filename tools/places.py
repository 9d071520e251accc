#!/usr/bin/env python3
"""Lists the places in src/ that each point of docs/DESIGN-PASS.md is about, by patterns; the page says what reading made of them.

Usage: tools/places.py [ROOT] [-v]     ROOT is a checkout (default: this one); -v prints every place, not only how many.
"""
import re
import sys
from collections import defaultdict
from difflib import SequenceMatcher
from pathlib import Path

args = [a for a in sys.argv[1:] if a != "-v"]
root = Path(args[0]) if args else Path(__file__).resolve().parent.parent
verbose = "-v" in sys.argv

# The tests of `calls` are left out: their inputs and values stay.
files = sorted(p for p in root.glob("crates/*/src/**/*.rt") if p.parts[-3] != "calls")
lines = [(f, n, l) for f in files for n, l in enumerate(f.read_text().splitlines(), 1)]


def functions(text):
    """Name, line, parameters, clauses and body of each function that has a body."""
    for m in re.finditer(r"^( *)(?:pub(?:\(crate\))? )?fn (\w+)", text, re.M):
        last = re.compile(r"^" + m.group(1) + r"\}$|;$", re.M).search(text, m.end())
        whole = text[m.start():last.end()]
        clauses = re.findall(r"^ *(?:requires|ensures)\*?(?: \w+)? \{ (.*) \};?$", whole, re.M)
        bare = re.sub(r"^ *(?:requires|ensures)\*?(?: \w+)? \{ .* \};?\n", "", whole, flags=re.M)
        head, _, body = bare.partition("{\n")
        given = re.search(r"\((.*)\)", head.replace("\n", " "))
        taken = re.sub(r"\) ->.*", "", given.group(1)) if given else ""
        params = [re.sub(r"'\w+ |mut (?=\w+:)", "", p.strip()) for p in taken.split(",") if ":" in p]
        yield m.group(2), text[:m.start()].count("\n") + 1, head, params, clauses, body


def skeleton(body):
    body = re.sub(r'b?"(?:[^"\\]|\\.)*"', "S", body)
    body = re.sub(r"\b\d[\d_]*(?:[iu](?:8|32|64|size))?\b", "N", body)
    body = re.sub(r"\b(?!let\b|mut\b|if\b|else\b|for\b|in\b|while\b|match\b|return\b|self\b|Some\b|None\b|Ok\b|Err\b|S\b|N\b)\w+", "x", body)
    return re.findall(r"\w+|[^\w\s]", body)


found = defaultdict(list)


def note(kind, f, n, what):
    found[kind].append(f"{f.relative_to(root)}:{n}: {what.strip()}")


def by_pattern(kind, pattern):
    for f, n, l in lines:
        if not l.lstrip().startswith("//") and re.search(pattern, l):
            note(kind, f, n, l)


by_pattern("1a own enums", r"^ *(?:pub(?:\(crate\))? )?enum ")
by_pattern("1b matches written out where ?, map or ok_or could stand",
           r"None => (?:None|return None|Err\(|false|unreachable)|Ok\((\w+)\) => Ok\(\1\)|Some\(\w+\) => Some\(|Err\(\w+\) =>")
by_pattern("1d numbers of refusals", r"number: \d|plain\(\d+\)|=> \(\d, |=> \d+,$|=> \(\d+, \d")
by_pattern("3a loops over an index, and while loops", r"^ *(?:for \w+ in \d|for \w+ in 0\.\.|while )")
by_pattern("3b counts kept by hand", r"(?:\+|-)= 1;")
by_pattern("4a traits of std implemented by hand", r"^ *impl.* (?:Copy|Clone|PartialEq|Eq|PartialOrd|Ord|Hash|Display|Debug|Default) for ")
by_pattern("4b comparing, converting and printing by hand", r"fn (?:same|below|refusal|digit|digit_count|put_digits|plain)\b|\.(from|to) [!=]= \w+(?:\.\w+)*\.\1\b")
by_pattern("7 switches and tables of functions", r"match (?:\w+\.)*(?:index|goal) \{|\bdyn |: fn\(|impl Fn")

spoken = defaultdict(set)
travel = defaultdict(set)
shapes = []
for f in files:
    text = f.read_text()
    for m in re.finditer(r"struct (\w+)[^{;]*\{([^}]*(?:\{[^}]*\}[^}]*)*)\n\}", text):
        if re.search(r"\[[^;\]]+; [^\]]+\]", m.group(2)) and re.search(r"\b(?:count|used|len): usize", m.group(2)):
            note("6a a table with a count beside it", f, text[:m.start()].count("\n") + 1, m.group(1))
        if re.search(r"^\s*(?:pub )?\w+: &'a \[u8\],\s*$", m.group(2)) and "," == m.group(2).strip()[-1]:
            if m.group(2).count(":") == 1:
                note("6b a struct around one slice", f, text[:m.start()].count("\n") + 1, m.group(1))
    for name, n, head, params, clauses, body in functions(text):
        where = f"{f.relative_to(root)}:{name}"
        if "-> bool" in head and "&mut" in head:
            note("1c a flag beside what is written", f, n, name)
        for c in set(clauses):
            spoken[c].add(where)
        for i in range(len(params)):
            for j in range(i + 1, len(params)):
                travel[params[i], params[j]].add(where)
        if body.count("\n") >= 3:
            shapes.append((where, skeleton(body)))
for i in range(len(shapes)):
    for j in range(i + 1, len(shapes)):
        (a, x), (b, y) = shapes[i], shapes[j]
        if SequenceMatcher(None, x, y, autojunk=False).ratio() >= 0.85:
            found["2 pairs of functions of one shape"].append(f"{a} ~ {b}")
for c, places in spoken.items():
    if len(places) >= 3:
        found["5a a clause in three functions or more"].append(f"{{ {c} }} in {len(places)}: " + ", ".join(sorted(places)))
for pair, places in travel.items():
    if len(places) >= 3:
        found["5b two parameters together in three functions or more"].append(f"({', '.join(pair)}) in {len(places)}: " + ", ".join(sorted(places)))
for kind in sorted(found):
    print(f"{kind}: {len(found[kind])}")
    if verbose:
        for place in found[kind]:
            print("   ", place)

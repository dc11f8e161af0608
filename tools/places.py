#!/usr/bin/env python3
"""Lists the places of docs/DESIGN-PASS.md in src/, point by point.

    tools/places.py [ROOT]          the counts
    tools/places.py [ROOT] --list   each place as well
"""
import glob
import itertools
import re
import sys

args = [a for a in sys.argv[1:] if a != "--list"]
root = args[0] if args else "."
listing = "--list" in sys.argv

files = {}
for path in sorted(glob.glob(root + "/crates/*/src/**/*.rt", recursive=True)):
    text = open(path).read()
    files[path[len(root) + 8:]] = re.sub(r"//[^\n]*", "", text)


def lines(pattern):
    for path, text in files.items():
        for i, line in enumerate(text.split("\n"), 1):
            if re.search(pattern, line):
                yield f"{path}:{i}: {line.strip()}"


FN = re.compile(r"\bfn (\w+)(?:<[^>(]*>)?\(([^)]*)\)([^{]*(?:\{[^}]*\}[^{]*?)*?)\n(?:    )?\{\n(.*?)\n(?:    )?\}\n", re.S)
KEEP = set("fn let mut if else match return while for in loop true false Some None Ok Err self as ref break continue".split())


def shape(body):
    tokens = re.findall(r"[A-Za-z_]\w*|\d\w*|[^\s\w]", body)
    out = []
    for t in tokens:
        if t in KEEP:
            out.append(t)
        elif re.match(r"\d", t):
            out.append("0")
        elif re.match(r"[A-Za-z_]", t):
            out.append("x")
        else:
            out.append(t)
    return out


def functions():
    for path, text in files.items():
        for m in FN.finditer(text):
            yield path, m.group(1), m.group(2), m.group(3), m.group(4)


def twins():
    groups = {}
    for path, name, params, _, body in functions():
        s = shape(body)
        if len(s) >= 12:
            groups.setdefault(" ".join(s), []).append(f"{path} {name}")
    for members in groups.values():
        if len(members) > 1:
            yield " = ".join(members)


def together():
    sets = {}
    for path, name, params, _, _ in functions():
        pairs = sorted({re.sub(r"\s+", " ", p.strip()) for p in params.split(",") if ":" in p})
        for three in itertools.combinations(pairs, 3):
            sets.setdefault(three, set()).add(f"{path} {name}")
    seen = []
    for three, members in sorted(sets.items(), key=lambda e: -len(e[1])):
        if len(members) >= 3 and not any(members <= s for s in seen):
            seen.append(members)
            yield ", ".join(three) + ": " + "; ".join(sorted(members))


def facts():
    count = {}
    for path, name, _, head, _ in functions():
        for fact in re.findall(r"requires (?:\w+ )?\{ (.*?) \}\n", head + "\n"):
            count.setdefault(fact, []).append(f"{path} {name}")
    for fact, members in count.items():
        if len(members) >= 3:
            yield fact + ": " + "; ".join(members)


POINTS = [
    ("1", "enums", lambda: lines(r"^(pub(\(crate\))? )?enum ")),
    ("1", "methods that give a refusal's number", lambda: lines(r"fn number\(self")),
    ("1", "constants that number a kind or a refusal", lambda: lines(r"^(pub )?const (?!BAR_COUNT|MOST_DEVICE|LEAST|HEX|DECIMAL)[A-Z_0-9]+: u(8|64) = \d+;")),
    ("1", "flags beside a value", lambda: lines(r"^ +(pub )?(found|good|has_\w+|present|inside|probe|in_file|accepted): bool,")),
    ("1", "answers, verdicts and numbers beside a value", lambda: lines(r"^ +(pub )?(answer|verdict|number|refusal): \w+(<.*>)?,")),
    ("2", "groups of functions of one shape", twins),
    ("3", "loops by while", lambda: lines(r"^\s*while ")),
    ("4", "equality, copies, conversions and printing by hand", lambda: lines(r"\bfn (same_\w+|copy_of|copied|number|\w+_number|wide|of_byte|write_(hex|decimal|column|bytes))\(")),
    ("5", "parameters that go together in three functions or more", together),
    ("5", "facts in the requires of three functions or more", facts),
    ("6", "counts beside an array", lambda: lines(r"^ +pub (\w+_)?(count|length): (usize|u8),")),
    ("7", "function pointers, dyn and tables of functions", lambda: lines(r"\bdyn |: fn\(|Box<dyn")),
]

for point, what, places in POINTS:
    found = list(places())
    print(f"{point}  {len(found):3}  {what}")
    if listing:
        for place in found:
            print("        " + place)

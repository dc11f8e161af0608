#!/usr/bin/env python3
"""Respells the definitions and lemmas of this repository as today's Rattle spells them.

usage: python3 tools/respell.py [--dry]        at the top, once, after /opt/rattle/port/port.py

A word that was spelled in camel case or with dashes is spelled in snake case, a prime is an apostrophe.
Only names that a file of specs/ or proofs/ declares, and the short names of modules, are respelled:
what Rattle makes, what its library has, the names of src/ and what a program reads or prints stay.
Where a lemma's name would be that of a definition, the lemma gets _lem.
"""

import collections
import os
import re
import sys

WORD = r"[^\s(){}\[\],;:.\"`|]+"
HEAD = re.compile(r"^(\s*)((?:(?:abbrev|pub|unfoldable|data|record)\s+)*)(" + WORD + r")(.*)$")
ODD = re.compile(r"[-\u2032]|[a-z0-9][A-Z]")
BODY = ("let ", "in ", "λ", "(", "use ", "module ", "unfolding", "where", "|", "[", "rw ", "record {", "elim ")
# A lemma that the first script had respelled already, and that a definition's new name would meet.
TAKEN = {"size_ok": "size_ok_lem", "next_multiple": "next_multiple_lem", "read_at": "read_at_lem", "past_end": "past_end_lem", "no_place": "no_place_lem", "before_at": "before_at_lem", "read_answer": "read_answer_lem"}
# A lemma whose plain name is the library's, or the short name of a module beside it.
OTHERS = {"getD-table": "get_or_table", "getD-inside": "get_or_inside", "bit-and": "bit_of_and", "bit-or": "bit_of_or", "write-answer": "write_answer_lem"}


def files(root, *endings):
    for folder, dirs, names in os.walk(root):
        dirs[:] = sorted(d for d in dirs if d not in ("out", ".git", "target"))
        for name in sorted(names):
            if name.endswith(endings):
                yield os.path.join(folder, name)


def read(path):
    with open(path, encoding="utf-8") as f:
        return f.read()


def in_a_walk(path):
    """Whether a file is part of one function's proof, where most names are Rattle's."""
    parts = path.split(os.sep)
    return "proofs" in parts and len(parts) - parts.index("proofs") > 2


def declared(root):
    """The names that are declared, each with the places."""
    found = collections.defaultdict(list)
    for path in files(os.path.join(root, "crates"), ".antt"):
        walk = in_a_walk(os.path.relpath(path, root))
        for line in read(path).split("\n"):
            if line.lstrip().startswith("--"):
                continue
            m = HEAD.match(line)
            if not m or ":" not in m[4] or re.match(r"^[^:]*=", m[4]) or line.lstrip().startswith(BODY):
                continue
            said = m[4].split(":", 1)[1].strip()
            if walk and (said.startswith(("tie.", "{M")) or m[3].endswith("-spec")):
                continue
            found[m[3]].append((path, m[2].strip(), said))
    return found


def snake(name):
    name = name.replace("\u2032", "'")
    name = re.sub(r"(?<=[a-z0-9])([A-Z])", lambda m: "_" + m[1].lower(), name)
    return name.replace("-", "_")


def respelled(names):
    odd = [n for n in names if ODD.search(n) and not re.match(r"^[A-Z][A-Za-z0-9]*$", n) and re.match(r"^[a-z]", n)]
    new = {n: snake(n) for n in odd}
    by = collections.defaultdict(list)
    for old in odd:
        by[new[old]].append(old)
    for word, olds in by.items():
        kept = [o for o in olds if "-" not in o]
        if len(olds) > 1 or (word in names and word not in TAKEN):
            for old in olds:
                if old not in kept:
                    new[old] = word + "_lem"
            if len(kept) > 1:
                raise SystemExit(f"{kept} fall together")
            if kept and word in names and word not in TAKEN:
                raise SystemExit(f"{kept} meets {word}")
    for word, to in [*TAKEN.items(), *OTHERS.items()]:
        if word in names:
            new[word] = to
    return new


TOKEN = re.compile(r"[^\s(){}\[\],;:.\"`|]+")
PATH = re.compile(r"^(\s*(?:ghost\s+|pub\s+)*use\s+)([^{;\s]*?)(\.?)(\{.*|(?:\s+as\s+.*)?;?\s*)$")


def words(text, new):
    return TOKEN.sub(lambda m: new.get(m[0], m[0]), text)


def dotted(text, new):
    """Words, but none that follows `tie.`, and of the fields none that a lemma had taken."""

    def one(m):
        if m[1] == "tie." or (m[1] and m[2] in TAKEN):
            return m[0]
        return m[1] + new.get(m[2], m[2])

    return re.sub(r"(tie\.|(?<=[^\s(){}\[\],;:\"`|])\.|)([^\s(){}\[\],;:.\"`|]+)", one, text)


def line_of_antt(line, new):
    if line.lstrip().startswith("--"):
        camel = {k: v for k, v in new.items() if re.search(r"[a-z0-9][A-Z]", k)}
        line = words(line, camel)
        return re.sub(r"`[^`]*`", lambda m: words(m[0], new), line)
    m = PATH.match(line)
    if m:
        return m[1] + m[2] + m[3] + words(m[4], new)
    return dotted(line, new)


def text_of_rt(text, new):
    """Clauses and ghost lines alone: no name of src/ changes."""
    out, deep, clause = [], 0, False
    for line in text.split("\n"):
        bare = line.strip()
        if bare.startswith("//"):
            camel = {k: v for k, v in new.items() if re.search(r"[a-z0-9][A-Z]", k)}
            line = re.sub(r"`[^`]*`", lambda m: words(m[0], new), words(line, camel))
        elif bare.startswith("ghost use"):
            line = line_of_antt(line, new)
        elif deep or re.match(r"^(requires|ensures|ghost|invariant)\b", bare):
            line = words(line, new)
            deep += line.count("{") - line.count("}")
        out.append(line)
    return "\n".join(out)


def text_of_edit(text, new):
    out, about = [], ""
    for line in text.split("\n"):
        if line.startswith("file: "):
            about = line[6:]
        elif line.startswith(("old: ", "new: ")) and about.endswith(".antt"):
            line = line[:5] + words(line[5:], new)
        out.append(line)
    return "\n".join(out)


def text_of_page(text, new, names):
    """A page may still have a name as it was before the first script: what it is now tells."""
    now = {new.get(n, n) for n in names}

    def one(m):
        word = m[0]
        if word in new and word not in TAKEN:
            return new[word]
        return snake(word) if ODD.search(word) and re.match(r"^[a-z]", word) and snake(word) in now else word

    return re.sub(r"`[^`\n]*`", lambda m: TOKEN.sub(one, m[0]), text)


def aliases(text):
    """The short names in camel case that a file gives to modules."""
    found = re.findall(r"^(?:pub )?use \S+ as (\w+)\s*$", text, re.M)
    return {a: snake(a) for a in found if ODD.search(a) and re.match(r"^[a-z]", a)}


def fallen_together(path, text):
    """Names that a file has twice: declared or imported."""
    seen = collections.Counter()
    for line in text.split("\n"):
        m = re.match(r"^(?:pub )?use [^{]*\{(.*)\}", line)
        if m:
            for w in m[1].split(","):
                seen[w.strip().split(" as ")[-1]] += 1
            continue
        m = re.match(r"^(?:pub )?use \S+ as (\S+)", line)
        if m:
            seen[m[1]] += 1
            continue
        m = re.match(r"^((?:(?:abbrev|pub|unfoldable|data|record)\s+)*)(" + WORD + r")(.*)$", line)
        if m and not line.startswith(("--", "module", "use")) and ":" in m[3] and not re.match(r"^[^:]*=", m[3]):
            seen[m[2]] += 1
    return [w for w, n in seen.items() if n > 1]


def main():
    root = os.getcwd()
    dry = "--dry" in sys.argv
    names = declared(root)
    new = respelled(names)
    print(f"{len(names)} names are declared, {len(new)} are respelled")
    for path in files(root, ".rt", ".antt", ".edit", ".md"):
        rel = os.path.relpath(path, root)
        text = read(path)
        if rel.endswith(".antt"):
            its = dict(new)
            its.update(aliases(text))
            used = {t for t in TOKEN.findall(text)}
            for old, to in its.items():
                if old in used and to in used and to not in its:
                    print(f"{rel}: {old} becomes {to}, which stands there")
            out = "\n".join(line_of_antt(line, its) for line in text.split("\n"))
            for word in fallen_together(rel, out):
                print(f"{rel}: {word} is declared or imported twice")
        elif rel.endswith(".rt"):
            used = {t for t in re.findall(r"[A-Za-z_][A-Za-z0-9_]*", text)}
            for old, to in new.items():
                if old in used and to in used and old not in TAKEN:
                    print(f"{rel}: {old} becomes {to}, which stands there")
            out = text_of_rt(text, {k: v for k, v in new.items() if k not in TAKEN})
        elif rel.endswith(".edit"):
            out = text_of_edit(text, new)
        elif rel.startswith("docs" + os.sep) or rel == "README.md":
            out = text_of_page(text, new, names)
        else:
            continue
        if out != text and not dry:
            with open(path, "w", encoding="utf-8") as f:
                f.write(out)


main()

#!/usr/bin/env python3
"""Spells the repository's own definitions and lemmas as Rattle's library does.

usage: python3 tools/spell_names.py        at the top of the repository, once, right after port.py

Definitions in lower camel case become snake case (rootOf: root_of). In a name whose parts a dash joins, the
parts that are such a definition's name are joined by `_` (root-of-zero: root_of-zero), and a record's field is
snake case throughout; one that would get a definition's name keeps its dash. Names of src/, modules, types and
labels stay. Two names that fall together stop it.
"""

import collections
import glob
import re
import sys

# Lemmas that would get the name of a definition, and names that end in a type's letter.
BY_HAND = {
    "root_in": "root_in-is_root",
    "at_most": "at_most-bound",
    "in_order": "in_order-example",
    "pair_one": "pair-of-one",
    "leZ-not": "le_z-not",
    "le-refl-Z": "le_z-refl",
    "le-trans-Z": "le_z-trans",
    "le-lt-Z": "le_z-lt",
}
# The same words as functions of src/, whose folders and paths stay.
ONLY_LEMMAS = {"at_most": "crates/fixed_point/", "in_order": "", "pair_one": "crates/text/", "root_in": "crates/isqrt/"}

DEFINED = re.compile(
    r"^(\s*)((?:(?:unfoldable|abbrev|pub) )*)((?:record|data) )?([^\W\d][\w'-]*)((?: [({][^\n]*)?) : ", re.M
)
WORD = re.compile(r"[^\W\d][\w'-]*")


def read(path):
    with open(path, encoding="utf-8") as f:
        return f.read()


def snake(name):
    return re.sub(r"([a-z0-9])([A-Z])", r"\1_\2", name).lower()


def fields_of(text):
    """The fields of the file's records that a dash joins."""
    found, inside = set(), None
    for line in text.splitlines():
        m = re.match(r"(\s*)(?:(?:abbrev|pub) )*record .* where\s*$", line)
        if m:
            inside = len(m.group(1))
            continue
        if inside is not None and line.strip() and not line.lstrip().startswith("--"):
            depth = len(line) - len(line.lstrip())
            if depth <= inside:
                inside = None
                continue
            f = re.match(r"\s*(?:pub )?([^\W\d][\w'-]*) : ", line)
            if f and "-" in f.group(1):
                found.add(f.group(1))
    return found


def main():
    antt = sorted(set(glob.glob("crates/*/specs/**/*.antt", recursive=True)) | set(glob.glob("crates/*/proofs/**/*.antt", recursive=True)))
    source = sorted(glob.glob("crates/*/src/**/*.rt", recursive=True))
    texts = {p: read(p) for p in antt}
    names, fields = set(), set()
    for t in texts.values():
        names |= {m.group(4) for m in DEFINED.finditer(t)}
        fields |= fields_of(t)
    to = {n: snake(n) for n in names if n[0].islower() and re.search("[A-Z]", n) and "-" not in n}
    known = {s for s in to.values() if "_" in s}
    longest = max(s.count("_") + 1 for s in known)
    for n in sorted(names):
        if "-" not in n or n[0].isupper() or n.endswith("-spec"):
            continue
        if n in fields and n.replace("-", "_") not in known:
            to[n] = n.replace("-", "_")
            continue
        parts, out = n.split("-"), []
        parts = [snake(p) if re.fullmatch(r"[a-z]+[A-Z][A-Za-z]*", p) else p for p in parts]
        while parts:
            for k in range(min(longest, len(parts)), 0, -1):
                if k == 1 or "_".join(parts[:k]) in known:
                    out.append("_".join(parts[:k]))
                    parts = parts[k:]
                    break
        if "-".join(out) != n and "-".join(out) not in known:
            to[n] = "-".join(out)
    to.update({k: v for k, v in BY_HAND.items() if k not in ONLY_LEMMAS})
    fell = collections.defaultdict(set)
    for n in names | set(to):
        fell[BY_HAND.get(n, to.get(n, n)) if n in ONLY_LEMMAS else to.get(n, n)].add(n)
    bad = {k: v for k, v in fell.items() if len(v) > 1}
    if bad:
        print("names that fall together: " + ", ".join(f"{k} ({' '.join(sorted(v))})" for k, v in sorted(bad.items())))
        if "--dry" not in sys.argv:
            return 1
    if "--dry" in sys.argv:
        for k in sorted(to):
            print(k, to[k])
        return 0
    for p, t in texts.items():
        def word(m, p=p):
            w = m.group(0)
            if w in ONLY_LEMMAS and ONLY_LEMMAS[w] and p.startswith(ONLY_LEMMAS[w]):
                return BY_HAND[w]
            return to.get(w, w)

        new = WORD.sub(word, t)
        if new != t:
            with open(p, "w", encoding="utf-8") as f:
                f.write(new)
    plain = {k: v for k, v in to.items() if "-" not in k}
    known_words = re.compile(r"\b(" + "|".join(sorted(map(re.escape, plain), key=len, reverse=True)) + r")\b")
    for p in source + sorted(glob.glob("crates/*/must-fail/*.edit")):
        t = read(p)
        new = known_words.sub(lambda m: plain[m.group(1)], t)
        if new != t:
            with open(p, "w", encoding="utf-8") as f:
                f.write(new)
    return 0


if __name__ == "__main__":
    raise SystemExit(main())

#!/usr/bin/env python3
"""Respells this repository's own definitions and lemmas: words in snake case, types and facts in camel case.

usage: python3 tools/respell.py          at the top, once, after the kit's port.py; prints each name that it changed
       python3 tools/respell.py --list   prints what it would change, and names that would fall together

A name is ours where no `use` line brings it in from a library. Of a proof folder's files only names that a file of ours
declares are turned: the rest of what they cite is written by the toolchain. Strings and Rust's own names stay.
"""

import glob
import re
import sys

OURS = r"Rattle\.(codec|crc32c|journal|log|model|service|split|table)\."
TOKEN = re.compile(r"(?<![\w'\-])([^\W\d_]\w*(?:-[\w']+)+)(?![\w'\-])")
DECLARED = re.compile(r"^\s*(?:(?:abbrev|pub|record|data|unfoldable|ruleset|module|let)\s+)*([^\W\d_][\w'\-]*)(?=[^=\n]*?\s:\s)", re.M)
# a dash joins two names of functions, as in length-drop
FUNCTIONS = {"length", "number", "be", "fitted", "append", "take", "drop"}
# facts, which are spelled as types; a word of the library that was renamed; and names that would fall together with a
# variant, a field, or the function of src/ that they speak of
BY_HAND = {
    "byte-good": "IsByteGood",
    "staged-good": "IsStagedGood",
    "log-good": "IsLogGood",
    "getD-each": "get_or_each",
    "getD-numbers": "get_or_numbers",
    "Equal-epochs": "EqualEpochsRefused",
    "Past-end": "PastEndRefused",
    "next-epoch": "to_next_epoch",
    "row-size": "row_len",
    "append-and-read": "append_and_read_lem",
    "edge-cases": "edge_cases_lem",
    "eight-cases": "eight_cases_lem",
    "has-place": "has_place_lem",
}


def files(*patterns):
    return sorted(f for p in patterns for f in glob.glob(p, recursive=True) if "/out/" not in f)


def read(path):
    with open(path, encoding="utf-8") as f:
        return f.read()


def bare(path, text):
    return re.sub(r"(--|//).*" if path.endswith(".antt") else r"//.*", "", text)


def imported(paths):
    names = set()
    for path in paths:
        for m in re.finditer(r"use ([^\s{;]+?)\.\{([^}]*)\}", read(path)):
            if not re.match(OURS, m.group(1)):
                names |= {n.strip().split(" as ")[0] for n in m.group(2).split(",")}
    return names


def spelled(name):
    if name in BY_HAND:
        return BY_HAND[name]
    parts = name.split("-")
    if name[0].isupper():
        return "".join(p[:1].upper() + p[1:] for p in parts)
    return name if set(parts) <= FUNCTIONS else "_".join(parts)


def table(texts, sources, proofs):
    library = imported(texts + sources + proofs)
    ours = set()
    for path in texts:
        ours |= set(TOKEN.findall(bare(path, read(path))))
    for path in proofs:
        goals = set(re.findall(r"goal\.([\w'\-]+)", read(path)))
        ours |= {n for n in DECLARED.findall(read(path)) if "-" in n and n not in goals and not n.startswith(("invariant-", "decreases-"))}
    return {n: spelled(n) for n in sorted(ours - library) if spelled(n) != n}


def turned(path, text, names):
    # what a proof file projects is named after Rust's own name
    generated = "/proofs/" in path and path.endswith(("Answers.antt", "Invariants.antt"))

    def one(m):
        name = m.group(1)
        if generated and m.string[: m.start()].endswith(".") and name in names:
            return name.replace("-", "_")
        return names.get(name, name)

    if path.endswith((".rt", ".edit")):
        cuts = re.split(r'("(?:[^"\\]|\\.)*")', text)
        return "".join(c if i % 2 else TOKEN.sub(one, c) for i, c in enumerate(cuts))
    return TOKEN.sub(one, text)


def main():
    texts = files("crates/*/specs/**/*.antt", "crates/*/proofs/*.antt")
    proofs = files("crates/*/proofs/*/**/*.antt")
    sources = files("crates/*/src/**/*.rt")
    edits = files("crates/*/must-fail/*.edit")
    names = table(texts, sources, proofs)
    standing = set(re.findall(r"[\w']+", "".join(bare(p, read(p)) for p in texts + sources + proofs)))
    if "--list" in sys.argv:
        for old, new in names.items():
            print(old, new, "FALLS TOGETHER" if new in standing or list(names.values()).count(new) > 1 else "")
        return
    for path in texts + proofs + sources + edits:
        text = read(path)
        new = turned(path, text, names)
        if new != text:
            with open(path, "w", encoding="utf-8") as f:
                f.write(new)
    for old, new in names.items():
        print(old, new)


main()

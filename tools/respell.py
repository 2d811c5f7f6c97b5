#!/usr/bin/env python3
"""Brings the repository's own definitions and lemmas to snake case, once, after the kit's script has turned the rest.

usage: python3 tools/respell.py      at the top of the repository

A name in camel case (`jobRules`) or with dashes (`response-at`) that specs/, proofs/ or a ghost item of src/ declares becomes
`job_rules`, `response_at`. Types, modules, goals and the library's names keep their spelling, and so do Rust's. Where a lemma
would fall together with another name of the repository or of the library it gets `_lem` after its name. What was renamed is
printed.
"""

import collections
import glob
import os
import re

TOKEN = re.compile(r"[\w'\-]+")
DECLARED = re.compile(r"^\s*(?:pub |abbrev |unfoldable )*([^\s:(){};,=.]+) : (.*)$", re.M)
CAMEL = re.compile(r"[a-z][a-z0-9₀-₉]*(?:[A-Z][a-z0-9₀-₉]*)+$")


def files(*patterns):
    out = []
    for p in patterns:
        out += glob.glob(p, recursive=True)
    return sorted(p for p in out if "/out/" not in p)


def snake(name):
    return re.sub(r"([A-Z])", lambda m: "_" + m.group(1).lower(), name).replace("-", "_")


def read(path):
    with open(path, encoding="utf-8") as f:
        return f.read()


ANTT = files("crates/*/specs/**/*.antt", "crates/*/proofs/**/*.antt")
RT = files("crates/*/src/**/*.rt")


def strings(text):
    """The places of a Rust file that are strings or chars."""
    return [m.span() for m in re.finditer(r'b?"(?:\\.|[^"\\])*"|b?\'(?:\\.|[^\'\\])\'', text)]


# lemmas that the kit's script gave a name which a definition takes below
APART = [
    ("crates/sheets/proofs/WrittenForms.antt", "all_in", "all_in_lem"),
    ("crates/sheets/proofs/WrittenLetters.antt", "all_in", "all_in_lem"),
    ("crates/worked/proofs/Jobs.antt", "second_is", "second_is_lem"),
]
for p, old, to in APART:
    if os.path.exists(p):
        t = TOKEN.sub(lambda m: to if m.group(0) == old else m.group(0), read(p))
        with open(p, "w", encoding="utf-8") as f:
            f.write(t)

camel, dashed, tokens = set(), set(), collections.Counter()
imported = set()
for p in ANTT + RT:
    t = read(p)
    skip = strings(t) if p.endswith(".rt") else []
    for m in TOKEN.finditer(t):
        if any(a <= m.start() < b for a, b in skip):
            continue
        w = m.group(0)
        tokens[w] += 1
        if CAMEL.match(w) and "TheVariants" not in w:
            camel.add(w)
    for m in re.finditer(r"use Rattle\.(?:std|core)\.[^{}\n]*\{([^}]*)\}", t):
        imported |= set(TOKEN.findall(m.group(1)))
for p in ANTT:
    for m in DECLARED.finditer(read(p)):
        n, s = m.groups()
        if "-" in n and not s.startswith("goal.") and not re.search(r"[A-Z◌]", n):
            dashed.add(n)

new = {}
for n in sorted(camel):
    new[n] = snake(n)
taken = set(new.values()) | set(tokens) | imported
for n in sorted(dashed):
    s = snake(n)
    new[n] = s + "_lem" if s in taken else s
    taken.add(new[n])

for n, s in sorted(new.items()):
    clash = [k for k, v in new.items() if v == s and k != n]
    note = " CLASH " + " ".join(clash) if clash else " (the word stood before)" if s in tokens else ""
    print(f"{n} -> {s}{note}")


def turn(path):
    t = read(path)
    skip = strings(t) if path.endswith(".rt") else []
    in_proof = "/proofs/" in path and path.count("/") > 3

    def one(m):
        w = m.group(0)
        if any(a <= m.start() < b for a, b in skip) or w not in new:
            return w
        before = t[max(0, m.start() - 1) : m.start()]
        line = t[t.rfind("\n", 0, m.start()) + 1 : m.start()]
        if before == "." and "-" in w and in_proof and not re.search(r"(Rattle|goal)[\w.·+'-]*\.$", line):
            return w
        return new[w]

    u = TOKEN.sub(one, t)
    if u != t:
        with open(path, "w", encoding="utf-8") as f:
            f.write(u)


for p in ANTT + RT:
    turn(p)

#!/usr/bin/env python3
"""Respells this repository's own definitions and lemmas in snake case, once, after the port's script has run.

usage: python3 tools/respell.py [--dry]    at the top of the repository

An own name is one that a signature, a record field or a constructor of crates/*/specs or crates/*/proofs declares with a dash in it.
Each becomes the same words joined by `_`.
Names of goals and invariants, which the check makes, and names that the library has too are left alone. Strings and functions
of src/ keep their names: only the clauses, ghost members and ghost imports of a .rt file are touched.
"""

import os
import re
import sys

LETTER = "A-Za-z0-9_'\\-\u2080-\u2089\u207a\u0370-\u03ff"
TOKEN = re.compile("[" + LETTER + "]+")
SIGNATURE = re.compile(r"^\s*(?:(?:abbrev|unfoldable|pub|data|record|module)\s+)*([A-Za-z][" + LETTER + r"]*)\s*:(?!:)", re.M)
MADE = re.compile(r":\s*(?:goal|given|need)\.")
PLAIN = {"no_Node": "no_node"}


def files(root, ends):
    for folder, dirs, names in os.walk(os.path.join(root, "crates")):
        dirs[:] = sorted(d for d in dirs if d != "out")
        for n in sorted(names):
            if n.endswith(ends):
                yield os.path.join(folder, n)


def read(path):
    with open(path, encoding="utf-8") as f:
        return f.read()


def declared(root):
    """All names that own proof text declares, without those that name goals."""
    found = set()
    for p in files(root, ".antt"):
        for line in read(p).splitlines():
            m = SIGNATURE.match(line)
            if m and not MADE.search(line) and not line.lstrip().startswith("--"):
                found.add(m[1])
    return found


def library_names(root):
    found = set()
    for p in files(root, (".antt", ".rt")):
        for m in re.finditer(r"use Rattle\.std\.[\w.]*\{([^}]*)\}|use (?:borrow|lib|native)[\w.]*\{([^}]*)\}", read(p)):
            for n in (m[1] or m[2]).split(","):
                found.update(w.strip() for w in n.split(" as "))
    return found


def respell(text, turn):
    return TOKEN.sub(lambda m: turn.get(m[0], m[0]), text)


def respell_source(text, turn):
    """Only ghost imports, clauses and ghost members: whatever stands in braces after those words, and their names."""
    out, last = [], 0
    for m in re.finditer(r"(ghost use [^;]*;)|(?:requires|ensures)\*?(?:\s+\w+)?\s*(?=\{)|ghost\s+\w+\s*[:=]\s*(?=\{)", text):
        if m.start() < last:
            continue
        end = m.end()
        if not m[1]:
            deep = 0
            for k in range(end, len(text)):
                deep += (text[k] == "{") - (text[k] == "}")
                if not deep:
                    end = k + 1
                    break
        out += [text[last:m.start()], respell(text[m.start():end], turn)]
        last = end
    return "".join(out) + text[last:]


def main():
    root = "."
    names = declared(root)
    lib = library_names(root)
    turn = {n: n.replace("-", "_") for n in names if "-" in n and n not in lib}
    turn |= PLAIN
    turn = {a: b for a, b in turn.items() if a != b}
    back = {}
    for a, b in sorted(turn.items()):
        back.setdefault(b, []).append(a)
        if b in names or b in lib:
            print(f"falls together: {a} -> {b}, which stands already")
    for b, olds in sorted(back.items()):
        if len(olds) > 1:
            print(f"falls together: {', '.join(olds)} -> {b}")
    if "--dry" in sys.argv:
        for a, b in sorted(turn.items()):
            print(a, b)
        return
    for p in files(root, (".antt", ".rt")):
        old = read(p)
        new = respell(old, turn) if p.endswith(".antt") else respell_source(old, turn)
        if new != old:
            with open(p, "w", encoding="utf-8") as f:
                f.write(new)


main()

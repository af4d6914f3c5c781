#!/usr/bin/env python3
"""Brings the repository's own definitions and lemmas to snake case, once, right after the kit's port.py.

usage: respell.py            at the top of the repository; rewrites specs/, proofs/ and must-fail/ of each crate, and the clauses of src/
       respell.py --table    prints the names alone, old and new

withBit becomes with_bit, and bit-of-zero bit_of_zero; where a lemma would take a definition's name, _lem is added. What keeps its name:
types and modules, what the kit's library exports, functions and fields of src/, strings, and what Rattle makes.
"""
import glob
import os
import re
import sys

WORD = re.compile(r'[^\s(){}.;,@"«»:→λ×]+')
DOTTED = re.compile(r'[^\s(){};,@"«»:→λ×]+')
QUIET = re.compile(r'"(?:[^"\\\n]|\\.)*"|(?<![^\s(){}.;,@"«»])--[^\n]*|\{-.*?-\}', re.S)
NAME = re.compile(r"[a-z][A-Za-z0-9_'₀-₉-]*$")
USE = re.compile(r"(?m)^ *(?:ghost )?use ([^\s{;]+?)(?:\.\{([^}]*)\})?(?: as (\S+?))?;?$")
CLAUSE = re.compile(r"(?:requires|ensures)\s*(?:\w+\s*)?\{[^\n]*|ghost use[^;]*;")
LIBRARIES = ("mathlib", "Prim", "borrow", "lib")
CRATES = {os.path.basename(p) for p in glob.glob("crates/*")}
FILES = sorted(p for part in ("specs", "proofs") for p in glob.glob(f"crates/*/{part}/**/*.antt", recursive=True))


def snake(name):
    return re.sub(r"(?<=[a-z0-9])([A-Z])", lambda m: "_" + m[1].lower(), name).replace("-", "_")


def is_made(path):
    """The proof of one function, which names what Rattle makes."""
    return os.path.basename(path) == "Proof.antt"


def code(text):
    return QUIET.sub(lambda m: re.sub(r"[^\n]", " ", m[0]), text)


def foreign(text):
    """The words that a file imports from the kit's library."""
    out = set()
    for m in USE.finditer(text):
        path = m[1].split(".")
        if not (path[0] == "Rattle" and path[1] in CRATES):
            out |= {w.strip() for item in (m[2] or path[-1]).split(",") for w in item.split(" as ")} | {m[3]}
    return out


def table():
    words = set()
    for path in FILES:
        if not is_made(path):
            text = code(open(path, encoding="utf-8").read())
            words |= set(WORD.findall(USE.sub("", text))) - foreign(text)
    names = {w: snake(w) for w in words if NAME.match(w) and snake(w) != w}
    taken = {new for old, new in names.items() if "-" not in old} | (words & set(names.values()))
    return {old: new + "_lem" if "-" in old and new in taken else new for old, new in names.items()}


def turned(text, names, kept=()):
    def one(m):
        head = m[0].split(".")
        if head[0] in LIBRARIES or head[:2] == ["Rattle", "std"] or head[0] in kept:
            return m[0]
        return WORD.sub(lambda w: names.get(w[0], w[0]), m[0])

    return DOTTED.sub(one, text)


def main():
    names = table()
    if sys.argv[1:] == ["--table"]:
        for old, new in sorted(names.items()):
            print(f"{old}\t{new}")
        return
    for path in FILES:
        text = open(path, encoding="utf-8").read()
        kept = foreign(code(text))
        here = {old: new for old, new in names.items() if old not in kept}
        parts, at = [], 0
        for m in QUIET.finditer(text):
            parts += [turned(text[at : m.start()], here, kept), m[0]]
            at = m.end()
        write(path, text, "".join(parts + [turned(text[at:], here, kept)]))
    for path in glob.glob("crates/*/src/**/*.rt", recursive=True):
        text = open(path, encoding="utf-8").read()
        write(path, text, CLAUSE.sub(lambda m: turned(m[0], names), text))
    for path in glob.glob("crates/*/must-fail/*.edit"):
        text = open(path, encoding="utf-8").read()
        write(path, text, re.sub(r"(?m)^(old|new): .*", lambda m: turned(m[0], names), text))


def write(path, old, new):
    if new != old:
        with open(path, "w", encoding="utf-8") as f:
            f.write(new)


main()

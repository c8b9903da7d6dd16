#!/usr/bin/env python3
"""Gives the repository's own definitions, fields, constructors, lemmas and bound names the spelling of Rattle's CONTRACT_STYLE.md.

usage: tools/respell.py [--check]     at the top of the repository, once, after port.py

    setBit  ->  set_bit        marks-past  ->  marks_past        length-setBit  ->  length-set_bit

A dash stays where each part is the name of a definition, and a plain word is added with '_'. Types, modules, functions of src/, exported names, strings and
what Rattle makes keep their names. It rewrites specs/, proofs/, clauses of src/ and must-fail/; --check prints the table alone.
"""
import glob
import re
import sys

TOKEN = re.compile(r"--[^\n]*|//[^\n]*|\"(?:[^\"\\]|\\.)*\"|[^\s(){}\[\],;.@\"«»⟦⟧⌜⌝]+")
CAMEL = re.compile(r"^[a-z][a-z0-9_]*[A-Z]")
# Names that the new spelling would make equal to another name, and what they become.
BY_HAND = {old: old.replace("-", "_") + "_lem" for old in (
    "axiom-count by-role byte-minus counts-in-limits first-fault header-fits in-force link-rule list-outcome lookup-outcome no-axioms offsets-right "
    "row-outcome changes-groups take-groups after-calls call-right catalogue-numbers classify-turn clear-bit is-whole looked-up marked-reached new-at "
    "not-whole numbers-below of-partition over-drawn own-count row-bit sides-below w8-store list-fits link-first").split()}
BY_HAND["group-count"] = "group_size"

def read(path):
    with open(path, encoding="utf-8") as f:
        return f.read()


def wanted(name):
    return "-" in name.strip("-") and name[0] != "-" or bool(CAMEL.match(name))


def snake(part):
    return re.sub(r"(?<=[a-z0-9'])([A-Z])", lambda m: "_" + m.group(1).lower(), part) if CAMEL.match(part) else part


def main(check):
    proofs = sorted(glob.glob("crates/*/proofs/**/*.antt", recursive=True))
    specs = sorted(glob.glob("crates/*/specs/**/*.antt", recursive=True))
    source = sorted(glob.glob("crates/*/src/**/*.rt", recursive=True))
    edits = sorted(glob.glob("crates/*/must-fail/*.edit"))
    declared, names, outside = set(), set(), set()
    for path in specs + proofs:
        text = read(path)
        for m in re.finditer(r"^(?:pub |unfoldable )*use ([^\s{]+)(?:\{([^}]*)\})?", text, re.M):
            if not m.group(1).startswith("Rattle.") or m.group(1).startswith("Rattle.std."):
                outside.update(w for one in (m.group(2) or "").split(",") for w in one.split()[:1])
        for m in re.finditer(r"^ *((?:abbrev |unfoldable |pub |data |record |let )*)([^\s(){}.;,]+)((?: +[^\s(){}.;,:=]+)*) *(?:[({][^=\n]*[)}] *)?: *([^\n]*)", text, re.M):
            if m.group(4).lstrip().startswith("tie."):
                continue
            if m.group(2).startswith("--"):
                continue
            declared.update([m.group(2), *m.group(3).split()])
            if "unfoldable" in m.group(1) and "/specs/" in path:
                names.add(m.group(2))
        for m in re.finditer(r"let ([^\s(){}.;,:=]+) *[:=]", text):
            declared.add(m.group(1))
        for m in re.finditer(r"λ ([^.]*?)\. ", text):
            declared.update(re.findall(r"[^\s(){}:]+", m.group(1)))
        for m in re.finditer(r"[({]([^\s(){}:]+(?: [^\s(){}:]+)*) : ", text):
            declared.update(m.group(1).split())
    names |= {"length", "take", "drop", "map", "set", "get_or", "append", "reverse", "replicate", "sum", "eqb", "ltb", "leb", "cond", "not", "add", "mul", "sub", "suc", "zero"}
    clash = sorted(n for n in declared if wanted(n) and n in outside)
    table = {}
    for old in sorted(n for n in declared if wanted(n) and n not in outside):
        if old in BY_HAND:
            table[old] = BY_HAND[old]
            continue
        parts = old.split("-")
        new = ("-" if all(part in names for part in parts) and parts[-1] != "spec" else "_").join(snake(part) for part in parts)
        if new != old:
            table[old] = new
    every = set()
    for path in specs + proofs + source:
        every.update(TOKEN.findall(read(path)))
    fall = {}
    for old, new in table.items():
        if new in every and new not in table:
            fall.setdefault(new, []).append(old)
    seen = {}
    for old, new in table.items():
        seen.setdefault(new, []).append(old)
    if check:
        for new, olds in sorted(fall.items()):
            print("there already:", new, olds)
        for new, olds in sorted(seen.items()):
            if len(olds) > 1:
                print("fall together:", new, olds)
        print("outside too:", clash)
        print(len(table), "names")
        for old, new in sorted(table.items()):
            print(" ", old, new)
        return

    def turn(text):
        def one(m):
            w = m.group(0)
            if w.startswith(("--", "//")):
                return re.sub(r"[\w'-]+", lambda k: table.get(k.group(0), k.group(0)) if wanted(k.group(0)) and CAMEL.match(k.group(0)) else k.group(0), w)
            return w if w.startswith('"') else table.get(w, w)

        return TOKEN.sub(one, text)

    for path in specs + proofs + source + edits:
        text = read(path)
        new = turn(text)
        if new != text:
            with open(path, "w", encoding="utf-8") as f:
                f.write(new)


if __name__ == "__main__":
    main("--check" in sys.argv[1:])

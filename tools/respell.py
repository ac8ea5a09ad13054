#!/usr/bin/env python3
"""Respells this repository's own definitions and lemmas in snake case, once, after port.py: `entry-size` becomes `entry_size`.

usage: python3 tools/respell.py      at the top of the repository

It takes the names that specs/ and proofs/ declare, fields of records among them, and turns their dashes into underscores wherever they
stand as whole words: in specs/, in proofs/ and in the clauses, ghost lines and imports of src/. A dash that joins two names, as in
`length-claims`, stays. Functions of src/, strings, inputs and outputs keep their names. It refuses to run where two names would fall together.
"""

import glob
import re
import sys

# Lemmas whose dash joins two names: the left side of an equation or of a comparison.
JOINED = {"length-claims", "length-entries", "length-encoded", "le-div", "mul-le", "div-add-mod'"}

DECLARED = re.compile(r"^[ \t]*(?:abbrev |unfoldable )?(?:pub )?(?:record |data )?([A-Za-z][^\s:({.,;]*)(?= ?[:({]| \()", re.M)
WORD = re.compile(r"(?<![\w'-])[A-Za-z][\w']*(?:-[\w']+)+(?![\w'-])")
GHOST = re.compile(r"^\s*(?:ghost |requires\b|ensures\b)")


def files(kind):
    return sorted(glob.glob(f"crates/*/{kind}/**/*.antt", recursive=True))


def answers(path):
    return path.endswith(("/Answers.antt", "/Invariants.antt"))


def declared():
    names = set()
    for path in files("specs") + files("proofs"):
        if not answers(path):
            with open(path, encoding="utf-8") as f:
                names |= set(DECLARED.findall(f.read()))
    return names


def respell_ghost(text, turn):
    """Turns the ghost parts of a .rt file: `ghost ..` up to its end, and clauses, up to the brace that closes them."""
    out, depth, inside = [], 0, False
    for line in text.split("\n"):
        if not inside and GHOST.match(line):
            inside, depth = True, 0
        if inside:
            line = turn(line)
            depth += line.count("{") - line.count("}")
            inside = depth > 0
        out.append(line)
    return "\n".join(out)


def main():
    names = declared()
    turned = {n: n.replace("-", "_") for n in names if "-" in n and n not in JOINED}
    clashes = sorted(n for n, to in turned.items() if to in names)
    if clashes:
        sys.exit("respell: would fall together with a name that stands: " + ", ".join(clashes))
    turn = lambda text: WORD.sub(lambda m: turned.get(m.group(0), m.group(0)), text)
    for path in files("specs") + files("proofs"):
        with open(path, encoding="utf-8") as f:
            old = f.read()
        write(path, old, turn(old))
    for path in sorted(glob.glob("crates/*/src/**/*.rt", recursive=True)):
        with open(path, encoding="utf-8") as f:
            old = f.read()
        write(path, old, respell_ghost(old, turn))


def write(path, old, new):
    if new != old:
        with open(path, "w", encoding="utf-8") as f:
            f.write(new)


if __name__ == "__main__":
    main()

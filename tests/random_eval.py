#!/usr/bin/env python3
"""Compare `eval` of the program with the meaning of formulas, over random specifications and random lassos.

    random_eval.py [--count N] [--seed S] PROGRAM

The expected values are computed here, by fixed points over the positions of the lasso: `f U g` is the least set that has
the positions of g and those of f from which the next position is in the set, and `f R g` the greatest set that has the
positions of g that are positions of f too or from which the next position is in the set.
"""

import argparse
import os
import random
import subprocess
import sys
import tempfile

SIGNALS = ["a", "b", "c"]
SECTIONS = ["INITIALLY", "PRESET", "REQUIRE", "ASSERT", "ASSUME", "GUARANTEE"]
TRUE = ("true",)


def formula(chance, depth):
    """A formula as a tree: an operator and its operands."""
    if depth == 0 or chance.random() < 0.15:
        return chance.choice([TRUE, ("false",)] + [("signal", n) for n in range(len(SIGNALS))] * 3)
    operator = chance.choice(["!", "X", "F", "G", "&&", "||", "->", "<->", "U", "R", "W"])
    count = 1 if operator in "!XFG" else chance.randint(2, 3) if operator in ("&&", "||") else 2
    return (operator, *(formula(chance, depth - 1) for _ in range(count)))


def spelled(tree):
    """The text of a formula, with parentheses round each operand."""
    operator, *operands = tree
    if operator in ("true", "false"):
        return operator
    if operator == "signal":
        return SIGNALS[operands[0]]
    parts = ["(%s)" % spelled(f) for f in operands]
    return operator + " " + parts[0] if len(parts) == 1 else (" %s " % operator).join(parts)


def positions(tree, letters, after):
    """The positions at which a formula holds."""
    everywhere = set(range(len(letters)))
    operator, *operands = tree
    if operator == "true":
        return everywhere
    if operator == "false":
        return set()
    if operator == "signal":
        return {p for p in everywhere if letters[p][operands[0]]}
    sets = [positions(f, letters, after) for f in operands]
    before = lambda found: {p for p in everywhere if after[p] in found}
    if operator == "!":
        return everywhere - sets[0]
    if operator == "X":
        return before(sets[0])
    if operator == "&&":
        return set.intersection(*sets)
    if operator == "||":
        return set.union(*sets)
    if operator == "->":
        return (everywhere - sets[0]) | sets[1]
    if operator == "<->":
        return everywhere - (sets[0] ^ sets[1])
    f, g = {"F": (everywhere, sets[0]), "G": (set(), sets[0])}.get(operator, sets if len(sets) == 2 else None)
    if operator == "W":
        return positions(("U", *operands), letters, after) | positions(("G", operands[0]), letters, after)
    least = operator in "FU"
    found = set() if least else everywhere
    while True:
        more = g | (f & before(found)) if least else g & (f | before(found))
        if more == found:
            return found
        found = more


def joined(entries):
    return TRUE if not entries else entries[0] if len(entries) == 1 else ("&&", *entries)


def whole(sections, strict):
    """The formula of a specification."""
    i, p, r, s, a, h = (joined(sections[name]) for name in SECTIONS)
    assumed = ("&&", ("G", r), a)
    if strict:
        return ("->", i, ("&&", p, ("W", s, ("!", r)), ("->", assumed, h)))
    return ("->", i, ("&&", p, ("->", assumed, ("&&", ("G", s), h))))


def case(chance):
    """A specification's text, a lasso's text, and whether the formula holds."""
    strict = chance.random() < 0.3
    sections = {name: [formula(chance, chance.randint(1, 3)) for _ in range(chance.choice([0, 0, 1, 2]))] for name in SECTIONS}
    parts = "".join("%s { %s } " % (name, " ".join(spelled(f) + ";" for f in entries)) for name, entries in sections.items())
    kind = "Mealy, Strict" if strict else "Mealy"
    text = "INFO { SEMANTICS: %s TARGET: Mealy } MAIN { INPUTS { a; b; } OUTPUTS { c; } %s}\n" % (kind, parts)
    stem, cycle = chance.randint(0, 3), chance.randint(1, 4)
    letters = [[chance.random() < 0.5 for _ in SIGNALS] for _ in range(stem + cycle)]
    lines = ["".join("01"[bit] for bit in letter) for letter in letters]
    lasso = "\n".join(["stem", *lines[:stem], "cycle", *lines[stem:]]) + "\n"
    after = [*range(1, stem + cycle), stem]
    return text, lasso, 0 in positions(whole(sections, strict), letters, after)


def answer(program, folder, text, lasso):
    for name, content in (("spec", text), ("lasso", lasso)):
        with open(os.path.join(folder, name), "w") as file:
            file.write(content)
    done = subprocess.run([program, "eval", "spec", "lasso"], cwd=folder, capture_output=True, timeout=60)
    return done.returncode, done.stdout, done.stderr


def asked(count):
    """What the words of a test ask for: the program, how many cases, and the source of chance."""
    words = argparse.ArgumentParser()
    words.add_argument("--count", type=int, default=count)
    words.add_argument("--seed", type=int, default=1)
    words.add_argument("program")
    words = words.parse_args()
    return os.path.abspath(words.program), words.count, random.Random(words.seed)


def main():
    program, count, chance = asked(400)
    differ = held = 0
    with tempfile.TemporaryDirectory() as folder:
        for number in range(count):
            text, lasso, holds = case(chance)
            held += holds
            wanted = (0, b"HOLDS\n", b"") if holds else (40, b"FAILS\n", b"")
            got = answer(program, folder, text, lasso)
            if got != wanted:
                differ += 1
                print("case %d: %r in place of %r\n%s%s" % (number, got, wanted, text, lasso))
    print("%d random formulas on lassos, %d hold, %d differ" % (count, held, differ))
    sys.exit(1 if differ else 0)


if __name__ == "__main__":
    main()

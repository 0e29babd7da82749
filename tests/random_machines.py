#!/usr/bin/env python3
"""Decide random specifications, and test the machines that are printed.

    random_machines.py [--count N] [--seed S] PROGRAM

For each machine that `synth` prints:
- `check` says VALID at the bound that was printed, and OVER at the bound before, since the printed one is the least;
- the machine is played here, against random choices of the other player that end in a cycle, and the lasso that comes
  of it has the formula where the machine is the system's, and doesn't have it where it is the environment's, by the
  meaning that random_eval.py computes.
"""

import os
import subprocess
import sys
import tempfile

from random_eval import SECTIONS, SIGNALS, asked, formula, positions, spelled, whole

INPUTS = 2


def specification(chance):
    """A specification's text, and its formula."""
    strict = chance.random() < 0.2
    target = chance.choice(["Mealy", "Moore"])
    counts = {"INITIALLY": [0, 0, 0, 1], "PRESET": [0, 0, 1], "REQUIRE": [0, 0, 1], "ASSERT": [0, 1, 2], "ASSUME": [0, 0, 1], "GUARANTEE": [1, 2]}
    sections = {name: [formula(chance, 2) for _ in range(chance.choice(counts[name]))] for name in SECTIONS}
    parts = "".join("%s { %s } " % (name, " ".join(spelled(f) + ";" for f in entries)) for name, entries in sections.items())
    kind = target + ", Strict" if strict else target
    names = "INPUTS { a; b; } OUTPUTS { c; }"
    text = "INFO { SEMANTICS: %s TARGET: %s } MAIN { %s %s}\n" % (kind, target, names, parts)
    return text, whole(sections, strict)


class Machine:
    """A machine's text, read."""

    def __init__(self, lines):
        _, self.player, self.kind = lines[0].split()
        self.states = [[] for _ in range(int(lines[3].split()[1]))]
        for line in lines[4:]:
            state, pattern, _, own, following = line.split()
            self.states[int(state)].append((pattern, own, int(following)))

    def step(self, state, other):
        """The own choice and the next state where the other one chooses so."""
        for pattern, own, following in self.states[state]:
            if all(wanted in ("-", bit) for wanted, bit in zip(pattern, other) if pattern != "."):
                return own, following
        raise ValueError("no line of state %d holds %s" % (state, other))

    def letter(self, own, other):
        inputs, outputs = (other, own) if self.player == "system" else (own, other)
        return [bit == "1" for bit in (inputs + outputs).replace(".", "")]


def played(machine, chance):
    """The letters of a play, and the place to which the last one leads back."""
    width = INPUTS if machine.player == "system" else len(SIGNALS) - INPUTS
    others = ["".join(chance.choice("01") for _ in range(width)) for _ in range(chance.randint(1, 4))]
    start = chance.randrange(len(others))
    letters, seen, state, place = [], {}, 0, 0
    while (state, place) not in seen:
        seen[state, place] = len(letters)
        own, state = machine.step(state, others[place])
        letters.append(machine.letter(own, others[place]))
        place = place + 1 if place + 1 < len(others) else start
    return letters, seen[state, place]


def run(program, folder, *words):
    done = subprocess.run([program, *words], cwd=folder, capture_output=True, timeout=60)
    return done.returncode, done.stdout.decode(), done.stderr.decode()


def faults(program, folder, text, tree, chance):
    """What is wrong with the answers on a specification, and the status of the first."""
    with open(os.path.join(folder, "spec"), "w") as file:
        file.write(text)
    status, answer, told = run(program, folder, "synth", "spec", "--bound", "3")
    lines = answer.splitlines()
    if status == 30 or status == 5:
        return status, []
    if status not in (10, 20):
        return status, ["synth: %d %s%s" % (status, answer, told)]
    with open(os.path.join(folder, "machine"), "w") as file:
        file.write(answer)
    bound = int(lines[1].split()[1])
    found = []
    for tried, wanted in ((bound, (0, "VALID\n", "")), (bound - 1, (40, "OVER\n", ""))):
        if tried >= 0:
            got = run(program, folder, "check", "spec", "machine", "--bound", str(tried))
            if got != wanted:
                found.append("check --bound %d: %r" % (tried, got))
    machine = Machine(lines[2:])
    if machine.player != {10: "system", 20: "environment"}[status]:
        found.append("a machine of the other player")
    for _ in range(10):
        letters, back = played(machine, chance)
        after = [*range(1, len(letters)), back]
        if (0 in positions(tree, letters, after)) != (status == 10):
            found.append("a play: %r, back to %d" % (letters, back))
    return status, found


def main():
    program, count, chance = asked(300)
    counts, differ = {}, 0
    with tempfile.TemporaryDirectory() as folder:
        for _ in range(count):
            text, tree = specification(chance)
            status, found = faults(program, folder, text, tree, chance)
            counts[status] = counts.get(status, 0) + 1
            if found:
                differ += 1
                print("\n".join([text, *found]))
    spread = ", ".join("%d of status %d" % (counts[status], status) for status in sorted(counts))
    print("%d random specifications: %s; %d differ" % (count, spread, differ))
    sys.exit(1 if differ else 0)


if __name__ == "__main__":
    main()

#!/usr/bin/env python3
"""Give `check` long machine texts, which it is to read within a second each.

    long_machines.py [--seconds S] PROGRAM

- a machine of 10,000 states in a ring, one line each: VALID, and with one state that gives no grant it is still VALID at
  bound 1, and OVER at bound 0;
- the same text with a fault in its last line, and with its last line left out: the line, and the state without a line;
- a machine of one state with a line for each of 8,192 valuations, in a mixed order: VALID, and without one of them a gap;
- a text that names 2^64 - 1 states and has a line for the first alone, and one that names 2^64: refused at once.
"""

import argparse
import os
import random
import subprocess
import sys
import tempfile
import time

FRAME = "INFO { SEMANTICS: Mealy TARGET: Mealy }\nMAIN { INPUTS { %s } OUTPUTS { g; } GUARANTEE { G (r -> F g); } }\n"
STATES = 10000
WIDE = 13


def text_of(names, states, lines):
    head = ["machine system second", "inputs " + " ".join(names), "outputs g", "states %s" % states]
    return "".join(line + "\n" for line in head + lines)


def ring(silent=None):
    """The lines of a ring of states that give a grant at each step, but for one."""
    return ["%d - -> %d %d" % (s, s != silent, (s + 1) % STATES) for s in range(STATES)]


def wide():
    """The lines of one state, one for each valuation, in a mixed order."""
    lines = ["0 %s -> 1 0" % format(bits, "0%db" % WIDE) for bits in range(1 << WIDE)]
    random.Random(1).shuffle(lines)
    return lines


def refused(line):
    return 4, "", "bonsai: machine: line %d: not expected here\n" % line


def gap(state):
    return 4, "", "bonsai: machine: state %d: input without a line\n" % state


VALID = (0, "VALID\n", "")
OVER = (40, "OVER\n", "")


def cases():
    """Names of signals, a machine's text, a bound and the answer."""
    one, many = ["r"], ["r"] + ["s%d" % n for n in range(1, WIDE)]
    lines = ring()
    yield one, text_of(one, STATES, lines), 0, VALID
    yield one, text_of(one, STATES, ring(silent=7000)), 1, VALID
    yield one, text_of(one, STATES, ring(silent=7000)), 0, OVER
    yield one, text_of(one, STATES, lines[:-1] + ["%d - -> 1 %d" % (STATES - 1, STATES)]), 0, refused(STATES + 4)
    yield one, text_of(one, STATES, lines[:-1]), 0, gap(STATES - 1)
    yield many, text_of(many, 1, wide()), 0, VALID
    yield many, text_of(many, 1, wide()[1:]), 0, gap(0)
    yield one, text_of(one, 2 ** 64 - 1, ["0 - -> 1 0"]), 0, gap(1)
    yield one, text_of(one, 2 ** 64, ["0 - -> 1 0"]), 0, refused(4)


def answer(program, folder, names, text, bound):
    """The status, what was written, and the seconds that it took."""
    with open(os.path.join(folder, "spec"), "w") as file:
        file.write(FRAME % " ".join(name + ";" for name in names))
    with open(os.path.join(folder, "machine"), "w") as file:
        file.write(text)
    words = [program, "check", "spec", "machine", "--bound", str(bound)]
    start = time.monotonic()
    done = subprocess.run(words, cwd=folder, capture_output=True, timeout=60)
    return (done.returncode, done.stdout.decode(), done.stderr.decode()), time.monotonic() - start


def main():
    parser = argparse.ArgumentParser()
    parser.add_argument("--seconds", type=float, default=1.0)
    parser.add_argument("program")
    given = parser.parse_args()
    program = os.path.abspath(given.program)
    count, longest, differ = 0, 0.0, 0
    with tempfile.TemporaryDirectory() as folder:
        for names, text, bound, wanted in cases():
            got, seconds = answer(program, folder, names, text, bound)
            count, longest = count + 1, max(longest, seconds)
            if got != wanted or seconds > given.seconds:
                differ += 1
                print("bound %d, %d lines: %r in %.2f s, not %r" % (bound, text.count("\n"), got, seconds, wanted))
    print("%d long machines: at most %.2f s each; %d differ" % (count, longest, differ))
    sys.exit(1 if differ else 0)


if __name__ == "__main__":
    main()

#!/usr/bin/env python3
"""Turn the text of a machine into a graph for Graphviz.

    machine_to_dot.py [FILE]

The text is that of `synth`, with or without the verdict and the bound before it, from FILE or from standard input.
The graph goes to standard output: a node for each state, and an arrow for each line of the text, with `pattern / own` on
it. Lines of one state with the same next state share an arrow. The title names the signals in the order of the digits.
Status 1 and a line on standard error where the text is no machine's.
"""

import re
import sys

LINE = re.compile(r"(\d+) ([01.-]+) -> ([01.]+) (\d+)")


class NotAMachine(Exception):
    """The number of the line that isn't a machine's."""


def head_of(lines):
    """The number of the first line of a machine in the text, from 0."""
    start = 2 if lines[:1] in (["REALIZABLE"], ["UNREALIZABLE"]) else 0
    wanted = [r"machine (system|environment) (first|second)", r"inputs( \S+)*", r"outputs( \S+)*", r"states \d+"]
    for number, pattern in enumerate(wanted, start):
        if number >= len(lines) or not re.fullmatch(pattern, lines[number]):
            raise NotAMachine(number + 1)
    return start


def arrows_of(lines, start, states):
    """The labels of each pair of states, in the order of the text."""
    arrows = {}
    for number, line in enumerate(lines[start:], start + 1):
        found = LINE.fullmatch(line)
        if not found or not all(int(found[n]) < states for n in (1, 4)):
            raise NotAMachine(number)
        pair = int(found[1]), int(found[4])
        arrows.setdefault(pair, []).append("%s / %s" % (found[2], found[3]))
    return arrows


def title_of(machine, inputs, outputs):
    player, kind = machine.split()[1:]
    other, own = (inputs, outputs) if player == "system" else (outputs, inputs)
    names = ["  ".join(line.split()[1:]) or "." for line in (other, own)]
    return "%s, kind %s:  %s  /  %s" % (player, kind, *names)


def graph_of(text):
    lines = text.splitlines()
    start = head_of(lines)
    machine, inputs, outputs, count = lines[start:start + 4]
    states = int(count.split()[1])
    arrows = arrows_of(lines, start + 4, states)
    yield "digraph machine {"
    yield '  rankdir=LR; labelloc=t; label="%s";' % title_of(machine, inputs, outputs)
    yield '  node [shape=circle]; edge [fontname="monospace"];'
    yield '  start [shape=point, label=""];'
    yield "  start -> 0;"
    for state in sorted({state for pair in arrows for state in pair}):
        yield "  %d;" % state
    for (state, after), labels in arrows.items():
        yield '  %d -> %d [label="%s"];' % (state, after, r"\n".join(labels))
    yield "}"


def main():
    if len(sys.argv) > 2:
        sys.exit("usage: machine_to_dot.py [FILE]")
    name = sys.argv[1] if len(sys.argv) == 2 else "-"
    try:
        if name == "-":
            text = sys.stdin.read()
        else:
            with open(name) as file:
                text = file.read()
        print("\n".join(graph_of(text)))
    except NotAMachine as fault:
        sys.exit("machine_to_dot: %s: line %s: not expected here" % (name, fault))
    except OSError as fault:
        sys.exit("machine_to_dot: %s" % fault)


if __name__ == "__main__":
    main()

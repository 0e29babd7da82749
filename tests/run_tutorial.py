#!/usr/bin/env python3
"""Run the commands of docs/TUTORIAL.md, and compare what they print with what stands there.

    run_tutorial.py [--write] [--seconds S] PROGRAM

A block that is opened by ```sh is given to the shell. What it prints on both outputs must be the block that is opened by
```text behind it, with blank lines alone between the two; where there is none it must print nothing. Blocks of other kinds,
as ```sh (not run here), aren't run. All blocks run one after another in one fresh folder, in which the entries of the
repository's folder lie, and the program as `bonsai`. With --write the outputs are written into the text in place of those
that stand there.
"""

import argparse
import os
import re
import subprocess
import sys
import tempfile

TOP = os.path.dirname(os.path.dirname(os.path.abspath(__file__)))
TUTORIAL = os.path.join(TOP, "docs", "TUTORIAL.md")
BLOCK = re.compile(r"^```sh\n(?P<commands>.*?)^```\n(?:\n*^```text\n(?P<output>.*?)^```\n)?", re.M | re.S)


def prepare(folder, program):
    """Lay the repository's entries and the program into the folder."""
    for name in os.listdir(TOP):
        if name not in ("bonsai", "out", ".git"):
            os.symlink(os.path.join(TOP, name), os.path.join(folder, name))
    os.symlink(program, os.path.join(folder, "bonsai"))


def printed(folder, commands, seconds):
    try:
        done = subprocess.run(["sh", "-c", commands], cwd=folder, timeout=seconds, stdin=subprocess.DEVNULL,
                              stdout=subprocess.PIPE, stderr=subprocess.STDOUT)
    except subprocess.TimeoutExpired:
        return "(no end within %s s)\n" % seconds
    return done.stdout.decode("utf-8", "replace")


def compared(text, folder, seconds):
    """The number of blocks, the blocks that differ with what they print, and the text with what was printed."""
    blocks, differ, pieces, end = 0, [], [], 0
    for block in BLOCK.finditer(text):
        blocks += 1
        got = printed(folder, block["commands"], seconds)
        if got != (block["output"] or ""):
            differ.append((block, got))
        output = "\n```text\n%s```\n" % got if got else ""
        pieces.append("%s```sh\n%s```\n%s" % (text[end:block.start()], block["commands"], output))
        end = block.end()
    return blocks, differ, "".join(pieces) + text[end:]


def main():
    words = argparse.ArgumentParser()
    words.add_argument("--write", action="store_true")
    words.add_argument("--seconds", type=float, default=60.0)
    words.add_argument("program")
    words = words.parse_args()
    with open(TUTORIAL) as file:
        text = file.read()
    with tempfile.TemporaryDirectory() as folder:
        prepare(folder, os.path.abspath(words.program))
        blocks, differ, renewed = compared(text, folder, words.seconds)
    for block, got in differ:
        line = text.count("\n", 0, block.start()) + 1
        print("docs/TUTORIAL.md, line %d:\n%s    got  %r\n    want %r" % (line, block["commands"], got, block["output"] or ""))
    print("%d blocks of the tutorial, %d differ" % (blocks, len(differ)))
    if words.write:
        with open(TUTORIAL, "w") as file:
            file.write(renewed)
    sys.exit(1 if differ and not words.write else 0)


if __name__ == "__main__":
    main()

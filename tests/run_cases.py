#!/usr/bin/env python3
"""Run the program over case files, and compare status, standard output and standard error.

    run_cases.py [--seconds S] [--jobs N] [--usage FILE] [--without=WORD].. PROGRAM -- CASES.json..

A case file is a list of cases. A case has

    id       what it shows
    words    the words after the program's name
    files    the texts that lie where it runs: name to text. A text is a string, a list of pieces, each a
             string or a pair of a string and how often it stands, or {"path": P}, a file of the repository
    folders  names of folders that lie there (optional)
    stdin    the text of standard input, or null
    closed   true where standard output is closed (optional)
    status, stdout, stderr   what it must answer

Each case runs in a fresh folder. With --usage, a standard error that begins with `usage:` is compared with
the text of FILE, and cases that have a WORD among their words are left out: such words name what isn't built.
"""

import argparse
import concurrent.futures
import json
import os
import subprocess
import sys
import tempfile

TOP = os.path.dirname(os.path.dirname(os.path.abspath(__file__)))


def text_of(value):
    if isinstance(value, str):
        return value
    if isinstance(value, dict):
        with open(os.path.join(TOP, value["path"])) as file:
            return file.read()
    return "".join(p if isinstance(p, str) else p[0] * p[1] for p in value)


def answer_of(program, case, seconds):
    with tempfile.TemporaryDirectory() as folder:
        for name, value in case["files"].items():
            with open(os.path.join(folder, name), "wb") as file:
                file.write(text_of(value).encode("utf-8"))
        for name in case.get("folders", []):
            os.mkdir(os.path.join(folder, name))
        command = [program] + case["words"]
        if case.get("closed"):
            command = ["sh", "-c", 'exec "$@" >&-', "sh"] + command
        done = subprocess.run(command, cwd=folder, timeout=seconds, capture_output=True,
                              input=text_of(case["stdin"] or "").encode("utf-8"))
    return done.returncode, done.stdout, done.stderr


def difference(program, case, seconds, usage):
    stderr = case["stderr"]
    if usage is not None and stderr.startswith("usage:"):
        stderr = usage
    want = case["status"], case["stdout"].encode("utf-8"), stderr.encode("utf-8")
    try:
        got = answer_of(program, case, seconds)
    except subprocess.TimeoutExpired:
        return "no answer within %s s" % seconds
    return None if got == want else "got  %r\n    want %r" % (got, want)


def read_words():
    parser = argparse.ArgumentParser()
    parser.add_argument("--seconds", type=float, default=60.0)
    parser.add_argument("--jobs", type=int, default=os.cpu_count())
    parser.add_argument("--usage")
    parser.add_argument("--without", action="append", default=[])
    parser.add_argument("program")
    cut = sys.argv.index("--")
    words = parser.parse_args(sys.argv[1:cut])
    words.program = os.path.abspath(words.program)
    return words, sys.argv[cut + 1:]


def main():
    words, files = read_words()
    usage = None
    if words.usage:
        with open(words.usage) as file:
            usage = file.read()
    cases = []
    for name in files:
        with open(name) as file:
            cases += json.load(file)
    built = [c for c in cases if not set(c["words"]) & set(words.without)]
    bad = 0
    with concurrent.futures.ThreadPoolExecutor(words.jobs) as pool:
        answers = pool.map(lambda c: difference(words.program, c, words.seconds, usage), built)
        for case, what in zip(built, answers):
            if what is not None:
                bad += 1
                print("%s: %r\n    %s" % (case["id"], case["words"], what[:2000]))
    print("%d cases, %d differ, %d left out" % (len(built), bad, len(cases) - len(built)))
    sys.exit(1 if bad else 0)


if __name__ == "__main__":
    main()

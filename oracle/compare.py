#!/usr/bin/env python3
"""Runs the port and the Rust on the same random lines and compares their answers line by line.

  compare.py script ORACLE REPLAY FIRST LAST LINES   seeds FIRST to LAST, about LINES commands each
  compare.py curve ORACLE CURVE FIRST LAST LINES     the program `curve`, LINES lines for each seed

ORACLE is this folder's program, REPLAY and CURVE are the port's (crates/NAME/out after `rt run`). Prints the number of answers compared, and
for a difference the seed, the line and both answers. Exit status 1 if there was any.
"""
import pathlib
import subprocess
import sys

GENERATE = pathlib.Path(__file__).resolve().parent / "generate.py"


def output(words, text):
    return subprocess.run(words, input=text, stdout=subprocess.PIPE).stdout.split(b"\n")[:-1]


def answered(line):
    """Whether a line of a script has an answer."""
    return len(line) > 65536 or (line.strip(b" ") != b"" and not line.startswith(b"#"))


def main():
    kind, oracle, port, first, last, count = sys.argv[1:7]
    total = different = 0
    for seed in range(int(first), int(last) + 1):
        text = subprocess.run([sys.executable, GENERATE, kind, str(seed), count], stdout=subprocess.PIPE, check=True).stdout
        lines = text.split(b"\n")[:-1]
        asked = [b"(heading)"] + lines if kind == "curve" else [line for line in lines if answered(line)]
        theirs = output([oracle] + (["curve"] if kind == "curve" else []), text)
        ours = output([port], text)
        total += len(asked)
        if len(theirs) != len(asked) or len(ours) != len(asked):
            different += 1
            print("seed %d: %d lines asked, %d answers of the Rust, %d of the port" % (seed, len(asked), len(theirs), len(ours)))
        for line, a, b in zip(asked, theirs, ours):
            if a != b:
                different += 1
                print("seed %d\n  %s\n  Rust: %s\n  port: %s" % (seed, line[:2000], a[:2000], b[:2000]))
                break
        print("seed %d: %d answers so far, %d differences" % (seed, total, different), flush=True)
    sys.exit(1 if different else 0)


main()

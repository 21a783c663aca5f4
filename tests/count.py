#!/usr/bin/env python3
"""Counts instructions by valgrind and prints Markdown tables: a column for each version of the library, then one for `fast`.

Arguments: the program `once` (reference/src/bin/once.rs), then a folder for each version, which tests/places.sh fills. The figure of a
quarter, record or link is the difference of two calls, by how many more of them the longer one has: what is done once a call isn't in it.
The figure of a call is its count less that of a call that does nothing. Rows that a version hasn't are left out."""
import functools
import os
import re
import shutil
import subprocess
import sys

# Title, call, name of a row, sizes of the input, sizes of the shorter one if the figure is a difference.
TABLES = [
    ("Settle, instructions per quarter (26 curve points, 96 before-quarters, requested)", "settle", "{}", (26, 96, 2976), (26, 96, 2000)),
    ("Settle, short, instructions per call (4 curve points, 4 before-quarters, 4 quarters)", "settle", "{}", (4, 4, 4), None),
    ("Audit of a sound archive, instructions per record", "audit", "{}", (65535,), (32000,)),
    ("Taking back the last record of a sound archive, instructions per record", "take_back", "{}", (65535,), (32000,)),
    ("Append, instructions", "append", "each link of a chain of {}", (10000,), (1000,)),
    ("Append, instructions", "append", "a call behind a chain of 10 {}", (10,), None),
    ("Preview, instructions", "preview", "each of 2,976 {}", (2975,), (2000,)),
    ("Preview, instructions", "preview", "a call behind 4 {}", (4,), None),
    ("Correction, instructions", "correction", "each of 2,976 {}", (2976,), (2000,)),
    ("Correction, instructions", "correction", "a call of 4 {}", (4,), None),
]


def run(*words):
    if not shutil.which(words[0]):
        sys.exit(f"{words[0]} is missing")
    done = subprocess.run(words, stdout=subprocess.PIPE, stderr=subprocess.PIPE, text=True)
    if done.returncode != 0:
        sys.exit(f"status {done.returncode}: {' '.join(words)}\n{done.stderr}")
    return done


@functools.cache
def count(once, side, call, row, sizes):
    words = (once, side, call, row, *map(str, sizes))
    said = run("valgrind", "--tool=callgrind", "--callgrind-out-file=/dev/null", "--toggle-collect=counted", *words).stderr
    found = re.search(r"Collected : ([1-9]\d*)$", said, re.MULTILINE)
    if not found:
        sys.exit(f"no count: {' '.join(words)}\n{said}")
    return int(found[1])


def figure(once, side, call, row, sizes, shorter):
    whole = count(once, side, call, row, sizes)
    if shorter is None:
        return str(whole - count(once, "nothing", call, row, sizes))
    return f"{(whole - count(once, side, call, row, shorter)) / (sizes[-1] - shorter[-1]):.2f}"


def main():
    once, *folders = sys.argv[1:]
    rows = [line.split(" ", 1) for line in run(once, "rows", *folders).stdout.splitlines()]
    names = [os.path.basename(folder) for folder in folders] + ["fast"]
    printed = None
    for title, call, name, sizes, shorter in TABLES:
        for row in (row for own, row in rows if own == call):
            figures = [figure(once, side, call, row, sizes, shorter) for side in [*folders, "fast"]]
            if title != printed:
                print(f"\n### {title}\n\n| Case | {' | '.join(names)} |\n|---|{'---:|' * len(names)}")
                printed = title
            print(f"| {name.format(row)} | {' | '.join(figures)} |", flush=True)


main()

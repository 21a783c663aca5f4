#!/usr/bin/env python3
"""Pairs of functions of src whose bodies have the same shape: twins.py [CHECKOUT] [LEAST, 0.80]

Shape: the body's tokens, each name and number replaced by one sign, signs and Rust's words kept; bodies of 25 tokens or more.
One line a pair: how alike (1 = the same shape), first function, second function. A pair is a place to read, no verdict.
"""
import difflib, glob, itertools, os, re, sys

root = sys.argv[1] if len(sys.argv) > 1 else "."
least = float(sys.argv[2]) if len(sys.argv) > 2 else 0.80
words = set("let mut if else match while loop for in return true false as break fn".split())
found = []
for path in sorted(glob.glob(os.path.join(root, "crates/*/src/*.rt"))):
    lines = open(path).read().splitlines()
    crate, name, body = path.split("/")[-3], None, None
    for line in lines:
        m = re.match(r'( *)(?:pub )?(?:extern "C" )?fn (\w+)', line)
        if m:
            margin, name, body = m[1], m[2], ([] if line.rstrip().endswith("{") else None)
        elif name and body is None and line in (margin + "{", margin + ") {") or name and body is None and line.startswith(margin + ") ->") and line.endswith("{"):
            body = []
        elif name and body is not None and line == margin + "}":
            text = re.sub(r"//.*", "", " ".join(body))
            tokens = re.findall(r"\w+|[^\w\s]", text)
            shape = [t if t in words else "a" if re.match(r"\w", t) else t for t in tokens]
            if len(shape) >= 25:
                found.append((crate + "::" + name, shape))
            name = body = None
        elif body is not None:
            body.append(line)
rows = []
for (a, x), (b, y) in itertools.combinations(found, 2):
    if min(len(x), len(y)) / max(len(x), len(y)) >= 0.6:
        r = difflib.SequenceMatcher(None, x, y, autojunk=False).ratio()
        if r >= least:
            rows.append((r, a, b))
for r, a, b in sorted(rows, reverse=True):
    print(f"{r:.2f} {a} {b}")
print(len(rows), "pairs of", len({n for _, a, b in rows for n in (a, b)}), "functions")

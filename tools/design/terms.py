#!/usr/bin/env python3
"""Terms in brackets of 40 characters or more that one file of proofs writes three times or more: terms.py [CHECKOUT] [LEAST]

Of terms that lie in each other and stand equally often, the longest alone. One line each: how often, file, term.
"""
import os, re, subprocess, sys
from collections import Counter

root = sys.argv[1] if len(sys.argv) > 1 else "."
least = int(sys.argv[2]) if len(sys.argv) > 2 else 3
files = subprocess.run(["git", "-C", root, "ls-files", "crates/*/proofs/*.antt"], capture_output=True, text=True, check=True).stdout.split()
rows = []
for f in files:
    text = " ".join(l for l in open(os.path.join(root, f)).read().splitlines() if not re.match(r"\s*(--|use |ghost use )", l))
    text = re.sub(r"\s+", " ", text)
    opened, terms = [], Counter()
    for i, c in enumerate(text):
        if c == "(":
            opened.append(i)
        elif c == ")" and opened:
            t = text[opened.pop() + 1:i].strip()
            if len(t) >= 40:
                terms[t] += 1
    found = {t: n for t, n in terms.items() if n >= least}
    rows += [(n, f, t) for t, n in found.items() if not any(t != u and t in u and found[u] >= n for u in found)]
rows.sort(key=lambda r: (-r[0], r[1], r[2]))
for n, f, t in rows:
    print(n, f, t if len(t) <= 160 else t[:157] + "...")
print(len(rows), "terms in", len({f for _, f, _ in rows}), "files")

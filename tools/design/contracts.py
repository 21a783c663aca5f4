#!/usr/bin/env python3
"""Facts and parameters that stand in three or more functions: contracts.py facts|answers|groups [CHECKOUT]

facts: each part (split at ×) of each requires clause of crates/*/src, a parameter's name replaced by its type, with how many functions have it.
answers: the same of the ensures clauses.
groups: each two or more parameters (name: type) that three or more functions take together; of groups of the same functions the largest.
"""
import glob, itertools, os, re, sys
from collections import defaultdict

def matching(text, i, opened, closed):
    depth = 1
    while depth:
        depth += {opened: 1, closed: -1}.get(text[i], 0)
        i += 1
    return i

def split(text, sign):
    depth, start, out = 0, 0, []
    for i, c in enumerate(text):
        depth += {"(": 1, "[": 1, ")": -1, "]": -1}.get(c, 0)
        if c == sign and depth == 0:
            out.append(text[start:i])
            start = i + 1
    return out + [text[start:]]

def functions(root):
    for path in sorted(glob.glob(os.path.join(root, "crates/*/src/*.rt"))):
        text = re.sub(r"(?m)^\s*//.*$", "", open(path).read())
        for m in re.finditer(r'(?m)^ *(?:pub )?(?:extern "C" )?fn (\w+)(?:<.*?>)?\(', text):
            close = matching(text, m.end(), "(", ")")
            end = re.search(r"(?m)^ *\{$| \{$|;$", text[close:])
            head = text[close:close + (end.start() if end else 0)]
            params = dict((n.strip().removeprefix("mut "), t.strip()) for n, _, t in
                          (p.partition(":") for p in split(text[m.end():close - 1], ",")) if t)
            yield os.path.relpath(path, root).split("/")[1] + "::" + m[1], params, head

def clauses(head, word):
    for m in re.finditer(word + r"\s*\w*\s*\{", head):
        yield " ".join(head[m.end():matching(head, m.end(), "{", "}") - 1].split())

def parts(clause):
    out = [p.strip() for p in split(clause, "×")]
    return [p[1:-1] if p.startswith("(") and p.endswith(")") and "(" not in p[1:-1] else p for p in out]

def typed(part, params):
    return re.sub(r"\b[a-z_]\w*\b", lambda m: "<" + params[m[0]] + ">" if m[0] in params and part[m.start() - 1:m.start()] != "." else m[0], part)

what, root = sys.argv[1], sys.argv[2] if len(sys.argv) > 2 else "."
found, taken = defaultdict(set), {}
for name, params, head in functions(root):
    if what != "groups":
        for clause in clauses(head, "requires" if what == "facts" else "ensures"):
            for p in parts(clause):
                found[typed(p, params)].add(name)
    else:
        for a, b in itertools.combinations(params.items(), 2):
            found[a, b].add(name)
        taken[name] = list(params.items())
if what == "groups":
    of = defaultdict(set)
    for names in found.values():
        if len(names) >= 3:
            first = min(names)
            group = [p for p in taken[first] if all(p in taken[n] for n in names)]
            of[", ".join(f"{n}: {t}" for n, t in group)] |= names
    found = of
rows = sorted(((len(v), k, v) for k, v in found.items() if len(v) >= 3), key=lambda r: (-r[0], r[1]))
for n, k, v in rows:
    print(n, k, "|", " ".join(sorted(v)))
print(len(rows), "rows")

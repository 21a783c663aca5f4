#!/usr/bin/env python3
"""How much the contracts rule out: small changes of the sources, made by rule, that the prover should refuse. Not a part of the gate.

    mutants.py FOLDER [MOST]    a copy of the repository whose edits are such changes, MOST (10) of a function or fewer
    mutants.py                  in that copy: has the prover try them, and tells how many were refused, and each that wasn't

A change is a number one more or one less, another end of a comparison, `true` for `false`, a `!` left out, the next refusal or kind of the
table in the place of one. A line that stands twice in its source is left alone, since an edit couldn't tell which is meant. A change that
isn't refused is as right as the text before, or is something that no contract rules out: read it."""

import re
import shutil
import subprocess
import sys
from pathlib import Path

import edits

COMPARED = {"<": "<=", "<=": "<", "==": "!=", "!=": "=="}
NEGATED = {"true": "false", "false": "true"}


def table(name):
    """The kinds or the refusals, in order: the constants or the variants of a file."""
    return re.findall(r"^(?:pub const|    (?=[A-Z]\w+ = \d+,$)) ?(\w+)", edits.text_of(edits.ROOT / f"crates/rules/src/{name}.rt"), re.M)


def changed(line):
    """A line of code with one change, for each."""

    def put(m, group, text):
        return line[: m.start(group)] + text + line[m.end(group) :]

    for m in re.finditer(r"(?<![\w.])\d+(?![\w.]| =>)", line):
        yield from (put(m, 0, str(n)) for n in (int(m[0]) + 1, int(m[0]) - 1) if 0 <= n < 2**63)
    for m in re.finditer(r"(?<!as u64) (<=?|[!=]=) ", line):
        yield put(m, 1, COMPARED[m[1]])
    for m in re.finditer(r"\b(?:true|false)\b", line):
        yield put(m, 0, NEGATED[m[0]])
    for m in re.finditer(r"!(?=[a-z])", line):
        yield put(m, 0, "")
    for m in re.finditer(r"\b(Refusal|kind)::([A-Z]\w+)", line):
        names = table(m[1].lower())
        yield put(m, 2, names[(names.index(m[2]) + 1) % len(names)])


def changes_of(source, most):
    """For each function its changes, a line and what it becomes; those of a long function from all over its body."""
    found = []
    for item in edits.ITEM.finditer(source):
        if item[2] == "fn":
            lines = edits.body_of(source, item)[0].splitlines()[1:-1]
            changes = [(line, new) for line in lines if "//" not in line and source.count(line) == 1 for new in changed(line)]
            found.append([changes[i * len(changes) // most] for i in range(most)] if len(changes) > most else changes)
    return found


def shared(source, functions):
    """The changes as lists for an edit each, with at most one of a function; every line to change stands once where its turn comes."""
    while any(functions):
        text, edit = source, []
        for changes in functions:
            if changes and text.count(changes[0][0]) == 1:
                line, new = changes.pop(0)
                text = text.replace(line, new)
                edit.append((line, new))
        yield edit


def make(folder, most):
    for path in subprocess.run(["git", "ls-files"], cwd=edits.ROOT, capture_output=True, text=True, check=True).stdout.splitlines():
        if "/must-fail/" not in path:
            (folder / path).parent.mkdir(parents=True, exist_ok=True)
            shutil.copy(edits.ROOT / path, folder / path)
    count = 0
    for path in sorted(folder.glob("crates/*/src/lib.rt")):
        source = path.read_text(encoding="utf-8")
        for k, edit in enumerate(shared(source, changes_of(source, most))):
            blocks = [f"wrong: {k}_{i}\nfile: src/lib.rt\nold: {old}\nnew: {new}\n" for i, (old, new) in enumerate(edit)]
            to = path.parent.parent / "must-fail" / f"together_{k}.edit"
            to.parent.mkdir(exist_ok=True)
            to.write_text("\n".join(blocks), encoding="utf-8")
            count += len(edit)
    print(f"{folder}: {count} changes")


def read():
    told = {"refused": 0, "refused at the shape of its proof": 0, "not refused": 0, "not tried": 0}
    logs, tries = edits.ROOT / "target/must-fail", edits.read_edits()
    edits.try_edits(logs, tries)
    for edit in tries:
        tried = "\nlogic=" in edits.text_of(edits.log_of(logs, edit[0]))
        together, alone = edits.said_of(logs, edit)
        for wrong in edit:
            function, _ = edits.place(wrong)
            said = [*together, *alone.get(wrong.label, [])]
            if edits.is_refused(wrong, said):
                told["refused"] += 1
            else:
                own = [r for r in said if r.where == function and r.is_own()]
                result = "refused at the shape of its proof" if own else "not refused" if tried else "not tried"
                told[result] += 1
                print(f"{wrong.crate}::{function} {result}: {wrong.changes[0].old.strip()}  =>  {wrong.changes[0].new.strip()}")
    print(", ".join(f"{count} {result}" for result, count in told.items()))


def main(words):
    if len(words) > 2:
        print(__doc__, file=sys.stderr)
        return 2
    if words:
        make(Path(words[0]), int(words[1]) if len(words) > 1 else 10)
    else:
        read()
    return 0


if __name__ == "__main__":
    sys.exit(main(sys.argv[1:]))

#!/usr/bin/env python3
"""The wrong programs and wrong rules of crates/*/must-fail, and where the prover refuses each.

    edits.py                                the edits as they are written
    edits.py --try LOGS [CRATE ..]          has the prover try each edit, or each of these crates, and keeps what it said in a folder; a log whose
                                            crate, crates below and edit are as they were when it was written is kept, and not made again
    edits.py LOGS [CRATE ..]                the edits as they are written, and what the prover said of each by these logs
    edits.py --self-test LOGS [CRATE ..]    what it said of each wrong program taken out of its log, and wrong rules that the same theorem
                                            refuses put in one edit, which the check must see

An edit is a list of texts that become others, and rt has the prover refuse the crate with all of them. Most of the time goes into proving
the rest of the crate again, so one edit may hold several wrong programs:

    wrong: power_low_end        the label of the wrong program that follows; without such a line it is the edit's name
    file: src/lib.rt
    old: ..
    new: ..
    refused: plant_factor       where it has to be refused, if that isn't the function whose text it changes last: another function, or
                                a theorem, as Figures: orders_hold, or one goal of a function, as limit_of: returns-in-Requested

Of an edit with several, rt tells only that the crate isn't proved, and of what the prover said it keeps a line. So each of them changes the
body of one function and nothing else, no two the body of the same: a proof reads its own function's body and the contracts of others. What
the prover says of a function is then about its own wrong program, and for each wrong program the log must have a refusal there: at a fact,
and not at a name that is missing, at the proof's shape, where the prover gave up, or only because something else wasn't admitted. (Where
`search` finds the proof of a function as it should be and none of a wrong one, it often says that it gave up; that is a refusal, but not
where an answer by hand no longer finds its goal, since search may not know what the answer knew: there the edit names the goal.) No
function that is as it should be may have a refusal of its own. Every public function has two wrong programs or more.

The prover leaves the goals of some callers alone while a callee isn't proved. Where the log of an edit with several has no refusal for a
wrong program, that one is tried alone, in a log of its own.

A wrong rule changes definitions, which many proofs read, and a list of worked examples has to refuse it, or a law. Those that lists refuse
share an edit where no list can depend on what another one changes: a list depends on the definitions whose names stand in its text, in
their texts and so on, and on every operator. What the log says of a list is then about its own wrong rule."""

import hashlib
import os
import re
import shutil
import subprocess
import sys
import tempfile
from collections import Counter
from concurrent.futures import ThreadPoolExecutor
from functools import cache
from itertools import combinations
from pathlib import Path
from threading import local
from typing import NamedTuple

ROOT = Path(__file__).resolve().parent.parent
# An item of a source, or a function of an impl, by its indent, kind and name; the public functions.
ITEM = re.compile(r'^(?:#\[.*\]\n)*(    (?=(?:pub )?fn ))?(?:pub )?(?:extern "C" )?(fn|const|struct|enum) (\w+)', re.M)
PUBLIC = re.compile(r'^(?:    )?pub (?:extern "C" )?fn (\w+)', re.M)
# What the prover says of a proof of ours, and of one that it makes itself; in the words of the kit that README names. What it says of the
# goals of a function comes before the function's line.
ERROR = re.compile(r"^\S*?(?:proofs|specs)/(?:[^\s/]+/)*?([^\s/]+?)(?:/(Answers|Invariants|Proof))?\.antt:\d+:\d+: error: `([^`]+)`: (.*(?:\n  .*)*)", re.M)
UNPROVED = re.compile(r"^note: \S*?src/\S+\.rt:\d+:\d+: it is not proved that .* \(`([^`]+)`\)(.*)$|^fn \w+::(?:\S+::)?(\w+): .*$", re.M)
UNREAD = re.compile(r"^(?:\./)?(?:src|specs)/\S+:\d+:\d+: error: (?!`[^`]+`: ).*$|^error\b.*$", re.M)
PASSED_ON = re.compile(r".* was not admitted\b")
NAME = re.compile(r".* is not in scope:")
# What a file of definitions or proofs declares, the words of a declaration, and the statement that worked examples hold.
DECLARATION = re.compile(r"^(?:  )?(?:(?:pub|abbrev|unfoldable) )*(?:(?:record|data) (\S+)|([^\s:]+) :).*", re.M)
WORD = re.compile(r"[^\s(){}\[\],;.]+")
EXAMPLES = re.compile(r"(?:pub )?\S+ : Hold \S+$", re.M)
# Where a proof no longer fits its function: a goal that isn't there, or an invariant that can't be read.
SHAPE = re.compile(r"record `\S+`\s+has no field\b|`\S+`: module `\S+`\s+has no\b|module `\S+`\s+has no\b|`\S+` is no (?:goal|step|name)\b")
# What it says where it neither proves nor refutes, and where that is at a goal for which it looks for a proof itself.
GAVE_UP = re.compile(r"`omega`\s+stopped\s+at\s+a\s+bound\b")
UNFOUND = re.compile(r"; `search` gave up at one of its limits$")
PARTS = ("src", "specs", "proofs")


class Change(NamedTuple):
    file: str
    old: str
    new: str

    def is_of_rules(self):
        return self.file.startswith("specs/")


class Wrong(NamedTuple):
    crate: str
    edit: str
    label: str
    changes: list
    refused: str

    def __str__(self):
        return f"{self.crate}/{self.label}" + (f" (edit {self.edit})" if self.edit != self.label else "")

    def is_rule(self):
        return all(change.is_of_rules() for change in self.changes)


class Holder(NamedTuple):
    """An item of a source: where it starts, its kind and name, and whether it is a function that has a text in its body."""

    start: int
    kind: str
    name: str
    in_body: bool


class Refusal(NamedTuple):
    """What the prover refused: the function or the file of proofs, the declaration, what was said of it, and which file of its proof."""

    where: str
    what: str
    said: str
    file: str = ""

    def is_at(self, where, what):
        return self.where == where and what in ("", self.what)

    def is_own(self):
        return not PASSED_ON.match(self.said)

    def is_shape(self):
        return self.file == "Invariants" or bool(SHAPE.match(self.said))

    def is_fact(self):
        return self.is_own() and not self.is_shape() and not GAVE_UP.search(self.said)


@cache
def text_of(path):
    return path.read_text(encoding="utf-8")


def read_edit(path):
    """The wrong programs of an edit, in its order."""
    found, file, old, label, changes, refused = [], "", "", path.stem, [], ""
    for line in text_of(path).splitlines() + ["wrong: "]:
        word, _, rest = line.partition(": ")
        if word == "wrong":
            if changes:
                found.append(Wrong(path.parts[-3], path.stem, label, changes, refused))
            label, changes, refused = rest, [], ""
        elif word == "file":
            file = rest
        elif word == "old":
            old = rest
        elif word in ("new", "new:"):
            changes.append(Change(file, old, rest))
        elif word == "refused":
            refused = rest
    return found


def read_edits():
    return [read_edit(path) for path in sorted(ROOT.glob("crates/*/must-fail/*.edit"))]


def item_at(source, at):
    """The last item of a source that starts at or before a place in it, or None."""
    return next((item for item in reversed(list(ITEM.finditer(source))) if item.start() <= at), None)


def body_of(source, function):
    """The body of a function, with its braces."""
    indent = function[1] or ""
    return re.compile(rf"^{indent}(?:\S.* )?\{{\n(?s:.*?)^{indent}\}}$", re.M).search(source, function.start())


def holder(crate, change):
    """What holds the text that a change is made to."""
    source = text_of(ROOT / "crates" / crate / change.file)
    at = source.find(change.old)
    item = item_at(source, at)
    if change.is_of_rules() or item is None:
        return Holder(0, "", "", False)
    return Holder(item.start(), item[2], item[3], item[2] == "fn" and body_of(source, item).start() < at < body_of(source, item).end())


def place(wrong):
    """Where a wrong program has to be refused: a function or a file of proofs, and a theorem if one is named."""
    where, _, what = wrong.refused.partition(": ")
    return where or holder(wrong.crate, wrong.changes[-1]).name, what


def declarations(text):
    """What a file of definitions or proofs declares: each name with its text, without remarks."""
    text = re.sub(r"^ *--.*\n", "", text, flags=re.M)
    starts = list(DECLARATION.finditer(text))
    found = {}
    for m, end in zip(starts, [m.start() for m in starts[1:]] + [len(text)]):
        found[m[1] or m[2]] = found.get(m[1] or m[2], "") + text[m.start() : end]
    return found


@cache
def words_of(crate):
    """The words of each of a crate's definitions, by name; those of one name in several files together."""
    found = {}
    for path in sorted((ROOT / "crates" / crate / "specs").glob("*.antt")):
        for name, text in declarations(text_of(path)).items():
            found.setdefault(name, set()).update(WORD.findall(text))
    return found


def theorem(wrong):
    """The text of the theorem that has to refuse a wrong rule."""
    where, what = place(wrong)
    return declarations(text_of(ROOT / "crates" / wrong.crate / "proofs" / f"{where}.antt")).get(what, "")


def reached(wrong):
    """The definitions that this theorem can depend on: by name, and every operator, whose name doesn't stand where it is used."""
    words = words_of(wrong.crate)
    found, new = set(), set(WORD.findall(theorem(wrong))) | {name for name in words if "◌" in name}
    while new:
        name = new.pop()
        if name in words and name not in found:
            found.add(name)
            new |= words[name]
    return found


def changed(wrong):
    """The definitions that a wrong rule changes."""
    found, texts = set(), {}
    for file, old, new in wrong.changes:
        path = ROOT / "crates" / wrong.crate / file
        texts[path] = texts.get(path, text_of(path)).replace(old, new, 1)
    for path, text in texts.items():
        before, after = declarations(text_of(path)), declarations(text)
        found |= {name for name in before | after if before.get(name) != after.get(name)}
    return found


def check_rules(edit):
    """What is amiss with the wrong rules of an edit."""
    for wrong in edit:
        if not changed(wrong) & reached(wrong):
            yield f"{wrong}: {wrong.refused} doesn't depend on what it changes"
        if len(edit) > 1 and not EXAMPLES.match(theorem(wrong)):
            yield f"{wrong}: {wrong.refused} is no list of worked examples, so it needs an edit of its own"
        for other in edit:
            if other is not wrong and (both := changed(other) & reached(wrong)):
                yield f"{wrong}: {wrong.refused} can depend on {', '.join(sorted(both))}, which {other.label} changes"


def alike(edits):
    """The wrong rules that the same theorem has to refuse, two by two: none of these can share an edit."""
    rules = [wrong for edit in edits for wrong in edit if wrong.is_rule()]
    return [(one, other) for one, other in combinations(rules, 2) if one.refused == other.refused]


def check_programs(edit):
    """What is amiss with wrong programs that share an edit."""
    held = {}
    for wrong in edit:
        holders = {holder(wrong.crate, change) for change in wrong.changes}
        last = holder(wrong.crate, wrong.changes[-1])
        if holders != {last} or not last.in_body or place(wrong)[0] != last.name:
            yield f"{wrong}: it doesn't change the body of one function alone, so it needs an edit of its own"
        if last.name in held:
            yield f"{wrong}: {held[last.name]} changes {last.name} too"
        held[last.name] = wrong.label


def check_text(edit):
    """What is amiss with an edit as it is written."""
    for wrong in edit:
        if not wrong.refused and holder(wrong.crate, wrong.changes[-1]).kind != "fn":
            yield f"{wrong}: no function holds its text, so it has to say where it is refused"
    if all(wrong.is_rule() and place(wrong)[1] for wrong in edit):
        yield from check_rules(edit)
    elif len(edit) > 1:
        yield from check_programs(edit)


def check_counts(edits, crates):
    """The labels that stand twice in a crate, and the public functions of crates that have fewer than two wrong programs."""
    wrongs = [wrong for edit in edits for wrong in edit]
    labels = Counter((wrong.crate, wrong.label) for wrong in wrongs)
    yield from (f"{crate}/{label}: {count} times" for (crate, label), count in labels.items() if count > 1)
    places = Counter((wrong.crate, place(wrong)[0]) for wrong in wrongs)
    for path in sorted(path for crate in crates for path in ROOT.glob(f"crates/{crate}/src/*.rt")):
        for name in PUBLIC.findall(text_of(path)):
            if places[path.parts[-3], name] < 2:
                yield f"{path.parts[-3]}::{name}: {places[path.parts[-3], name]} wrong programs"


@cache
def below(crate):
    """A crate and the crates of this repository that it stands on."""
    lines = (line.partition(":") for line in text_of(ROOT / "crates.txt").splitlines() if not line.startswith("#"))
    deps = {words.split()[0]: rest.split() for words, _, rest in lines if words}
    found = {crate}
    for dep in deps[crate]:
        if dep in deps:
            found |= below(dep)
    return found


@cache
def sources(crate):
    """The files that the proof of a crate reads, by their paths in it."""
    paths = [path for part in PARTS for path in sorted((ROOT / "crates" / crate / part).rglob("*")) if path.is_file()]
    return {str(path.relative_to(ROOT / "crates" / crate)): text_of(path) for path in paths}


@cache
def kit():
    return subprocess.run(["rt", "version"], capture_output=True, text=True, check=True).stdout.strip()


def edited(crate, wrongs):
    """The files that wrong programs change, as they are then."""
    found = {}
    for wrong in wrongs:
        for file, old, new in wrong.changes:
            text = found.get(file, sources(crate)[file])
            if text.count(old) != 1:
                raise SystemExit(f"{wrong}: this stands {text.count(old)} times in {file}, and not once: {old}")
            found[file] = text.replace(old, new)
    return found


def stamp(wrongs):
    """The first line of a log of these wrong programs: a sum of all that the prover reads."""
    crate = wrongs[0].crate
    told = [kit(), sorted(edited(crate, wrongs).items()), [sorted(sources(it).items()) for it in sorted(below(crate))]]
    return f"of {hashlib.sha256(repr(told).encode()).hexdigest()}"


def is_of(log, wrongs):
    """Whether a log is there and was written for these wrong programs, with all else as it is now."""
    return log.exists() and log.read_text(encoding="utf-8").partition("\n")[0] == stamp(wrongs)


class Trees(local):
    """A copy of what the prover reads, for each thread that has it try edits; `rt check` in one copy waits for another there."""

    def __init__(self, above):
        self.root = Path(tempfile.mkdtemp(dir=above))
        for name in ("crates.txt", "HANDLES"):
            if (ROOT / name).exists():
                shutil.copy(ROOT / name, self.root)
        for folder in ROOT.glob("crates/*/"):
            for part in PARTS:
                if (folder / part).is_dir():
                    shutil.copytree(folder / part, self.root / "crates" / folder.name / part)


def say_of(trees, wrongs, log):
    """Has the prover try wrong programs together, unless a log of the same is there."""
    crate = wrongs[0].crate
    if is_of(log, wrongs):
        return
    texts = edited(crate, wrongs)
    folder = trees.root / "crates" / crate
    for file, text in texts.items():
        (folder / file).write_text(text, encoding="utf-8")
    ran = subprocess.run(["rt", "check"], cwd=folder, stdin=subprocess.DEVNULL, stdout=subprocess.PIPE, stderr=subprocess.STDOUT)
    for file in texts:
        (folder / file).write_text(sources(crate)[file], encoding="utf-8")
    log.parent.mkdir(parents=True, exist_ok=True)
    log.write_text(f"{stamp(wrongs)}\n{ran.stdout.decode(errors='replace')}", encoding="utf-8")


def log_of(logs, wrong, alone=False):
    return Path(logs) / wrong.crate / (f"{wrong.edit}.{wrong.label}.log" if alone else f"{wrong.edit}.log")


def try_edits(logs, edits):
    """Has the prover try edits side by side, and then each wrong program alone that the log of several doesn't show refused."""
    jobs = int(os.environ.get("RT_JOBS", os.cpu_count()))
    with tempfile.TemporaryDirectory(prefix="edits-") as above, ThreadPoolExecutor(jobs) as pool:
        trees = Trees(above)

        def attempt(edit):
            say_of(trees, edit, log_of(logs, edit[0]))
            if len(edit) > 1 and not edit[0].is_rule():
                said = refusals(log_of(logs, edit[0]))
                for wrong in edit:
                    if not is_refused(wrong, said):
                        say_of(trees, [wrong], log_of(logs, wrong, alone=True))

        list(pool.map(attempt, edits))


def refusals(log):
    """All that the prover refused by a log."""
    text = log.read_text(encoding="utf-8")
    found = [Refusal(where, what, said, file) for where, file, what, said in ERROR.findall(text)]
    goals = []
    for goal, said, function in UNPROVED.findall(text):
        if function:
            found += [Refusal(function, *it) for it in goals]
            goals = []
        else:
            goals.append((goal, said))
    return found


def said_of(logs, edit):
    """What the prover said of an edit, and of each of its wrong programs that was tried alone."""
    alone = {wrong.label: (wrong, log_of(logs, wrong, alone=True)) for wrong in edit}
    return refusals(log_of(logs, edit[0])), {label: refusals(log) for label, (wrong, log) in alone.items() if is_of(log, [wrong])}


def is_refused(wrong, said):
    """Whether a wrong program or rule is refused at a fact. Where `search` gave up, its goal counts if what it takes the place of was found
    by `search` too: if it isn't one of those that are answered by hand, and these all stand as they did."""
    there = [r for r in said if r.is_at(*place(wrong)) and r.is_own()]
    found = [r for r in there if r.is_fact()]
    if any(r.is_shape() for r in there):
        found = [r for r in found if not UNFOUND.search(r.said)]
    return bool(found)


def check_tried(log, wrongs):
    """What shows that a log says nothing of these wrong programs."""
    if not is_of(log, wrongs):
        yield f"{log}: not tried as they are now"
    else:
        text = log.read_text(encoding="utf-8")
        yield from (f"{log}: not read: {line}" for line in UNREAD.findall(text))
        if "\nlogic=not-proved" not in text:
            yield f"{log}: the prover came to no refusal"


def check_log(edit, said, alone):
    """What the log of an edit should say and doesn't, and the other way round."""
    name = f"{edit[0].crate}/{edit[0].edit}"
    for tried, told in [(edit, said), *(([wrong], alone[wrong.label]) for wrong in edit if wrong.label in alone)]:
        own = [r for r in told if r.is_own()]
        yield from (f"{name}: a name is missing: {r.said}" for r in own if NAME.match(r.said))
        if len(edit) > 1 and not edit[0].is_rule():
            others = {r.where for r in own} - {place(wrong)[0] for wrong in tried}
            yield from (f"{name}: {other} is refused, and no wrong program changes it" for other in sorted(others))
    for wrong in edit:
        if not is_refused(wrong, said) and not is_refused(wrong, alone.get(wrong.label, [])):
            yield f"{wrong}: no fact of {' '.join(place(wrong))} is refused"


def main(words):
    option = words.pop(0) if words[:1] in (["--try"], ["--self-test"]) else ""
    logs, *crates = words or [""]
    if option and not logs:
        print(__doc__, file=sys.stderr)
        return 2
    edits = [edit for edit in read_edits() if not crates or edit[0].crate in crates]
    faults = [fault for edit in edits for fault in check_text(edit)] + list(check_counts(edits, crates or ["*"]))
    count = sum(map(len, edits))
    told = f"{count} wrong programs and rules in {len(edits)} edits"
    if option == "--try" and not faults:
        try_edits(logs, edits)
    if logs and not faults:
        faults += [fault for edit in edits for fault in check_tried(log_of(logs, edit[0]), edit)]
    if logs and not faults:
        said = [said_of(logs, edit) for edit in edits]
        faults += [fault for edit, both in zip(edits, said) for fault in check_log(edit, *both)]
        told += ", each refused at a fact of its own"
    if option == "--self-test" and not faults:
        for edit, (together, alone) in zip(edits, said):
            for wrong in edit:
                left = [[r for r in told if not r.is_at(*place(wrong))] for told in (together, *alone.values())]
                seen = any(str(wrong) in fault for fault in check_log(edit, left[0], dict(zip(alone, left[1:]))))
                faults += [f"{wrong}: let pass, and not seen"] * (not seen)
        pairs = alike(edits)
        faults += [f"{one} and {other}: in one edit, and not seen" for one, other in pairs if not any(check_rules([one, other]))]
        told = f"{count} wrong programs and rules let pass one by one, {len(pairs)} pairs of rules put in one edit, all seen"
    print("\n".join(faults) or told, file=sys.stderr if faults else sys.stdout)
    return int(bool(faults))


if __name__ == "__main__":
    sys.exit(main(sys.argv[1:]))

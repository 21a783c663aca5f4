#!/usr/bin/env python3
"""docs/PROMISES.md against the tree.

    promises.py                 the check
    promises.py --self-test     every citation of the page broken by itself, which the check must see
    promises.py --write-table   the table of edits and their number written anew

What stands between backticks on the page is one of these:

    `rules/proofs/ReadBack.antt`        a path of the repository; `crates/` in front may be left out, `*` is any name
    ..: `read_again`, `files`           names behind a file, each declared in it; a remark in brackets may stand between
    `settle::settle(archive, p)`        a function of a crate, with its parameters where they are given
    `settle/full_list_refused`          a wrong program or rule of a crate's must-fail edits
    `make test`                         a target of the Makefile
    `tests/promises.py --self-test`     an option that the file knows
    one of WORDS

A number is a count that is taken anew (Tree.counts) or stands in one of PHRASES. In the table of demands a statement stands with its
demand's number and with a theorem whose type it is; in the table of calls a row has what the function's contract says, the wrong programs
are of crates that its functions stand on, and no entry for C is missing. The table of edits is the one that --write-table makes."""

import os
import re
import sys
from fnmatch import fnmatchcase
from functools import cached_property
from pathlib import Path
from typing import NamedTuple

import edits

ROOT = Path(__file__).resolve().parent.parent
PAGE = ROOT / "docs/PROMISES.md"

# Words for what isn't in the repository: the kit, its commands, and words of its language.
WORDS = ("rattle-kit-13f", "dac8208d650f15bf", "rt ci", "requires", "&[u8]", "const")

# What numbers stand in that count nothing in the tree: names of papers, sizes and numbers of the format, and what was run by hand.
PHRASES = (
    "document 01",
    "written from document 01, document 02 and",
    "| request 1 | every day number from 1 on",
    "day 1 is a Saturday",
    "| request 1 | a delivery day that isn't 0 lies",
    "| request 1 | dates,",
    "it is 0 where that month has",
    "and refusal 18 first and last",
    "beside 8, 9 and 13",
    "every number of 64 bits",
    "demand 3 holds for dated",
    "0 where the list leaves fewer; or refusal 18",
    "from 2000 to 2100",
    "Annex 1:",
    "| 2 | amounts",
    "| 4 of 'What every statement must say' |",
    "less than 1 Wh",
    "below 10^20",
    "but for 0 itself",
    "a result part of 24 bytes",
    "every 8 bytes",
    "U = 1 and",
    "the number is 1 |",
    "the number is 0 for",
    "32 bytes, in the lent block at 32 × number",
    "64 KiB",
    "65,536 bytes and one more",
    "1,000,000 calls of seed 2 with the code of landing 5, of seed 5 with that of landing 8, of seed 6 with that of landing 9, of seed 8 with that of landing 10, of seed 9 with that of landing 11, and 800 inputs of seed 7",
    "the pages of landing 5",
    "the pages of landing 8",
    "from those of landing 9",
    "rules of October 2026",
    "from those of landing 10",
    "from those of landing 12",
    "from those of landing 13",
    "1,000,000 calls of seed 12 with the code of landing 13",
    "| request 3 | wind",
    "| request 5 | of every three lists that aren't refused, 1,000,000 × cents + remainder",
    "the remainder is below 1,000,000",
    "| request 5 | no quarter",
    "| request 5 | prices",
    "| request 5 | both sides of zero",
    "a correction leaves 64 bits",
    "| request 6 | a preview",
    "| request 6 | on every archive",
    "a link of 0 and the old U",
    "| request 6 | undoing",
    "| request 6 | a measure",
    "bounds of 0 and below",
    "9 beside 13 and 18",
    "from October 2026 on",
    "the 2020 text",
    "takes 2,147,483,647 as it is",
    "expression of shifts (request 4)",
    "| request 2 | an append",
    "| request 2 | of a sound archive",
    "| request 2 | filings",
    "| request 2 | a quarter",
    "bytes 4-15 hold the number",
    "the number is 1, or 19 where",
    "landing 6, has what it showed",
    "parts of 1,000 bytes",
    "a status of 0 or 1",
    "the status is 1 exactly",
    "x86-64 Linux",
    "length or count 0",
)

SPAN = re.compile(r"`([^`\n]*)`")
JOIN = re.compile(r"(?: \([^()`|]*\))?(?:[,:]|,? and)\s+")
NUMBER = re.compile(r"(?<!\w)\d+(?:,\d{3})*")
UNQUOTED = re.compile(r"\w+_\w+|\w+::\w+|\w+\.(?:antt|rt|rs|py|md|edit|sh|txt)\b|\w+/\w+")
FUNCTION = re.compile(r'^(?:pub )?(extern "C" )?fn (\w+)(?:<[^<>]*>)?\(([^()]*)\)[^\n{]*(?:\{\n|\n((?:    .*\n)*)\{\n)', re.M)
CLAUSE = re.compile(r"^    (requires|ensures) (.*?)(?=^    (?:requires|ensures) |\Z)", re.M | re.S)
ROW = re.compile(r"^\|(?!---)(.*)\|$", re.M)
TABLE = re.compile(r"(?<=\n\| Crate \| Text changed in \| Labels \|\n\|---\|---\|---\|\n)(?:\|.*\n)+")
FIXED = [(phrase, re.compile(re.escape(phrase).replace(r"\ ", r"\s+"))) for phrase in PHRASES]
STATEMENTS = ("rules/specs/Demands.antt", "rules/specs/Figures.antt", "rules/specs/DateFigures.antt", "rules/specs/TakeBackFigures.antt", "rules/specs/OctoberFigures.antt")


class Function(NamedTuple):
    parameters: list
    clauses: dict
    for_c: bool


def has(text, name):
    return re.search(rf"(?<![\w-]){re.escape(name)}(?![\w-])", text) is not None


class Tree:
    """The repository, read once."""

    def __init__(self):
        self.paths = set()
        for folder, folders, files in os.walk(ROOT):
            folders[:] = [name for name in folders if name not in (".git", "target", "out", "__pycache__")]
            at = Path(folder).relative_to(ROOT)
            self.paths.update((at / name).as_posix() for name in folders + files)
        self.texts = {}
        self.crates = {name: words.split() for name, words in re.findall(r"^(\w+)(?: staticlib)?:(.*)$", self.text("crates.txt"), re.M)}
        self.targets = set(re.findall(r"^([\w-]+):(?!=)", self.text("Makefile"), re.M))
        self.names = {}

    def text(self, path):
        if path not in self.texts:
            self.texts[path] = (ROOT / path).read_text(encoding="utf-8")
        return self.texts[path]

    def path(self, word):
        """The path that a word means, or None."""
        word = word.rstrip("/")
        for path in (word, f"crates/{word}"):
            if path in self.paths or "*" in word and any(fnmatchcase(there, path) for there in self.paths):
                return path
        return None

    def declared(self, path):
        """The names that a file of definitions or proofs declares, each with its line."""
        if path not in self.names:
            self.names[path] = {m[1] or m[2]: m[0] for m in edits.DECLARATION.finditer(self.text(path))}
        return self.names[path]

    @cached_property
    def functions(self):
        found = {}
        for path in sorted(self.paths):
            if m := re.fullmatch(r"crates/(\w+)/src/\w+\.rt", path):
                for for_c, name, parameters, contract in FUNCTION.findall(self.text(path)):
                    clauses = {"requires": "", "ensures": ""}
                    for kind, clause in CLAUSE.findall(contract):
                        clauses[kind] += clause
                    found[f"{m[1]}::{name}"] = Function(re.findall(r"(\w+):", parameters), clauses, bool(for_c))
        return found

    @cached_property
    def edits(self):
        """For each crate its wrong programs and rules, by what holds the text that is changed: the last, if one changes several."""
        found = {crate: {} for crate in self.crates}
        for wrong in (wrong for edit in edits.read_edits() for wrong in edit):
            last = wrong.changes[-1]
            if last.is_of_rules():
                holder = (0, f"definitions in `{last.file}`")
            else:
                item = edits.holder(wrong.crate, last)
                holder = (item.start, f"`{item.name}`")
            found[wrong.crate].setdefault(holder, []).append(wrong.label)
        return found

    @cached_property
    def labels(self):
        return {f"{crate}/{label}" for crate, groups in self.edits.items() for labels in groups.values() for label in labels}

    @cached_property
    def table(self):
        return "".join(
            f"| `{crate}` | {holder} | {', '.join(sorted(labels))} |\n"
            for crate, groups in self.edits.items()
            for (_, holder), labels in sorted(groups.items())
        )

    @cached_property
    def demands(self):
        """For each statement of the demands the number of its demand."""
        parts = re.split(r"^-- ---- (?:demand (\d+))?.*$", self.text("crates/rules/specs/Demands.antt"), flags=re.M)
        return {m[1] or m[2]: n for n, part in zip(parts[1::2], parts[2::2]) if n for m in edits.DECLARATION.finditer(part)}

    @cached_property
    def counts(self):
        """Each count that the page has: its words, a pattern of them, and the number that is right."""

        def part(path, pattern):
            found = re.search(pattern, self.text(path), re.M | re.S)
            if found is None:
                sys.exit(f"{path} has nothing like {pattern}")
            return found[1]

        def examples(name):
            return part("crates/rules/specs/Figures.antt", rf"^{name} =\n(.*?)^    ∷ \[\]$")

        def entries(name):
            return len(re.findall(r"^    (?:∷ )?\(", examples(name), re.M))

        seed = part("Makefile", r"^SEED \?= (\d+)$")
        found = [
            (r"(NUMBER) wrong programs and wrong rules", len(self.labels)),
            (r"in (NUMBER) edits", len(edits.read_edits())),
            (r"(NUMBER) examples of the refusal table", entries("refusals")),
            (r"(NUMBER) examples of order and extent", entries("orders")),
            (r"figures a to (\w)", re.findall(r"^    -- ([a-z])\b", examples("figures"), re.M)[-1]),
            (r"compares (NUMBER) generated calls", part(".ci/run", r"\bCALLS=(\d+)")),
            (r"generated calls \(seed (NUMBER):", seed),
            (r"(NUMBER) inputs of the program \(seed", part("Makefile", r"tests/program\.sh [^\n]* (\d+)$")),
            (r"inputs of the program \(seed (NUMBER)\)", part("tests/program.sh", r'/emit" "\$inputs" (\d+) ')),
            (r"(NUMBER) stored calls", self.text("crates/cases/stdout").count("\n")),
            (r"in the gate seed (NUMBER),", seed),
            (r"(NUMBER) different archives", part("Makefile", r"^ARCHIVES \?= (\d+)$")),
        ]

        def written(right):
            return f"{int(right):,}" if str(right).isdigit() else right

        return [(words, re.compile(words.replace("NUMBER", NUMBER.pattern).replace(" ", r"\s+")), written(right)) for words, right in found]

    def stands_on(self, crate):
        """A crate and all that it depends on."""
        found, new = set(), [crate]
        while new:
            name = new.pop()
            if name not in found:
                found.add(name)
                new.extend(self.crates.get(name, []))
        return found

    def is_of(self, edit, function):
        """Whether a wrong program is of the function's crate or of one below it."""
        return edit.partition("/")[0] in self.stands_on(function.partition("::")[0])


class Cited(NamedTuple):
    """What a part of the page cites: names by file, functions, edits."""

    names: list
    functions: list
    edits: list


def read(text, tree, faults):
    """Every word between backticks, resolved."""
    cited, words, file, end = Cited([], [], []), set(), None, 0
    for m in SPAN.finditer(text):
        word = m[1]
        if not JOIN.fullmatch(text, end, m.start()):
            file = None
        end = m.end()
        if file is not None and "/" not in word:
            if word in tree.declared(file):
                cited.names.append((file.removeprefix("crates/"), word))
            else:
                faults.append(f"{file} declares no {word}")
        elif path := tree.path(word):
            file = path if path.endswith(".antt") and "*" not in path else None
        elif word in tree.labels:
            cited.edits.append(word)
        elif word in WORDS:
            words.add(word)
        elif "::" in word:
            name, parameters = re.fullmatch(r"([^(]*)(?:\((.*)\))?", word).groups()
            function = tree.functions.get(name)
            if function is None or parameters is not None and parameters.split(", ") != function.parameters:
                faults.append(f"no function {word}")
            cited.functions.append(name)
        elif word.startswith("make "):
            if word[5:] not in tree.targets:
                faults.append(f"no target {word}")
        elif " --" in word:
            path, option = word.split(" ", 1)
            if path not in tree.paths or f'"{option}"' not in tree.text(path):
                faults.append(f"no {word}")
        else:
            faults.append(f"what is {word}?")
    return cited, words


def rows(page, heading, width, tree, faults):
    """The rows of a section's table: where each starts, and its cells with what they cite."""
    start = page.find(f"\n## {heading}\n") + 1
    found = list(ROW.finditer(page, start, page.find("\n## ", start)))[1:]
    if start == 0 or not found:
        faults.append(f"no table under '{heading}'")
    for m in found:
        cells = [(cell.strip(), read(cell, tree, [])[0]) for cell in m[1].split("|")]
        if len(cells) == width:
            yield m.start(1), cells
        else:
            faults.append(f"not {width} cells: {m[0]}")


def check_demands(page, tree, faults):
    """Where the numbers of demands stand that were found right."""
    known = set()
    for start, ((demand, _), _, (_, statement), (_, proof)) in rows(page, "The demands", 4, tree, faults):
        types = " ".join(tree.declared(f"crates/{file}")[name].partition(" :")[2] for file, name in proof.names)
        for file, name in statement.names:
            if file in STATEMENTS and not has(types, name):
                faults.append(f"{name}: no theorem of its row has it as its type")
            if tree.demands.get(name) == demand:
                known.add(start + 1)
    return known


def check_calls(page, tree, faults):
    listed = set()
    for _, ((cell, call), _, (_, contract), (need, needs), (_, wrong)) in rows(page, "The calls", 5, tree, faults):
        listed.update(call.functions)
        if not call.functions or not contract.names or not wrong.edits:
            faults.append(f"no function, contract or edit in the row of {cell}")
        for name in call.functions:
            if name not in tree.functions:
                continue
            clauses = tree.functions[name].clauses
            if not all(has(clauses["ensures"], cited) for _, cited in contract.names):
                faults.append(f"{name} ensures something else")
            if clauses["requires"]:
                right = needs.names and all(has(clauses["requires"], cited) for _, cited in needs.names)
            else:
                right = need == "nothing"
            if not right:
                faults.append(f"{name} requires something else")
            if not any(tree.is_of(edit, name) for edit in wrong.edits):
                faults.append(f"{name}: no wrong program of a crate that it stands on")
        for edit in wrong.edits:
            if not any(tree.is_of(edit, name) for name in call.functions):
                faults.append(f"{cell}: it doesn't stand on the crate of {edit}")
    for name, function in tree.functions.items():
        if function.for_c and name not in listed:
            faults.append(f"{name}: an entry for C without a row")


def check(page, tree):
    """The faults of a page, one by one."""
    table = TABLE.search(page)
    if table is None:
        yield "no table of edits"
        return
    if table[0] != tree.table:
        yield from (f"edits: {line}" for line in set(table[0].splitlines()) ^ set(tree.table.splitlines()))
        yield "the table of edits isn't the one that --write-table makes"
    page = page[: table.start()] + page[table.end() :]

    faults = [f"an odd backtick: {line}" for line in page.splitlines() if line.count("`") % 2]
    _, words = read(page, tree, faults)
    yield from faults
    yield from (f"{word} is on the list of words and not on the page" for word in WORDS if word not in words)

    faults = []
    check_calls(page, tree, faults)
    known = check_demands(page, tree, faults)
    yield from faults

    plain = SPAN.sub(lambda m: f"`{' ' * len(m[1])}`", page)
    for words, pattern, right in tree.counts:
        found = list(pattern.finditer(plain))
        if {m[1] for m in found} != {right}:
            yield f"{words}: {', '.join(m[1] for m in found) or 'none on the page'}, not {right}"
        known.update(m.start(1) for m in found)
    for phrase, pattern in FIXED:
        found = list(pattern.finditer(plain))
        if not found:
            yield f"{phrase} is on the list of phrases and not on the page"
        known.update(m.start() + n.start() for m in found for n in NUMBER.finditer(m[0]))
    for m in NUMBER.finditer(plain):
        if m.start() not in known:
            yield f"{m[0]} is neither a count nor in a known phrase: {plain[m.start() - 30 : m.end() + 30]!r}"
    yield from (f"{m[0]} stands without backticks" for m in UNQUOTED.finditer(plain))


def broken(page):
    """The page with one citation broken, for each: the kind of citation, where it stands, and the page."""

    def put(kind, start, end, text):
        return kind, f"{page[max(start - 40, 0) : start]}>{text}<", page[:start] + text + page[end:]

    table = TABLE.search(page)
    spans = [m for m in SPAN.finditer(page) if not table.start() <= m.start() < table.end()]
    for m in spans:
        for word in re.finditer(r"[\w-]+", m[1]):
            end = m.start(1) + word.end()
            yield put("word", end, end, "x")
    for word in re.finditer(r"\w+", table[0]):
        end = table.start() + word.end()
        yield put("word of the table of edits", end, end, "x")
    for m, following in zip(spans, spans[1:]):
        if m[1].endswith(".antt") and JOIN.fullmatch(page, m.end(), following.start()) and "/" not in following[1]:
            yield put("file behind which names stand", m.start(1), m.end(1), "rules/specs/Lib.antt")
    for m in re.finditer(r"\| nothing \|", page):
        yield put("need of a call", m.start(), m.end(), "| something |")
    for m in re.finditer(r"figures a to (\w)", page):
        yield put("number", m.start(1), m.end(1), chr(ord(m[1]) + 1))
    quoted = {at for m in SPAN.finditer(page) for at in range(*m.span())} | set(range(*table.span()))
    for m in NUMBER.finditer(page):
        if m.start() not in quoted:
            more = int(m[0].replace(",", "")) + 1
            yield put("number", m.start(), m.end(), f"{more:,}" if "," in m[0] else f"{more:0{len(m[0])}}")


def main(words):
    tree, page = Tree(), PAGE.read_text(encoding="utf-8")
    if words == ["--write-table"]:
        count = f"{len(tree.labels):,} wrong programs and wrong rules"
        page = re.sub(rf"{NUMBER.pattern} wrong programs and wrong rules", count, TABLE.sub(lambda m: tree.table, page))
        PAGE.write_text(page, encoding="utf-8")
        print(f"docs/PROMISES.md: {len(tree.labels)} wrong programs and rules written")
        return 0
    if words not in ([], ["--self-test"]):
        print(__doc__, file=sys.stderr)
        return 2
    if faults := list(check(page, tree)):
        print("\n".join(faults), file=sys.stderr)
        return 1
    if not words:
        print(f"docs/PROMISES.md: {len(tree.labels)} wrong programs and rules, and every file, name and number on the page is right")
        return 0
    tried, passed = {}, 0
    for kind, where, variant in broken(page):
        tried[kind] = tried.get(kind, 0) + 1
        if next(check(variant, tree), None) is None:
            passed += 1
            print(f"broken and not seen, {kind}: {where}", file=sys.stderr)
    kinds = ", ".join(f"{kind} {count}" for kind, count in tried.items())
    print(f"docs/PROMISES.md: {sum(tried.values())} citations broken one by one, {sum(tried.values()) - passed} caught ({kinds})")
    return int(passed > 0)


if __name__ == "__main__":
    sys.exit(main(sys.argv[1:]))

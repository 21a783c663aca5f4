#!/usr/bin/env python3
"""Spells the definitions and lemmas of this repository as today's Rattle does: snake case, with underscores alone.

usage: tools/respell.py [--list] FOLDER     FOLDER is a checkout in which port.py has run; --list prints the names and changes nothing

A name is respelled where specs/ or proofs/*.antt of some crate declare it. Types and modules keep their capitals, and what Rattle makes
(the names of goals and of steps) keeps its spelling: in the proof of a function a name is respelled only where the file imports it, or as a
field of a record that is declared here. A name that a file takes from a library stays in that file. Where a definition and a lemma would
have one name, the lemma's ends in _lem. Where two names would still be one in some file, that is told, and nothing is written.
"""

import re
import sys
from collections import defaultdict
from pathlib import Path

NAME = r"[^\s(){}\[\].;,@\"«»]+"
WORD = re.compile(NAME)
DECLARED = re.compile(rf"(?m)^ *(?:(?:pub|abbrev|unfoldable|private) )*({NAME})(?: \{{[^{{}}\n]*\}})* :(?=\s)")
BLOCK = re.compile(r"(?m)^ *(?:(?:pub|abbrev) )*(?:record|data) (\S+)[^\n]*\bwhere\n((?:(?: +[^\n]*)?\n)*)")
USE = re.compile(r"(?m)^use (\S+?)\.\{([^}]*)\}")
COMMENT = re.compile(r"(--[^\n]*|//[^\n]*)")
CAMEL = re.compile(r"(?<![\w.])[a-z]+[a-z0-9]*[A-Z]\w*")


def in_snake_case(name):
    if name[0].isupper():
        return name
    words = re.sub(r"(?<=[a-z0-9])[A-Z](?![A-Z])", lambda m: "_" + m[0].lower(), name)
    return re.sub(r"(?<=[\w'])-(?=\w)", "_", words)


def is_of_this_repository(module):
    return module.startswith("Rattle.") and not re.match(r"Rattle\.(core|std\w*|libc|io|os)\b", module)


class Names:
    """The declared names of a checkout, and what each becomes."""

    def __init__(self, root):
        self.files, self.fields, declared, defined = {}, set(), set(), set()
        for crate in sorted((root / "crates").iterdir()):
            for kind in ("specs", "proofs"):
                for path in sorted((crate / kind).rglob("*.antt")):
                    text = self.files[path] = path.read_text(encoding="utf-8")
                    if path.parent != crate / kind:
                        continue
                    code = COMMENT.sub("", text)
                    found = set(DECLARED.findall(code))
                    declared |= found
                    if kind == "specs":
                        defined |= found
                    for block in BLOCK.finditer(code):
                        self.fields.update(DECLARED.findall(block[2]))
        groups = defaultdict(set)
        for name in declared:
            groups[in_snake_case(name)].add(name)
        self.turned = {}
        for new, olds in groups.items():
            first = [o for o in olds if o in defined] or [o for o in olds if CAMEL.fullmatch(o)]
            for old in olds:
                to = new + "_lem" if first and old not in first else new
                if to != old:
                    self.turned[old] = to


def main(root, listing):
    names = Names(root)
    if listing:
        for old, new in sorted(names.turned.items()):
            print(old, new)
        return 0
    clashes, written = [], {}
    for path, text in names.files.items():
        imports = {w: is_of_this_repository(u[1]) for u in USE.finditer(text) for w in re.split(r"[,\s]+", u[2].strip()) if w}
        at_function = path.parent.name not in ("specs", "proofs")
        sources = defaultdict(set)

        def word(match):
            name, start = match[0], match.start()
            new = names.turned.get(name, name)
            behind_dot = start > 0 and match.string[start - 1] == "."
            is_field = behind_dot and name in names.fields
            if imports.get(name) is False or at_function and not (imports.get(name) or is_field):
                new = name
            if not behind_dot:
                sources[new].add(name)
            return new

        parts = COMMENT.split(text)
        parts[::2] = [WORD.sub(word, part) for part in parts[::2]]
        parts[1::2] = [CAMEL.sub(lambda m: names.turned.get(m[0], m[0]), part) for part in parts[1::2]]
        clashes += [(path, new, olds) for new, olds in sources.items() if len(olds) > 1]
        written[path] = "".join(parts)
    for path, new, olds in clashes:
        print(f"{path}: {new} from {' and '.join(sorted(olds))}", file=sys.stderr)
    if clashes:
        return 1
    # in Rust's text only clauses have names with a capital inside or a dash
    in_clause = re.compile(r"(?<![\w.])[a-z][\w]*(?:-\w+)*")
    for path in sorted((root / "crates").glob("*/src/**/*.rt")):
        text = path.read_text(encoding="utf-8")
        written[path] = in_clause.sub(lambda m: names.turned.get(m[0], m[0]) if re.search("[A-Z-]", m[0]) else m[0], text)
        written[path] = re.sub(r"(?<=[\w)]\.)[a-z]\w*(?:-\w+)+", lambda m: names.turned.get(m[0], m[0]), written[path])
    for path, text in written.items():
        path.write_text(text, encoding="utf-8")
    print(f"{len(names.turned)} names")
    return 0


if __name__ == "__main__":
    words = [a for a in sys.argv[1:] if a != "--list"]
    if len(words) != 1:
        raise SystemExit(__doc__)
    raise SystemExit(main(Path(words[0]), "--list" in sys.argv))

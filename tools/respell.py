#!/usr/bin/env python3
"""Brings this repository's own names to the newer Rattle's spelling: words in snake case, types in camel case.

usage: python3 tools/respell.py [FOLDER]      FOLDER holds crates/; here if left out

It is run once, after the kit's own script has turned the language's spelling (docs/PORT.md).
Own names are those declared in a specs/ or a proofs/ file: definitions, lemmas, their arguments, fields, cases.
They are respelled in .antt and .rt files and in must-fail edits; strings, functions of src/ and the library's names stay.
It prints each new name that another declaration has already, and then how much it changed.
"""

import os
import re
import sys

NAME = r"[A-Za-z_][\w'-]*"
WORD = re.compile(NAME)
HEAD = r"^\s*(?:pub\s+|abbrev\s+|opaque\s+)*"
DECLARED = [
    re.compile(HEAD + rf"((?:{NAME}\s+)*{NAME})\s*:(?![:=])"),
    re.compile(rf"[({{]((?:{NAME}\s+)*{NAME})\s*:(?![:=])"),
    re.compile(rf"^\s*(?:pub\s+)?(?:data|record|enum|class)\s+({NAME})"),
]
# Where a comment begins. In it only a name between backticks is respelled.
COMMENT = {".antt": re.compile(r"(^|\s)--.*"), ".rt": re.compile(r"//.*"), ".edit": re.compile(r"^#.*")}
# A string of the code, which says what it said.
STRING = re.compile(r'("(?:[^"\\]|\\.)*")')
# A type that the standard doesn't name. What it names keeps its capitals: L-mac is L_mac.
TYPES = {
    "Answered-too", "Cut-changes-nothing", "Follows-intact", "Given-by", "In-step", "In-tracks",
    "Limits-of-the-entry", "Limits-of-the-stage", "Lowest-of-least", "Of-track", "Within-width",
}


def texts(top):
    for folder, inner, names in os.walk(os.path.join(top, "crates")):
        inner[:] = sorted(d for d in inner if d != "out")
        for name in sorted(names):
            if name.endswith((".antt", ".rt", ".edit")):
                yield os.path.join(folder, name)


def read(path):
    with open(path, encoding="utf-8") as f:
        return f.read()


def declared(text):
    for line in text.splitlines():
        line = re.sub(r"(^|\s)--.*", "", line)
        for form in DECLARED:
            for found in form.finditer(line):
                yield from found[1].split()


def is_page(path):
    """A file of specs/, or a lemma file: not the proof of one function, whose goals have names that Rattle makes."""
    return path.endswith(".antt") and os.path.basename(os.path.dirname(path)) in ("specs", "proofs", "declared")


def respelled(name):
    if name in TYPES:
        return "".join(part[0].upper() + part[1:] for part in name.split("-"))
    return name.replace("-", "_")


def turn(line, kind, own):
    def names(text):
        return WORD.sub(lambda m: respelled(m[0]) if m[0] in own else m[0], text)

    found = COMMENT[kind].search(line)
    code, rest = (line[: found.start()], line[found.start() :]) if found else (line, "")
    parts = STRING.split(code)
    parts[::2] = map(names, parts[::2])
    return "".join(parts) + re.sub(r"`[^`]*`", lambda m: names(m[0]), rest)


def main(top):
    paths = list(texts(top))
    pages = {p: set(declared(read(p))) for p in paths if is_page(p)}
    every = set().union(*pages.values())
    own = {n for n in every if "-" in n}
    for path, here in pages.items():
        for name in sorted(here & own):
            if respelled(name) in every:
                both = [os.path.relpath(p, top) for p in pages if respelled(name) in pages[p]]
                print(f"falls together: {name} of {os.path.relpath(path, top)} and {respelled(name)} of {', '.join(both)}")
    changed = 0
    for path in paths:
        old, kind = read(path), os.path.splitext(path)[1]
        turned = "".join(turn(line, kind, own) for line in old.splitlines(keepends=True))
        if turned != old:
            changed += 1
            with open(path, "w", encoding="utf-8") as f:
                f.write(turned)
    print(f"{len(own)} names, {changed} files")


if __name__ == "__main__":
    if sys.argv[1:] in (["--help"], ["-h"]):
        print(__doc__.strip())
        raise SystemExit(0)
    if len(sys.argv) > 2:
        print("respell: too many arguments: tools/respell.py --help", file=sys.stderr)
        raise SystemExit(2)
    folder = sys.argv[1] if len(sys.argv) == 2 else "."
    if not os.path.isdir(os.path.join(folder, "crates")):
        print(f"respell: there is no folder crates/ in {folder}: tools/respell.py --help", file=sys.stderr)
        raise SystemExit(2)
    main(folder)

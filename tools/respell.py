#!/usr/bin/env python3
"""Respells the repository's own definitions and laws as today's library spells its own: words in snake case, and a dash only where it
joins the names of two functions (`length-bits_of`). Run once, at the top, after the toolchain's own port script; `respell.txt` beside
this file has a line `OLD NEW` for each name. A name that would fall together with another one keeps its dash and has no line there.

Names are whole: a run of letters, digits, `_`, `-` and `'`. They are turned in specs, proofs, contracts and must-fail edits, and in the
pages where they are quoted by backticks; not in a file that has the name from the library. Functions of src/, exported names, strings,
inputs and outputs are not in the list."""
import glob
import os
import re

here = os.path.dirname(os.path.abspath(__file__))
names = dict(line.split() for line in open(os.path.join(here, "respell.txt"), encoding="utf-8"))
NAME = re.compile(r"(?<![A-Za-z0-9_'-])[A-Za-z_][A-Za-z0-9_'₀-₉-]*")
IMPORT = re.compile(r"^\s*(?:ghost |pub )*use ([^\s{]+)\.\{([^}]*)\}", re.M)
B_ONLY_IN = "crates/settled/"  # a capital B is a variable elsewhere
crates = {os.path.basename(path) for path in glob.glob("crates/*")}


def of_library(text):
    """The names that the text imports from outside the repository."""
    out = set()
    for module, items in IMPORT.findall(text):
        parts = module.split(".")
        if not (parts[0] == "Rattle" and len(parts) > 1 and parts[1] in crates):
            out.update(item.strip() for item in items.split(","))
    return out


def turned(text, path):
    left = of_library(text)

    def new(m):
        name = m.group(0)
        if name in left or (name == "B" and not path.startswith(B_ONLY_IN)):
            return name
        return names.get(name, name)

    return NAME.sub(new, text)


def quoted(text, path):
    return re.sub(r"`[^`\n]*`", lambda m: turned(m.group(0), path), text)


for pattern, turn in [
    ("crates/*/specs/*.antt", turned),
    ("crates/*/proofs/**/*.antt", turned),
    ("crates/*/must-fail/*.edit", turned),
    ("crates/*/src/*.rt", turned),
    ("README.md", quoted),
    ("docs/*.md", quoted),
    ("tests/README.md", quoted),
]:
    for path in sorted(glob.glob(pattern, recursive=True)):
        if path == "docs/PORT.md":
            continue
        text = open(path, encoding="utf-8").read()
        out = turn(text, path)
        if out != text:
            open(path, "w", encoding="utf-8").write(out)

#!/usr/bin/env python3
"""Spells this repository's own definitions and lemmas in snake case, by names.tsv beside this file: an old name and a new one a line.

usage: tools/spell.py [--look]      at the top of the repository, once, after /opt/rattle/port/port.py

It turns whole names in specs/, proofs/, contracts, edits, and between backticks in README.md and docs/. Names from src/ keep their
spelling: no old name is one. Nearly all old names have a dash, a capital or the sign of the integers in the middle, which no name of
src/ has; `Inside` and `Outside` stood in one file of proofs alone.
--look writes nothing and prints the files where a new name stands already, so that names that fall together are seen.
"""

import os
import re
import sys

HERE = os.path.dirname(os.path.abspath(__file__))
STOP = r"\s(){}\[\].;,@\"«»`"
NAME = re.compile(rf"(?<![^{STOP}])[^{STOP}]+(?![^{STOP}])")


def table():
    with open(os.path.join(HERE, "names.tsv"), encoding="utf-8") as f:
        return dict(line.rstrip("\n").split("\t") for line in f)


def spelled(text, names):
    return NAME.sub(lambda m: names.get(m.group(), m.group()), text)


def turned(path, text, names):
    if path.endswith(".rt"):
        # A comment is prose, where a dash joins words.
        return "".join(l if l.lstrip().startswith("//") else spelled(l, names) for l in text.splitlines(keepends=True))
    if path.endswith(".md"):
        return re.sub(r"`[^`\n]+`", lambda m: spelled(m.group(), names), text)
    if path.endswith(".antt"):
        # The goals that Rattle makes of the code keep their names.
        made = set(re.findall(r"\bgoal\.([^\s(){}.;,]+)", text))
        mine = {old: new for old, new in names.items() if old not in made}
        return "".join(l if l.lstrip().startswith("--") else spelled(l, mine) for l in text.splitlines(keepends=True))
    return spelled(text, names)


def files():
    for top in ("crates", "docs"):
        for folder, dirs, found in os.walk(top):
            dirs[:] = sorted(d for d in dirs if d != "out")
            for f in sorted(found):
                if f.endswith((".rt", ".antt", ".edit", ".md")):
                    yield os.path.join(folder, f)
    yield "README.md"


def main():
    names = table()
    look = "--look" in sys.argv[1:]
    for path in files():
        with open(path, encoding="utf-8") as f:
            text = f.read()
        new = turned(path, text, names)
        if new == text:
            continue
        if look:
            here = set(NAME.findall(text))
            for old in sorted(here & set(names)):
                if names[old] in here:
                    print(f"{path}: {old} and {names[old]}")
        else:
            with open(path, "w", encoding="utf-8") as f:
                f.write(new)


main()

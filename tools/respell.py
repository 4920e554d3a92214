#!/usr/bin/env python3
"""Spells the repository's own definitions and lemmas as today's Rattle does: words in snake case, types in camel case.

    python3 tools/respell.py            once, over crates/, after the port's own script
    python3 tools/respell.py FILE..     over these files alone, such as pages

tools/respelled.txt has a name and its new spelling a line. A name with a hyphen is turned in code and between backquotes, and not in prose.
"""
import os
import re
import sys

HERE = os.path.dirname(os.path.abspath(__file__))
with open(os.path.join(HERE, "respelled.txt"), encoding="utf-8") as file:
    TABLE = dict(line.split() for line in file)
NAME = re.compile(r"[A-Za-z0-9_'ℕ≡≢≤∷⊎←→↔-]+")
QUOTED = re.compile(r"`[^`\n]*`")
LIBRARY = re.compile(r"^use (?:mathlib|native|borrow|lib|Prim|Rattle\.std)\b[^{\n]*\{([^}]*)\}", re.MULTILINE)


def turned(text, kept=()):
    """the names of the table in a piece of code, but for those that are kept"""
    return NAME.sub(lambda m: m.group(0) if m.group(0) in kept else TABLE.get(m.group(0), m.group(0)), text)


def prose(text):
    """the names in a comment or a page: any between backquotes, else those that no word of a sentence looks like"""
    text = QUOTED.sub(lambda m: turned(m.group(0)), text)
    return NAME.sub(lambda m: m.group(0) if "-" in m.group(0) else TABLE.get(m.group(0), m.group(0)), text)


def line_of(line, mark, kept=()):
    """a line of code, with a comment behind the mark"""
    at = line.find(mark)
    if at < 0 or (mark == "//" and '"' in line[:at]):
        return turned(line, kept)
    return turned(line[:at], kept) + prose(line[at:])


def rewritten(path, text):
    if path.endswith(".antt"):
        kept = {n.strip() for names in LIBRARY.findall(text) for n in names.split(",")} & TABLE.keys()  # the library's, under the same name
        if kept:
            return "\n".join(line_of(line, "-- ", kept) for line in text.split("\n"))
        return "\n".join(line_of(line, "-- ") for line in text.split("\n"))
    if path.endswith(".rt"):  # code has no such names: clauses and imports do
        return "\n".join(line_of(line, "//") for line in text.split("\n"))
    if path.endswith(".edit"):
        return "\n".join(turned(line) if line.startswith(("old:", "new:")) else prose(line) for line in text.split("\n"))
    return prose(text)


def paths(top):
    for folder, dirs, files in os.walk(os.path.join(top, "crates")):
        dirs[:] = sorted(d for d in dirs if d != "out")
        # (a function's answers and invariants are of today's form: their steps are named by the check)
        of_function = os.path.basename(folder) != "proofs"
        kept = {"Answers.antt", "Invariants.antt"} if of_function else ()
        yield from (os.path.join(folder, f) for f in sorted(files) if f.endswith((".antt", ".rt", ".edit")) and f not in kept)


def main():
    for path in sys.argv[1:] or paths(os.path.dirname(HERE)):
        with open(path, encoding="utf-8") as file:
            text = file.read()
        new = rewritten(path, text)
        if new != text:
            with open(path, "w", encoding="utf-8") as file:
                file.write(new)


if __name__ == "__main__":
    main()

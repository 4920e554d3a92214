#!/usr/bin/env python3
"""Counts the places of docs/DESIGN-PASS.md in a tree's src/ folders another way than tools/forms.sh: by words and by functions, comments left out.
tools/forms.py [TREE]"""
import collections
import difflib
import glob
import os
import re
import sys

ALIKE = 0.82  # so much of two bodies is the same, numbers and the types of numbers aside
WORDS = 18  # of shorter bodies nothing is said
TYPES = {"u8", "u16", "u32", "u64", "usize"}


def sources(top):
    """file and text, without comments"""
    for file in sorted(glob.glob(os.path.join(top, "crates/*/src/**/*.rt"), recursive=True)):
        with open(file, encoding="utf-8") as text:
            yield os.path.relpath(file, os.path.join(top, "crates")), re.sub(r"//[^\n]*", "", text.read())


def functions(top):
    """file, name, what stands before the body, the body"""
    for file, text in sources(top):
        for match in re.finditer(r"^( *)[^\n/]*\bfn (\w+)(.*?)^\1\{\n(.*?)^\1\}|^( *)[^\n/]*\bfn (\w+)([^\n]*) \{\n(.*?)^\5\}", text, re.S | re.M):
            _, name, head, body, _, name2, head2, body2 = match.groups()
            yield file, name or name2, head or head2, body or body2 or ""


def words(body):
    for word in re.findall(r"[A-Za-z_]\w*|\d[\d_]*|[^\s\w]", body):
        yield "type" if word in TYPES else "number" if word[0].isdigit() else word


def twins(listed):
    """pairs of functions whose bodies are alike"""
    bodies = [(file, name, list(words(body))) for file, name, _, body in listed]
    bodies = [x for x in bodies if WORDS <= len(x[2])]
    for i, (file, name, mine) in enumerate(bodies):
        for other, theirs, its in bodies[i + 1:]:
            match = difflib.SequenceMatcher(None, mine, its, autojunk=False)
            if match.real_quick_ratio() >= ALIKE and match.quick_ratio() >= ALIKE and match.ratio() >= ALIKE:
                yield match.ratio(), f"{file} {name}", f"{other} {theirs}"


def asked(head):
    """the parts of what a function asks for"""
    for clause in re.findall(r"requires\s*\w*\s*\{(.*?)\}\s*(?=requires|ensures|$)", head, re.S):
        yield from (re.sub(r"\s+", " ", part).strip() for part in clause.split(" × "))


def together(head):
    """three parameters in turn"""
    inside = re.search(r"\((.*?)\)\s*(->|requires|ensures|$)", head, re.S)
    names = [re.sub(r"\s+", " ", part).strip() for part in inside.group(1).split(",") if ":" in part] if inside else []
    return zip(names, names[1:], names[2:])


def often(pairs):
    """what stands in three functions or more, and in which"""
    where = collections.defaultdict(set)
    for what, name in pairs:
        where[what].add(name)
    return {what: sorted(names) for what, names in where.items() if len(names) >= 3}


def main(top):
    text = "\n".join(text for _, text in sources(top))
    listed = list(functions(top))
    print(f"1: {len(re.findall(r'number: [1-9]', text))} numbers of refusals in values, {len(re.findall(r'Reason::', text))} times a Reason")
    print(f"   {len(re.findall(r'^ +(?:pub(?:.crate.)? )?[a-z_]+: bool,$', text, re.M))} fields that are a bool")
    pairs = sorted(twins(listed), reverse=True)
    print(f"2: {len(pairs)} pairs of functions that are alike")
    for ratio, one, other in pairs:
        print(f"     {ratio:.2f}  {one}, {other}")
    loops = [len(re.findall(word, text)) for word in (r"\bwhile\b", r"\bloop \{", r"\bfor\b[^<\n]*\bin\b", r"^ +\w+ [+-]= 1;")]
    loops[3] = len(re.findall(r"^ +\w+ [+-]= 1;", text, re.M))
    print("3: {} while, {} loop, {} for, {} counts by one".format(*loops))
    print(f"4: {len(re.findall(r'walsh::(?:wide|lesser|over)', text))} times a conversion or order of walsh")
    clauses = often((part, f"{file} {name}") for file, name, head, _ in listed for part in asked(head))
    params = often(((file.split("/")[0], three), f"{file} {name}") for file, name, head, _ in listed for three in together(head))
    print(f"5: {len(clauses)} parts of clauses asked for by three functions or more, {len(params)} times three parameters of three functions or more")
    for what, names in sorted(clauses.items(), key=lambda x: -len(x[1])):
        print(f"     {len(names)}  {what}")
    for (crate, three), names in sorted(params.items(), key=lambda x: -len(x[1])):
        print(f"     {len(names)}  {crate}: {', '.join(three)}")
    heads = [(file.split("/")[0], head) for file, _, head, _ in listed]
    columns = collections.Counter(crate for crate, head in heads if re.search(r"&[^\[,)]*\[u32\]", head) and re.search(r"&[^\[,)]*\[u8\]", head))
    places = collections.Counter(crate for crate, head in heads if re.search(r"\b(from|at|next): usize", head) and re.search(r"&[^\[,)]*\[", head))
    print(f"6: {columns.total()} functions take two columns apart: {', '.join(f'{crate} {n}' for crate, n in sorted(columns.items()))}")
    print(f"   {places.total()} functions take a list and a place in it: {', '.join(f'{crate} {n}' for crate, n in sorted(places.items()))}")
    print(f"7: {len(re.findall(r'FnOnce|impl Fn', text))} times a closure's type, {len(re.findall(r'Conversion::', text))} times a case of what to run")


if __name__ == "__main__":
    main(sys.argv[1] if len(sys.argv) > 1 else os.path.dirname(os.path.dirname(os.path.abspath(__file__))))

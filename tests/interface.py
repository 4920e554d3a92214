#!/usr/bin/env python3
"""One vocabulary: the structures and functions of include/huztiral.h, of the Python package and of crate `engine` have the same names, fields and
types. The header says of each structure which one it is in Rattle."""
import ctypes
import os
import re
import unittest

import report
from lent import huztiral

TOP = os.path.dirname(os.path.dirname(os.path.abspath(__file__)))
C = {"uint8_t": "u8", "uint32_t": "u32", "uint64_t": "u64", "size_t": "usize"}
PYTHON = {ctypes.c_bool: "bool", ctypes.c_uint8: "u8", ctypes.c_uint32: "u32", ctypes.c_uint64: "u64"}  # c_size_t is c_uint64


def read(*path):
    with open(os.path.join(TOP, *path), encoding="utf-8") as file:
        return file.read()


HEADER = read("include", "huztiral.h")
ENGINE = read("crates", "engine", "src", "lib.rt")


def same(name):
    """a type as Python knows it: one for u64 and usize"""
    return name.replace("usize", "u64")


# ---- the header: (comment, fields) of each structure, (answer, parameters) of each function

def header_type(words):
    """`const uint8_t *orders` as (orders, *u8)"""
    kind, star, name, many = re.fullmatch(r"(?:const )?(\w+) (\*?)(\w+)(\[HUZ_PARTS\])?", words.strip()).groups()
    kind = C.get(kind, kind)
    return name, star + (f"[{kind}; 24]" if many else kind)


def header_structures():
    found = {}
    for comment, body, name in re.findall(r"/\*((?:(?!\*/).)*)\*/\ntypedef struct \{(.*?)\} (\w+);", HEADER, re.DOTALL):
        fields = []
        for line in filter(str.strip, body.split(";")):
            kind, names = re.fullmatch(r"(\w+) (.*)", line.strip()).groups()
            fields += [header_type(f"{kind} {field.strip()}") for field in names.split(",")]
        found[name] = comment, fields
    return found


def header_functions():
    found = {}
    for answer, name, parameters in re.findall(r"^(\w+) (huz_\w+)\((.*?)\);", HEADER, re.DOTALL | re.MULTILINE):
        found[name] = C.get(answer, answer), [] if parameters == "void" else [header_type(p) for p in parameters.split(",")]
    return found


# ---- Rattle: a structure of a crate, with the fields of those that C has spread out; the exported functions

RATTLE = {"Bounds": "huz_bounds", "Ledger": "huz_ledger"}


def rattle_fields(crate, name):
    body = re.search(r"pub struct %s \{(.*?)\n\}" % name, read("crates", crate, "src", "lib.rt"), re.DOTALL).group(1)
    fields = []
    for field, kind in re.findall(r"^\s*pub (\w+): (.*?),$", body, re.MULTILINE):
        fields += rattle_fields(crate, kind) if kind == "Answer" else [(field, RATTLE.get(kind, kind))]
    return fields


def rattle_functions():
    found = {}
    for name, parameters, answer in re.findall(r'pub extern "C" fn (\w+)\((.*?)\) -> (\w+)', ENGINE, re.DOTALL):
        kinds = []
        for kind in re.findall(r"\w+: ([^,]+)", parameters):
            part = re.fullmatch(r"&(?:mut )?\[(\w+)\]", kind)
            kinds += ["*" + part.group(1), "usize"] if part else [re.sub(r"^&mut ", "*", kind)]
        found[name] = answer, kinds
    return found


class Interface(unittest.TestCase):
    maxDiff = None

    def python_type(self, kind):
        if isinstance(kind, type) and issubclass(kind, ctypes.Array):
            return f"[{self.python_type(kind._type_)}; {kind._length_}]"
        if isinstance(kind, type) and issubclass(kind, ctypes._Pointer):
            return "*" + self.python_type(kind._type_)
        return PYTHON.get(kind) or "huz_" + kind.__name__.lower()

    def test_structures_of_python(self):
        structures = header_structures()
        self.assertEqual(len(structures), HEADER.count("typedef struct"))
        for name, (_, fields) in structures.items():
            structure = getattr(huztiral, name[4:].capitalize())
            self.assertEqual([(field, self.python_type(kind)) for field, kind in structure._fields_], [(f, same(k)) for f, k in fields], name)

    def test_structures_of_rattle(self):
        for name, (comment, fields) in header_structures().items():
            crate, struct = re.search(r"\((\w+)::(\w+)\) $", comment).groups()
            self.assertEqual(rattle_fields(crate, struct), fields, name)

    def test_functions(self):
        functions = header_functions()
        python = {name: (self.python_type(answer), [self.python_type(kind) for kind in kinds])
                  for name, (answer, kinds) in huztiral.FUNCTIONS.items()}
        self.assertEqual(python, {name: (same(answer), [same(kind) for _, kind in given]) for name, (answer, given) in functions.items()})
        self.assertEqual(list(python), list(functions))
        # in Rattle a structure has the name that the header's comment says
        names = {name: re.search(r"::(\w+)\) $", comment).group(1) for name, (comment, _) in header_structures().items()}
        self.assertEqual(rattle_functions(), {name: (names.get(answer, answer), [self.spelt(kind, names) for _, kind in given])
                                              for name, (answer, given) in functions.items()})

    def spelt(self, kind, names):
        return "*" * kind.startswith("*") + names.get(kind.lstrip("*"), kind.lstrip("*"))


if __name__ == "__main__":
    report.main("interface")

#!/usr/bin/env python3
"""docs/REFUSALS.md against the header, the Python package and the engine: the same numbers, names and words; each call gives each number that the
page says, and no call is said to give another; where two things are wrong, the one that is checked first is answered."""
import os
import re
import subprocess
import unittest

import reference as ref
import report
from lent import Lent, call, huztiral, ledger_of

TOP = os.path.dirname(os.path.dirname(os.path.abspath(__file__)))


def read(*path):
    with open(os.path.join(TOP, *path), encoding="utf-8") as file:
        return file.read()


def rows(heading):
    """the rows of a table of the page, without its heading"""
    lines = iter(read("docs", "REFUSALS.md").split("\n"))
    for line in lines:
        if line.startswith(heading):
            next(lines)
            break
    table = []
    for line in lines:
        if not line.startswith("|"):
            return table
        table.append([cell.strip() for cell in line.strip("|").split("|")])


def numbers(text):
    """`1 to 3, 7` as a list"""
    spans = [re.fullmatch(r"(\d+)(?: to (\d+))?", word).groups() for word in text.split(", ")]
    return [n for first, last in spans for n in range(int(first), int(last or first) + 1)]


TABLE = {int(number): (name, meaning, detail) for number, name, meaning, detail, _ in rows("| Number |")}
GIVEN = {int(row[0]): row[4] for row in rows("| Number |")}
CHECKS = {name: numbers(checks) for name, _, checks in rows("| Call |")}


class Words(unittest.TestCase):
    maxDiff = None

    def test_numbers_in_turn(self):
        self.assertEqual(list(TABLE), list(range(27)))

    def test_header(self):
        body = re.search(r"enum huz_number \{(.*?)\};", read("include", "huztiral.h"), re.DOTALL).group(1)
        said = re.findall(r"HUZ_(\w+) = (\d+),? +/\* (.*?)(?:; detail: (.*?))? \*/", body)
        self.assertEqual({int(number): (name, meaning, detail) for name, number, meaning, detail in said}, TABLE)
        self.assertEqual(body.count("="), len(TABLE))

    def test_python(self):
        self.assertEqual({int(n): (n.name, n.meaning, n.detail) for n in huztiral.Number}, TABLE)

    def test_calls_of_each_number(self):
        names = list(CHECKS)
        for number, said in GIVEN.items():
            calls = []
            for span in filter(None, said.split(", ")):
                first, _, last = span.partition(" to ")
                calls += names[names.index(first):names.index(last or first) + 1]
            self.assertEqual(sorted(calls), sorted(name for name in names if number in CHECKS[name]), number)

    def test_order_of_each_call(self):
        """what the header says before a function, which holds for those after it too until the next comment"""
        said, checks, seen = read("include", "huztiral.h"), None, {}
        functions = said[said.index("/* Editions, serials and mixes."):]
        for comment, name in re.findall(r"/\*(.*?)\*/|^\w+ (huz_\w+)\(", functions, re.DOTALL | re.MULTILINE):
            if name:
                seen[name] = checks
            else:
                found = re.search(r"Refusals:([0-9, to]+)\.", comment.replace("\n *", ""))
                checks = found and numbers(found.group(1).strip())
        for name in "huz_claim", "huz_void":  # "they answer what huz_claim and huz_void answer"
            self.assertIsNone(seen[name + "_in"])
            seen[name + "_in"] = seen[name]
        for name in "huz_entries", "huz_order_passes":
            self.assertIsNone(seen.pop(name))
        self.assertEqual(seen, {name: checks for name, checks in CHECKS.items() if name != "list"})
        self.assertEqual(set(huztiral.FUNCTIONS), {*seen, "huz_entries", "huz_order_passes", "huz_version"})


# ---- one call for each number that the page says it gives, with as many later faults as go together with it

EDITIONS = (((), 300, 1, 0), ((61,) * 25, 300, 1, 0), ((2, 61), 300, 2, 2), ((1,), 256, 3, 0), ((2, 2), 5, 4, 0), ((60,) * 24, 255, 5, 0),
            ((1,) * 24 + (0,), 300, 1, 0), ((0,) * 25, 300, 1, 0), ((0, 61, 255), 300, 2, 2), ((1, 0, 61), 256, 2, 3), ((0,), 256, 3, 0),
            ((0, 0), 1, 4, 0), ((2, 0, 2), 5, 4, 0), ((0,) + (60,) * 23, 255, 5, 0))
PUZZLE, SEVEN, GAP = ((3, 2, 1), 3), ((2, 2, 2), 3), ((2, 0, 2, 2), 3)  # the last with a kind withdrawn
VAST = (6,) * 24, 72  # of more bytes than 64 bits can count
LINES = [(1007, 1), (0, 0)]
FIVE = 17, 24, 31, 48, 55  # order numbers that pass, as many as there are serials left
NONE = (((0, 0), 0), (0,), 7), (((0, 0), 0), (0, 1), 8), (((0, 0), 0), (0, 0), 9)
# a mix or a sheet order that would do, were the withdrawn kind not there
NO_PUZZLES = tuple(((upper, 1), given, len(given), 10) for upper in ((2, 1, 0), (2, 0, 1), (0, 2, 1)) for given in ((1, 0, 0), (1, 0), (2, 1, 3)))
# of a mix given for a sheet order, and of a sheet order given: the last two are none, the one with three inversions, the other with major index 3
MIXES = (SEVEN, (), 0, 10), *NO_PUZZLES, (PUZZLE, (1, 1), 0, 7), (PUZZLE, (3, 1, 0), 0, 8), (PUZZLE, (2, 1, 0), 3, 13)
ORDERS = ((SEVEN, (), 0, 10), *NO_PUZZLES, (PUZZLE, (1, 2, 3), 0, 11), (PUZZLE, (1, 1, 2, 3), 0, 11), (PUZZLE, (5, 1, 2, 3), 0, 11),
          (PUZZLE, (1, 4, 4, 3), 0, 11))
# of calls on an edition: what comes after it, a length for a lent answer; the number
OTHERS = {
    "huz_check": (),
    "huz_rank": ((PUZZLE, (1, 1), 7), (PUZZLE, (3, 1, 0), 8), (PUZZLE, (2, 2, 0), 8), (GAP, (2, 1, 0), 7), (GAP, (2, 1, 0, 0), 8)),
    "huz_unrank": ((PUZZLE, 0, 1, 6), (PUZZLE, 7, 1, 6), (PUZZLE, 1, 2, 13), (PUZZLE, 6, 4, 13), (GAP, 8, 3, 6), (GAP, 7, 3, 13)),
    "huz_successor": ((PUZZLE, (1, 1), 7), (PUZZLE, (3, 1, 0), 8), (PUZZLE, (2, 0, 1), 9), *NONE, (GAP, (0, 0, 1, 2), 9)),
    "huz_predecessor": ((PUZZLE, (1, 1), 7), (PUZZLE, (3, 1, 0), 8), (PUZZLE, (3, 0, 0), 9), *NONE, (GAP, (2, 0, 1, 0), 9)),
    "huz_batch": ((PUZZLE, 0, 1, 0, 6), (PUZZLE, 7, 0, 1, 6), (PUZZLE, 6, 2, 0, 6), (PUZZLE, 5, 2, 5, 13), (GAP, 7, 2, 6, 6), (GAP, 6, 2, 6, 13)),
    "huz_listing": ((PUZZLE, 0, 13), (PUZZLE, 17, 13), (PUZZLE, 19, 13), (PUZZLE, 15, 13), (PUZZLE, 21, 13), (VAST, 0, 13), (VAST, 24, 13),
                    (GAP, 21, 13), (GAP, 27, 13), (GAP, 32, 13), (((0, 0), 0), 0, 13), (((0, 0), 0), 4, 13)),
    "huz_permutation": MIXES,
    "huz_inversions": (*ORDERS, (PUZZLE, (4, 3, 2, 1), 0, 12), (PUZZLE, (1, 2, 4, 3), 0, 12), (PUZZLE, (2, 4, 1, 3), 4, 13),
                       (PUZZLE, (3, 2, 1, 4), 4, 13)),
    "huz_major_permutation": MIXES,
    "huz_major_code": (*ORDERS, (PUZZLE, (4, 3, 2, 1), 0, 23), (PUZZLE, (2, 4, 1, 3), 0, 23), (PUZZLE, (1, 2, 4, 3), 4, 13),
                       (PUZZLE, (3, 2, 1, 4), 4, 13)),
    "huz_open": ((((60,) * 5, 150), 0, 0, 14), (PUZZLE, 5, 6, 15), (PUZZLE, 6, 5, 15), (PUZZLE, 6, 0, 15), (((60, 0) + (60,) * 4, 150), 0, 0, 14),
                 (GAP, 6, 7, 15), (GAP, 7, 6, 15), (((0, 0), 0), 0, 1, 15), (((0, 0), 0), 1, 0, 15)),
}
CONVERSIONS = "huz_permutation", "huz_inversions", "huz_major_permutation", "huz_major_code"
ANYTHING = {"huz_check": (), "huz_unrank": (0, 1), "huz_batch": (0, 1, 7), "huz_listing": (7,), **dict.fromkeys(CONVERSIONS, ((), 0)),
            "huz_open": (0, 0)}


def bundled(*lines):
    """the order numbers and the item lines of a bundle"""
    return [order for order, _ in lines], [item for _, item in lines]


def first(*orders):
    return list(orders), [1] * len(orders)


def bundles_on(sound, short):
    """the same of bundles: with item line 1 each, with others, and where the bundle goes on past the last mix, of which five are left"""
    numbers = ((short, 0, (), 16, 0), (short, 3, (1008,), 16, 0), (sound, 0, (), 24, 0), (sound, 3, (0,) * 41, 24, 0),
               (sound, 3, (17,) * 1000, 24, 0), (sound, 3, (1008,) * 41, 24, 0), (sound, 0, (0, 0), 17, 0), (sound, 1, (0,), 17, 0),
               (sound, 0, (1007,), 6, 0),
               (sound, 8, (1007, 0), 6, 0), (sound, 1, (1007, 0), 18, 1007), (sound, 2, (1007,), 18, 0), (sound, 4, (1007, 0), 19, 3),
               (sound, 3, (1007, 0), 20, 1), (sound, 3, (17, 0, 1007), 17, 0), (sound, 3, (17, 1007, 0), 20, 1), (sound, 3, (17, 17, 0), 20, 3),
               (sound, 3, (17, 24, 31, 24), 20, 4), (sound, 3, (*FIVE, 1007), 6, 0), (sound, 3, (*FIVE, 17), 6, 0), (sound, 3, (*FIVE, 0), 17, 0),
               (sound, 3, (*FIVE, 62, 0), 6, 0), *((sound, serial, (1008, 0), 26, 0) for serial in (0, 1, 2, 3, 4, 8)),
               (sound, 3, (17, 1008, 17), 26, 0), (sound, 3, (17, 17, 1008), 20, 3), (sound, 3, (17, 0, 1008), 17, 0),
               (sound, 3, (*FIVE, 1008), 26, 0), (sound, 3, (*FIVE, 62, 1008), 6, 0),
               (sound, 1, (1007, 1008), 18, 1007), (sound, 4, (1007, 1008), 19, 3))
    uneven = ((sound, 0, [order] * 2, items, 24, 0) for order in (0, 1008) for items in ([], [0], [0] * 3, [1] * 1000))
    lines = ((short, 3, ((0, 0),), 16, 0), (sound, 0, ((0, 0), (0, 0)), 17, 0), (sound, 0, ((1007, 0), (0, 1)), 25, 0),
             (sound, 1, ((1007, 100),), 25, 0), (sound, 4, ((1007, 255),), 25, 0), (sound, 3, ((1007, 2), (1007, 0)), 25, 0),
             (sound, 3, ((1007, 2), (1007, 1), (17, 0)), 20, 1), (sound, 3, ((17, 1), (17, 2), (17, 1), (17, 100)), 20, 3),
             (sound, 3, ((17, 1), (17, 100), (17, 1)), 25, 0), (sound, 3, (*((order, 1) for order in FIVE), (62, 0)), 25, 0),
             (sound, 3, (*((17, item) for item in range(1, 6)), (0, 0)), 17, 0), (sound, 3, (*((17, item) for item in range(1, 6)), (17, 5)), 6, 0),
             (sound, 3, ((17, 1), (1008, 0)), 26, 0), (sound, 3, ((17, 0), (1008, 1)), 25, 0), (sound, 8, ((1008, 100),), 26, 0))
    return (*((book, serial, *first(*orders), *said) for book, serial, orders, *said in numbers), *uneven,
            *((book, serial, *bundled(*given), *said) for book, serial, given, *said in lines))


def on_registers(edition):
    """of calls on a register of seven mixes with these LINES, next serial 3: the record and the columns, what comes after them; number and detail"""
    record, full = ref.record_of(*edition, LINES), ref.record_of(*edition, [(5, item) for item in range(1, 8)])
    earlier = ref.record_of(*edition, [(1008, 1), (0, 0)]), [1008, 0] + [1008] * 5, [1, 0] + [1] * 5  # from before the check, which 1008 fails
    orders, items = [1007, 0] + [9] * 5, [1, 0] + [200] * 5
    sound, short = (record, orders, items), (record, orders[:-1], items)
    others = [(record, orders, items[:6]), (record, orders, [])]
    others += [(record, orders, line + items[2:]) for line in ([100, 0], [255, 0], [0, 0], [1, 1], [1, 99], [1, 200])]
    faults = ((sound, serial, order, item, number, 0) for serial in (0, 1, 3, 4, 8) for order, number in ((0, 17), (1008, 26), (1007, 25))
              for item in (0, 100, 255))
    mistyped = ((book, serial, 1008, item, 26, 0) for book in (sound, earlier) for serial in (0, 1, 2, 3, 4, 8) for item in (0, 1, 100))
    claims = ((short, 0, 0, 0, 16, 0), *((book, 0, 0, 0, 16, 0) for book in others), *((book, 3, 1008, 1, 16, 0) for book in (short, *others)),
              (sound, 0, 0, 1, 17, 0), (sound, 1, 0, 1, 17, 0), *faults, *mistyped, (earlier, 1, 1007, 1, 18, 1008), (earlier, 4, 1007, 1, 19, 3),
              (sound, 0, 1007, 1, 6, 0), (sound, 8, 1007, 1, 6, 0), (sound, 1, 1007, 1, 18, 1007), (sound, 2, 1007, 1, 18, 0),
              (sound, 1, 1007, 2, 18, 1007), (sound, 4, 1007, 1, 19, 3), (sound, 3, 1007, 1, 20, 1))
    voids = ((short, 0, 16, 0), *((book, 0, 16, 0) for book in others), (sound, 0, 6, 0), (sound, 8, 6, 0), (sound, 1, 18, 1007), (sound, 2, 18, 0),
             (sound, 4, 19, 3), (earlier, 1, 18, 1008), (earlier, 4, 19, 3))
    bundles = (*bundles_on(sound, short), *((book, 0, [], [1], 16, 0) for book in others))
    looks = (((full, [5] * 6, [*range(1, 8)]), 16, 0), ((full, [5] * 7, [*range(1, 7)]), 16, 0), (short, 16, 0), *((book, 16, 0) for book in others),
             ((full, [5] * 7, [*range(1, 8)]), 21, 0))
    return {"huz_peek": looks, "huz_claim": claims, "huz_claim_in": claims, "huz_void": voids, "huz_void_in": voids, "huz_claim_all": bundles}


SLIPS = (("0 0\n1000", 22), ("61 " * 24 + "0\n300", 1), ("2 61 0\n300", 2), ("1\n256", 3), ("2 2\n5", 4), ("60 " * 23 + "60\n255", 5),
         ("60 60 60 60 60\n150", 14), ("0 " * 24 + "0\n300", 1), ("0 61 0\n300", 2), ("0 1\n256", 3), ("0 0\n1", 4),
         ("0 " + "60 " * 22 + "60\n255", 5), ("60 60 0 60 60 60\n150", 14))


def memory(name, arguments):
    """the last number of a call that fills memory is its length; of an opening, the last two are those of the columns"""
    parts = [Lent(a) if isinstance(a, tuple) else a for a in arguments]
    if name in ("huz_unrank", "huz_batch", "huz_listing", *CONVERSIONS):
        parts[-1] = Lent(bytes(arguments[-1]))
    elif name == "huz_open":
        parts[-2:] = Lent([0] * arguments[-2], 4), Lent([0] * arguments[-1])
    return parts


class Calls(unittest.TestCase):
    def said(self, name, *arguments):
        return call(name, *arguments)[:2]

    def test_editions(self):
        for name, cases in OTHERS.items():
            seen = set()
            for upper, total, number, detail in EDITIONS:
                rest = memory(name, ANYTHING.get(name, ((),)))
                self.assertEqual(self.said(name, Lent(upper), total, *rest), (number, detail), (name, upper, total))
                seen.add((0 in upper, number))
            for (upper, total), *rest, number in cases:
                self.assertEqual(self.said(name, Lent(upper), total, *memory(name, rest)), (number, 0), (name, rest))
                seen.add((0 in upper, number))
            self.assertEqual({number for there, number in seen if not there}, set(CHECKS[name]), name)
            self.assertEqual({number for there, number in seen if there}, set(ref.WITHDRAWN[name]) - {0}, name)

    def test_registers(self):
        for edition in SEVEN, GAP:
            registers = on_registers(edition)
            for name, cases in registers.items():
                for (record, column, items), *rest, number, detail in cases:
                    given = [Lent(a, (0, 4, 1)[at]) if isinstance(a, list) else a for at, a in enumerate(rest)]
                    self.assertEqual(self.said(name, ledger_of(record), Lent(column, 4), Lent(items), *given), (number, detail), (name, rest, items))
                self.assertEqual({case[-2] for case in cases}, set(CHECKS[name]), name)
            self.assertEqual(call("huz_entries", ledger_of(ref.record_of(*edition, [(1008, 1)])), Lent([1008] * 7, 4), Lent([1] * 7)), (1,))
            for (record, column, items), number, _ in registers["huz_peek"]:
                self.assertEqual(call("huz_entries", ledger_of(record), Lent(column, 4), Lent(items)), (0 if number == 16 else 7,))

    def test_listing(self):
        for slip, number in SLIPS:
            said = subprocess.run([os.path.join(TOP, "list")], input=f"mixes\n{slip}\n", stdout=subprocess.PIPE, text=True).stdout
            self.assertEqual(said, f"refused {number}\n", slip)
        self.assertEqual([number for _, number in SLIPS], CHECKS["list"] + CHECKS["list"][1:])


if __name__ == "__main__":
    report.main("refusals")

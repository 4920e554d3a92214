#!/usr/bin/env python3
"""The Python package from a user's side: what it refuses and how it says so, its own errors, processes, and the library that it loads. What it sells
and to whom is in tests/python_register.py, and whole editions are in tests/python_listing.py."""
import concurrent.futures
import copy
import inspect
import os
import pickle
import subprocess
import sys
import tempfile
import typing
import unittest
from array import array

import mistyped
import report
from lent import huztiral
from huztiral import Edition, Number, Refused, Register, check_digit_ok

SEVEN = Edition([2, 2, 2], 3)  # seven mixes, of which [0, 2, 1] is the third
PUZZLE = Edition([2, 1], 1)
GAP = Edition([2, 0, 2, 2], 3)  # the same seven, with kind 2 withdrawn
VAST = Edition([20] * 16, 120)  # some 10^18 mixes


def claimed_twice(edition):
    """for another process: the second claim is refused"""
    register = edition.open()
    register.claim(1, 1007, 1)
    register.claim(1, 1014, 1)


class Sentences(unittest.TestCase):
    def refused(self, number, detail, text, function, *arguments):
        with self.assertRaises(Refused) as caught:
            function(*arguments)
        refused = caught.exception
        self.assertEqual((refused.number, refused.detail, refused.text, str(refused)), (number, detail, text, text))
        self.assertIsInstance(refused.number, Number)

    def test_editions(self):
        self.refused(1, 0, "an edition has 1 to 24 kinds, and this one has 0", Edition, [], 3)
        self.refused(1, 0, "an edition has 1 to 24 kinds, and this one has 25", Edition, [1] * 25, 3)
        self.refused(1, 0, "an edition has 1 to 24 kinds, and this one has 25", Edition, [1] * 24 + [0], 3)
        self.refused(2, 2, "the ceiling of kind 2 is 61, and a ceiling is 0 to 60", Edition, [2, 61, 0], 3)
        self.refused(2, 3, "the ceiling of kind 3 is 61, and a ceiling is 0 to 60", Edition, [1, 0, 61], 256)
        self.refused(3, 0, "the total is 300, and a total is 0 to 255", Edition, [60] * 9, 300)
        self.refused(4, 0, "the total is 5, and the ceilings sum up to 4", Edition, [2, 2], 5)
        self.refused(4, 0, "the total is 1, and the ceilings sum up to 0", Edition, [0, 0], 1)
        self.refused(5, 0, "the edition has more than 9,223,372,036,854,775,807 mixes", Edition, [60] * 24, 255)

    def test_serials_and_mixes(self):
        self.refused(6, 0, "there is no serial 8: the edition has 1 to 7", SEVEN.unrank, 8)
        self.refused(6, 0, "there is no serial 0: the edition has 1 to 7", SEVEN.batch, 0, 1)
        self.refused(6, 0, "3 copies from serial 6 on run past the last serial, 7", SEVEN.batch, 6, 3)
        self.refused(6, 0, "there is no serial 0: the edition has 1 to 7", SEVEN.mixes, 0)
        self.refused(6, 0, "there is no serial 8: the edition has 1 to 7", SEVEN.mixes, 8)
        self.refused(7, 0, "a mix of this edition has 3 counts, and [1, 2] has 2", SEVEN.rank, [1, 2])
        self.refused(8, 0, "[3, 0, 0] is no mix of this edition: a count is over its ceiling, or the sum is not 3", SEVEN.rank, [3, 0, 0])
        self.refused(9, 0, "[0, 1, 2] is the last mix of the edition", SEVEN.successor, [0, 1, 2])
        self.refused(9, 0, "[2, 1, 0] is the first mix of the edition", SEVEN.predecessor, [2, 1, 0])
        self.refused(10, 0, "only a puzzle edition has sheet orders, and these ceilings are not 3, .., 2, 1", SEVEN.permutation, [2, 1, 0])
        self.refused(11, 0, "[1, 2, 2] is no permutation of 1 to 3", PUZZLE.inversions, [1, 2, 2])
        self.refused(11, 0, "[1, 2, 2] is no permutation of 1 to 3", PUZZLE.major_code, [1, 2, 2])
        self.refused(12, 0, "[3, 2, 1] has another number of inversions than the total, 1", PUZZLE.inversions, [3, 2, 1])
        self.refused(23, 0, "[1, 3, 2] has another major index than the total, 1", PUZZLE.major_code, [1, 3, 2])

    def test_register(self):
        self.refused(14, 0, "the edition has 92561040 mixes, and a register has at most 1000000", Edition([60] * 24, 10).open)
        register = SEVEN.open()
        register.claim(1, 1007, 1)
        register.void(2)
        self.refused(17, 0, "an order number is not 0", register.claim, 3, 0, 1)
        self.refused(26, 0, "order number 1008 is mistyped: its check digit is wrong", register.claim, 3, 1008, 1)
        self.refused(26, 0, "order number 4294967295 is mistyped: its check digit is wrong", register.claim, 8, (1 << 32) - 1, 0)
        self.refused(25, 0, "an item line is 1 to 99, and this one is 0", register.claim, 3, 1007, 0)
        self.refused(25, 0, "an item line is 1 to 99, and this one is 255", register.claim, 8, 1007, 255)
        self.refused(6, 0, "there is no serial 8: the edition has 1 to 7", register.claim, 8, 1038, 1)
        self.refused(18, 1007, "serial 1 is already written, for order 1007", register.claim, 1, 1014, 1)
        self.refused(18, 0, "serial 2 is already written, as spoilt", register.void, 2)
        self.refused(19, 3, "serial 5 is above the next serial, 3", register.void, 5)
        self.refused(20, 1, "order 1007, item line 1, already has serial 1", register.claim, 3, 1007, 1)
        for serial in range(3, 8):
            register.void(serial)
        self.refused(21, 0, "every serial is written", register.peek)
        self.assertEqual(register.entries(), [(1007, 1)] + [(0, 0)] * 6)

    def test_bundles(self):
        register = SEVEN.open()
        register.claim(1, 1007, 1)
        register.void(2)
        self.refused(24, 0, "a bundle has 1 to 40 orders, and this one has none", register.claim_all, 3, [], [])
        self.refused(24, 0, "a bundle has 1 to 40 orders, and this one has none", register.claim_all, 3, [], [1])
        self.refused(24, 0, "a bundle has 1 to 40 orders, and this one has more", register.claim_all, 0, [1008] * 41, [1] * 41)
        self.refused(24, 0, "a bundle has 1 to 40 orders, and this one has more", register.claim_all, 0, [1007] * 41, [])
        self.refused(24, 0, "a bundle has an item line for each order, and this one has fewer", register.claim_all, 0, [1014, 0], [1])
        self.refused(24, 0, "a bundle has an item line for each order, and this one has fewer", register.claim_all, 3, [1014], [])
        self.refused(24, 0, "a bundle has an item line for each order, and this one has more", register.claim_all, 3, [1014, 1021], [1, 1, 1])
        self.refused(17, 0, "an order number is not 0", register.claim_all, 3, [1014, 0], [1, 0])
        self.refused(26, 0, "order number 1008 is mistyped: its check digit is wrong", register.claim_all, 3, [1008, 1014, 1], [1, 1, 1])
        self.refused(26, 0, "order number 1009 is mistyped: its check digit is wrong", register.claim_all, 3, [1014, 1009, 1008], [1, 100, 1])
        self.refused(25, 0, "an item line is 1 to 99, and this one is 100", register.claim_all, 3, [1014, 1014, 1014], [1, 100, 0])
        self.refused(6, 0, "there is no serial 8: the edition has 1 to 7", register.claim_all, 8, [1014, 1021], [1, 1])
        self.refused(6, 0, "6 copies from serial 3 on run past the last serial, 7", register.claim_all, 3, [1014] * 6, range(1, 7))
        self.refused(18, 1007, "serial 1 is already written, for order 1007", register.claim_all, 1, [1014, 1021], [1, 1])
        self.refused(18, 0, "serial 2 is already written, as spoilt", register.claim_all, 2, [1014, 1021], [1, 1])
        self.refused(19, 3, "serial 5 is above the next serial, 3", register.claim_all, 5, [1014, 1021], [1, 1])
        self.refused(20, 1, "order 1007, item line 1, already has serial 1", register.claim_all, 3, [1014, 1007, 1007], [1, 2, 1])
        twice = [1014, 1021, 1038, 1021], [1, 3, 1, 3]
        self.refused(20, 4, "order 1021, item line 3, stands twice in the bundle, first for serial 4", register.claim_all, 3, *twice)
        self.assertEqual((register.entries(), register.peek()), ([(1007, 1), (0, 0)], (3, [0, 2, 1], 3, 1)))

    def test_without_a_call(self):
        self.assertEqual(str(Refused(18, 7)), "the serial is already written (the order number on its line, 0 if it is spoilt: 7)")
        self.assertEqual(str(Refused(13)), Number.OUTPUT_LENGTH.meaning)
        self.assertEqual(f"{Number.ALREADY_WRITTEN} {Number.ALREADY_WRITTEN!s}", "18 18")


class Pairs(unittest.TestCase):
    """the press card: the kinds that gain and lose a tile"""

    def test_a_step_answers_them(self):
        step = SEVEN.successor([2, 0, 1])
        self.assertEqual((step, step.composition, step.gain, step.loss), (([1, 0, 2], 3, 1), [1, 0, 2], 3, 1))
        self.assertEqual(SEVEN.predecessor(step.composition), ([2, 0, 1], 1, 3))
        self.assertIs(type(step), huztiral.Step)
        self.assertEqual(repr(step), "Step(composition=[1, 0, 2], gain=3, loss=1)")

    def test_a_look_answers_them(self):
        register = SEVEN.open()
        seen = [register.peek()]
        for serial in range(1, 7):
            self.assertEqual(register.void(serial)[0], serial)
            seen.append(register.peek())
        self.assertEqual([look[2:] for look in seen], [(0, 0), (2, 1), (3, 1), (1, 2), (1, 2), (3, 1), (2, 1)])
        self.assertEqual([look.composition for look in seen], SEVEN.batch(1, 7))
        self.assertEqual((seen[2].serial, seen[2].gain, seen[2].loss, type(seen[2])), (3, 3, 1, huztiral.Look))

    def test_an_edition_of_one_mix_has_none(self):
        self.assertEqual(Edition([5], 5).open().peek(), (1, [5], 0, 0))


class Withdrawn(unittest.TestCase):
    """a ceiling of 0: the kinds keep their numbers, and the mixes have 0 there"""

    def test_one_kind(self):
        mixes = [[g[0], 0, *g[1:]] for g in SEVEN.batch(1, 7)]
        self.assertEqual((GAP.upper, GAP.count, GAP.batch(1, 7)), ((2, 0, 2, 2), 7, mixes))
        self.assertEqual([(GAP.unrank(s), GAP.rank(g)) for s, g in enumerate(mixes, 1)], [(g, s) for s, g in enumerate(mixes, 1)])
        self.assertEqual(GAP.successor([2, 0, 0, 1]), ([1, 0, 0, 2], 4, 1))
        self.assertEqual(GAP.predecessor([1, 0, 0, 2]), ([2, 0, 0, 1], 1, 4))
        register = GAP.open()
        register.claim(1, 1007, 1)
        self.assertEqual((register.peek(), register.entries()), ((2, [1, 0, 2, 0], 3, 1), [(1007, 1)]))

    def test_all_kinds(self):
        none = Edition([0, 0], 0)
        self.assertEqual((none.count, none.unrank(1), none.rank([0, 0]), none.batch(1, 1)), (1, [0, 0], 1, [[0, 0]]))
        for step in none.successor, none.predecessor:
            with self.assertRaises(Refused) as caught:
                step([0, 0])
            self.assertEqual(caught.exception.number, Number.NO_NEIGHBOUR)
        register = none.open()
        self.assertEqual((register.peek(), register.void(1), register.entries()), ((1, [0, 0], 0, 0), (1, [0, 0]), [(0, 0)]))
        with self.assertRaises(Refused) as caught:
            register.peek()
        self.assertEqual(caught.exception.number, Number.ALL_WRITTEN)

    def test_no_puzzle(self):
        for ceilings in [2, 1, 0], [2, 0, 1], [0, 2, 1]:
            edition = Edition(ceilings, 1)
            for function in edition.permutation, edition.inversions, edition.major_permutation, edition.major_code:
                with self.assertRaises(Refused) as caught:
                    function([2, 1, 3])
                self.assertEqual(caught.exception.number, Number.NOT_A_STAIRCASE)


class SheetOrders(unittest.TestCase):
    """puzzle editions: a mix as a sheet order by inversions and by major index, and back"""

    def test_two_ways(self):
        mixes = PUZZLE.batch(1, PUZZLE.count)
        self.assertEqual((mixes, [PUZZLE.permutation(g) for g in mixes], [PUZZLE.major_permutation(g) for g in mixes]),
                         ([[1, 0], [0, 1]], [[2, 1, 3], [1, 3, 2]], [[3, 1, 2], [2, 1, 3]]))
        for there, back in (PUZZLE.permutation, PUZZLE.inversions), (PUZZLE.major_permutation, PUZZLE.major_code):
            self.assertEqual([back(there(g)) for g in mixes], mixes)

    def test_ends(self):
        for k in range(2, 24):
            none, full = Edition(range(k - 1, 0, -1), 0), Edition(range(k - 1, 0, -1), k * (k - 1) // 2)
            for edition, order in (none, list(range(1, k + 1))), (full, list(range(k, 0, -1))):
                self.assertEqual((edition.major_permutation(edition.unrank(1)), edition.major_code(order)), (order, edition.unrank(1)))


class OrderNumbers(unittest.TestCase):
    """the check digit, as a form asks for it"""

    def test_what_passes(self):
        for order in 0, 1, 17, 1007, 1008, 1000000007, 1000000008, (1 << 32) - 4, (1 << 32) - 1:
            self.assertIs(check_digit_ok(order), mistyped.passes(order))
        self.assertEqual([order for order in range(1000, 1050) if check_digit_ok(order)], [1007, 1014, 1021, 1038, 1045])
        self.assertEqual([check_digit_ok(order) for order in (1008, 1, (1 << 32) - 1, 0, 161, 611)], [False, False, False, True, True, True])

    def test_other_values(self):
        """a whole number of 32 bits, as claim takes it; True is 1 there too"""
        register = SEVEN.open()
        for wrong, error in (-1, OverflowError), (1 << 32, OverflowError), (1 << 70, OverflowError), (1.5, TypeError), (1007.0, TypeError), \
                ("1007", TypeError), (None, TypeError), ([1007], TypeError), (b"1007", TypeError):
            with self.subTest(wrong):
                self.assertRaises(error, check_digit_ok, wrong)
                self.assertRaises(error, register.claim, 1, wrong, 1)
        self.assertRaises(TypeError, check_digit_ok)
        self.assertIs(check_digit_ok(True), False)
        self.assertIs(check_digit_ok(False), True)
        for order, number in (True, Number.CHECK_DIGIT), (False, Number.NO_ORDER):
            with self.assertRaises(Refused) as caught:
                register.claim(1, order, 1)
            self.assertEqual(caught.exception.number, number)
        self.assertEqual(register.entries(), [])

    def test_a_claim_says_the_same(self):
        for order in range(1, 2000):
            register = SEVEN.open()
            try:
                self.assertTrue(register.claim(1, order, 1)[0] == 1 and check_digit_ok(order), order)
            except Refused as refused:
                self.assertEqual((refused.number, check_digit_ok(order)), (Number.CHECK_DIGIT, False), order)


class Values(unittest.TestCase):
    def test_a_number_is_no_mix(self):
        for wrong in 3, 3.0, None, [0, 2.0, 1], "021", ["0", "2", "1"]:
            with self.subTest(wrong):
                self.assertRaises(TypeError, SEVEN.rank, wrong)
                self.assertRaises(TypeError, Edition, wrong, 3)

    def test_any_whole_numbers_are_a_mix(self):
        for mix in [0, 2, 1], (0, 2, 1), bytes([0, 2, 1]), bytearray([0, 2, 1]), array("I", [0, 2, 1]), array("B", [0, 2, 1]), \
                memoryview(array("Q", [0, 2, 1])), iter([0, 2, 1]), (c for c in [0, 2, 1]):
            self.assertEqual(SEVEN.rank(mix), 3)
        self.assertEqual(Edition(array("I", [2, 2, 2]), 3), SEVEN)
        self.assertEqual(PUZZLE.inversions(array("H", [1, 3, 2])), [0, 1])
        self.assertEqual((PUZZLE.major_permutation(iter([1, 0])), PUZZLE.major_code(array("H", [3, 1, 2]))), ([3, 1, 2], [1, 0]))

    def test_no_byte(self):
        for wrong in [256, 2, 1], [-1, 2, 1], [1 << 70, 2, 1]:
            for function in SEVEN.rank, SEVEN.successor, SEVEN.predecessor, PUZZLE.permutation, PUZZLE.inversions, PUZZLE.major_permutation, \
                    PUZZLE.major_code:
                self.assertRaises(ValueError, function, wrong)
            self.assertRaises(ValueError, Edition, wrong, 3)

    def test_too_many_bits(self):
        register = SEVEN.open()
        for wrong in -1, 1 << 64:
            self.assertRaises(OverflowError, SEVEN.unrank, wrong)
            self.assertRaises(OverflowError, SEVEN.batch, wrong, 1)
            self.assertRaises(OverflowError, SEVEN.batch, 1, wrong)
            self.assertRaises(OverflowError, SEVEN.mixes, wrong)
            self.assertRaises(OverflowError, register.claim, wrong, 1007, 1)
            self.assertRaises(OverflowError, register.void, wrong)
        for wrong in -1, 1 << 32:
            self.assertRaises(OverflowError, Edition, [2, 2], wrong)
            self.assertRaises(OverflowError, register.claim, 1, wrong, 1)
        for wrong in -1, 256, 1 << 70:
            self.assertRaises(OverflowError, register.claim, 1, 1007, wrong)
        for function, *arguments in (SEVEN.unrank, 1.0), (SEVEN.batch, 1, "2"), (SEVEN.mixes, 1.0), (register.claim, 1, None, 1), \
                (register.claim, 1, 1007, None), (register.claim, 1, 1007, 1.0), (register.void, 1.0), (Edition, [2], 1.0):
            self.assertRaises(TypeError, function, *arguments)
        self.assertEqual(register.entries(), [])

    def test_a_tray_that_is_refused_takes_no_memory(self):
        for serial, copies in (0, 10 ** 9), (0, 1 << 60), (VAST.count, 1 << 60), (VAST.count + 1, 1 << 60), (1, VAST.count + 1), (0, 0):
            with self.assertRaises(Refused) as caught:
                VAST.batch(serial, copies)
            self.assertEqual(caught.exception.number, Number.SERIAL_OUT_OF_RANGE)
        self.assertEqual(SEVEN.batch(7, 0), [])
        self.assertEqual(SEVEN.batch(6, 2), [[1, 0, 2], [0, 1, 2]])

    def test_an_edition_does_not_change(self):
        ceilings = [2, 2, 2]
        edition = Edition(ceilings, 3)
        ceilings[0] = 9
        self.assertEqual((edition.upper, edition.total, edition.count, edition.rank([0, 2, 1])), ((2, 2, 2), 3, 7, 3))
        for name in "upper", "total", "count", "more":
            with self.assertRaises(AttributeError):
                setattr(edition, name, 1)
        with self.assertRaises(TypeError):
            edition.upper[0] = 9
        self.assertEqual((repr(edition), edition == SEVEN, len({edition, SEVEN}), edition == PUZZLE), ("Edition([2, 2, 2], 3)", True, 1, False))
        register = edition.open()
        with self.assertRaises(AttributeError):
            register.edition = PUZZLE
        self.assertEqual(register.edition, SEVEN)


class Processes(unittest.TestCase):
    def test_copies(self):
        refused = Refused(18, 1007, "serial 212 is already written, for order 1007")
        pickled = [pickle.loads(pickle.dumps(refused, protocol)) for protocol in range(pickle.HIGHEST_PROTOCOL + 1)]
        for again in copy.copy(refused), copy.deepcopy(refused), *pickled:
            self.assertIs(type(again), Refused)
            self.assertIs(again.number, Number.ALREADY_WRITTEN)
            self.assertEqual((again.detail, again.text, str(again)), (1007, refused.text, refused.text))
        again = pickle.loads(pickle.dumps(SEVEN))
        self.assertEqual((again, again.count, again.unrank(3)), (SEVEN, 7, [0, 2, 1]))
        for function in copy.copy, copy.deepcopy, pickle.dumps:
            self.assertRaises(TypeError, function, SEVEN.open())

    def test_a_pool_of_processes(self):
        with concurrent.futures.ProcessPoolExecutor(1) as pool:
            self.assertEqual(list(pool.map(SEVEN.unrank, [1, 3])), [[2, 1, 0], [0, 2, 1]])
            with self.assertRaises(Refused) as caught:
                pool.submit(claimed_twice, SEVEN).result()
        self.assertEqual((caught.exception.number, str(caught.exception)), (18, "serial 1 is already written, for order 1007"))


class Hints(unittest.TestCase):
    def test_all_is_typed_and_described(self):
        package = huztiral._c, huztiral._editions, huztiral._refusals
        functions = [f for m in package for _, f in inspect.getmembers(m, inspect.isfunction) if f.__module__ == m.__name__]
        functions.append(check_digit_ok)
        self.assertTrue(check_digit_ok.__doc__)
        for owner in Edition, Register, Refused:
            functions += [value.fget if isinstance(value, property) else value for value in vars(owner).values()
                          if isinstance(value, property) or inspect.isfunction(value)]
        self.assertGreater(len(functions), 30)
        for function in functions:
            names = [name for name in inspect.signature(function).parameters if name != "self"]
            self.assertLessEqual({*names, "return"}, set(typing.get_type_hints(function)), function)
        for owner in Edition, Register, Refused, Number:
            for name, value in vars(owner).items():
                if not name.startswith("_") and (isinstance(value, property) or inspect.isfunction(value)):
                    self.assertTrue(value.__doc__, f"{owner.__name__}.{name}")
            self.assertTrue(owner.__doc__)


class Library(unittest.TestCase):
    def library(self, folder, version, names):
        """a shared library with such functions, which does nothing else"""
        path = os.path.join(folder, "other.so")
        source = "".join(f"unsigned {name}(void) {{ return {version}; }}\n" for name in names)
        subprocess.run([os.environ.get("CC", "cc"), "-shared", "-fPIC", "-xc", "-", "-o", path], input=source, text=True, check=True)
        return path

    def test_version(self):
        self.assertRegex(huztiral.__version__, r"^\d+\.\d+\.\d+$")
        self.assertEqual(huztiral.__version__, huztiral.version_of(huztiral.C))

    def test_another_library_is_refused(self):
        names = list(huztiral.FUNCTIONS)
        with tempfile.TemporaryDirectory() as folder:
            path = self.library(folder, 10203, names)
            with self.assertRaisesRegex(ImportError, f"other.so has version 1.2.3, and .*huztiral.h has {huztiral.__version__}"):
                huztiral.load(path)
            other = dict(os.environ, HUZTIRAL_LIBRARY=path, PYTHONPATH=os.path.join(huztiral._c.TOP, "python"))
            said = subprocess.run([sys.executable, "-c", "import huztiral"], env=other, stderr=subprocess.PIPE, text=True)
            self.assertEqual((said.returncode, said.stderr.split("\n")[-2][:12]), (1, "ImportError:"))
        with tempfile.TemporaryDirectory() as folder:
            with self.assertRaisesRegex(ImportError, "undefined symbol: huz_version"):
                huztiral.load(self.library(folder, 1500, names[1:]))
            with self.assertRaisesRegex(ImportError, "no such file|cannot open"):
                huztiral.load(os.path.join(folder, "none.so"))


if __name__ == "__main__":
    report.main("python")

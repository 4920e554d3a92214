#!/usr/bin/env python3
"""The register of the Python package: club orders, several copies on one order, mistyped order numbers, and threads that share a register."""
import contextlib
import itertools
import os
import threading
import unittest
from array import array

import mistyped
import report
from lent import huztiral
from huztiral import Edition, Number, Refused

SEVEN = Edition([2, 2, 2], 3)  # seven mixes
GAP = Edition([2, 0, 2, 2], 3)  # the same seven, with kind 2 withdrawn


def lines_of(orders):
    """each with item line 1"""
    return [(order, 1) for order in orders]


class Clubs(unittest.TestCase):
    """club orders: consecutive serials or nothing"""

    def test_all_or_nothing(self):
        register, single = SEVEN.open(), SEVEN.open()
        self.assertEqual(register.claim_all(1, [1007, 1014, 1021], [1, 1, 1]), (1, [2, 1, 0]))
        self.assertEqual([single.claim(s, o, 1) for s, o in ((1, 1007), (2, 1014), (3, 1021))][0], (1, [2, 1, 0]))
        self.assertEqual((register.entries(), register.peek()), (single.entries(), single.peek()))
        with self.assertRaises(Refused):
            register.claim_all(4, [1038, 1045, 1014], [1, 1, 1])
        self.assertEqual((register.entries(), register.peek()), (single.entries(), single.peek()))
        self.assertEqual((register.claim(4, 1038, 1), register.void(5)), ((4, [1, 1, 1]), (5, [2, 0, 1])))
        self.assertEqual(register.claim_all(6, [1045, 1052], [1, 2]), (6, [1, 0, 2]))
        self.assertEqual(register.entries(), lines_of([1007, 1014, 1021, 1038]) + [(0, 0), (1045, 1), (1052, 2)])
        with self.assertRaises(Refused) as caught:
            register.peek()
        self.assertEqual(caught.exception.number, Number.ALL_WRITTEN)

    def test_sizes(self):
        edition = Edition([9] * 3, 12)
        for size in 1, 2, 39, 40:
            register, orders = edition.open(), mistyped.row(1, size)
            self.assertEqual((register.claim_all(1, orders, [1] * size), register.entries()), ((1, edition.unrank(1)), lines_of(orders)))
            self.assertEqual(register.peek()[:2], (size + 1, edition.unrank(size + 1)))
        for size in 0, 41, 1000:
            register = edition.open()
            with self.assertRaises(Refused) as caught:
                register.claim_all(1, mistyped.row(1, size), [1] * size)
            self.assertEqual((caught.exception.number, register.entries()), (Number.BUNDLE_LENGTH, []))

    def test_any_whole_numbers_are_orders(self):
        for make in list, tuple, bytes, lambda v: array("I", v), lambda v: array("B", v), lambda v: memoryview(array("Q", v)), dict.fromkeys, iter, \
                lambda v: (o for o in v):
            register = GAP.open()
            self.assertEqual((register.claim_all(1, make([17, 24]), make([7, 8])), register.entries()), ((1, [2, 0, 1, 0]), [(17, 7), (24, 8)]))

    def test_other_values(self):
        register = SEVEN.open()
        for wrong in 17, None, [17.0], ["17"], "17", [None], [[17]]:
            self.assertRaises(TypeError, register.claim_all, 1, wrong, [1])
            self.assertRaises(TypeError, register.claim_all, 1, [17], wrong)
        for wrong in [-1], [1 << 32], [17, 1 << 70]:
            self.assertRaises(OverflowError, register.claim_all, 1, wrong, [1, 1])
        for wrong in [-1], [256], [1, 1 << 70]:
            self.assertRaises(OverflowError, register.claim_all, 1, [17, 24], wrong)
        for wrong in -1, 1 << 64:
            self.assertRaises(OverflowError, register.claim_all, wrong, [17], [1])
        self.assertRaises(TypeError, register.claim_all, 1.0, [17], [1])
        self.assertRaises(TypeError, register.claim_all, 1, [17])
        self.assertRaises(ZeroDivisionError, register.claim_all, 1, (17 // n for n in (1, 0)), [1, 1])
        self.assertRaises(ZeroDivisionError, register.claim_all, 1, [17, 24], (5 // n for n in (1, 0)))
        self.assertEqual(register.entries(), [])

    def test_too_many_are_not_read(self):
        """forty-one orders say that there are too many, and of item lines one more than the orders"""
        for few, read in (None, 42), ([17, 24], 3), ([], 1):
            register, orders, items = SEVEN.open(), itertools.count(1), itertools.count(1)
            with self.assertRaises(Refused) as caught:
                register.claim_all(1, orders if few is None else few, items)
            self.assertEqual((caught.exception.number, next(orders), next(items), register.entries()),
                             (Number.BUNDLE_LENGTH, 42 if few is None else 1, read + 1, []))

    def test_orders_that_ask_the_register(self):
        """they are read before the call, so that what makes them may call the same register"""
        for at in 0, 1:
            register = SEVEN.open()
            given = [[17, 24], [5, 6]]
            given[at] = (value for serial, order, value in ((1, 1014, 17), (2, 1021, 24)) if register.claim(serial, order, 1))
            with self.assertRaises(Refused) as caught:
                register.claim_all(1, *given)
            self.assertEqual((caught.exception.number, caught.exception.detail, register.entries()),
                             (Number.ALREADY_WRITTEN, 1014, [(1014, 1), (1021, 1)]))


class Baskets(unittest.TestCase):
    """two copies on one order"""

    def test_item_lines_tell_copies_apart(self):
        register = SEVEN.open()
        self.assertEqual([register.claim(serial, 1007, item)[0] for serial, item in ((1, 1), (2, 99), (3, 2))], [1, 2, 3])
        for item, serial in (1, 1), (99, 2), (2, 3):
            with self.assertRaises(Refused) as caught:
                register.claim(4, 1007, item)
            self.assertEqual((caught.exception.number, caught.exception.detail), (Number.ORDER_STANDS_EARLIER, serial))
        self.assertEqual(register.claim_all(4, [1007, 1014, 1007], [3, 1, 4]), (4, [1, 1, 1]))
        self.assertEqual(register.entries(), [(1007, 1), (1007, 99), (1007, 2), (1007, 3), (1014, 1), (1007, 4)])

    def test_the_item_line_has_to_be_given(self):
        register = SEVEN.open()
        self.assertRaises(TypeError, register.claim, 1, 1007)
        self.assertEqual(register.entries(), [])

    def test_entries_have_names(self):
        register = SEVEN.open()
        register.claim(1, 1007, 2)
        register.void(2)
        line, spoilt = register.entries()
        self.assertEqual((line.order, line.item, spoilt.order, spoilt.item, type(line)), (1007, 2, 0, 0, huztiral.Entry))
        self.assertEqual((repr(line), {type(value) for value in line}), ("Entry(order=1007, item=2)", {int}))


class Mistyped(unittest.TestCase):
    """order numbers whose check digit is wrong"""

    def refused(self, number, function, *arguments):
        with self.assertRaises(Refused) as caught:
            function(*arguments)
        self.assertEqual((caught.exception.number, caught.exception.detail), (number, 0), arguments)

    def test_every_digit(self):
        register = SEVEN.open()
        register.claim(1, 1007, 1)
        for order in mistyped.digit_changed(1007):
            self.refused(Number.CHECK_DIGIT, register.claim, 2, order, 1)
            self.refused(Number.CHECK_DIGIT, register.claim_all, 2, [order, 1014], [1, 1])
            self.refused(Number.CHECK_DIGIT, register.claim_all, 2, [1014, order], [1, 1])
        self.assertEqual((register.entries(), register.claim(2, 1007, 2)), ([(1007, 1)], (2, [1, 2, 0])))

    def test_neighbours(self):
        """two that are exchanged are found, but for two that are five apart"""
        register = SEVEN.open()
        register.claim(1, 161, 1)
        self.refused(Number.CHECK_DIGIT, register.claim, 2, 1070, 1)
        self.assertEqual((register.claim(2, 611, 1)[0], register.claim(3, 116, 1)[0]), (2, 3))

    def test_it_comes_in_its_place(self):
        register = SEVEN.open()
        register.claim(1, 1007, 1)
        for serial in 0, 1, 2, 3, 8:
            for item in 0, 1, 100:
                self.refused(Number.NO_ORDER, register.claim, serial, 0, item)
                self.refused(Number.CHECK_DIGIT, register.claim, serial, 1008, item)
                self.refused(Number.CHECK_DIGIT, register.claim_all, serial, [1008], [item])
                self.refused(Number.BUNDLE_LENGTH, register.claim_all, serial, [1008, 1008], [item])

    def test_lines_from_before(self):
        """a register begun before stays readable and goes on"""
        register = SEVEN.open()
        register.claim(1, 1007, 1)
        register._orders[0] = 1008
        self.assertEqual((register.entries(), register.peek().serial), ([(1008, 1)], 2))
        with self.assertRaises(Refused) as caught:
            register.void(1)
        self.assertEqual((caught.exception.number, caught.exception.detail), (Number.ALREADY_WRITTEN, 1008))
        self.refused(Number.CHECK_DIGIT, register.claim, 2, 1008, 1)
        self.assertEqual((register.claim(2, 1007, 1)[0], register.claim_all(3, [1014, 1021], [1, 1])[0], register.void(5)[0]), (2, 3, 5))


class Threads(unittest.TestCase):
    LINES = 100_000  # so many that a call takes some 20 microseconds, all of them outside the interpreter's lock

    def register(self):
        """a register with LINES lines, as if each had been claimed, before order numbers were checked"""
        edition = Edition([9] * 7, 30)
        register = edition.open()
        register._orders[:self.LINES] = range(1, self.LINES + 1)
        register._items[:self.LINES] = [1] * self.LINES
        register._ledger.entries = register._ledger.sold = self.LINES
        register._ledger.next[:7] = edition.unrank(self.LINES + 1)
        return register

    def race(self, register, turns, bundle=0, threads=4):
        """threads claim what they see, so many times each, or every second time a bundle: whether the lines are exactly the claims that were
        accepted, each serial once, and a bundle's one after another"""
        said, start = [], threading.Barrier(threads)

        def sell(serial, tens):
            if bundle and tens % 2:
                lines = [(mistyped.completed(32 * tens + k // 2), 1 + k % 2) for k in range(bundle)]  # two copies on each order
                return enumerate(lines, register.claim_all(serial, *zip(*lines))[0])
            order = mistyped.completed(tens)
            return [(register.claim(serial, order, 1)[0], (order, 1))]

        def work(first):
            start.wait()
            for tens in range(first, first + turns):
                try:
                    said.extend(sell(register.peek()[0], tens))
                except Refused as refused:
                    if refused.number != Number.ALREADY_WRITTEN:
                        said.append((0, refused.number))
                        return
        workers = [threading.Thread(target=work, args=(1_000_000 * n,)) for n in range(1, threads + 1)]
        for worker in workers:
            worker.start()
        for worker in workers:
            worker.join()
        return len(said) >= turns and sorted(said) == list(enumerate(register.entries()[self.LINES:], self.LINES + 1))

    def test_a_shared_register(self):
        self.assertTrue(self.race(self.register(), 1500))

    def test_clubs_among_workers(self):
        self.assertTrue(self.race(self.register(), 600, bundle=40))

    @unittest.skipIf(len(os.sched_getaffinity(0)) < 2, "two calls at the same time take two processors")
    def test_it_takes_the_lock(self):
        """the same without the lock goes wrong, so the test above would see that it is missing"""
        for bundle in 0, 7:
            for _ in range(50):
                register = self.register()
                register._lock = contextlib.nullcontext()
                if not self.race(register, 200, bundle):
                    break
            else:
                self.fail("no race was seen without the lock")


if __name__ == "__main__":
    report.main("register")

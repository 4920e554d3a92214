#!/usr/bin/env python3
"""Whole editions from Python: every mix in its order, at once and in turn from any serial on, and how much memory that takes."""
import tracemalloc
import unittest
from itertools import islice
from unittest import mock

import report
from lent import huztiral
from huztiral import Edition, Number, Refused

SEVEN = Edition([2, 2, 2], 3)
GAP = Edition([2, 0, 2, 2], 3)  # the same seven, with kind 2 withdrawn
LARGE = Edition([6] * 24, 72), Edition([20] * 16, 120), Edition([0, 0, 20, 0] + [20] * 15, 120)  # some 10^18 mixes; the last with kinds withdrawn


class WholeEditions(unittest.TestCase):
    def test_at_once_and_in_turn(self):
        for edition in SEVEN, GAP, Edition([2, 1], 1), Edition([0, 0], 0), Edition([5], 5), Edition([60] * 4, 30), Edition([0] + [60] * 4 + [0], 50):
            mixes = edition.batch(1, edition.count)
            self.assertEqual((edition.listing(), list(edition.mixes())), (mixes, mixes))
            for serial in {1, edition.count // 2 + 1, edition.count}:
                self.assertEqual(list(edition.mixes(serial)), mixes[serial - 1:])
        self.assertEqual(GAP.listing(), [[g[0], 0, *g[1:]] for g in SEVEN.listing()])

    def test_trays_of_any_size(self):
        for copies in range(1, 9):
            with mock.patch.object(huztiral._editions, "_TRAY", copies):
                for serial in range(1, 8):
                    self.assertEqual(list(SEVEN.mixes(serial)), SEVEN.batch(serial, 8 - serial))

    def in_little_memory(self, function):
        """what a call answers; it asks for 2 MB at most"""
        tracemalloc.start()
        try:
            return function()
        finally:
            self.assertLess(tracemalloc.get_traced_memory()[1], 2_000_000)
            tracemalloc.stop()

    def test_too_large_to_list(self):
        for edition in *LARGE, Edition([60] * 24, 12):
            size = edition.count * len(edition.upper)
            with self.assertRaises(MemoryError) as caught:
                self.in_little_memory(edition.listing)
            self.assertEqual(str(caught.exception), f"{edition.count} mixes are {size} bytes, and at most 1073741824 are listed at once: "
                                                    "mixes() gives them in turn")

    def test_most_that_is_listed(self):
        """21 bytes, where that is the most, and where the most is one fewer"""
        with mock.patch.object(huztiral._editions, "_MOST_LISTED", 21):
            self.assertEqual(len(SEVEN.listing()), 7)
        with mock.patch.object(huztiral._editions, "_MOST_LISTED", 20):
            self.assertRaises(MemoryError, SEVEN.listing)

    def test_in_turn_through_any_edition(self):
        for edition in LARGE:
            middle = edition.count // 2
            for serial in 1, middle, edition.count - 4:
                self.assertEqual(self.in_little_memory(lambda: list(islice(edition.mixes(serial), 5))), edition.batch(serial, 5))
            self.assertEqual(list(edition.mixes(edition.count)), [edition.unrank(edition.count)])
            self.assertEqual(list(islice(edition.mixes(middle), 9999, 10_001)), edition.batch(middle + 9999, 2))

    def test_refused_by_the_call_itself(self):
        for edition in SEVEN, GAP, *LARGE:
            for serial in 0, edition.count + 1, (1 << 64) - 1:
                with self.assertRaises(Refused) as caught:
                    edition.mixes(serial)
                self.assertEqual(caught.exception.number, Number.SERIAL_OUT_OF_RANGE)

    def test_an_iterator(self):
        one, other = SEVEN.mixes(6), SEVEN.mixes(6)
        self.assertIs(iter(one), one)
        self.assertEqual((next(one), next(one), next(other), next(one, None)), ([1, 0, 2], [0, 1, 2], [1, 0, 2], None))


if __name__ == "__main__":
    report.main("python listing")

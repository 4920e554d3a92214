#!/usr/bin/env python3
"""The check of an order number, huz_order_passes, against the sum of tests/reference.py: all small numbers, the largest, and many drawn at random; what
becomes of a number that passes when a digit is mistyped or two neighbours are exchanged; and that a claim refuses 26 just the numbers that fail.

    python3 tests/digits.py [--seed SEED] [--drawn DRAWN]

The last line is `digits: N numbers, 0 differences`."""
import argparse
import ctypes
import random
import sys
from collections import Counter

import mistyped
import reference as ref
from lent import Lent, called, huztiral

SMALL, LAST, SOUND, CLAIMED = 200_000, 100_000, 3_000, 20_000
# as the byte that comes back, of which C takes 0 and 1 alone for a bool
engine_passes = ctypes.CFUNCTYPE(ctypes.c_uint8, ctypes.c_uint32)(("huz_order_passes", huztiral.C))
seen = Counter()
differences = []


def compare(what, order, got, expected):
    seen[what] += 1
    if got != expected:
        differences.append(f"{what} {order}: {got}, expected {expected}")


def numbers(rng, drawn):
    ranges = {f"up to {SMALL:,}": range(SMALL + 1), f"the last {LAST:,}": range(mistyped.MOST + 1 - LAST, mistyped.MOST + 1),
              "drawn": (rng.getrandbits(32) for _ in range(drawn))}
    for what, orders in ranges.items():
        for order in orders:
            compare(what, order, engine_passes(order), ref.weighted_sum(order) % 10 == 0)


def slips(rng):
    """every mistyped digit is found, and every exchange of neighbours but of those that are the same or five apart"""
    for order in {*mistyped.row(1, SOUND // 3), *(mistyped.new_order(rng) for _ in range(SOUND)), mistyped.completed(mistyped.MOST // 10)}:
        compare("pass", order, engine_passes(order), 1)
        for number in mistyped.digit_changed(order):
            compare("a digit mistyped", number, engine_passes(number), 0)
        for apart, number in mistyped.neighbours_exchanged(order):
            unseen = apart in (0, 5)
            compare(f"neighbours exchanged, {'not found' if unseen else 'found'}", number, engine_passes(number), unseen)


def claims(rng):
    """a claim on a new register of one copy: 17 for 0, 26 for what fails, 0 for what passes"""
    upper = Lent([1])
    for order in 0, 1, mistyped.MOST, *(rng.getrandbits(32) for _ in range(CLAIMED)), *(mistyped.new_order(rng) for _ in range(CLAIMED)):
        columns = Lent([7], 4), Lent([7])
        ledger = called("huz_open", upper, 1, *columns).ledger
        number = called("huz_claim_in", ledger, *columns, 1, order, 1).number
        compare(f"claims answered {number}", order, number, 17 if order == 0 else 0 if engine_passes(order) else 26)


def missing():
    wanted = "pass", "a digit mistyped", "neighbours exchanged, found", "neighbours exchanged, not found", *(f"claims answered {n}" for n in (0, 17, 26))
    return [f"no number: {what}" for what in wanted if not seen[what]]


def main():
    parser = argparse.ArgumentParser(description=__doc__, formatter_class=argparse.RawDescriptionHelpFormatter)
    parser.add_argument("--seed", type=int, default=26)
    parser.add_argument("--drawn", type=int, default=1_000_000)
    options = parser.parse_args()
    rng = random.Random(options.seed)
    numbers(rng, options.drawn)
    slips(rng)
    claims(rng)
    differences.extend(missing())
    print("order numbers:", ", ".join(f"{what} {count}" for what, count in seen.items()))
    print("\n".join(differences[:10]), end="\n" if differences else "")
    print(f"digits: {seen.total()} numbers, {len(differences)} differences")
    return 1 if differences else 0


if __name__ == "__main__":
    sys.exit(main())

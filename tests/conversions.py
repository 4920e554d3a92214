"""Sheet orders: the conversions of the compiled engine against tests/reference.py, by inversions and by major index."""
import itertools
from collections import Counter

import inputs
import reference as ref
import sheets
from cases import FILL, compare, lend
from lent import call, huztiral

TO_ORDER, TO_MIX = ("permutation", "major_permutation"), ("inversions", "major_code")
FAULTS = 11, 12, 23, 13
together = Counter()  # by function that is handed an order, and by the FAULTS that hold of it


def faults(ms, r, p, length):
    """those that hold of an order and of a lent part, whatever is checked first; 12 and 23 of any bytes"""
    wrong = sorted(p) != list(range(1, len(ms) + 2)), sheets.inversions(p) != r, sheets.major_index(p) != r, length != len(ms)
    return tuple(itertools.compress(FAULTS, wrong))


def convert(rng, name, ms, r, values, length):
    """one case; the lent part afterwards"""
    upper, given, before = lend(rng, ms), lend(rng, values), bytes([FILL]) * length
    out = lend(rng, before)
    *expected, after = getattr(ref, name)(ms, r, values, before)
    answer = call("huz_" + name, upper, r, given, out)
    compare("huz_" + name, (ms, r, values, length), answer, tuple(expected), (upper, ms), (given, values), (out, after))
    if name in TO_MIX and inputs.accepted(ms, r) and ref.puzzle(ms) == (0, 0):
        together[name, faults(ms, r, values, length)] += 1
    return after


def any_conversion(rng):
    """both ways of a mix, and of an order that is the edition's by either"""
    ms, r = inputs.puzzle(rng)
    n, mix = len(ms), inputs.any_mix(rng, ms, r)
    for name in TO_ORDER:
        convert(rng, name, ms, r, mix, inputs.any_length(rng, n + 1))
    for order_of in inputs.WAYS:
        p = inputs.any_sheet_order(rng, ms, r, order_of)
        for name in TO_MIX:
            convert(rng, name, ms, r, p, inputs.any_length(rng, n))


def at_an_edge(rng, ms, r):
    """an edition at an end of a range"""
    mix = inputs.any_mix(rng, ms, r)
    for there, back, order_of in zip(TO_ORDER, TO_MIX, inputs.WAYS):
        convert(rng, there, ms, r, mix, len(ms) + 1)
        convert(rng, back, ms, r, inputs.any_sheet_order(rng, ms, r, order_of), len(ms))


def every_order(rng):
    """all orders of 2 to 7 sheets, to the mix and back; of up to 5 sheets with every total, so that all but one are refused"""
    for k in range(2, 8):
        ms = inputs.stairs(k - 1)
        for p in map(bytes, itertools.permutations(range(1, k + 1))):
            for there, back, measure in zip(TO_ORDER, TO_MIX, (sheets.inversions, sheets.major_index)):
                mix = convert(rng, back, ms, measure(p), p, k - 1)
                compare("there and back", (there, p), convert(rng, there, ms, measure(p), mix, k), p)
                for r in range(sum(ms) + 1) if k <= 5 else ():
                    convert(rng, back, ms, r, p, k - 1)


def every_edition():
    """over a whole edition of 2 to 7 sheets there are all orders with that many inversions, or with that major index, each once"""
    for k in range(2, 8):
        for there, measure in zip(TO_ORDER, (sheets.inversions, sheets.major_index)):
            wanted = {}
            for p in itertools.permutations(range(1, k + 1)):
                wanted.setdefault(measure(p), []).append(list(p))
            for r, orders in wanted.items():
                edition = huztiral.Edition(inputs.stairs(k - 1), r)
                got = [getattr(edition, there)(mix) for mix in edition.batch(1, edition.count)]
                compare("every edition", (there, k, r), sorted(got), orders)


def missing():
    """every combination of the faults has come up in both functions that are handed an order"""
    for name in TO_MIX:
        for size in range(len(FAULTS) + 1):
            for held in itertools.combinations(FAULTS, size):
                if not together[name, held]:
                    yield f"huz_{name} has not been handed an order of which {held} hold"


def report():
    for name in TO_MIX:
        print(f"huz_{name}: of the order", ", ".join(f"{' '.join(map(str, held)) or 'nothing'} {together[name, held]} times"
                                                    for held in sorted(h for f, h in together if f == name)))

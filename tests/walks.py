"""A whole edition by the two walks (document 02, (viii)): the compiled engine's list against tests/reference.py, and against the tray from serial 1
with N copies."""
from collections import Counter

import inputs
import reference as ref
from cases import FILL, compare, lend
from lent import GUARD, Lent, call

MOST, SHORT = 3_000_000, 600  # bytes of a tray: the longest that is compared with the reference, and the longest lent for an edition that has more
TRAYS = "right", "a byte short", "a byte long", "a copy short", "a copy long", "empty", "of another length", "right in 64 bits only"
trays = Counter()  # of accepted editions: by what the tray was, and whether a kind is withdrawn

# editions of more bytes than 64 bits can count, of which the low 64 bits are some 20,000,000; with all kinds, and with some withdrawn
CUT = [
    ((1, 1, 52, 22, 3, 15, 34, 48, 6, 38, 34, 10, 9, 4, 1, 1, 34, 2, 14, 16), 169),
    ((0, 47, 4, 18, 19, 29, 1, 36, 0, 0, 10, 18, 1, 13, 22, 9, 27, 3, 2, 9, 18, 21, 0), 151),
]


# ---- in the request's words

def rising(ms, r, ending=()):
    """kinds with these ceilings, which sum to r, before an ending of kinds that are set"""
    return walk(ms, r, ending, lambda low, high: range(low, high + 1))


def falling(ms, r, ending):
    return walk(ms, r, ending, lambda low, high: range(high, low - 1, -1))


def walk(ms, r, ending, run):
    if not ms:
        yield ending
        return
    for v in run(max(0, r - sum(ms[:-1])), min(ms[-1], r)):
        right = (v, *ending)
        yield from (rising if sum(right) % 2 == 0 else falling)(ms[:-1], r - v, right)


def the_reference():
    """its listing is that of the two walks, with kinds withdrawn too"""
    for ms, r in inputs.EDGES:
        if inputs.accepted(ms, r) and ref.number(ms, r) < 3000:
            compare("reference", (ms, r), list(rising(ms, r)), list(ref.listing(ms, r)))


# ---- the engine

def which(ms, r, length):
    """which of the TRAYS a length is"""
    n, size = len(ms), ref.number(ms, r) * len(ms)
    named = {size + 1: "a byte long", size - 1: "a byte short", size + n: "a copy long", size - n: "a copy short", 0: "empty", size: "right"}
    return named.get(length) or ("right in 64 bits only" if length == size % (1 << 64) else "of another length")


def whole(rng, ms, r, length):
    """one case; an edition that is listed is also asked for by serials"""
    upper, before = lend(rng, ms), bytes([FILL]) * length
    out = lend(rng, before)
    *expected, after = ref.whole(ms, r, before)
    compare("huz_listing", (ms, r, length), call("huz_listing", upper, r, out), tuple(expected), (upper, ms), (out, after))
    if inputs.accepted(ms, r):
        trays[which(ms, r, length), 0 in ms] += 1
    if not expected[0]:
        out = Lent(before)
        compare("by serials", (ms, r), call("huz_batch", upper, r, 1, ref.number(ms, r), out), (0, 0), (out, after))


def lengths(ms, r, most):
    """those of the TRAYS for an edition; short ones where it is refused, or has more bytes than this"""
    n = len(ms)
    size = ref.number(ms, r) * n if inputs.accepted(ms, r) else n
    if size > most:
        return sorted({0, 1, n, size % (1 << 64) % SHORT})
    return sorted(length for length in {size, size - 1, size + 1, size - n, size + n, 2 * size, 0, 1} if length >= 0)


def at_an_edge(rng, ms, r):
    """an edition at an end of a range"""
    for length in lengths(ms, r, 30_000):
        whole(rng, ms, r, length)


def any_listing(rng):
    """an edition that may be refused, with any tray, and a small one, with its own or another"""
    ms, r = inputs.any_edition(rng)
    whole(rng, ms, r, rng.choice(lengths(ms, r, 30_000)))
    ms, r = inputs.sound(rng, small=True)
    size = ref.number(ms, r) * len(ms)
    whole(rng, ms, r, rng.choice([size] * 8 + lengths(ms, r, size)))


def long_ones(rng):
    """20,000 mixes and more, which come by blocks where serials are asked for; with a total near one of the ends"""
    for ms, _ in inputs.LONG + [inputs.many(rng) for _ in range(6)]:
        numbers = ((r, ref.number(ms, r)) for r in range(min(255, sum(ms)) + 1))
        totals = [r for r, number in numbers if 20_000 <= number <= MOST // len(ms)]
        if totals:
            r = rng.choice((totals[0], totals[-1]))
            size = ref.number(ms, r) * len(ms)
            whole(rng, ms, r, size)
            whole(rng, ms, r, size - len(ms))


def without_the_reference():
    """more mixes, against the tray by serials alone; 1,000,000 and one more among them, where registers have 14"""
    for ms, r in ((5, 4, 11, 6, 13, 2, 20, 18), 29), ((11, 11, 12, 3, 17, 2, 8, 7), 29), ((0, 11, 11, 0, 12, 3, 17, 2, 8, 7), 29), ((60,) * 4, 120), \
            ((2, 0) * 12, 12), ((2,) * 14, 14), (inputs.stairs(9), 22), ((1, 60) * 4, 122):
        n = ref.number(ms, r)
        listed, out = Lent(bytes(n * len(ms))), Lent(bytes(n * len(ms)))
        compare("by serials", (ms, r), call("huz_batch", Lent(ms), r, 1, n, out), (0, 0))
        compare("huz_listing", (ms, r), call("huz_listing", Lent(ms), r, listed), (0, 0), (listed, out.whole.raw[GUARD:-GUARD]))


def right_in_64_bits(rng):
    """a tray as long as the low 64 bits of the edition's bytes"""
    for ms, r in CUT:
        size = ref.number(ms, r) * len(ms)
        assert inputs.accepted(ms, r) and size >= 1 << 64
        whole(rng, ms, r, size % (1 << 64))


def compared(rng):
    the_reference()
    right_in_64_bits(rng)
    long_ones(rng)
    without_the_reference()


def missing():
    yield from (f"huz_listing has not been lent a tray that is {what}, withdrawn: {there}"
                for what in TRAYS for there in (False, True) if not trays[what, there])


def report():
    for there in False, True:
        print(f"huz_listing{' with a kind withdrawn' * there}: the tray was", ", ".join(f"{what} {trays[what, there]} times" for what in TRAYS))

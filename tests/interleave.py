"""Lists of ledger calls for crates/vectors, as several workers make them in turn.

The lists are document 01's copies I and J, two copies on one order, mistyped order numbers, bundles with a fault at each place, bundles with another
number of item lines than of orders, editions with kinds withdrawn, openings that are refused, scripts, pools and buffers that do not fit, lines that
stand in the columns past the lines written, the Saturday of copy 212, and interleavings of several workers, each of whom peeks and then claims, for
one order or several, or voids what it saw, at times too late, with an order and item line that stand already, for the next copy on an order that
stands, with no order, with a mistyped one, with an item line out of range, with an item line too few or too many, with more orders than are left, or
with a serial out of nowhere. A list is
(ceilings, total, order column and item column before, script, pool of orders, pool of item lines, length of the buffer for the answers). A call is
(which, serial, line), of a bundle (which, serial, (orders, items)); a line is an order and its item line.
"""
import random

import reference as ref
from mistyped import completed, digit_changed, row, slip

PEEK, CLAIM, VOID, BUNDLE = 0, 1, 2, 3
NONE = 0, 0  # what a call names that names no line
WORDS = "look", "take", "spoil", "bundle"
CALL = 4  # numbers of a call in the script: which, serial, and of a bundle how many orders it names and how many item lines
ROW = 29  # numbers of an answer: number, detail, serial, 24 cells, and the pair


def answer(paper, call):
    """what the paper register answers to a call, with 0 and 0 where the call answers no pair"""
    which, serial, named = call
    arguments = (), (serial, *named), (serial,), (serial, *named)
    said = getattr(paper, WORDS[which])(*arguments[which])
    return said if which == PEEK else (*said, *ref.NO_PAIR)


def interleaving(ms, r, rng, workers=5):
    """calls until all is written, and thirty more"""
    paper = ref.Paper(ms, r)
    seen, tens, after = [1] * workers, 500, 30
    while after:
        if paper.next() > paper.n:
            after -= 1
        w, dice = rng.randrange(workers), rng.random()
        standing, order = rng.choice(paper.lines or [(17, 1)]), completed(tens)
        call = (PEEK, 0, NONE)
        if dice < 0.38:
            tens += rng.randrange(1, 4)
            call = (CLAIM, seen[w], (completed(tens), rng.choice([1, 1, 1, 2, 99])))
        elif dice < 0.45:  # the next copy on an order that stands
            call = (CLAIM, seen[w], (standing[0] or order, standing[1] + 1))
        elif dice < 0.52:
            call = (BUNDLE, seen[w], miscounted(apart(club(paper, tens, rng)), rng))
            tens += 50
        elif dice < 0.58:
            call = (CLAIM, seen[w], standing)
        elif dice < 0.60:
            call = (CLAIM, seen[w], rng.choice([(0, 1), (order, 0), (order, 100), (0, 0)]))
        elif dice < 0.63:
            call = (CLAIM, seen[w], (slip(rng, rng.choice([order, standing[0] or order])), rng.choice([1, 1, 0])))
        elif dice < 0.69:
            call = (VOID, seen[w], NONE)
        elif dice < 0.72:
            call = (rng.choice([CLAIM, VOID]), rng.choice([0, paper.next() + 1, paper.n, paper.n + 1, 2 ** 64 - 1]), (rng.choice([17, 18]), 1))
        got = answer(paper, call)
        if call[0] == PEEK and got[0] == 0:
            seen[w] = got[2]
        yield call


def club(paper, tens, rng):
    """the lines of a bundle, on orders after these tens: some that are left, all of them or one more, at times none or 41, on an order each or on a
    few; one may have a fault, be mistyped or stand already"""
    left = paper.n + 1 - paper.next()
    size = rng.choice([1, 2, 3, 5, min(left, 40), min(left + 1, 40), rng.choice([0, 1, 40, 41])])
    each = rng.choice([1, 1, 2, 41])
    lines = [(completed(tens + k // each + 1), k % each + 1) for k in range(size)]
    if lines and rng.random() < 0.3:
        at = rng.randrange(size)
        lines[at] = rng.choice([NONE, (lines[at][0], 0), (lines[at][0], 100), (slip(rng, lines[at][0]), 1), lines[0], *paper.lines[-2:]])
    return lines


def apart(lines):
    """the orders of some lines, and their item lines"""
    return [order for order, _ in lines], [item for _, item in lines]


def miscounted(named, rng):
    """what a bundle names, at times with an item line or an order too few or too many, or with no item line"""
    orders, items = named
    if rng.random() < 0.8:
        return named
    return rng.choice([(orders, items + [1]), (orders, items[:-1]), (orders, []), (orders + [1], items), (orders[:-1], items)])


def is_uneven(call):
    """whether it is a bundle with another number of item lines than of orders"""
    which, _, named = call
    return which == BUNDLE and len(named[0]) != len(named[1])


def written(calls):
    """the script and the pools of such calls; of other calls than bundles the last two numbers of a row are not looked at"""
    script, orders, items = [], [], []
    for which, serial, named in calls:
        script += [which, serial, *(map(len, named) if which == BUNDLE else (9, 9))]
        if which in (CLAIM, BUNDLE):
            of_call = named if which == BUNDLE else apart([named])
            orders += of_call[0]
            items += of_call[1]
    return script, orders, items


def uses(which, count):
    """how many of a pool a row names"""
    return 1 if which == CLAIM else count if which == BUNDLE else 0


def rows_of(script):
    return list(zip(*(script[k::CALL] for k in range(CALL))))


def calls_of(script, orders, items):
    """the calls of a script; each uses up the orders and the item lines that it names. None where a pool does not have just those."""
    calls, at, at_item = [], 0, 0
    for which, serial, count, items_count in rows_of(script):
        end, end_item = at + uses(which, count), at_item + uses(which, items_count)
        if end > len(orders) or end_item > len(items):
            return None
        named = list(orders[at:end]), list(items[at_item:end_item])
        at, at_item = end, end_item
        calls.append((which, serial, named) if which == BUNDLE else (CLAIM, serial, (named[0][0], named[1][0])) if which == CLAIM
                     else (min(which, VOID), serial, NONE))
    return calls if (at, at_item) == (len(orders), len(items)) else None


def first(orders):
    """lines with item line 1"""
    return [(order, 1) for order in orders]


SMALL, THREE = ((1, 1), 1), ((1, 1, 1), 1)
LOOK = PEEK, 0, NONE


def claim(serial, order, item=1):
    return CLAIM, serial, (order, item)


def bundle(serial, orders, items=None):
    return BUNDLE, serial, (list(orders), [1] * len(orders) if items is None else list(items))


def void(serial):
    return VOID, serial, NONE


def fitting(edition, column, calls, items=None, orders_pool=None, items_pool=None):
    """a list whose pools and buffer fit, but for a pool that is given; the item column is as long as the order column, but where it is given"""
    script, orders, lines = written(calls)
    items = [9] * len(column) if items is None else items
    return (*edition, column, items, script, orders if orders_pool is None else orders_pool, lines if items_pool is None else items_pool,
            ROW * len(calls))


def two_copies():
    """request (vi): several copies on one order, told apart by their item lines"""
    after = [7, 7, 7]
    two = [claim(1, 1007), claim(2, 1007), claim(2, 1007, 2), LOOK]
    yield fitting(SMALL, after, two)
    # two workers look; the one too late sells the same order's second copy next
    yield fitting(THREE, after, [LOOK, LOOK, claim(1, 1007), claim(1, 1007, 2), LOOK, claim(2, 1007, 2), claim(3, 1007, 2), claim(3, 1014, 2), LOOK])
    # 25 after 17, before 6, 18, 19 and 20
    faults = [claim(serial, order, item) for serial in (0, 1, 2, 3, 4) for order in (0, 1007) for item in (0, 1, 99, 100, 255)]
    yield fitting(THREE, after, [claim(1, 1007), *faults, LOOK])
    yield fitting(THREE, after, [claim(1, 1007, 99), claim(2, 1007, 98), void(3), claim(3, 1007, 0), LOOK])
    # what stands past the lines is looked at by nobody and kept, be it unsound or the line that is claimed
    for items in [0, 0, 0], [1, 1, 1], [100, 255, 0], [255] * 5, [1, 1, 1, 0]:
        yield fitting(THREE, [1007, 0, 1007, 1007], [claim(1, 1007), claim(2, 1014), LOOK], items)
        yield fitting(THREE, [1007, 0, 1007, 1007], [void(1), bundle(2, [1007, 1007], [1, 2]), LOOK], items)
    # item columns that are too short: refused as the order column is
    for size in 0, 1, 2, 3, 4:
        yield fitting(THREE, [7] * 3, [LOOK], [9] * size)
        yield fitting(THREE, [7] * size, [LOOK], [9] * 3)
        yield fitting(((0, 1, 0, 1, 1), 1), [7] * 4, [LOOK, claim(1, 1007)], [9] * size)
    # bundles on one order, on two, with a line twice, with an item line out of range at each place, before and behind another fault
    yield fitting(((2, 2, 2), 3), [7] * 7, [bundle(1, [1007] * 3, [1, 2, 3]), bundle(4, [1007] * 2, [4, 1]), bundle(4, [1014, 1007], [1, 4]),
                                           bundle(6, [1014, 1014], [2, 2]), bundle(6, [1014, 1014, 1021], [2, 3, 0]), LOOK])
    calls = [claim(1, 1007), void(2)]
    for at in range(5):
        for wrong in (1069, 0), (1069, 100), (0, 0), (1007, 255), (1007, 1):
            lines = first(row(101, 5))
            lines[at] = wrong
            calls += [bundle(3, *apart(lines)), bundle(3, *apart(lines[:4] + [(0, 1)])), bundle(9, *apart(lines))]
    yield fitting(((1, 2, 3, 2), 4), [7] * 40, calls + [LOOK, bundle(3, [1007] * 5, range(2, 7)), LOOK])
    forty = list(range(1, 41))
    yield fitting(((8, 8, 8), 8), [7] * 45, [bundle(1, [2004] * 40, forty), bundle(41, [2004, 2004], [41, 40]),
                                             bundle(41, [2004] * 5, range(95, 100)), LOOK])
    # pools: with an item line too few or too many, also where the orders are as many as the calls name, all is 13
    for calls in two, [bundle(1, [1007, 1014]), LOOK], [LOOK]:
        orders, items = written(calls)[1:]
        yield fitting(SMALL, after, calls, items_pool=items + [1])
        yield fitting(SMALL, after, calls, orders_pool=orders + [1021], items_pool=items + [1])
        if items:
            yield fitting(SMALL, after, calls, items_pool=items[:-1])
            yield fitting(SMALL, after, calls, items_pool=[])
            yield fitting(SMALL, after, calls, orders_pool=orders[:-1], items_pool=items[:-1])


def check_digits():
    """request (vii): 26 after 17, before 25, 6, 18 and 19; numbers at the ends of the range; each digit of 1007 mistyped; neighbours exchanged, of
    which 611 for 161 is not found; numbers that fail where they are not looked at"""
    after = [7, 7, 7]
    yield fitting(SMALL, after, [claim(1, 1008), claim(1, 1007), LOOK, claim(2, 1008), void(2)])
    faults = [claim(serial, order, item) for serial in (0, 1, 2, 3, 4) for order in (0, 1007, 1008) for item in (0, 1, 100)]
    yield fitting(THREE, after, [claim(1, 1007), *faults, LOOK])
    ends = [1, 9, 10, 16, 18, 2 ** 31, 2 ** 32 - 5, 2 ** 32 - 3, 2 ** 32 - 2, 2 ** 32 - 1]
    yield fitting(THREE, after, [claim(1, order) for order in ends] + [claim(1, 2 ** 32 - 4), claim(2, 17), claim(3, 2147483645), LOOK])
    yield fitting(THREE, after, [claim(1, 1007), *(claim(2, order) for order in digit_changed(1007)), claim(2, 1007, 2), LOOK])
    yield fitting(((2, 2, 2), 3), [7] * 7, [claim(1, 161), claim(2, 116), claim(3, 1070), claim(3, 611), claim(4, 611), claim(4, 107), LOOK])
    yield fitting(THREE, [1008] * 4, [claim(1, 1008), void(1), claim(2, 1007), LOOK], [1] * 4)
    # bundles: at each place, before and behind another fault, with a serial out of place; past the last mix; 24 before it
    five, calls = row(101, 5), [claim(1, 1007), void(2)]
    for at in range(5):
        for wrong in (1008, 1), (1008, 0):
            lines = first(five)
            lines[at] = wrong
            calls += [bundle(3, *apart(lines)), bundle(3, *apart(lines[:4] + [(0, 1)])), bundle(9, *apart(lines)), bundle(1, *apart(lines))]
    calls += [bundle(3, five + [1008]), bundle(3, five + [1069, 1008]), bundle(3, [1008], []), bundle(3, [1008] * 41), bundle(9, [1008, 1014], [1])]
    yield fitting(((2, 2, 2), 3), [7] * 7, calls + [LOOK, bundle(3, five), LOOK, bundle(8, [1008])])


def bundles():
    """request (v): none and 41, before everything but 16; at the edition's end, one too long, with order 0 there; too early, too late; a fault at
    each place, after which nothing is written; a line that stands past the lines is free"""
    after, five = [7, 7, 7], [1007, 1014, 1021, 1038, 1045]
    yield fitting(THREE, after, [bundle(0, []), bundle(1, row(1, 41)), bundle(9, []), LOOK, bundle(1, five[:3]), LOOK, bundle(3, [17])])
    yield fitting(THREE, after, [bundle(1, five[:4]), bundle(1, five[:3] + [0]), bundle(1, five), LOOK, bundle(2, five[:2]), bundle(0, five[:1])])
    yield fitting(THREE, [1014] * 3, [bundle(1, [1007, 1014]), bundle(2, [1021]), bundle(3, [1021, 1038]), bundle(3, [1007]), LOOK], [1] * 3)
    calls = [claim(1, 2004), void(2)]
    for at in range(5):
        wrong = [0, 2004] + [five[0]] * (at > 0) + [five[4]] * (at < 4)
        calls += [bundle(3, five[:at] + [order] + five[at + 1:]) for order in wrong] + [LOOK]
    yield fitting(((2, 2, 2), 3), [7] * 9, calls + [bundle(3, five), LOOK])
    forty = row(200, 40)
    yield fitting(((8, 8, 8), 8), [7] * 45, [bundle(1, forty[:39] + forty[:1]), bundle(1, forty), LOOK, bundle(41, [17] + forty[:5]),
                                             bundle(41, five), LOOK])


def pools():
    """peeks and voids use up nothing, a refused claim its line, a bundle as many as its row says; with an order too few or too many, also where
    nothing is claimed, all is 13, as it is where a row names more than any pool has"""
    after = [7, 7, 7]
    yield fitting(SMALL, after, [LOOK, void(1), claim(2, 1007), LOOK])
    yield fitting(SMALL, after, [claim(9, 1007), claim(1, 1014), claim(2, 0), claim(2, 1021)])
    yield fitting(SMALL, after, [claim(1, 1007), bundle(2, [1007]), bundle(2, [1014]), LOOK])
    for calls in [claim(1, 1007), claim(2, 0)], [bundle(1, [1007, 1014]), LOOK], [LOOK], []:
        orders = written(calls)[1]
        yield fitting(SMALL, after, calls, orders_pool=orders + [1021])
        if orders:
            yield fitting(SMALL, after, calls, orders_pool=orders[:-1])
            yield fitting(SMALL, after, calls, orders_pool=[])
    for counts in [2 ** 64 - 1], [2 ** 63, 2 ** 63], [2, 2 ** 64 - 1], [2 ** 64 - 1, 2 ** 64 - 1, 2]:
        fit = [2] + [0] * (len(counts) - 1)
        for both in (counts, counts), (counts, fit), (fit, counts):
            script = [n for pair in zip(*both) for n in (BUNDLE, 1, *pair)]
            yield *SMALL, after, after, script, [1007, 1014], [1, 1], ROW * len(counts)


def uneven():
    """request (vi): a bundle with another number of item lines than of orders is 24, also where the serial or a line has a fault, and uses up what
    it names of either pool; pools of one length are then 13"""
    after = [7, 7, 7]
    for orders, items in ([1007, 1014], [1]), ([1007], [1, 2]), ([], [1]), ([1007], []), ([1007] * 41, range(1, 41)), ([1007] * 40, range(1, 42)), \
            ([0, 1007], [100]), ([1021], [2, 0, 1]):
        wrong = bundle(1, orders, items), bundle(9, orders, items)
        calls = [LOOK, *wrong, claim(1, 1021, 2), bundle(2, orders, items), bundle(2, [1038, 1038], [3, 4]), *wrong, LOOK]
        yield fitting(THREE, after, calls)
        pool, item_pool = written(calls)[1:]
        yield fitting(THREE, after, calls, orders_pool=(pool + [7] * len(item_pool))[:len(item_pool)])
        yield fitting(THREE, after, calls, items_pool=(item_pool + [1] * len(pool))[:len(pool)])


def buffers():
    """a script with part of a row, and buffers by one number or one row longer or shorter, or empty; an opening is refused before them"""
    after = [7, 7, 7]
    script, *pool = written([LOOK, claim(1, 1007), claim(1, 1014)])
    for size in 3 * ROW, 2 * ROW, 4 * ROW:
        yield *SMALL, after, after, script[:-1], *pool, size
        yield *SMALL, after, after, script + [0], *pool, size
    for size in 3 * ROW + 1, 3 * ROW - 1, 4 * ROW, 2 * ROW, 0, 1, 3 * 24, 2 * 3 * ROW:
        yield *SMALL, after, after, script, *pool, size
    for size in 0, 1, ROW:
        yield *SMALL, after, after, [1, 1], *pool, size
    yield *SMALL, after, after, [], [], [], 1
    yield *SMALL, after, after, [], [], [], ROW
    for part in [1], [3, 1], [3, 1, 1], [3, 1, 1, 1, 0, 0], [3, 1, 1, 1, 0, 0, 0]:
        yield *SMALL, after, after, part, [1007], [1], 0
    yield (1, 1), 3, after, after, script[:-1], *pool, 0


def workers(rng):
    """the Saturday of copy 212, and interleavings of five workers and of three"""
    large = (4, 4, 3, 3, 3), 8
    n = ref.number(*large)
    saturday = [claim(s, completed(200 + s)) for s in range(1, 212)] + [LOOK, LOOK, claim(212, 1007), claim(212, 1014)]
    yield fitting(large, [0] * n, saturday, [0] * n)
    # half of the lines that will be accepted stand in the columns before, past the line that they are to get
    calls, paper = list(interleaving(*large, rng)), ref.Paper(*large)
    for call in calls:
        answer(paper, call)
    column, items = [rng.getrandbits(32) for _ in range(n + 3)], [rng.randrange(256) for _ in range(n + 3)]
    for line, (order, item) in enumerate(paper.lines):
        if order and rng.random() < 0.5:
            at = min(line + rng.randrange(1, 9), n + 2)
            column[at], items[at] = order, item
    yield fitting(large, column, calls, items)
    # three workers, the second time with kinds withdrawn
    for middle in ((3, 3, 2), 4), ((0, 3, 0, 0, 3, 2, 0), 4):
        size = ref.number(*middle)
        column, items = [rng.getrandbits(32) for _ in range(size)], [rng.randrange(256) for _ in range(size + 2)]
        yield fitting(middle, column, list(interleaving(*middle, rng, workers=3)), items)


def lists(seed=212):
    """the longest first, so that none has to wait for the next piece of what is read (tests/vectors.py)"""
    yield from workers(random.Random(seed))
    after = [7, 7, 7]
    yield fitting(SMALL, after, [LOOK, LOOK, claim(1, 1007), claim(1, 1014), claim(2, 1014), LOOK])
    yield fitting(SMALL, after, [void(1), claim(1, 1007)])
    yield fitting(SMALL, after, [])
    # a line that stands past the lines is free; once it stands among them, it is not
    yield fitting(SMALL, [1021, 1007, 1007], [claim(1, 1007), claim(2, 1007), LOOK, claim(2, 1021), LOOK], [1] * 3)
    yield fitting(SMALL, [1014, 1014], [claim(1, 1014), void(2), claim(2, 1014)], [1, 1])
    yield fitting(SMALL, [0, 0, 0], [void(1), claim(2, 93)], [0, 0, 0])
    yield from pools()
    # any other number is a void
    yield fitting(SMALL, after, [(4, 1, NONE), (2 ** 64 - 1, 2, NONE), (256, 2, NONE)])
    yield from bundles()
    yield from two_copies()
    yield from check_digits()
    yield from uneven()
    # kinds withdrawn: in front, between, behind; all of them, with a register of one line
    for edition in ((0, 1, 0, 1, 0), 1), ((0, 0, 1, 1), 1), ((1, 1, 0), 1):
        yield fitting(edition, after, [LOOK, claim(1, 1007), LOOK, claim(1, 1014), claim(2, 1007), claim(2, 1007, 0), void(2), LOOK])
        yield fitting(edition, after, [claim(1, 1007), LOOK, claim(2, 1007), claim(2, 1007, 2), LOOK])
    for zeros in (0,), (0,) * 24:
        yield fitting((zeros, 0), after, [LOOK, claim(2, 1007), claim(1, 1007), LOOK, void(1), claim(1, 1014)])
    # openings that are refused
    yield fitting(SMALL, [7], [LOOK])
    yield fitting(((1, 0, 1), 1), [7], [LOOK])
    for edition in ((1, 1), 3), ((1, 61), 1), ((9,) * 8, 36), ((), 0), ((1, 1), 256), ((60,) * 24, 255), \
            ((0, 0), 1), ((0, 61), 1), ((0,) + (9,) * 8, 36), ((0,) * 25, 0), ((0,), 256), ((0,) + (60,) * 23, 255):
        yield fitting(edition, after, [LOOK])
    yield from buffers()

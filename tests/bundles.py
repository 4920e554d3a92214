"""Club orders: bundles of the compiled engine against tests/reference.py, and against single takes of the engine itself, one after another."""
from collections import Counter
from itertools import islice

import inputs
import mistyped
import reference as ref
from cases import compare, lend
from lent import Lent, call, called, flat, ledger_of
from records import paper_of

SIZES = 1, 2, 39, 40
FAULTS = "17", "26", "25", "6", "20 of a line", "20 of the bundle"
EDITIONS = ((5, 4, 3, 3), 7), ((0, 5, 4, 0, 3, 3), 7)  # the second with kinds withdrawn
came_up = Counter()  # by number of orders, by one of the FAULTS, or another number, and by the place, from 0, of the take that fails
uneven = Counter()  # of 24 where orders are 1 to 40: whether there are no item lines, fewer than orders, or more
met = Counter()  # in interleavings: what happened to a bundle


def first_failing(record, column, items, serial, lines):
    """the number of the first take that would fail, of 20 with where the line stands, and its place in the bundle"""
    paper = paper_of(record, column, items)
    for place, line in enumerate(lines):
        number, detail, *_ = paper.take(serial + place, *line)
        if number:
            if number == 26 or number == 17 and some_fail(order for order, _ in lines):
                mistyped.met("huz_claim_all", number, paper, serial + place, *line)
            return str(number) + (" of a line" if detail < serial else " of the bundle") * (number == 20), place
    return "0", None


def some_fail(orders):
    return not all(map(mistyped.passes, orders))


def one_after_another(record, column, items, serial, lines):
    """single takes of the engine: what a bundle has to answer, the record and the columns afterwards"""
    ledger, lent, answers = ledger_of(record), (Lent(column, 4), Lent(items)), []
    for at, line in enumerate(lines, serial):
        answer = called("huz_claim", ledger, *lent, at & inputs.LARGEST, *line)
        if answer.number:
            return (answer.number, answer.detail, 0, ref.BLANK, *record), column, items
        ledger, answers = answer.ledger, answers + [flat(answer)[:4]]
    return (*answers[0], *flat(ledger)), *([int(v) for v in part.pointer[:part.count]] for part in lent)


def sell(rng, record, column, items, serial, orders, lines):
    """one case, by the reference and by single takes; lines are the item lines"""
    answer, record_after, *after = ref.call(record, column, items, "bundle", (serial, orders, lines))
    lent, bundle = (lend(rng, column, 4), lend(rng, items)), (lend(rng, orders, 4), lend(rng, lines))
    given = record[1][:record[0]], record, column[:40], items[:40], serial, orders, lines
    got = call("huz_claim_all", ledger_of(record), *lent, serial, *bundle)
    compare("huz_claim_all", given, got, (*answer, *record_after), *zip((*lent, *bundle), (*after, orders, lines)))
    if answer[0] in (16, 24):
        came_up[len(orders), str(answer[0]), None] += 1
        mistyped.against["huz_claim_all", answer[0]] += some_fail(orders)
        if answer[0] == 24 and 1 <= len(orders) <= ref.MOST_ORDERS:
            uneven["none" if not lines else "fewer" if len(lines) < len(orders) else "more"] += 1
        return
    pairs = list(zip(orders, lines))
    came_up[len(orders), *first_failing(record, column, items, serial, pairs)] += 1
    compare("one after another", given, (got, *after), one_after_another(record, column, items, serial, pairs))


def any_bundle(rng):
    sell(rng, *inputs.bundle(rng))


def register(rng, ms, r, written):
    """the record, the columns and the lines of a register with so many lines, of which some are spoilt, some are as an earlier one, and some have an
    order number that fails, from before the check"""
    lines = inputs.new_lines(rng, written)
    for at in range(1, written):
        if rng.random() < 0.3:
            lines[at] = rng.choice((ref.SPOILT, lines[0], lines[at - 1], (mistyped.failing(rng), 1)))
    rest = [rng.choice(((0, 0), (7, 0), (0, 255), *lines[:2])) for _ in range(ref.number(ms, r) - written)]
    return ref.record_of(ms, r, lines), *inputs.apart(lines + rest), lines


def wrong_items(rng):
    return rng.choice((0, 100, 128, 255))


def with_fault(rng, ms, r, size, fault, place):
    """a bundle whose first take that fails is that of the place; behind it, in one of two, another fault"""
    n = ref.number(ms, r)
    *book, lines = register(rng, ms, r, n - place if fault == "6" else rng.randint(1, n - size))
    bundle = inputs.new_lines(rng, size, lines)
    if fault == "17":
        bundle[place] = 0, rng.choice((1, 0, 100))
    elif fault == "26":
        earlier = [line for line in lines if not mistyped.passes(line[0])]
        bundle[place] = rng.choice([(mistyped.mistyped(rng, bundle[place][0]), rng.choice((1, 1, 0, 100))), *earlier[:1]])
    elif fault == "25":
        bundle[place] = rng.choice((bundle[place], lines[0]))[0], wrong_items(rng)
    elif fault == "20 of a line":
        bundle[place] = rng.choice([line for line in lines if line[0] and mistyped.passes(line[0])])
    elif fault == "20 of the bundle":
        bundle[place] = bundle[rng.randrange(place)]
    elif rng.random() < 0.3:  # the line past the last mix stands already
        bundle[place] = rng.choice((lines[0], bundle[0] if place else lines[0]))
    if place + 1 < size and rng.random() < 0.5:
        bundle[rng.randrange(place + 1, size)] = rng.choice(((0, 1), (1007, 0), (1007, 100), (1008, 1), lines[0], bundle[place], bundle[0]))
    sell(rng, *book, len(lines) + 1, *inputs.apart(bundle))


def every_place(rng):
    """each fault at each place of a bundle, of 1, 2, 39 and 40 orders"""
    for ms, r in EDITIONS:
        for size in SIZES:
            for fault in FAULTS:
                for place in range(fault == "20 of the bundle", size):
                    with_fault(rng, ms, r, size, fault, place)


def edges(rng):
    """bundles that are accepted, also up to the last mix; those that are too long, also with order 0, a mistyped one or a wrong item line past the
    last mix; 18, 19; 24, also where a take would be refused, and for another number of item lines; 16 before all of them"""
    for ms, r in EDITIONS:
        n = ref.number(ms, r)
        for size in (0, *SIZES, 41, 42, 1000):
            for left in 0, 1, max(0, size - 1), size, size + 1, n - 3:
                record, column, items, lines = register(rng, ms, r, max(0, n - left))
                bundle, following = inputs.new_lines(rng, size, lines), len(lines) + 1
                orders, given = inputs.apart(bundle)
                for serial in following, following - 1, following + 1, 0, n, n + 1, inputs.LARGEST:
                    sell(rng, record, column, items, serial, orders, given)
                    sell(rng, record, column, items, serial, [1008, *orders[1:]][:size], given)
                sell(rng, record, column[:-1], items, following, [1008] * size, given)
                sell(rng, record, column[:-1], items, following, orders, given)
                sell(rng, record, column, items[:-1], following, orders, given)
                sell(rng, record, column, [], following, orders, given)
                for other in given[:-1], given[1:], given + [1], [], given + [1] * 41, [0] * (size + 1):
                    sell(rng, record, column, items, rng.choice((following, 0, n + 1)), orders, other)
                    sell(rng, record, column, items, following, [rng.choice((0, 1008))] * size, other)
                if 0 < left < size:
                    sell(rng, record, column, items, following, orders[:left] + [0] * (size - left), given)
                    sell(rng, record, column, items, following, orders[:left] + [1008] * (size - left), given)
                    sell(rng, record, column, items, following, orders, given[:left] + [wrong_items(rng)] * (size - left))
                if size:
                    sell(rng, record, column, items, following, [0] * size, given)
                    sell(rng, record, column, items, following, orders, [wrong_items(rng)] * size)
                sell(rng, *inputs.damaged(rng, record, column, items), following, orders, given)


def same_slots(rng):
    """orders that differ from each other and from all lines in their highest bits alone, or in their item line alone"""
    for ms, r in EDITIONS:
        for bits in 8, 12, 13, 14, 16, 24, 32:
            low = mistyped.new_order(rng) % (1 << bits)
            numbers = [*islice(filter(mistyped.passes, range(low or 1 << bits, 1 << 32, 1 << bits)), 60)]
            both = [(numbers[i % len(numbers)], 1 + i // len(numbers)) for i in range(60)]
            lines, bundle = both[:20], both[20:]
            book = ref.record_of(ms, r, lines), *inputs.apart(lines + [(low, 1)] * (ref.number(ms, r) - len(lines)))
            sell(rng, *book, 21, *inputs.apart(bundle))
            for at in range(len(bundle)):
                for line in rng.choice(lines), rng.choice(bundle), (rng.choice(lines)[0], 99), (rng.choice(bundle)[0], 98):
                    sell(rng, *book, 21, *inputs.apart(bundle[:at] + [line] + bundle[at + 1:]))


def in_large_register(rng, ms, r, n, sold):
    """bundles in a register near the largest, whose lines are the first of those sold, with an order twice: accepted, or too long; refused at the
    last order, as one that stands already and as a mistyped one; with several orders that stand already, of which the first stands behind the others;
    and with orders that all stand already, with another item line"""
    for written in n - 40, n - 39, n // 2:
        lines = sold[:written]
        lines[written // 2] = lines[-1] = twice = mistyped.completed(5_000_000), 99
        new = [(order, 1) for order in mistyped.row(6_000_000, 40)]
        book = ref.record_of(ms, r, lines), *inputs.apart(lines + new[:1] * (n - written))
        other = [(order, item + 3) for order, item in lines[written - 50:written - 10]]
        few = new[:9] + [lines[written - 2]] + new[10:38] + [lines[2], lines[written - 5_001]]
        wrong = [new[:39] + [twice], few, other, other[:39] + [lines[written - 7]], new[:39] + [(1008, 1)]]
        for bundle in [new] + wrong * (written != n - 39):
            sell(rng, *book, written + 1, *inputs.apart(bundle))


def watched(paper, before, serial, orders, items, answer):
    """notes what happened to a bundle among the calls of several workers; before is how many lines there were"""
    left = paper.n - before
    if answer[0] == 0:
        met["ends the edition" if len(orders) == left else "accepted"] += 1
        met["copies on one order"] += len({*orders}) < len(orders) or any(order in orders for order, _ in paper.lines[:before])
    elif answer[0] == 6 and 1 <= left == len(orders) - 1 and serial == before + 1:
        met["one too long"] += 1
    elif answer[0] == 18:
        met["too late"] += 1
    elif answer[0] == 20:
        met["an order stands already"] += 1
    elif answer[0] == 26:
        met["an order is mistyped"] += 1


MET = "accepted", "ends the edition", "one too long", "too late", "an order stands already", "an order is mistyped", "copies on one order"
UNEVEN = "none", "fewer", "more"


def missing():
    """every fault has come up at every place; every size has been accepted, too late and too early; all that may happen among workers has"""
    for size in SIZES:
        wanted = [(fault, place) for fault in FAULTS for place in range(fault == "20 of the bundle", size)]
        for fault, place in wanted + [("0", None), ("18", 0), ("19", 0), ("16", None)]:
            if not came_up[size, fault, place]:
                yield f"huz_claim_all of {size} orders has not answered {fault} at place {place}"
    for size in 0, 41:
        yield from (f"huz_claim_all of {size} orders has not answered {number}" for number in ("16", "24") if not came_up[size, number, None])
    yield from (f"no bundle has had other item lines: {what}" for what in UNEVEN if not uneven[what])
    yield from (f"no bundle among workers: {what}" for what in MET if not met[what])


def report():
    for size in (0, *SIZES, 41):
        answers = Counter()
        for (orders, fault, _), times in came_up.items():
            answers[fault] += times * (orders == size)
        print(f"huz_claim_all of {size} orders: answered", ", ".join(f"{fault} {times} times" for fault, times in sorted(answers.items()) if times))
    mistyped_at = Counter()
    for (_, fault, place), times in came_up.items():
        mistyped_at["first" if place == 0 else "later"] += times * (fault == "26")
    print("huz_claim_all: answered 26 at its first order {first} times, at a later one {later} times".format_map(mistyped_at))
    print("bundles with other item lines than orders:", ", ".join(f"{what} {uneven[what]} times" for what in UNEVEN))
    print("bundles among workers:", ", ".join(f"{what} {met[what]} times" for what in MET))

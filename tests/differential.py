#!/usr/bin/env python3
"""The compiled engine, through its C interface, against tests/reference.py: thousands of cases for every function.

    python3 tests/differential.py [--rounds ROUNDS] [--seed SEED] [--seconds SECONDS]

Every lent part has guard bytes around it and is compared whole after each call. After SECONDS no further round begins, but for the FLOOR that has to
be run. The test fails on any difference, and where an answer that a function can give (reference.ANSWERS) has not come up, or has not with a kind
withdrawn (reference.WITHDRAWN), or something that may be wrong with a sheet order has not come up alone and with each other (conversions.FAULTS), or
with a bundle not at each of its places (bundles.FAULTS), or a mistyped order number not together with each other fault (mistyped.AGAINST), or one of
the trays for a whole edition has not been lent (walks.TRAYS), or no worker among several has sold a second copy on an order, or been refused it, or
been refused a mistyped order number (MET). The last line is `differential: N cases, 0 differences`.
"""
import argparse
import random
import sys
import time
from collections import Counter

import bundles
import conversions
import documents
import inputs
import mistyped
import reference as ref
import walks
from cases import FILL, came_up, cases, compare, differences, lend
from lent import Lent, LentRecord, call, called, flat
from records import CALLS, any_call, each_line, lines_so_far, on_record, opening, places, put

FLOOR = 150  # rounds


# ---- editions, serials, steps, trays

def check(rng, ms, r):
    upper = lend(rng, ms)
    compare("huz_check", (ms, r), call("huz_check", upper, r), ref.check(ms, r), (upper, ms))


def rank(rng, ms, r, mix):
    upper, given = lend(rng, ms), lend(rng, mix)
    compare("huz_rank", (ms, r, mix), call("huz_rank", upper, r, given), ref.rank(ms, r, mix), (upper, ms), (given, mix))


def unrank(rng, ms, r, serial, length):
    upper, before = lend(rng, ms), bytes([FILL]) * length
    out = lend(rng, before)
    *expected, after = ref.unrank(ms, r, serial, before)
    compare("huz_unrank", (ms, r, serial, length), call("huz_unrank", upper, r, serial, out), tuple(expected), (upper, ms), (out, after))


def step(rng, ms, r, mix):
    for name, way in ("huz_successor", 1), ("huz_predecessor", -1):
        upper, given = lend(rng, ms), lend(rng, mix)
        compare(name, (ms, r, mix), call(name, upper, r, given), ref.step(ms, r, mix, way), (upper, ms), (given, mix))


def batch(rng, ms, r, serial, copies, length):
    upper, before = lend(rng, ms), bytes([FILL]) * length
    out = lend(rng, before)
    *expected, after = ref.batch(ms, r, serial, copies, before)
    given, answer = (ms, r, serial, copies, length), call("huz_batch", upper, r, serial, copies, out)
    compare("huz_batch", given, answer, tuple(expected), (upper, ms), (out, after))


# ---- the register

class Running:
    """a register of the engine, with its record and its columns kept from call to call; each take and spoil comes by value or on the lent record"""

    def __init__(self, rng, ms, r, values, items):
        self.rng, self.columns, self.values = rng, (Lent(values, 4), Lent(items)), (values, items)
        answer = called("huz_open", Lent(ms), r, *self.columns)
        self.place = LentRecord(answer.ledger)
        compare("huz_open", (ms, r, "a register"), flat(answer), (0, 0, *ref.record_of(ms, r, [])), *zip(self.columns, self.values))

    def call(self, name, *arguments):
        """the answer, and the function that was called"""
        lent = name in ("take", "spoil") and self.rng.random() < 0.5
        function = CALLS[name] + ("_in" if lent else "")
        answer = called(function, self.place.ledger, *self.columns, *arguments)
        if name != "look" and not lent:
            self.place.write(answer.ledger, self.place.ledger)
        return flat(answer)[:6 if name == "look" else 4], function


def agree(running, paper, name, arguments, given):
    """one call on both, and the whole state afterwards; the answer"""
    expected, before = getattr(paper, name)(*arguments), running.place.raw()
    units = (0, 4, 1)  # a bundle's serial, orders and item lines
    lent = [lend(running.rng, a, units[at]) if isinstance(a, list) else a for at, a in enumerate(arguments)]
    got, function = running.call(name, *lent)
    state = ref.record_of(paper.ms, paper.r, paper.lines)
    compare(function, (*given, len(paper.lines), arguments), (*got, *flat(running.place.ledger)), (*expected, *state),
            *zip(running.columns, paper.over(*running.values)), (running.place, before if expected[0] or name == "look" else None),
            *((part, values) for part, values in zip(lent, arguments) if isinstance(values, list)))
    return expected


def club(rng, paper):
    """the orders and item lines of a bundle: mostly new ones, and mostly some that are left, all of them, or one too many"""
    left = paper.n - len(paper.lines)
    size = rng.choice((1, 2, 3, rng.randint(1, 40), left, left + 1) if left <= 40 else (1, 2, 3, rng.randint(1, 40), 40))
    lines = inputs.new_lines(rng, rng.choice((size,) * 9 + (0, 41)), paper.lines)
    if lines and rng.random() < 0.3:
        at = rng.randrange(len(lines))
        lines[at] = rng.choice(((0, 1), (lines[at][0], inputs.any_item(rng)), lines[0], (mistyped.slip(rng, lines[at][0]), 1), *paper.lines[-2:]))
    return inputs.uneven(rng, *inputs.apart(lines), 0.05)


def basket(rng, paper):
    """an order number and an item line: new ones, any, the next copy on the order that stands last, or that order mistyped"""
    order, item = paper.lines[-1] if paper.lines else (1007, 0)
    return rng.choice(((inputs.new_order(rng), 1), (rng.choice((0, *inputs.FEW)), inputs.any_item(rng)), (order, item), (order or 1007, item + 1),
                       (1007, rng.randint(1, 99)), (mistyped.slip(rng, order or 1007), rng.choice((1, 1, item)))))


met = Counter()  # in interleavings: what came of a take on an order that stands, or on such a one mistyped


MET = "accepted with another item line", "refused 20", "refused 26 with a digit mistyped", "refused 26 with neighbours exchanged", \
    "accepted with neighbours exchanged"


def on_an_order_that_stands(before, order, item, answer):
    """counts what came of a take on an order that stands, or on one that is mistyped"""
    standing = {o for o, _ in before if o}
    if order in standing and answer[0] in (0, 20):
        met["accepted with another item line" if answer[0] == 0 else "refused 20"] += 1
    elif answer[0] == 26 and standing & {*mistyped.digit_changed(order)}:
        met["refused 26 with a digit mistyped"] += 1
    elif answer[0] in (0, 26) and standing & {number for _, number in mistyped.neighbours_exchanged(order)}:
        met["accepted with neighbours exchanged" if answer[0] == 0 else "refused 26 with neighbours exchanged"] += 1


def singles(name, arguments, answer):
    """an accepted call as what it is counted as: a bundle as its takes, the first with its answer, the others with any that is accepted"""
    if name != "bundle":
        return [(name, arguments, answer)]
    serial, *lines = arguments
    return [("take", (at, *line), answer if at == serial else None) for at, line in enumerate(zip(*lines), serial)]


def interleaving(rng):
    """several workers on one register, each with the serial that it saw last, in either form; then the accepted calls alone, for a bundle its takes,
    a look before each"""
    ms, r = inputs.sound(rng, small=True)
    n = ref.number(ms, r)
    values = [rng.getrandbits(32) if rng.random() < 0.7 else rng.randint(0, 30) for _ in range(n + rng.randint(0, 3))]
    items = [rng.choice((0, 1, 2, rng.randrange(256))) for _ in range(n + rng.randint(0, 3))]
    running, paper = Running(rng, ms, r, values, items), ref.Paper(ms, r)
    workers = [rng.randint(0, 2) for _ in range(rng.randint(2, 5))]
    done = []
    for turn in range(min(3 * n + 20, 400)):
        worker = rng.randrange(len(workers))
        act = rng.random()
        serial = rng.choice((workers[worker], workers[worker], paper.next(), paper.next(), inputs.any_serial(rng, n)))
        if act < 0.3:
            name, arguments = "look", ()
        elif act < 0.7:
            name, arguments = "take", (serial, *basket(rng, paper))
        elif act < 0.85:
            name, arguments = "bundle", (serial, *club(rng, paper))
        else:
            name, arguments = "spoil", (serial,)
        before = len(paper.lines)
        answer = agree(running, paper, name, arguments, (ms, r, turn))
        if name == "look":
            workers[worker] = answer[2]
        elif answer[0] == 0:
            done += singles(name, arguments, answer)
        if name == "bundle":
            bundles.watched(paper, before, *arguments, answer)
        elif name == "take":
            on_an_order_that_stands(paper.lines[:before], *arguments[1:], answer)
    again = Running(rng, ms, r, values, items)
    for name, arguments, answer in done:
        compare("second list", (ms, r), again.call("look")[0][2], arguments[0])
        got, expected = again.call(name, *arguments)[0], answer or (0, 0, arguments[0], ref.cells(ref.mix_at(ms, r, arguments[0])))
        compare("second list", (ms, r), got, expected)
    compare("second list", (ms, r), flat(again.place.ledger), flat(running.place.ledger), *zip(again.columns, paper.over(values, items)),
            (again.place, None))


def large_register(rng):
    """registers near the largest; one line in a thousand has an order number from before the check, which fails it"""
    sold = [(order, 1 + order % 3) for order in mistyped.row(1, ref.MOST_LINES)]
    sold[500::1000] = [(order + 1, item) for order, item in sold[500::1000]]
    new, twice, other = ((mistyped.completed(tens), item) for tens, item in ((6_000_000, 1), (5_000_000, 99), (5_000_000, 98)))
    for ms, r in ((5, 4, 11, 6, 13, 2, 20, 18), 29), ((11, 11, 12, 3, 17, 2, 8, 7), 29):  # N is 1,000,000, and one more
        n = ref.number(ms, r)
        opening(rng, ms, r, n, n)
        opening(rng, ms, r, n - 1, n)
        opening(rng, ms, r, n, n - 1)
        if n > ref.MOST_LINES:
            record = (len(ms), ref.cells(ms), r, 0, 0, 0, ref.cells(ref.mix_at(ms, r, 1)))
            on_record(rng, record, [0] * n, [0] * n, "look")
            continue
        for written in n, n - 1, n // 2:
            lines = sold[:written]
            lines[written // 3] = ref.SPOILT
            lines[written // 2] = lines[written // 2 + 1] = twice
            record, (column, items) = ref.record_of(ms, r, lines), inputs.apart(lines + [new] * (n - written))
            for line in new, twice, other, lines[-1], lines[500]:
                on_record(rng, record, column, items, "take", written + 1, *line)
            on_record(rng, record, column, items, "spoil", written // 2 + 1)
            on_record(rng, record, column, items, "look")
            for at, item in (written // 3, 1), (written - 1, 100), (written - 2, 0):  # a line with a wrong item line, far from the others
                on_record(rng, record, column, put(items, at, item), "look")
            lines_so_far(rng, record, column, items)
        bundles.in_large_register(rng, ms, r, n, sold)


# ---- all of it

def edges(rng):
    """every edition at an end of a range, with serials, mixes and lengths at theirs"""
    for ms, r in inputs.EDGES + inputs.LIMITS:
        check(rng, ms, r)
        n = ref.number(ms, r) if inputs.accepted(ms, r) else 5
        for serial in 0, 1, n, n + 1, ref.LIMIT, ref.LIMIT + 1, inputs.LARGEST:
            for length in {len(ms), len(ms) + 1, max(0, len(ms) - 1), 0}:
                unrank(rng, ms, r, serial, length)
            for copies in {0, 1, max(0, n - serial + 1), max(0, n - serial + 2), inputs.LARGEST}:
                batch(rng, ms, r, serial, copies, min(copies * len(ms), 600))
        for _ in range(4):
            mix = inputs.any_mix(rng, ms, r)
            rank(rng, ms, r, mix)
            step(rng, ms, r, mix)
        for size, items_size in (min(n, 1000), min(n, 1000)), (min(n, 1000), max(0, min(n, 1000) - 1)), (max(0, min(n, 1000) - 1), min(n, 1000)):
            opening(rng, ms, r, size, items_size)
        for copies in 1 << 60, 1 << 61, 1 << 62:  # their bytes are few in 64 bits only
            for more in 0, 1, 3:
                batch(rng, ms, r, 1, copies + more, (copies + more) * len(ms) % (1 << 64) % 600)
        conversions.at_an_edge(rng, ms, r)
        walks.at_an_edge(rng, ms, r)


def whole_edition(rng):
    """every serial of a small edition, there and back"""
    ms, r = inputs.sound(rng, small=True)
    n = ref.number(ms, r)
    if n > 150:
        return
    batch(rng, ms, r, 1, n, n * len(ms))
    for serial, mix in enumerate(ref.listing(ms, r), 1):
        unrank(rng, ms, r, serial, len(ms))
        rank(rng, ms, r, bytes(mix))
        step(rng, ms, r, bytes(mix))


def full_tray(rng):
    """some copies of an accepted edition, or all from a serial on"""
    ms, r = inputs.sound(rng)
    n = ref.number(ms, r)
    serial = rng.choice((1, rng.randint(1, n), rng.randint(1, n), max(1, n - 20)))
    copies = min(n - serial + 1, rng.randint(1, 60))
    batch(rng, ms, r, serial, copies, copies * len(ms))


def long_trays(rng):
    """trays that are written by blocks, from 20,000 copies on, and some that are not quite so long; one in five is refused"""
    for ms, r in inputs.LONG + [inputs.many(rng) for _ in range(30)]:
        n = ref.number(ms, r)
        copies = min(n, rng.choice((19_999, 20_000, 20_001, rng.randint(20_000, 40_000))))
        serial = rng.choice((1, rng.randint(1, n - copies + 1), rng.randint(1, n - copies + 1), n - copies + 1))
        batch(rng, ms, r, serial, copies, copies * len(ms))
        if rng.random() < 0.25:
            batch(rng, ms, r, *rng.choice(((serial, copies, copies * len(ms) - 1), (n - copies + 2, copies, copies * len(ms)), (0, copies, 0))))


def round_of(rng):
    for _ in range(40):
        ms, r = inputs.any_edition(rng)
        check(rng, ms, r)
        n = ref.number(ms, r) if inputs.accepted(ms, r) else 9
        unrank(rng, ms, r, inputs.any_serial(rng, n), inputs.any_length(rng, len(ms)))
        mix = inputs.any_mix(rng, ms, r)
        rank(rng, ms, r, mix)
        step(rng, ms, r, mix)
        batch(rng, *inputs.tray(rng))
        walks.any_listing(rng)
        conversions.any_conversion(rng)
        opening(rng, *inputs.opening(rng))
    for _ in range(40):
        any_call(rng)
        bundles.any_bundle(rng)
    for _ in range(5):
        full_tray(rng)
    whole_edition(rng)
    interleaving(rng)


KINDS, WORDS = {False: ref.ANSWERS, True: ref.WITHDRAWN}, {False: " with all kinds", True: " with a kind withdrawn"}


def missing():
    """what keeps the test from passing though nothing differs: an answer that has not come up, or one that the header does not name"""
    for where, answers in KINDS.items():
        for name, numbers in answers.items():
            yield from (f"{name} has not answered {number}{WORDS[where]}" for number in numbers if not came_up[name, number, where])
    yield from (f"{name} is not expected to answer {number}{WORDS[where]}" for name, number, where in came_up if number not in KINDS[where][name])
    yield from (f"no take on an order that stands, or on such a one mistyped, among workers: {what}" for what in MET if not met[what])
    yield from mistyped.missing()
    yield from conversions.missing()
    yield from bundles.missing()
    yield from walks.missing()


def report(rounds):
    print(f"{rounds} rounds;", ", ".join(f"{name} {count}" for name, count in sorted(cases.items())))
    for name in ref.ANSWERS:
        for where, answers in KINDS.items():
            print(f"{name}{WORDS[where]}: answered", ", ".join(f"{number} {came_up[name, number, where]} times" for number in answers[name]))
    conversions.report()
    bundles.report()
    mistyped.report()
    walks.report()
    print("takes on an order that stands, or on such a one mistyped, among workers:", ", ".join(f"{what} {met[what]} times" for what in MET))


def main():
    parser = argparse.ArgumentParser(description=__doc__, formatter_class=argparse.RawDescriptionHelpFormatter)
    parser.add_argument("--rounds", type=int, default=300)
    parser.add_argument("--seed", type=int, default=1)
    parser.add_argument("--seconds", type=float, default=60)
    options = parser.parse_args()
    start, rng = time.monotonic(), random.Random(options.seed)
    documents.compared()
    edges(rng)
    conversions.every_order(rng)
    conversions.every_edition()
    bundles.edges(rng)
    bundles.every_place(rng)
    bundles.same_slots(rng)
    each_line(rng)
    places(rng)
    large_register(rng)
    long_trays(rng)
    walks.compared(rng)
    rounds = 0
    while rounds < options.rounds and len(differences) <= 50:
        if rounds >= FLOOR and time.monotonic() - start > options.seconds:
            break
        round_of(rng)
        rounds += 1
    if not differences:
        differences.extend(missing())
        if rounds < FLOOR:
            differences.append(f"{rounds} rounds, expected {FLOOR} or more")
    report(rounds)
    print("\n".join(d[:600] for d in differences[:10]), end="\n" if differences else "")
    print(f"differential: {sum(cases.values())} cases, {len(differences)} differences")
    return 1 if differences else 0


if __name__ == "__main__":
    sys.exit(main())

"""Inputs for the tests: editions, mixes, serials, lengths and records, good ones, damaged ones and those at the ends of a range."""
import reference as ref
import sheets
from mistyped import FEW, MOST, failing, mistyped, near, new_order, passes, slip

LARGEST = (1 << 64) - 1


def stairs(n):
    return tuple(range(n, 0, -1))


def limits():
    """editions on both sides of number 5's limit"""
    found = []
    even = [(m,) * n for n in (16, 20, 24) for m in (3, 6, 10, 20, 60)] + [(0, 0) + (m,) * 20 + (0, 0) for m in (6, 20, 60)]
    for ms in even + [stairs(n) for n in range(20, 25)] + [(0, *stairs(22)[:9], 0, *stairs(22)[9:])]:
        over = [r for r in range(min(255, sum(ms)) + 1) if ref.number(ms, r) > ref.LIMIT]
        if over:
            found += [(ms, r) for r in (over[0] - 1, over[0], over[-1], over[-1] + 1) if r <= min(255, sum(ms))]
    return found


LIMITS = limits()
# editions that the documents name, and those at the ends of each range
NAMED = [
    ((10,) * 24, 239), (stairs(11), 33), ((5,), 5), ((5,), 6), ((2, 2), 0), ((2, 2), 4), ((2, 2), 5), ((), 0), ((1,) * 25, 3), ((0,), 0),
    ((3, 0, 61), 1), ((60,), 60), ((61,), 1), ((255,), 1), ((2, 2), 255), ((60,) * 5, 255), ((60,) * 5, 256), ((2, 2), 256), ((2, 2), LARGEST >> 32),
    ((1, 0, 61), 256), ((255,) * 25, LARGEST >> 32), ((60,) * 24, 255), ((6,) * 24, 72), ((12,) * 24, 255),
    ((2, 0, 2, 2), 3), ((0, 0), 0), ((0, 0), 1), ((0, 61), 1), ((1,) * 24 + (0,), 3), ((0,) * 24, 0), ((0,) * 25, 0), ((2, 1, 0), 1), ((2, 0, 1), 1),
]
# kinds withdrawn, in front, behind, in runs, all but two or one, all: with the totals 0, the sum, one more, and one between
GAPS = [
    (0, 2, 1), (0, 0, 0, 3, 2, 4), (3, 2, 4, 0, 0), (1, 0, 0, 0, 2, 0, 0, 3), (0, 4, 0, 0, 60, 3, 0), (2,) + (0,) * 22 + (3,), (0,) * 22 + (60, 60),
    (5, 3) + (0,) * 22, (0,) * 23 + (60,), (7,) + (0,) * 23, (0,) * 11 + (4,) + (0,) * 12, (0,) * 4 + (6,) * 20, (60,) * 23 + (0,), (0,) * 24,
]
WITHDRAWN = [(ms, r) for ms in GAPS for r in sorted({0, min(sum(ms), 6) // 2, min(sum(ms), 255), sum(ms) + 1})]
EDGES = NAMED + WITHDRAWN + [
    ((), LARGEST >> 32), ((60,) * 4, 240), ((60,) * 4, 241), ((2, 2), 257), ((60,) * 5, 4), ((60,) * 24, 2), ((1,) * 24, 12), ((1,) * 24, 24),
    ((1,), 0), ((1,), 1), ((60,) * 24, 0), ((60,) * 24, 1), ((1,) * 100, 5), ((60,) * 23 + (61,), 3), ((0,) * 23 + (61,), 0), ((0,), 256),
    (stairs(24), 57), (stairs(24), 58), (stairs(24), 242), (stairs(24), 243), (stairs(24), 255), ((0,) * 4 + (6,) * 20, 60), ((0,) * 25, 3),
]


# editions of 20,000 mixes and more: many kinds and few, with small ceilings and large, with withdrawn kinds of which none, some or all the first are
LONG = [
    ((6,) * 24, 72), (stairs(11), 33), ((5,) * 20, 50), ((0,) * 4 + (5,) * 20, 50), ((0,) * 4 + stairs(11), 33), ((11, 0) + stairs(11)[1:], 33),
    ((60,) * 6, 180), ((60,) * 4, 120), ((60, 1) * 6, 90), ((1,) * 24, 12), ((2,) * 24, 24), ((0,) * 14 + (6,) * 10, 30), ((0,) * 16 + (9,) * 8, 36),
    ((0,) * 20 + (60,) * 4, 100), ((9, 0, 0, 0) * 6, 27), ((1,) * 8 + (60,) * 8, 12), ((60,) * 24, 5), ((60,) * 8 + (1,) * 8, 250),
]


def withdraw(rng, ms):
    """the first kinds withdrawn, the last ones, a run, some here and there, all but two, all but one, or all"""
    n = len(ms)
    a, b = sorted((rng.randint(0, n), rng.randint(0, n)))
    run, some, two = [*range(a), *range(b, n)], [k for k in range(n) if rng.random() < 0.7], rng.sample(range(n), min(n, 2))
    kept = rng.choice((range(a, n), range(a, n), range(b), run, run, some, some, some, two, two, two[:1], ()))
    return tuple(m if k in kept else 0 for k, m in enumerate(ms))


def many(rng):
    """an accepted edition of 20,000 mixes or more"""
    while True:
        ms, r = sound(rng)
        if ref.number(ms, r) >= 20_000:
            return ms, r


def sound(rng, small=False):
    """an accepted edition"""
    while True:
        n = rng.choice((1, 2, 3, 4, 5, 6, rng.randint(1, 24), 24))
        top = rng.choice((1, 2, 3, 6, 60) if not small else (1, 2, 3, 4))
        shape = rng.random()
        if shape < 0.15:
            ms = (top,) * n
        elif shape < 0.3:
            ms = stairs(n)
        elif shape < 0.4:
            ms = stairs(n)[::-1]
        else:
            ms = tuple(rng.randint(1, top) for _ in range(n))
        if rng.random() < 0.5:
            ms = withdraw(rng, ms)
        most = min(255, sum(ms))
        r = rng.choice((rng.randint(0, most), rng.randint(0, most), rng.randint(0, min(most, 8)), most - rng.randint(0, min(most, 4)), most // 2))
        if ref.number(ms, r) <= (2000 if small else ref.LIMIT):
            return ms, r


def any_edition(rng):
    """an edition that may be refused"""
    kind = rng.random()
    if kind < 0.2:
        return rng.choice(EDGES)
    if kind < 0.3:
        return rng.choice(LIMITS)
    ms, r = sound(rng)
    if kind < 0.75:
        return ms, r
    ms = list(ms)
    if kind < 0.85:
        for _ in range(rng.randint(1, 3)):
            ms[rng.randrange(len(ms))] = rng.choice((0, 60, 61, 62, 127, 128, 255))
    elif kind < 0.9:
        ms = ms * rng.randint(2, 9) if rng.random() < 0.5 else (ms * 25)[:rng.choice((0, 24, 25, 26))]
    return tuple(ms), rng.choice((0, sum(ms), sum(ms) + 1, 254, 255, 256, 257, 511, 512, 65535, 65536, (1 << 31), (1 << 32) - 1, r, r + 256))


def accepted(ms, r):
    return ref.edition(ms, r) == (0, 0)


def any_serial(rng, n):
    return rng.choice((0, 1, 2, n, n - 1 if n else 0, n + 1, (1 << 63) - 1, 1 << 63, LARGEST, LARGEST - 1, (1 << 32) + 1, rng.randint(1, max(1, n)),
                       rng.randint(1, max(1, n)), rng.randint(1, max(1, n)), rng.getrandbits(64)) + (rng.randint(1, max(1, n)),) * 9)


def any_mix(rng, ms, r):
    """mostly a mix of the edition; else one damaged in some way"""
    if not accepted(ms, r):
        return bytes(rng.randint(0, 3) for _ in range(len(ms)))
    n = ref.number(ms, r)
    mix = list(ref.mix_at(ms, r, rng.choice((1, n, rng.randint(1, n), rng.randint(1, n)))))
    damage = rng.random()
    at, other = rng.randrange(len(ms)), rng.randrange(len(ms))
    if damage < 0.6:
        pass
    elif damage < 0.7:
        mix[at] = rng.choice((0, ms[at], ms[at] + 1, 255, mix[at] ^ 1))
    elif damage < 0.75:  # the sum stays, a count passes its ceiling
        moved = min(mix[other], 255 - mix[at])
        mix[other] -= moved
        mix[at] += moved
    elif damage < 0.8:
        mix[at] = mix[at] + 1 if mix[at] < 255 else 0
    elif damage < 0.82:  # a sum that is the total only in 8 bits
        mix[at], mix[other] = (mix[at] + 128) % 256, (mix[other] + 128) % 256
    elif damage < 0.87:  # the same under the ceilings, where they allow it
        more = 256
        for i, m in enumerate(ms):
            added = min(more, m - mix[i])
            mix[i] += added
            more -= added
    elif damage < 0.9:
        mix = mix[:rng.randint(0, len(mix))]
    elif damage < 0.95:
        mix = mix + [0] * rng.choice((1, 2, 30, 256))
    else:
        mix = [rng.choice((0, 60, 255, rng.randrange(256))) for _ in mix]
    return bytes(mix)


def any_length(rng, wanted):
    return rng.choice((wanted,) * 9 + (max(0, wanted - 1), wanted + 1, 0, 1, 24, 25, 2 * wanted))


def any_item(rng):
    """an item line: mostly a low one, at times any of 1 to 99, or one next to these"""
    return rng.choice((1, 1, 1, 2, 2, 3, rng.randint(1, 99), rng.randint(1, 99), 99, rng.choice((0, 100, 128, 255))))


def any_order(rng, order):
    """an order number: mostly one that passes, at times one at an end of the range, or this one mistyped"""
    return rng.choice((0, rng.choice((1, MOST)), 1007, new_order(rng), new_order(rng), rng.choice(FEW), slip(rng, order), mistyped(rng, order)))


def any_line(rng, lines):
    """an order number and an item line: any, those of a line, or one of the two that of a line"""
    written = [line for line in lines if line[0]] or [(1014, 1)]
    order, item = rng.choice((written[0], written[-1], rng.choice(written), rng.choice(written)))
    other = any_order(rng, order)
    return rng.choice(((order, item), (order, item), (order, any_item(rng)), (other, item), (other, any_item(rng)), (new_order(rng), any_item(rng))))


# what makes a mix a sheet order: by inversions, and by major index
WAYS = sheets.order_of_mix, sheets.order_of_code


def any_sheet_order(rng, ms, r, order_of=sheets.order_of_mix):
    """mostly an order of the edition, by one of the WAYS; else one damaged in some way"""
    k, sound = len(ms) + 1, accepted(ms, r) and ref.puzzle(ms) == (0, 0)
    if sound:
        p = order_of(ref.mix_at(ms, r, rng.randint(1, ref.number(ms, r))))
    else:
        p = rng.sample(range(1, k + 1), k)
    damage, rest = rng.random(), sum(ms) - r - 256
    at, other = rng.randrange(k), rng.randrange(k)
    if damage < 0.2:
        p[at], p[other] = p[other], p[at]
    elif damage < 0.35:
        p[at] = rng.choice((0, k, k + 1, 255, p[other]))
    elif damage < 0.45:
        p = p[:rng.randint(0, k)]
    elif damage < 0.5:
        p = p + [rng.choice((0, k + 1, p[at]))] * rng.choice((1, 300))
    elif damage < 0.6 and sound and rest >= 0:  # what is to be the total is so only in 8 bits
        p = order_of([m - g for m, g in zip(ms, ref.mix_at(ms, rest, rng.randint(1, ref.number(ms, rest))))])
    return bytes(p)


def tray(rng):
    """an edition, a serial, how many copies, and the bytes of a part lent for them"""
    ms, r = any_edition(rng)
    n = ref.number(ms, r) if accepted(ms, r) else 0
    serial = any_serial(rng, n)
    rest = max(0, n - serial + 1)
    kinds = len(ms)
    copies = rng.choice((0, 1, 2, min(rest, 40), min(rest, 40), rest, rest + 1, rng.getrandbits(64), LARGEST, n))
    if rng.random() < 0.2 and kinds:  # copies whose bytes are few in 64 bits only
        copies = -(-(rng.randint(1, kinds) << 64) // kinds)
    wanted = copies * kinds
    length = wanted if wanted <= 4096 else wanted % (1 << 64)
    return ms, r, serial, copies & LARGEST, min(any_length(rng, length), 4096)


def puzzle(rng):
    """mostly an edition of a puzzle"""
    if rng.random() < 0.25:
        return any_edition(rng)
    n = rng.choice((1, 2, 3, 4, 5, 24, rng.randint(1, 24)))
    ms = list(stairs(n))
    r = rng.choice((rng.randint(0, min(255, sum(ms))), rng.randint(0, min(57, sum(ms)))))
    change = rng.random()
    if change < 0.1:
        ms[rng.randrange(n)] = rng.randint(0, 60)
    elif change < 0.2 and n < 24:  # the kinds that are left are a puzzle's
        ms.insert(rng.randint(0, n), 0)
    return tuple(ms), r


def opening(rng, most=5000):
    """an edition, and the entries of an order column and an item column for it"""
    ms, r = any_edition(rng) if rng.random() < 0.5 else sound(rng, small=True)
    n = min(ref.number(ms, r), most) if accepted(ms, r) else 3
    sizes = n, n, n + 1, n + 9, max(0, n - 1), 0
    return ms, r, rng.choice(sizes), rng.choice(sizes)


def register(rng):
    """a small edition, lines with spoilt ones, repetitions and order numbers from before the check, which fail it, and columns with garbage after
    them, each as long as it likes"""
    ms, r = sound(rng, small=True)
    n = ref.number(ms, r)
    size = rng.choice((0, n, n - 1, rng.randint(0, n), rng.randint(0, min(n, 9))))
    earlier, order_of = rng.choice((0, 0, 0.2, 1)), (lambda: 0, lambda: rng.choice(FEW), lambda: new_order(rng))
    orders = [failing(rng) if rng.random() < earlier else rng.choice(order_of)() for _ in range(size)]
    lines = [(order, rng.randint(1, rng.choice((3, 3, 99)))) if order else ref.SPOILT for order in orders]
    column, items = [o for o, _ in lines], [i for _, i in lines]
    more = [n - size + rng.choice((0, 0, 1, 7)) for _ in range(2)]
    return (ref.record_of(ms, r, lines),
            column + [rng.choice((0, 1, 1007, rng.getrandbits(32), new_order(rng), *column[:2])) for _ in range(more[0])],
            items + [rng.choice((0, 1, 2, 100, rng.randrange(256), *items[:2])) for _ in range(more[1])])


def damaged(rng, record, column, items):
    """the same with something changed in the record or a column. With another n it may be the record of another edition: a cell past n is 0, and so
    is a withdrawn kind's."""
    n, upper, r, lines, sold, spoilt, mix = record
    upper, mix, column, items = list(upper), list(mix), list(column), list(items)
    near = lambda x: rng.choice((x + 1, x - 1 if x else LARGEST, 0, LARGEST, x + (1 << 32), 1 << 63))
    short = lambda: rng.choice((0, len(column) - 1, len(items) - 1, ref.number(upper[:n], r) - 1, ref.number(upper[:n], r)))
    field = rng.randrange(17)
    if field == 0:
        n = rng.choice((0, n - 1, n + 1, n + 2, rng.randint(n, 24), 24, 25, 26, 1 << 32, LARGEST, n + (1 << 32)))
    elif field == 1:
        at = rng.randrange(n)
        upper[at] = rng.choice((upper[at] + 1, max(upper[at] - 1, 0), 0, 61, 255))
    elif field == 2:
        upper[rng.randrange(n, 24) if n < 24 else 23] = rng.choice((1, 60, 255))
    elif field == 3:
        r = rng.choice((r + 1, r - 1 if r else 255, 0, 255, 256, r + 256, (1 << 32) - 1))
    elif field == 4:
        lines = near(lines)
    elif field == 5:
        sold = near(sold)
    elif field == 6:
        spoilt = near(spoilt)
    elif field == 7:
        sold, spoilt = spoilt, sold
    elif field == 8:
        sold, spoilt = sold + 1, spoilt - 1 if spoilt else LARGEST
    elif field == 9:
        lines, sold = lines + 1, sold + 1
    elif field == 10:
        at = rng.randrange(n)
        mix[at] = rng.choice((mix[at] + 1, mix[at] ^ 1, 255))
    elif field == 11:
        mix[rng.randrange(n, 24) if n < 24 else 0] ^= rng.choice((1, 128))
    elif field == 12:
        column = column[:short()]
    elif field == 13:
        items = items[:short()]
    elif lines:
        damage_line(rng, column, items, rng.randrange(lines))
    return (n, tuple(upper), r, lines, sold, spoilt, tuple(mix)), column, items


def damage_line(rng, column, items, at):
    """an order that is there or not, with its item line or without, or an item line that cannot stand there, at one of the bounds of what can"""
    damage = rng.randrange(4)
    if damage == 0:
        column[at] = 0 if column[at] else 1
    elif damage == 1:
        column[at], items[at] = (0, 0) if column[at] else (1, 1)
    elif damage == 2:
        items[at] = rng.choice((100, 101, 127, 128, 255))
    else:
        items[at] = 0 if column[at] else rng.choice((1, 2, 99))


def lines_of(record, column, items):
    return list(zip(column, items))[:min(record[3], 2000)]


def after_lines(column, items, lines):
    """what stands in the columns directly past the lines"""
    return (column + [31] * 2000)[len(lines)], (items + [1] * 2000)[len(lines)]


def call(rng):
    """a record and columns, sound or damaged, a serial, an order and an item line, which may stand among the lines or past them"""
    record, column, items = register(rng)
    if rng.random() < 0.4:
        record, column, items = damaged(rng, record, column, items)
    lines = lines_of(record, column, items)
    following = len(lines) + 1
    serial = rng.choice((following, following, following, following - 1, 0, following + 1, any_serial(rng, len(column)), rng.randint(1, 9)))
    line = rng.choice((any_line(rng, lines), any_line(rng, lines), any_line(rng, lines), after_lines(column, items, lines)))
    return record, column, items, serial, *line


def new_lines(rng, size, lines=()):
    """lines for a bundle whose numbers pass, that differ and stand not among those lines; some differ in one bit of the number, in the number alone
    or in the item line alone from each other or from a line"""
    taken, found, few = {*lines}, [], [line for line in lines[:9] if line[0] and passes(line[0])][:3]
    while len(found) < size:
        order, item = rng.choice((*found[-3:], *few, (17, 1)))
        new = near(rng, order) if rng.random() < 0.3 else new_order(rng)
        line = rng.choice(((new, 1), (new, rng.randint(1, 99)), (new, item), (new, item), (order, rng.randint(1, 99)), (order, item % 99 + 1)))
        if line not in taken:
            taken.add(line)
            found.append(line)
    return found


def apart(lines):
    """the order numbers and the item lines of lines"""
    return [o for o, _ in lines], [i for _, i in lines]


def bundle(rng):
    """a record and columns, sound or damaged, a first serial and the lines of a bundle, of which up to two have a fault, are mistyped, stand already
    or twice; one bundle in ten has another number of item lines than of orders"""
    record, column, items = register(rng)
    if rng.random() < 0.3:
        record, column, items = damaged(rng, record, column, items)
    lines = lines_of(record, column, items)
    following, left = len(lines) + 1, len(column) - len(lines)
    serial = rng.choice((following,) * 8 + (following - 1, 0, following + 1, any_serial(rng, len(column)), rng.randint(1, 9)))
    size = rng.choice((0, 1, 2, 39, 40, 41, left, left + 1, rng.randint(1, 40), rng.randint(1, 5), rng.randint(41, 300)))
    bundled = new_lines(rng, min(size, 300), lines)
    for _ in range(rng.choice((0, 0, 1, 2)) if bundled else 0):
        at = rng.randrange(len(bundled))
        bundled[at] = rng.choice((any_line(rng, lines), bundled[rng.randint(0, at)], bundled[rng.randint(0, at)], after_lines(column, items, lines),
                                  (bundled[at][0], any_item(rng)), (any_order(rng, bundled[at][0] or 1007), any_item(rng))))
    return record, column, items, serial, *uneven(rng, *apart(bundled), 0.1)


def uneven(rng, orders, items, chance):
    """by chance one item line fewer or more than orders, none, or many more"""
    if rng.random() < chance:
        items = rng.choice((items[:-1], items[1:], items + [1], [], items[:1], items + [1] * 39, items + items))
    return orders, items

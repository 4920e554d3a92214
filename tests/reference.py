"""Document 01, and of document 02 requests (i) to (viii), in plain Python: what every call of the engine has to answer, and what the listing program
has to print. Written from the documents, for comparison only: numbers are unbounded, nothing is fast, and each function follows the documents' own
words. The answer of a call is a tuple that starts with number and detail."""
import re
from functools import lru_cache
from itertools import islice

import sheets

LIMIT = 9_223_372_036_854_775_807
MOST_LINES = 1_000_000
MOST_ORDERS = 40
MOST_ITEM = 99
BLANK = (0,) * 24


def cells(values):
    """24 cells, those past the values 0"""
    return tuple(values) + (0,) * (24 - len(values))


# ---- Editions and their number

@lru_cache(maxsize=65536)
def ways(ms):
    """how many mixes of these ceilings have each sum, from 0 to 255: the product of 1 + x + .. + x^m, a factor for each kind"""
    if not ms:
        return [1]
    shorter, m = ways(ms[:-1]), ms[-1]
    before = [0]
    for w in shorter:
        before.append(before[-1] + w)
    width = len(shorter)
    return [before[min(t + 1, width)] - before[max(0, t - m)] for t in range(min(width + m, 256))]


def number(ms, r):
    """N"""
    row = ways(tuple(ms))
    return row[r] if 0 <= r < len(row) else 0


def edition(ms, r):
    """the first of 1 to 5 that holds, or (0, 0)"""
    if not 1 <= len(ms) <= 24:
        return 1, 0
    for kind, m in enumerate(ms, 1):
        if m > 60:
            return 2, kind
    if r > 255:
        return 3, 0
    if r > sum(ms):
        return 4, 0
    if number(ms, r) > LIMIT:
        return 5, 0
    return 0, 0


def check(ms, r):
    """number, detail, the record's n, cells and r, and N"""
    refusal = edition(ms, r)
    if refusal != (0, 0):
        return (*refusal, 0, BLANK, 0, 0)
    return (*refusal, len(ms), cells(ms), r, number(ms, r))


# ---- Walsh's order

def values(ms, i, r, t):
    """the values of kind i (from 0) in their order, where the kinds after it sum to t"""
    run = range(max(0, r - t - sum(ms[:i])), min(ms[i], r - t) + 1)
    return run if t % 2 == 0 else reversed(run)


def walk(ms, r):
    """every mix by the rule of document 01, from the last kind down; of no kinds, the empty mix"""
    def endings(i, t, ending):
        if i < 0:
            yield ending
            return
        for v in values(ms, i, r, t):
            yield from endings(i - 1, t + v, (v, *ending))
    return endings(len(ms) - 1, 0, ())


# ---- A tile withdrawn (document 02, (ii)): the order is that of the edition without the withdrawn kinds, with zeros put back

def left(ms, of=None):
    """of all kinds' ceilings, or of what else there is for each kind, those of the kinds that are not withdrawn"""
    return tuple(v for v, m in zip(ms if of is None else of, ms) if m)


def put_back(ms, mix):
    counts = iter(mix)
    return tuple(next(counts) if m else 0 for m in ms)


def listing(ms, r):
    """every mix in its order"""
    mixes = walk(left(ms), r)
    return mixes if all(ms) else (put_back(ms, mix) for mix in mixes)


def mix_at(ms, r, serial):
    """the mix of a serial of 1..N: blocks of mixes with the same ending are skipped"""
    kept, skip, t, mix = left(ms), serial - 1, 0, []
    for i in reversed(range(len(kept))):
        for v in values(kept, i, r, t):
            block = number(kept[:i], r - t - v)
            if skip < block:
                break
            skip -= block
        mix.insert(0, v)
        t += v
    return put_back(ms, mix)


def mixes_from(ms, r, serial):
    """the mixes from a serial of 1..N on, in their order: the walk without the blocks before it"""
    kept = left(ms)

    def endings(i, t, ending, skip):
        if i < 0:
            yield ending
            return
        for v in values(kept, i, r, t):
            block = number(kept[:i], r - t - v) if skip else 1
            if skip < block:
                yield from endings(i - 1, t + v, (v, *ending), skip)
            skip = max(0, skip - block)
    mixes = endings(len(kept) - 1, 0, (), serial - 1)
    return mixes if all(ms) else (put_back(ms, mix) for mix in mixes)


def serial_of(ms, r, mix):
    kept, mix, before, t = left(ms), left(ms, mix), 0, 0
    for i in reversed(range(len(kept))):
        for v in values(kept, i, r, t):
            if v == mix[i]:
                break
            before += number(kept[:i], r - t - v)
        t += mix[i]
    return before + 1


# ---- The press card (document 02, (i))

NO_PAIR = 0, 0


def pair(before, after):
    """the kind, from 1, of which the second mix has one more, and the kind of which it has one fewer; 0 where there is none"""
    def kind(change):
        return next((k for k, (a, b) in enumerate(zip(before, after), 1) if b - a == change), 0)
    return kind(1), kind(-1)


def pair_of(ms, r, serial):
    """that of a serial, measured from the copy before"""
    return pair(mix_at(ms, r, serial - 1), mix_at(ms, r, serial)) if serial > 1 else NO_PAIR


# ---- the places of checking that several calls have; each answers (0, 0) or a refusal

def mix_given(ms, r, mix):
    if len(mix) != len(ms):
        return 7, 0
    if any(g > m for g, m in zip(mix, ms)) or sum(mix) != r:
        return 8, 0
    return 0, 0


def serial_given(n, serial):
    return (0, 0) if 1 <= serial <= n else (6, 0)


def lent_part(wanted, length):
    return (0, 0) if wanted == length else (13, 0)


def first(*places):
    """places from top to bottom, each asked only when those before it refuse nothing"""
    for place in places:
        refusal = place()
        if refusal != (0, 0):
            return refusal
    return 0, 0


# ---- Serial and mix, steps, trays: `out` is the lent part as it was, and the last of an answer is the part afterwards

def rank(ms, r, mix):
    refusal = first(lambda: edition(ms, r), lambda: mix_given(ms, r, mix))
    return (*refusal, 0 if refusal[0] else serial_of(ms, r, mix))


def unrank(ms, r, serial, out):
    refusal = first(lambda: edition(ms, r), lambda: serial_given(number(ms, r), serial), lambda: lent_part(len(ms), len(out)))
    return (*refusal, out if refusal[0] else bytes(mix_at(ms, r, serial)))


def step(ms, r, mix, way):
    """way is 1 or -1; the pair goes from the mix given to the one answered"""
    refusal = first(lambda: edition(ms, r), lambda: mix_given(ms, r, mix))
    if refusal[0]:
        return (*refusal, BLANK, *NO_PAIR)
    serial = serial_of(ms, r, mix) + way
    if not 1 <= serial <= number(ms, r):
        return 9, 0, BLANK, *NO_PAIR
    reached = mix_at(ms, r, serial)
    return 0, 0, cells(reached), *pair(mix, reached)


def batch(ms, r, serial, copies, out):
    def serials():
        n = number(ms, r)
        return (6, 0) if not 1 <= serial <= n or copies > n - serial + 1 else (0, 0)
    refusal = first(lambda: edition(ms, r), serials, lambda: lent_part(copies * len(ms), len(out)))
    if refusal[0]:
        return (*refusal, out)
    return 0, 0, b"".join(bytes(mix) for mix in islice(mixes_from(ms, r, serial), copies))


def whole(ms, r, out):
    """document 02, (viii): a tray with the whole edition"""
    refusal = first(lambda: edition(ms, r), lambda: lent_part(number(ms, r) * len(ms), len(out)))
    return (*refusal, out if refusal[0] else b"".join(map(bytes, listing(ms, r))))


# ---- Sheet orders

def puzzle(ms):
    return (0, 0) if list(ms) == list(range(len(ms), 0, -1)) else (10, 0)


def sheet_order_given(ms, r, p, measure, number):
    """number: its measure is not the total"""
    if sorted(p) != list(range(1, len(ms) + 2)):
        return 11, 0
    return (0, 0) if measure(p) == r else (number, 0)


def to_order(order_of, ms, r, mix, out):
    refusal = first(lambda: edition(ms, r), lambda: puzzle(ms), lambda: mix_given(ms, r, mix), lambda: lent_part(len(ms) + 1, len(out)))
    return (*refusal, out if refusal[0] else bytes(order_of(mix)))


def to_mix(mix_of, measure, number, ms, r, p, out):
    refusal = first(lambda: edition(ms, r), lambda: puzzle(ms), lambda: sheet_order_given(ms, r, p, measure, number),
                    lambda: lent_part(len(ms), len(out)))
    return (*refusal, out if refusal[0] else bytes(mix_of(p)))


def permutation(ms, r, mix, out):
    return to_order(sheets.order_of_mix, ms, r, mix, out)


def inversions(ms, r, p, out):
    return to_mix(sheets.mix_of_order, sheets.inversions, 12, ms, r, p, out)


# ---- Puzzle books by major index (document 02, (iii))

def major_permutation(ms, r, mix, out):
    return to_order(sheets.order_of_code, ms, r, mix, out)


def major_code(ms, r, p, out):
    return to_mix(sheets.code_of_order, sheets.major_index, 23, ms, r, p, out)


# ---- The register: a record is (n, 24 ceilings, r, lines, sold, spoilt, 24 cells of the next mix); a line is a pair of order number and item line
# (document 02, (vi)), which stand in two columns

NO_RECORD = (0, BLANK, 0, 0, 0, 0, BLANK)
SPOILT = 0, 0


def record_of(ms, r, lines):
    """the record that belongs to an edition and these lines"""
    sold = sum(1 for order, _ in lines if order)
    mix = mix_at(ms, r, min(len(lines) + 1, number(ms, r)))
    return len(ms), cells(ms), r, len(lines), sold, len(lines) - sold, cells(mix)


def opening(ms, r, size, items_size):
    """of the entries of the two columns only their number is looked at"""
    refusal = first(lambda: edition(ms, r), lambda: (14, 0) if number(ms, r) > MOST_LINES else (0, 0),
                    lambda: (15, 0) if min(size, items_size) < number(ms, r) else (0, 0))
    return (*refusal, NO_RECORD if refusal[0] else record_of(ms, r, []))


def is_unsound(order, item):
    """a line that no register has"""
    return item > MOST_ITEM or item == 0 and order != 0 or item != 0 and order == 0


def is_register(record, column, items):
    """not 16"""
    n, upper, r, lines = record[:4]
    if n > 24:
        return False
    ms = upper[:n]
    if edition(ms, r)[0] or number(ms, r) > MOST_LINES or lines > number(ms, r):
        return False
    if len(column) < number(ms, r) or len(items) < number(ms, r):
        return False
    written = list(zip(column[:lines], items[:lines]))
    return not any(is_unsound(*line) for line in written) and record == record_of(ms, r, written)


def weighted_sum(order):
    """document 02, (vii): the digits, weighted 1, 3, 1, 3 and so on from the right"""
    digits = str(order)[::-1]
    return sum(map(int, digits[::2])) + 3 * sum(map(int, digits[1::2]))


class Paper:
    """the paper register: an edition and a list of pairs of order number and item line"""

    def __init__(self, ms, r, lines=()):
        self.ms, self.r, self.n, self.lines = tuple(ms), r, number(ms, r), list(lines)
        self.lowest = dict(zip(reversed(self.lines), range(len(self.lines), 0, -1)))  # the lowest serial of each pair that stands

    def next(self):
        return len(self.lines) + 1

    def answer(self, serial):
        return 0, 0, serial, cells(mix_at(self.ms, self.r, serial))

    def look(self):
        if self.next() > self.n:
            return 21, 0, 0, BLANK, *NO_PAIR
        return *self.answer(self.next()), *pair_of(self.ms, self.r, self.next())

    def place(self, serial):
        if not 1 <= serial <= self.n:
            return 6, 0
        if serial < self.next():
            return 18, self.lines[serial - 1][0]
        if serial > self.next():
            return 19, self.next()
        return 0, 0

    def write(self, refusal, serial, line):
        if refusal[0]:
            return (*refusal, 0, BLANK)
        self.lines.append(line)
        self.lowest.setdefault(line, serial)
        return self.answer(serial)

    def take(self, serial, order, item):
        refusal = (17, 0) if order == 0 else (26, 0) if weighted_sum(order) % 10 else (25, 0) if not 1 <= item <= MOST_ITEM else self.place(serial)
        if not refusal[0] and (order, item) in self.lowest:
            refusal = 20, self.lowest[order, item]
        return self.write(refusal, serial, (order, item))

    def spoil(self, serial):
        return self.write(self.place(serial), serial, SPOILT)

    def bundle(self, serial, orders, items):
        """document 02, (v): single takes one after another, tried on a copy; the first refusal, or all of them"""
        if not 1 <= len(orders) <= MOST_ORDERS or len(items) != len(orders):
            return 24, 0, 0, BLANK
        copy = Paper(self.ms, self.r, self.lines)
        for at, line in enumerate(zip(orders, items), serial):
            answer = copy.take(at, *line)
            if answer[0]:
                return answer
        self.lines, self.lowest = copy.lines, copy.lowest
        return self.answer(serial)

    def over(self, column, items):
        """the two columns, which had these values, with the lines at their beginning"""
        written = len(self.lines)
        return [o for o, _ in self.lines] + list(column[written:]), [i for _, i in self.lines] + list(items[written:])


def call(record, column, items, name, arguments):
    """look, take, spoil or bundle on any record and columns: the answer, the record and the columns afterwards"""
    if not is_register(record, column, items):
        return (16, 0, 0, BLANK, *(NO_PAIR if name == "look" else ())), record, column, items
    n, upper, r, lines = record[:4]
    paper = Paper(upper[:n], r, zip(column[:lines], items[:lines]))
    answer = getattr(paper, name)(*arguments)
    return answer, record_of(paper.ms, r, paper.lines), *paper.over(column, items)


def entries(record, column, items):
    return record[3] if is_register(record, column, items) else 0


# ---- which numbers a call can answer: 0, and the refusals that include/huztiral.h names for the function, in the order in which they are checked

SHAPE = 0, 1, 2, 3, 4, 5
ANSWERS = {
    "huz_check": SHAPE,
    "huz_rank": (*SHAPE, 7, 8),
    "huz_unrank": (*SHAPE, 6, 13),
    "huz_successor": (*SHAPE, 7, 8, 9),
    "huz_predecessor": (*SHAPE, 7, 8, 9),
    "huz_batch": (*SHAPE, 6, 13),
    "huz_listing": (*SHAPE, 13),
    "huz_permutation": (*SHAPE, 10, 7, 8, 13),
    "huz_inversions": (*SHAPE, 10, 11, 12, 13),
    "huz_major_permutation": (*SHAPE, 10, 7, 8, 13),
    "huz_major_code": (*SHAPE, 10, 11, 23, 13),
    "huz_open": (*SHAPE, 14, 15),
    "huz_peek": (0, 16, 21),
    "huz_claim": (0, 16, 17, 26, 25, 6, 18, 19, 20),
    "huz_void": (0, 16, 6, 18, 19),
    "huz_claim_all": (0, 16, 24, 17, 26, 25, 6, 18, 19, 20),
    "huz_claim_in": (0, 16, 17, 26, 25, 6, 18, 19, 20),
    "huz_void_in": (0, 16, 6, 18, 19),
}
# the same where a kind is withdrawn: that is no puzzle edition, and what is checked after 10 does not come up
WITHDRAWN = {name: numbers[1:numbers.index(10) + 1] if 10 in numbers else numbers for name, numbers in ANSWERS.items()}


# ---- Listing program

NUMBER = rb"(?:0|[1-9][0-9]{0,2})"
SLIP = re.compile(rb"mixes\n(%s(?: %s)*)\n(%s)\n" % (NUMBER, NUMBER, NUMBER))


def slip(text):
    """the ceilings and the total of a slip, or None where it has not the form"""
    form = SLIP.fullmatch(text) if len(text) <= 256 else None
    return form and (tuple(int(m) for m in form[1].split()), int(form[2]))


def printed(text):
    """the number of the slip's refusal, or 0, and all that the program prints"""
    given = slip(text)
    refused = edition(*given)[0] if given else 22
    if not refused and number(*given) > MOST_LINES:
        refused = 14
    if refused:
        return refused, b"refused %d\n" % refused
    return 0, "".join(lines(listing(*given))).encode()


def lines(mixes):
    """a line for each copy: serial, counts, and the pair measured from the copy before"""
    before = None
    for serial, mix in enumerate(mixes, 1):
        gain, loss = pair(before, mix) if before else NO_PAIR
        yield f"{serial} {' '.join(map(str, mix))} +{gain} -{loss}\n"
        before = mix

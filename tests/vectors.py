#!/usr/bin/env python3
"""The commands and the expected answers of crates/vectors.

    tests/vectors.py [--count COUNT] [--seed SEED]     draws the commands and writes crates/vectors/stdin and stdout
    tests/vectors.py --check                           only compares stdout with the answers to the commands in stdin

A command is a letter and numbers, a list its length and its entries; crates/vectors/src/main.rt says which letter is which call. The answers are
those of tests/reference.py to the text of the commands, and no program of the engine is asked. A lent part is filled before each call, so that one
left as it was shows.
"""
import argparse
import os
import random
import sys
from collections import Counter

import inputs
import interleave
import reference as ref
import sheets

CRATE = os.path.join(os.path.dirname(os.path.abspath(__file__)), "..", "crates", "vectors")
FILL = 170  # of the lent part of an unrank, a batch, or a sheet order or its mix
ROOM = 7  # of the buffer for the answers to a list of calls
PIECE = 65_536  # no command may stand in two pieces of this size
LONGEST, WIDEST, ENTRIES = 1000, 64, 2048  # of a lent part, of a list of bytes, and of a column, a pool or the calls of a list

# editions' records that nobody has checked: the number of parts, the first cells (the others are 0) and the total. More than 24 parts have no cells.
RECORDS = [
    (3, [2, 2, 2], 3), (2, [2, 2, 2], 3), (2, [2, 2, 61], 3), (3, [2, 2, 61], 3), (4, [2, 2, 2], 3), (0, [2, 2, 2], 0), (24, [1] * 24, 12),
    (24, [10] * 24, 239), (24, [60] * 24, 255), (25, [1] * 24, 12), (25, [], 256), (256, [1] * 24, 12), (18446744073709551615, [1] * 24, 12),
    (24, [2, 2, 2], 3), (25, [2, 2, 2], 3), (4, [2, 0, 2, 2], 3), (3, [2, 0, 2, 2], 3), (5, [0, 0, 2, 1, 61], 3), (24, [], 0), (24, [], 1),
]

# editions with 1,000,000 mixes, one more, and those next to the limit of number 5
NEXT_TO_A_LIMIT = [
    ((49, 56, 54, 54, 22), 73), ((38, 28, 49, 59, 21), 89),
    ((23, 4, 7, 8, 30, 30, 31, 35, 40, 43, 44, 44, 46, 48, 48, 55, 55, 55, 55, 55, 58, 57), 60),
    ((23, 4, 7, 8, 30, 30, 31, 35, 40, 43, 44, 44, 46, 48, 48, 55, 55, 55, 55, 55, 58, 58), 60),
    ((46, 40, 3, 21, 31, 60, 4, 57, 10, 2, 45, 13, 14, 3, 56, 43, 33), 148), ((43, 52, 31, 18, 41, 48, 59, 39, 37, 57, 47, 24, 60, 10, 16), 140),
]

# Table 1 of source document 000: the compositions of 5 under 4 3 2 1, each with its permutation
TABLE_1 = (
    "4100 52134 3200 43125 2300 35124 1310 25314 2210 34215 3110 42315 "
    "4010 51324 3020 41523 2120 32514 1220 24513 0320 15423 0221 14532 "
    "1121 23541 2021 31542 3011 41352 2111 32451 1211 24351 0311 15342 "
    "1301 25143 2201 34152 3101 42153 4001 51243"
).split()
GAP = 0, 4, 3, 0, 0, 2, 1


# ---- commands: a letter, then numbers and lists

def command(letter, *fields):
    words = [letter]
    for field in fields:
        words += map(str, (len(field), *field) if isinstance(field, (tuple, list, bytes)) else (field,))
    return " ".join(words)


def fixed():
    for ms, r in inputs.NAMED + NEXT_TO_A_LIMIT:
        yield command("c", ms, r)
    for n, m, r in RECORDS:
        yield command("e", n, m + [0] * (24 - len(m)), r)
    for g, p in zip(TABLE_1[::2], TABLE_1[1::2]):
        yield command("o", (4, 3, 2, 1), 5, bytes(map(int, g)), 5)
        yield command("i", (4, 3, 2, 1), 5, bytes(map(int, p)), 4)
        # the same with kinds withdrawn
        yield from (command(letter, GAP, 5, ref.put_back(GAP, map(int, g))) for letter in "rsp")
    for ms, r in (GAP, 5), *inputs.WITHDRAWN:
        copies = min(ref.number(ms, r), 22)
        if inputs.accepted(ms, r):
            yield command("b", ms, r, 1, copies, copies * len(ms))
    yield from by_major_index()
    yield from without_a_line()
    yield from before_the_check()


def by_major_index():
    """the pairs of request (iii), of source document 003's example and table, and those of two sheets; total 0 and the largest"""
    pairs = ["10", "312", "01", "213", "34221", "521643", "0", "12", "1", "21", *sheets.TABLE_1]
    both = [([int(g) for g in mix], [int(p) for p in order]) for mix, order in zip(pairs[::2], pairs[1::2])]
    both += [((0,) * (k - 1), range(1, k + 1)) for k in (3, 13, 25)] + [(inputs.stairs(k - 1), range(k, 0, -1)) for k in (3, 13, 23)]
    for mix, order in both:
        ms, r = inputs.stairs(len(mix)), sum(mix)
        yield command("m", ms, r, bytes(mix), len(order))
        yield command("d", ms, r, bytes(order), len(mix))


def without_a_line():
    """calls that are handed no order or no item line: a take has 0 for it, a bundle is 24, and the others do not look"""
    record = ref.record_of((1, 1, 1), 1, [(1007, 1)])
    for which in range(len(interleave.WORDS)):
        for orders, items in ([], []), ([1007], []), ([], [1]), ([1007], [2]), ([1007, 1014], [2]), ([1014], [1, 2]):
            yield command("k", *record, [1007, 5, 5], [1, 9, 9, 9], which, 2, orders, items)


def before_the_check():
    """calls on a record whose line has an order number that fails, written before there was 26: 18 and 26 before 20 of it, and nobody else looks"""
    record = ref.record_of((1, 1, 1), 1, [(1008, 1)])
    given = {interleave.PEEK: [(0, 1008, 1)], interleave.VOID: [(serial, 1008, 1) for serial in (0, 1, 2, 3)]}
    takes = [(serial, order, item) for serial in (0, 1, 2, 3) for order in (0, 1007, 1008) for item in (0, 1)]
    for which in range(len(interleave.WORDS)):
        for serial, order, item in given.get(which, takes):
            yield command("k", *record, [1008, 5, 5], [1, 9, 9], which, serial, [order], [item])


class Draw:
    """a command of each kind at random, as its letter and its fields"""

    def __init__(self, rng):
        self.rng = rng

    def bounded(self):
        while True:
            ms, r = inputs.any_edition(self.rng)
            if len(ms) <= WIDEST:
                return ms, r

    def count(self):
        return "c", *self.bounded()

    def given(self, letter):
        ms, r = self.bounded()
        return letter, ms, r, inputs.any_mix(self.rng, ms, r)

    def unrank(self):
        ms, r = self.bounded()
        serial = inputs.any_serial(self.rng, ref.number(ms, r) if inputs.accepted(ms, r) else 9)
        return "u", ms, r, serial, inputs.any_length(self.rng, len(ms))

    def batch(self):
        return "b", *inputs.tray(self.rng)

    def to_order(self, letter):
        ms, r = inputs.puzzle(self.rng)
        return letter, ms, r, inputs.any_mix(self.rng, ms, r), inputs.any_length(self.rng, len(ms) + 1)

    def to_mix(self, letter, order_of=inputs.WAYS[0]):
        ms, r = inputs.puzzle(self.rng)
        return letter, ms, r, inputs.any_sheet_order(self.rng, ms, r, order_of), inputs.any_length(self.rng, len(ms))

    def table(self):
        k = self.rng.randint(0, 17)
        return "t", k, self.rng.randint(0, k * (k - 1) // 2 + 1)

    def opening(self):
        return "n", *inputs.opening(self.rng, ENTRIES)

    def call(self, which):
        """a call other than a bundle names its order and its item line as lists of one; what a look and a void name is not looked at"""
        record, column, items, serial, *named = inputs.bundle(self.rng) if which == interleave.BUNDLE else inputs.call(self.rng)
        n, upper, r, lines, sold, voided, mix = record
        named = [v if isinstance(v, list) else [v] for v in named]
        return "k", n, upper, r, lines, sold, voided, mix, column, items, which, serial, *named

    def kinds(self):
        yield self.count
        yield from (lambda letter=letter: self.given(letter) for letter in "rsp")
        yield from (self.unrank, self.batch, lambda: self.to_order("o"), lambda: self.to_mix("i"))
        yield from (self.table, self.opening, lambda: self.to_order("m"), lambda: self.to_mix("d", self.rng.choice(inputs.WAYS)))
        yield from (lambda which=which: self.call(which) for which in range(len(interleave.WORDS)))


def drawn(rng, count):
    """so many commands of each kind, and more until every number that it can answer has come up, with all kinds and with a kind withdrawn"""
    for draw in Draw(rng).kinds():
        wanted, left = None, count
        while left or wanted:
            while not fits(fields := draw()):
                pass
            line = command(*fields)
            wanted = numbers(kind_of(line)) if wanted is None else wanted
            answer = withdrawn(line), answer_of(line)
            if left or answer in wanted:
                yield line
            left, wanted = max(0, left - 1), wanted - {answer}


def fits(fields):
    """there is room in the program for what the command has, and it is not long"""
    letter, *rest = fields
    wide = [len(f) for f in rest if isinstance(f, (tuple, bytes))]
    if letter in "uboimd" and rest[-1] > LONGEST:
        return False
    return max(wide, default=0) <= WIDEST and all(len(f) <= 41 for f in rest if isinstance(f, list))


def lists():
    for ms, r, column, items, script, orders, lines, size in interleave.lists():
        assert max(len(column), len(items), len(orders), len(lines), -(-size // interleave.ROW)) <= ENTRIES
        yield command("l", ms, r, column, items, script, orders, lines, size)


# ---- answers: lines of numbers

class Reader:
    """the numbers of a command, from the left"""

    def __init__(self, text):
        self.letter, *self.words = text.split()
        self.words.reverse()

    def number(self):
        return int(self.words.pop())

    def list(self):
        return tuple(self.number() for _ in range(self.number()))

    def edition(self):
        return self.list(), self.number()


def flat(*values):
    for v in values:
        if isinstance(v, (tuple, list, bytes)):
            yield from flat(*v)
        else:
            yield v


def counted(ms, r):
    number, detail, *_, n = ref.check(ms, r)
    return number, detail, n


def record_counted(read):
    n, cells, r = read.number(), read.list(), read.number()
    return counted(cells[:n], r) if n <= 24 else (1, 0, 0)


def in_table(k, r):
    return ref.number(inputs.stairs(k - 1), r) if 2 <= k <= 16 and r <= k * (k - 1) // 2 else ()


def converted(call, read):
    (ms, r), values, length = read.edition(), read.list(), read.number()
    return call(ms, r, values, bytes([FILL]) * length)


def unranked(read):
    (ms, r), serial, length = read.edition(), read.number(), read.number()
    return ref.unrank(ms, r, serial, bytes([FILL]) * length)


def batched(read):
    (ms, r), serial, copies, length = read.edition(), read.number(), read.number(), read.number()
    return ref.batch(ms, r, serial, copies, bytes([FILL]) * length)


def opened(read):
    number, detail, record = ref.opening(*read.edition(), read.number(), read.number())
    return [(number, detail), record]


def called(read):
    n, upper, r = read.number(), read.list(), read.number()
    record = n, upper, r, read.number(), read.number(), read.number(), read.list()
    column, items, which = list(read.list()), list(read.list()), read.number()
    serial, orders, lines = read.number(), list(read.list()), list(read.list())
    before = ref.entries(record, column, items)
    arguments = (), (serial, (orders + [0])[0], (lines + [0])[0]), (serial,), (serial, orders, lines)
    shown = [(before, column[:before]), (before, items[:before])]
    answer, record, column, items = ref.call(record, column, items, interleave.WORDS[which], arguments[which])
    return [*shown, answer, record, (len(column), column), (len(items), items)]


def replayed(read):
    (ms, r), column, items = read.edition(), list(read.list()), list(read.list())
    script, pools, rows = read.list(), (read.list(), read.list()), [ROOM] * read.number()
    calls = interleave.calls_of(script, *pools)
    number, detail, record = ref.opening(ms, r, len(column), len(items))
    if not number and (len(script) % interleave.CALL or len(rows) != interleave.ROW * len(interleave.rows_of(script)) or calls is None):
        number, record = 13, ref.NO_RECORD
    if not number:
        paper = ref.Paper(ms, r)
        rows = list(flat([interleave.answer(paper, call) for call in calls]))
        record, (column, items) = ref.record_of(ms, r, paper.lines), paper.over(column, items)
    return [(number, detail), record, (len(column), column), (len(items), items), (len(rows), rows)]


ANSWERED_BY = {
    "c": lambda read: [counted(*read.edition())],
    "e": lambda read: [record_counted(read)],
    "t": lambda read: [in_table(read.number(), read.number())],
    "r": lambda read: [ref.rank(*read.edition(), read.list())],
    "u": lambda read: [unranked(read)],
    "s": lambda read: [ref.step(*read.edition(), read.list(), 1)],
    "p": lambda read: [ref.step(*read.edition(), read.list(), -1)],
    "b": lambda read: [batched(read)],
    "o": lambda read: [converted(ref.permutation, read)],
    "i": lambda read: [converted(ref.inversions, read)],
    "m": lambda read: [converted(ref.major_permutation, read)],
    "d": lambda read: [converted(ref.major_code, read)],
    "n": opened,
    "k": called,
    "l": replayed,
}


# the calls that a command of a kind stands for, by the function of the C interface, which says what numbers they answer
CALLS = {
    "c": ["huz_check"], "r": ["huz_rank"], "u": ["huz_unrank"], "s": ["huz_successor"], "p": ["huz_predecessor"], "b": ["huz_batch"],
    "o": ["huz_permutation"], "i": ["huz_inversions"], "m": ["huz_major_permutation"], "d": ["huz_major_code"], "n": ["huz_open"],
    "k0": ["huz_peek"], "k1": ["huz_claim"], "k2": ["huz_void"], "k3": ["huz_claim_all"],
}
KINDS = [*(letter for letter in ANSWERED_BY if letter != "k"), *(kind for kind in CALLS if kind[0] == "k")]


def kind_of(line):
    """the letter of a command; of a call on a record also which call it is"""
    read = Reader(line)
    if read.letter != "k":
        return read.letter
    read.number(), read.list(), [read.number() for _ in range(4)], read.list(), read.list(), read.list()
    return f"k{read.number()}"


def numbers(kind):
    """what numbers a command of a kind can answer, each after whether a kind of tile is withdrawn"""
    if kind == "l":
        return {(False, 13), *numbers("n")}
    calls = CALLS.get(kind, ())
    return {(False, n) for name in calls for n in ref.ANSWERS[name]} | {(True, n) for name in calls for n in ref.WITHDRAWN[name]}


def withdrawn(line):
    """whether a kind of the command's edition is withdrawn"""
    read = Reader(line)
    kinds = read.number() if read.letter in "ek" else None
    return read.letter != "t" and 0 in read.list()[:kinds]


def lines_of(line):
    """the numbers of each line that answers a command"""
    read = Reader(line)
    lines = [list(flat(values)) for values in ANSWERED_BY[read.letter](read)]
    assert not read.words, line
    return lines


def answer_of(line):
    """the number that a command answers; a Mahonian number, or none, for that of the table"""
    first = lines_of(line)[2 if line[0] == "k" else 0]
    return first[0] if first else None


def uneven_bundles(line):
    """how many bundles with another number of item lines than of orders a list that is run has"""
    if line[0] != "l" or answer_of(line):
        return 0
    read = Reader(line)
    read.edition(), read.list(), read.list()
    return sum(map(interleave.is_uneven, interleave.calls_of(read.list(), read.list(), read.list())))


def answers_in_list(line):
    """which calls a list that is run has, each with the number that it answers"""
    if line[0] != "l" or answer_of(line):
        return
    read = Reader(line)
    (ms, r), *_ = read.edition(), read.list(), read.list()
    paper = ref.Paper(ms, r)
    for call in interleave.calls_of(read.list(), read.list(), read.list()):
        yield call[0], interleave.answer(paper, call)[0]


def answered(text):
    """the lines that answer the commands"""
    return [" ".join(map(str, answer)) + "\n" for line in text.split("\n") if line for answer in lines_of(line)]


# ---- the files

def in_pieces(commands):
    """a line for each command; before one that would stand in two pieces, empty lines"""
    text = ""
    for line in commands:
        left = PIECE - len(text) % PIECE
        text += "\n" * left if left <= len(line) else ""
        text += line + "\n"
    return text


def path(name):
    return os.path.join(CRATE, name)


def checked():
    """stdout is what the reference says, every number that a command can answer comes up, with all kinds and with a kind withdrawn, and so do uneven
    bundles in lists, and in lists every number that a call can answer but 16"""
    with open(path("stdin"), encoding="ascii") as f:
        commands = f.read()
    with open(path("stdout"), encoding="ascii") as f:
        same = f.readlines() == answered(commands)
    came_up = Counter((kind_of(line), withdrawn(line), answer_of(line)) for line in commands.split("\n") if line)
    differences = [] if same else ["stdout is not what the reference says"]
    for kind in KINDS:
        missing = sorted(answer for answer in numbers(kind) if not came_up[kind, *answer])
        differences += [f"{kind} does not answer {number}{' with a kind withdrawn' * there}" for there, number in missing]
    uneven = [n for line in commands.split("\n") if line and (n := uneven_bundles(line))]
    differences += [] if uneven else ["no list has a bundle with another number of item lines than of orders"]
    in_lists = Counter(answer for line in commands.split("\n") if line for answer in answers_in_list(line))
    wanted = {which: sorted({*ref.ANSWERS[CALLS[f"k{which}"][0]]} - {16}) for which in range(len(interleave.WORDS))}
    missing = [(interleave.WORDS[which], n) for which in wanted for n in wanted[which] if not in_lists[which, n]]
    differences += [f"no {word} of a list answers {number}" for word, number in missing]
    print("\n".join(differences), end="\n" if differences else "")
    for which in wanted:
        print(f"l: {interleave.WORDS[which]} answered", ", ".join(f"{n} {in_lists[which, n]} times" for n in wanted[which]))
    for kind in CALLS:
        print(f"{kind} with a kind withdrawn: answered", ", ".join(f"{n} {came_up[kind, t, n]} times" for t, n in sorted(numbers(kind)) if t))
    print(f"l: {sum(uneven)} bundles with another number of item lines than of orders, in {len(uneven)} lists")
    print(f"vectors: {came_up.total()} commands, {len(differences)} differences")
    return 1 if differences else 0


def main():
    parser = argparse.ArgumentParser(description=__doc__, formatter_class=argparse.RawDescriptionHelpFormatter)
    parser.add_argument("--check", action="store_true")
    parser.add_argument("--count", type=int, default=76)
    parser.add_argument("--seed", type=int, default=7)
    options = parser.parse_args()
    if options.check:
        return checked()
    commands = [*lists(), *fixed(), *drawn(random.Random(options.seed), options.count)]
    text = in_pieces(commands)
    with open(path("stdin"), "w", encoding="ascii") as f:
        f.write(text)
    with open(path("stdout"), "w", encoding="ascii") as f:
        f.writelines(answered(text))
    print(len(commands), "vectors,", len(text), "bytes of commands in", -(-len(text) // PIECE), "pieces")
    return 0


if __name__ == "__main__":
    sys.exit(main())

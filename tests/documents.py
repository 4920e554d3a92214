"""What the documents print, asked of the compiled engine, and the reference against itself."""
import inputs
import mistyped
import reference as ref
import sheets
from cases import compare, refused
from lent import Lent, call, huztiral, ledger_of


def copies_of_the_document():
    edition = huztiral.Edition
    seven = [[2, 1, 0], [1, 2, 0], [0, 2, 1], [1, 1, 1], [2, 0, 1], [1, 0, 2], [0, 1, 2]]
    puzzle = edition([3, 2, 1], 3)
    mixes = [[3, 0, 0], [2, 1, 0], [1, 2, 0], [0, 2, 1], [1, 1, 1], [2, 0, 1]]
    orders = [[4, 1, 2, 3], [3, 2, 1, 4], [2, 4, 1, 3], [1, 4, 3, 2], [2, 3, 4, 1], [3, 1, 4, 2]]
    compare("document", "A", edition([2, 2, 2], 3).batch(1, 7), seven)
    compare("document", "B", edition([2, 2, 2], 3).rank([0, 2, 1]), 3)
    compare("document", "C", edition([2, 2, 2], 3).successor([2, 0, 1]), ([1, 0, 2], 3, 1))
    compare("document", "C, back", edition([2, 2, 2], 3).predecessor([1, 0, 2]), ([2, 0, 1], 1, 3))
    compare("document", "the pairs of A", [edition([2, 2, 2], 3).successor(g)[1:] for g in seven[:-1]], [(2, 1), (3, 1), (1, 2), (1, 2), (3, 1), (2, 1)])
    compare("document", "D", edition([2, 2, 2], 5).batch(1, 3), [[2, 2, 1], [2, 1, 2], [1, 2, 2]])
    compare("document", "E", (edition([5], 5).count, refused(edition, [5], 6)), (1, (4, 0)))
    compare("document", "F", (edition([2, 2], 0).unrank(1), edition([2, 2], 4).count, refused(edition, [2, 2], 5)), ([0, 0], 1, (4, 0)))
    compare("document", "G", (puzzle.batch(1, 6), [puzzle.permutation(g) for g in mixes], [puzzle.inversions(p) for p in orders]),
            (mixes, orders, mixes))
    compare("document", "H", [edition([2, 1], 1).permutation(edition([2, 1], 1).unrank(s)) for s in (1, 2)], [[2, 1, 3], [1, 3, 2]])
    register = edition([1, 1], 1).open()
    compare("document", "I", (register.peek(), register.peek(), register.claim(1, 1007, 1), refused(register.claim, 1, 1014, 1), register.peek(),
                              register.claim(2, 1014, 1), refused(register.peek), register.entries()),
            ((1, [1, 0], 0, 0), (1, [1, 0], 0, 0), (1, [1, 0]), (18, 1007), (2, [0, 1], 2, 1), (2, [0, 1]), (21, 0), [(1007, 1), (1014, 1)]))
    register = edition([1, 1], 1).open()
    compare("document", "J", (register.void(1), refused(register.claim, 1, 1007, 1), register.entries()), ((1, [1, 0]), (18, 0), [(0, 0)]))
    compare("document", "N", (edition(range(11, 0, -1), 33).count, edition([10] * 24, 239).count), (25598186, 24))


def a_tile_withdrawn():
    """request (ii)"""
    edition = huztiral.Edition
    seven = [[g[0], 0, *g[1:]] for g in edition([2, 2, 2], 3).batch(1, 7)]
    gap = edition([2, 0, 2, 2], 3)
    compare("document", "2 0 2 2", (gap.count, gap.batch(1, 7), [gap.rank(g) for g in seven]), (7, seven, [1, 2, 3, 4, 5, 6, 7]))
    compare("document", "its pairs", [gap.successor(g)[1:] for g in seven[:-1]], [(3, 1), (4, 1), (1, 3), (1, 3), (4, 1), (3, 1)])
    for zeros in [0], [0] * 2, [0] * 24:
        none, register = edition(zeros, 0), edition(zeros, 0).open()
        compare("document", zeros, (none.count, none.unrank(1), none.rank(zeros), refused(none.successor, zeros), refused(none.predecessor, zeros)),
                (1, zeros, 1, (9, 0), (9, 0)))
        sold = register.peek(), register.claim(1, 1007, 1), refused(register.peek), register.entries(), refused(edition, zeros, 1)
        compare("document", zeros, sold, ((1, zeros, 0, 0), (1, zeros), (21, 0), [(1007, 1)], (4, 0)))
    for ms, r, refusal in ([0, 61], 1, (2, 2)), ([1, 0, 61], 256, (2, 3)), ([1] * 24 + [0], 3, (1, 0)), ([0] * 25, 0, (1, 0)):
        compare("document", (ms, r), refused(edition, ms, r), refusal)
    for ms in [2, 1, 0], [2, 0, 1], [0, 2, 1], [0]:
        e = edition(ms, sum(ms) // 2)
        orders = e.unrank(1), [2, 1, 3], [2, 1, 3, 4]
        functions = e.permutation, e.inversions, e.major_permutation, e.major_code
        compare("document", ms, [refused(f, p) for f in functions for p in orders], [(10, 0)] * 12)
    # a record in which n was damaged upwards, over cells that are 0, is that of the edition with kinds withdrawn behind
    for n, number in (3, 0), (4, 0), (24, 0), (2, 16), (25, 16), (0, 16):
        record = (n, *ref.record_of((2, 2, 2), 3, [(1007, 1), (0, 0)])[1:])
        columns = Lent([1007, 0] + [7] * 5, 4), Lent([1, 0] + [100] * 5)
        compare("document", (n, "kinds"), call("huz_peek", ledger_of(record), *columns)[0], number)


def by_major_index(total, *both):
    """mixes and their orders, as texts, in a puzzle edition with this total"""
    for mix, order in zip(both[::2], both[1::2]):
        mix, order = [int(g) for g in mix], [int(p) for p in order]
        edition = huztiral.Edition(inputs.stairs(len(mix)), total)
        compare("document", (mix, order), (edition.major_permutation(mix), edition.major_code(order)), (order, mix))


def puzzle_books():
    """request (iii), and the example and the table of source document 003"""
    edition = huztiral.Edition
    by_major_index(1, "10", "312", "01", "213")
    by_major_index(12, "34221", "521643")
    by_major_index(4, *sheets.TABLE_1)
    compare("document", "source 003, Table 1", edition(inputs.stairs(5), 4).count, len(sheets.TABLE_1) // 2)
    by_major_index(0, "0", "12")
    by_major_index(1, "1", "21")
    for k in range(2, 26):
        first, ms = list(range(1, k + 1)), list(inputs.stairs(k - 1))
        none = edition(ms, 0)
        compare("document", (k, 0), (none.major_permutation([0] * (k - 1)), none.major_code(first)), (first, [0] * (k - 1)))
        if sum(ms) <= 255:  # the largest total
            full = edition(ms, sum(ms))
            compare("document", (k, sum(ms)), (full.major_permutation(ms), full.major_code(first[::-1])), (first[::-1], ms))
    # of one inversion and major index 2, and of two inversions and major index 1
    one, two = edition([2, 1], 1), edition([2, 1], 2)
    for p, mix, code in ([1, 3, 2], [0, 1], [1, 1]), ([3, 1, 2], [2, 0], [1, 0]):
        few, many = (one, two) if sum(mix) < sum(code) else (two, one)
        compare("document", p, (few.inversions(p), refused(few.major_code, p), many.major_code(p), refused(many.inversions, p)),
                (mix, (23, 0), code, (12, 0)))


def first(orders):
    """order numbers, and item line 1 for each"""
    return list(orders), [1] * len(orders)


def a_club_order():
    """request (v), on the three copies of 1 1 1 with total 1 and on the seven of 2 2 2 with total 3"""
    three = huztiral.Edition([1, 1, 1], 1).open()
    compare("document", "all three", (three.claim_all(1, *first([1007, 1014, 1021])), refused(three.peek), three.entries()),
            ((1, [1, 0, 0]), (21, 0), [(1007, 1), (1014, 1), (1021, 1)]))
    three = huztiral.Edition([1, 1, 1], 1).open()
    compare("document", "none, with serial 0", refused(three.claim_all, 0, [], []), (24, 0))
    compare("document", "a void", three.void(1), (1, [1, 0, 0]))
    for serial, orders, refusal in ((2, [1007, 1007], (20, 2)), (2, [1007, 1014, 1021], (6, 0)), (2, [1007, 1014, 0], (17, 0)),
                                    (2, [1007, 0, 1021], (17, 0)), (1, [1007, 1014], (18, 0)), (3, [1007], (19, 2)), (4, [1007, 1014], (6, 0)),
                                    (2, [], (24, 0)), (2, [0] * 41, (24, 0))):
        compare("document", (serial, orders), (refused(three.claim_all, serial, *first(orders)), three.entries(), three.peek()),
                (refusal, [(0, 0)], (2, [0, 1, 0], 2, 1)))
    compare("document", "the two that are left", (three.claim_all(2, *first([1007, 1014])), three.entries()),
            ((2, [0, 1, 0]), [(0, 0), (1007, 1), (1014, 1)]))
    seven = huztiral.Edition([2, 2, 2], 3).open()
    between = (seven.claim(1, 17, 1), seven.claim_all(2, *first([24, 31, 48])), refused(seven.claim, 4, 55, 1),
               refused(seven.claim_all, 5, *first([55, 31])), seven.peek(), seven.claim_all(5, [55], [1]), seven.void(6))
    compare("document", "between single takes", between,
            ((1, [2, 1, 0]), (2, [1, 2, 0]), (18, 48), (20, 3), (5, [2, 0, 1], 1, 2), (5, [2, 0, 1]), (6, [1, 0, 2])))
    compare("document", "and the lines", seven.entries(), [(17, 1), (24, 1), (31, 1), (48, 1), (55, 1), (0, 0)])
    forty = huztiral.Edition([4, 3, 3, 2], 6)
    register, orders = forty.open(), mistyped.row(1, 41)
    compare("document", "an edition of 40", (forty.count, refused(register.claim_all, 1, *first(orders))), (40, (24, 0)))
    compare("document", "40 orders", register.claim_all(1, *first(orders[:40])), (1, forty.unrank(1)))
    compare("document", "all of it", register.entries(), [(order, 1) for order in orders[:40]])


def two_copies_on_one_order():
    """request (vi)"""
    seven = huztiral.Edition([2, 2, 2], 3).open()
    compare("document", "two copies in a basket", (seven.claim(1, 1007, 1), seven.claim(2, 1007, 2), seven.entries()),
            ((1, [2, 1, 0]), (2, [1, 2, 0]), [(1007, 1), (1007, 2)]))
    compare("document", "both stand already", (refused(seven.claim, 3, 1007, 1), refused(seven.claim, 3, 1007, 2)), ((20, 1), (20, 2)))
    compare("document", "25 after 17, before 6, 18, 19 and 20", [refused(seven.claim, serial, order, item) for item in (0, 100, 255)
                                                               for serial in (0, 1, 3, 4, 8) for order in (0, 1007)], [(17, 0), (25, 0)] * 15)
    compare("document", "18 has the order number", (refused(seven.claim, 2, 1014, 1), refused(seven.void, 1)), ((18, 1007), (18, 1007)))
    for items in [], [1], [1, 2, 3], [0] * 40:
        compare("document", ("another number of item lines", items), refused(seven.claim_all, 0, [0, 1007], items), (24, 0))
    for lines, refusal in ([(1014, 1), (1007, 2)], (20, 2)), ([(1014, 1), (1014, 1)], (20, 3)), ([(1014, 1), (1014, 0)], (25, 0)), \
            ([(1014, 1), (0, 0)], (17, 0)), ([(1014, 100), (0, 1)], (25, 0)):
        compare("document", lines, (refused(seven.claim_all, 3, *map(list, zip(*lines))), seven.entries()), (refusal, [(1007, 1), (1007, 2)]))
    compare("document", "a bundle on two orders", (seven.claim_all(3, [1014, 1007, 1014], [1, 99, 2]), seven.void(6), seven.claim(7, 1007, 3)),
            ((3, [0, 2, 1]), (6, [1, 0, 2]), (7, [0, 1, 2])))
    compare("document", "its lines", seven.entries(), [(1007, 1), (1007, 2), (1014, 1), (1007, 99), (1014, 2), (0, 0), (1007, 3)])
    sales_made_earlier()


def sales_made_earlier():
    """a register without item lines: 16, until 1 is written beside each order and 0 beside the spoilt lines"""
    orders = [1007, 0, 1014] + [5] * 4
    record = ref.record_of((2, 2, 2), 3, [(1007, 1), (0, 0), (1014, 1)])
    for items, number in ([0] * 7, 16), ([1] * 7, 16), ([1, 0, 0] + [0] * 4, 16), ([1, 0, 1] + [0] * 4, 0), ([1, 0, 1] + [0] * 3, 16), ([], 16), \
            ([1, 0, 1] + [255] * 4, 0), ([1, 0, 100] + [1] * 4, 16), ([99, 0, 1] + [1] * 9, 0), ([1, 1, 1] + [1] * 4, 16):
        columns = Lent(orders, 4), Lent(items)
        compare("document", ("earlier", items), (call("huz_peek", ledger_of(record), *columns)[0], call("huz_entries", ledger_of(record), *columns)),
                (number, (0 if number else 3,)))


def mistyped_order_numbers():
    """request (vii)"""
    seven = huztiral.Edition([2, 2, 2], 3).open()
    compare("document", "1007 passes, 1008 fails", (seven.claim(1, 1007, 1), refused(seven.claim, 2, 1008, 1), seven.entries()),
            ((1, [2, 1, 0]), (26, 0), [(1007, 1)]))
    compare("document", "26 after 17, before 25, 6, 18 and 19", [refused(seven.claim, serial, order, item) for item in (0, 1, 100, 255)
                                                               for serial in (0, 1, 2, 3, 8) for order in (0, 1008)], [(17, 0), (26, 0)] * 20)
    six = [1014, 1021, 1038, 1045, 1052, 1069]  # as many as are left
    for orders, refusal in ([1014, 1008], (26, 0)), ([1008, 1007], (26, 0)), ([1007, 1008], (20, 1)), ([0, 1008], (17, 0)), \
            ([1014, 1008, 0], (26, 0)), ([1014, 0, 1008], (17, 0)), ([1008] * 41, (24, 0)), ([*six, 1008], (26, 0)), ([*six, 1076, 1008], (6, 0)):
        compare("document", orders, (refused(seven.claim_all, 2, *first(orders)), seven.entries()), (refusal, [(1007, 1)]))
    compare("document", "a bundle without an item line", refused(seven.claim_all, 2, [1008], []), (24, 0))
    compare("document", "a spoil has no order", seven.void(2), (2, [1, 2, 0]))
    sales_before_the_check()


def sales_before_the_check():
    """a register begun before stays readable: look, lines, spoil and takes with a number that passes are answered as ever; 18 has the number of its
    line, and 26 comes before 20"""
    lines = [(1008, 1), (0, 0), (1, 99)]
    record, columns = ref.record_of((2, 2, 2), 3, lines), inputs.apart(lines + [(1008, 2)] * 4)
    for name, arguments, answer in ("huz_peek", (), (0, 0, 4)), ("huz_entries", (), (3,)), ("huz_void", (4,), (0, 0, 4)), \
            ("huz_claim", (4, 1007, 1), (0, 0, 4)), ("huz_claim", (1, 1007, 1), (18, 1008, 0)), ("huz_claim", (4, 1008, 1), (26, 0, 0)), \
            ("huz_void", (3,), (18, 1, 0)), ("huz_claim_all", (4, Lent([1007, 1014], 4), Lent([1, 1])), (0, 0, 4)):
        compare("document", (name, "before the check"), call(name, ledger_of(record), Lent(columns[0], 4), Lent(columns[1]), *arguments)[:3], answer)


def the_list_by_the_two_walks():
    """request (viii), on the lists that document 01 prints, and with kinds withdrawn"""
    for ms, r, mixes in ([2, 2, 2], 3, "210 120 021 111 201 102 012"), ([2, 2, 2], 5, "221 212 122"), ([3, 2, 1], 3, "300 210 120 021 111 201"), \
            ([5], 5, "5"), ([2, 2], 0, "00"), ([2, 2], 4, "22"), ([2, 0, 2, 2], 3, "2010 1020 0021 1011 2001 1002 0012"), \
            ([0, 1, 0, 1, 0], 1, "01000 00010"), ([0, 0], 0, "00"), ([0] * 24, 0, "0" * 24):
        edition, printed = huztiral.Edition(ms, r), [[int(g) for g in mix] for mix in mixes.split()]
        compare("document", (ms, r), (edition.listing(), edition.batch(1, edition.count), list(edition.mixes())), (printed,) * 3)
        for length in {*range(30)} - {len(ms) * len(printed)}:
            compare("document", (ms, r, length), call("huz_listing", Lent(ms), r, Lent(bytes(length))), (13, 0))


def the_reference():
    """it is at one with its own listing, and the rule of document 01, read with ceilings of 0, gives the same"""
    for ms, r in ((2, 2, 2), 3), ((3, 2, 1), 3), ((4, 1, 2, 3, 1), 6), ((1,) * 9, 4), ((2, 5, 3), 5), *inputs.WITHDRAWN:
        n = ref.number(ms, r)
        if inputs.accepted(ms, r) and n < 2000:
            compare("reference", (ms, r), [ref.mix_at(ms, r, s) for s in range(1, n + 1)], list(ref.listing(ms, r)))
            compare("reference", (ms, r), [ref.serial_of(ms, r, g) for g in ref.listing(ms, r)], list(range(1, n + 1)))
            compare("reference", (ms, r), list(ref.walk(ms, r)), list(ref.listing(ms, r)))


def compared():
    copies_of_the_document()
    a_tile_withdrawn()
    puzzle_books()
    a_club_order()
    two_copies_on_one_order()
    mistyped_order_numbers()
    the_list_by_the_two_walks()
    the_reference()

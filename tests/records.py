"""Openings and single calls on a record and its two columns, sound ones and damaged ones: the compiled engine against tests/reference.py."""
import inputs
import mistyped
import reference as ref
from cases import compare, lend
from lent import LentRecord, call, flat, ledger_of


def opening(rng, ms, r, size, items_size):
    values = [rng.getrandbits(32) for _ in range(min(size, 99))] + [7] * max(0, size - 99)
    bytes_of = [rng.randrange(256) for _ in range(min(items_size, 99))] + [101] * max(0, items_size - 99)
    upper, column, items = lend(rng, ms), lend(rng, values, 4), lend(rng, bytes_of)
    expected = ref.opening(ms, r, size, items_size)
    answer = call("huz_open", upper, r, column, items)
    compare("huz_open", (ms, r, size, items_size), answer, (*expected[:2], *expected[2]), (upper, ms), (column, values), (items, bytes_of))


CALLS = {"look": "huz_peek", "take": "huz_claim", "spoil": "huz_void", "bundle": "huz_claim_all"}


def paper_of(record, column, items):
    """the paper register of a record that 16 does not refuse"""
    n, upper, r, lines = record[:4]
    return ref.Paper(upper[:n], r, zip(column[:lines], items[:lines]))


def on_record(rng, record, column, items, name, *arguments):
    """one call; a take or a spoil by value and on a lent record"""
    lent = lend(rng, column, 4), lend(rng, items)
    answer, record_after, *after = ref.call(record, column, items, name, arguments)
    given = (record[1][:record[0]], record, column[:40], items[:40], arguments)
    function = CALLS[name]
    if name == "take" and answer[0] in (16, 17, 26):
        paper = paper_of(record, column, items) if answer[0] == 26 else None
        for form in function, function + "_in":
            mistyped.met(form, answer[0], paper, *arguments)
    got = call(function, ledger_of(record), *lent, *arguments)
    compare(function, given, got, answer if name == "look" else (*answer, *record_after), *zip(lent, after))
    if name != "look":
        lent, place = (lend(rng, column, 4), lend(rng, items)), LentRecord(ledger_of(record))
        before = place.raw()
        got = call(function + "_in", place, *lent, *arguments)
        compare(function + "_in", given, (*got, *flat(place.ledger)), (*answer, *record_after), *zip(lent, after),
                (place, before if answer[0] else None))


def lines_so_far(rng, record, column, items):
    lent = lend(rng, column, 4), lend(rng, items)
    expected = ref.entries(record, column, items),
    compare("huz_entries", (record, column[:40], items[:40]), call("huz_entries", ledger_of(record), *lent), expected, *zip(lent, (column, items)))


def any_call(rng):
    *book, serial, order, item = inputs.call(rng)
    on_record(rng, *book, "look")
    on_record(rng, *book, "take", serial, order, item)
    on_record(rng, *book, "spoil", serial)
    lines_so_far(rng, *book)


def put(column, at, value):
    return column[:at] + [value] + column[at + 1:]


def each_line(rng):
    """a register whose lines are all sound, some of them spoilt, none or all, with each line in turn unsound or nearly so, and the same past the lines,
    where nothing is looked at"""
    for ms, r in ((2, 2, 2), 3), ((2, 0, 2, 2), 3), ((4, 3, 2, 1), 5):
        n = ref.number(ms, r)
        for written, spoilt in (n, {2, 5}), (n - 2, {2, 5}), (n, ()), (n, range(n)), (0, ()):
            lines = [ref.SPOILT if at in spoilt else (1007, 1 + at) for at in range(written)]
            column, items = inputs.apart(lines + [(1014, 5)] * (n + 1 - written))
            record = ref.record_of(ms, r, lines)
            for at in range(n + 1):
                for item in 0, 1, 99, 100, 255:
                    for order in 0, 1007, 1008:
                        book = record, put(column, at, order), put(items, at, item)
                        on_record(rng, *book, "look")
                        on_record(rng, *book, "take", written + 1, 1007, item)
                        lines_so_far(rng, *book)


def places(rng):
    """17, 26, 25, 6, 18, 19 and 20 against each other: every order, item line and serial at an end of its range, in a register of some lines, of
    which 1008 was written before there was 26; 611 is 161 with neighbours exchanged, which is not found, and 1070 is 1007"""
    for ms, r in ((2, 2, 2), 3), ((2, 0, 2, 2), 3):
        lines = [(161, 1), ref.SPOILT, (1007, 2), (1008, 1), (161, 1), (inputs.MOST, 99)]
        for written in 0, 3, 5, 6:
            *book, short = ref.record_of(ms, r, lines[:written]), *inputs.apart(lines[:written] + [(1021, 3)] * (8 - written)), [1, 0, 2, 1, 1, 99]
            for order in 0, 161, 611, 1007, 1008, 1070, 1021, 1038, inputs.MOST:
                for item in 0, 1, 2, 3, 99, 100, 255:
                    for serial in 0, 1, 2, written, written + 1, written + 2, 7, 8, inputs.LARGEST:
                        on_record(rng, *book, "take", serial, order, item)
                    on_record(rng, *book[:2], short, "take", written + 1, order, item)

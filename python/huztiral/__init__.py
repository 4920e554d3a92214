"""Huztiral: editions of boxes, each a different mix of tiles, their serial numbers, and the register in which they are sold.

    from huztiral import Edition, Number, Refused, check_digit_ok

    edition = Edition([2, 2, 2], 3)         # three kinds of tile, at most two of each, three tiles in a box
    edition.count                           # 7: so many mixes there are, and each is one copy
    edition.unrank(3)                       # [0, 2, 1]: the mix of serial 3
    edition.rank([0, 2, 1])                 # 3: and back
    edition.successor([0, 2, 1])            # Step(composition=[1, 1, 1], gain=1, loss=2): kind 1 gains a tile, kind 2 loses one

    edition.listing()                       # [[2, 1, 0], [1, 2, 0], [0, 2, 1], [1, 1, 1], [2, 0, 1], [1, 0, 2], [0, 1, 2]]: every mix in its order
    list(edition.mixes(6))                  # [[1, 0, 2], [0, 1, 2]]: those from serial 6 on; an iterator, for editions of any size

    puzzle = Edition([2, 1], 1)             # three sheets: their orders with one inversion, or with major index 1
    puzzle.permutation([1, 0])              # [2, 1, 3]: the sheet order of a mix by inversions
    puzzle.major_permutation([1, 0])        # [3, 1, 2]: and by major index
    puzzle.major_code([3, 1, 2])            # [1, 0]: and back

    register = edition.open()
    next = register.peek()                  # Look(serial=1, composition=[2, 1, 0], gain=0, loss=0): the next copy; nothing is reserved
    try:
        register.claim(next.serial, 1007, 1)  # sell it, for order 1007, item line 1
    except Refused as refused:
        if refused.number == Number.ALREADY_WRITTEN:
            print(refused)                  # serial 1 is already written, for order 1014
    register.claim(2, 1007, 2)              # the second copy on that order: a number of 1 to 99, its item line, tells them apart
    register.claim_all(3, [1014, 1021], [1, 1])  # a club order: serials 3 and 4, for these two orders, item line 1 each, or neither
    register.entries()                      # [Entry(order=1007, item=1), ..]: the lines so far

    check_digit_ok(1007)                    # True: the digits, weighted 1, 3, 1, 3 from the right, sum to 10
    check_digit_ok(1008)                    # False: mistyped, and a claim for order 1008 is refused (Number.CHECK_DIGIT)

A kind that is withdrawn has the ceiling 0. An `Edition` never changes. A `Register` may be shared by threads: its calls come one after another. A
call that cannot be done raises `Refused` and changes nothing. The engine behind it is proved; this package only hands values over to it
(`include/huztiral.h`). The first import proves and builds it, which takes a few minutes; HUZTIRAL_LIBRARY may name a shared library that was
built before.
"""
from ._c import (C, CELLS, FUNCTIONS, Answer, Bounds, Checked, Claimed, Done, Ledger, Opened, Peeked, Ranked, Stepped, load, version_of)
from ._editions import Edition, Entry, Look, Register, Step, check_digit_ok
from ._refusals import Number, Refused

__version__: str = version_of(C)
__all__ = ["Edition", "Register", "Step", "Look", "Entry", "check_digit_ok", "Refused", "Number", "__version__"]

for _public in Edition, Register, Step, Look, Entry, check_digit_ok, Refused, Number:  # so that messages and pickles name them as users do
    _public.__module__ = __name__
del _public

"""Editions and registers, for daily use."""
from __future__ import annotations

import operator
import threading
from ctypes import c_uint8, c_uint32
from itertools import islice
from typing import Any, Callable, Iterable, Iterator, NamedTuple, SupportsIndex

from ._c import C, Ledger
from ._refusals import Number, Refused, sentence

_MOST_LINES = 1_000_000  # of a register
_MOST_LISTED = 1 << 30  # bytes of an edition that is listed at once, 1 GiB
_TRAY = 4096  # copies that `mixes` has in memory
_MOST_ORDERS = 40  # of a bundle
_LAST_ITEM = 99


def _fits(value: SupportsIndex, bits: int) -> int:
    """the whole number itself, which C would cut to so many bits without a word"""
    number = operator.index(value)
    if not 0 <= number < 1 << bits:
        raise OverflowError(f"{number} is not a number of {bits} bits, 0 to {(1 << bits) - 1}")
    return number


def _bytes(values: Iterable[SupportsIndex]) -> bytes:
    """the values, each of which is a whole number of 0 to 255"""
    if isinstance(values, (bytes, bytearray)):
        return bytes(values)
    numbers = []
    for value in values:
        number = operator.index(value)
        if not 0 <= number <= 255:
            raise ValueError(f"{number} is not a number of 0 to 255")
        numbers.append(number)
    return bytes(numbers)


def _lent(values: bytes) -> tuple[Any, int]:
    """bytes to lend, and how many"""
    return (c_uint8 * len(values)).from_buffer_copy(values), len(values)


def check_digit_ok(order: SupportsIndex) -> bool:
    """whether the check digit of an order number is right, for a form that asks before anything is sold

    The digits, weighted 1, 3, 1, 3 and so on from the right, have to sum to a multiple of ten: 1007 passes, 1008 does not. One mistyped digit of a
    number that passes is always found, two neighbours exchanged unless they are five apart, as 3 and 8. 0 passes the sum, but no order is numbered
    0, and a claim refuses it with 17 (`Number.NO_ORDER`).
    """
    return C.huz_order_passes(_fits(order, 32))


class Step(NamedTuple):
    """A step's answer: the mix reached, and the kinds, from 1, that gain and lose a tile on the way to it from the mix given."""

    composition: list[int]
    gain: int
    loss: int


class Look(NamedTuple):
    """A look's answer: the next serial, its mix, and the kinds, from 1, that gain and lose a tile against the copy before; 0 and 0 for serial 1."""

    serial: int
    composition: list[int]
    gain: int
    loss: int


class Entry(NamedTuple):
    """A line of a register: the order number and its item line, or 0 and 0 where the serial is spoilt."""

    order: int
    item: int


class Edition:
    """Ceilings, one for each kind of tile, and a total, the number of tiles in a box: every mix under the ceilings with that total is one copy.

    There are 1 to 24 kinds, a ceiling is 0 to 60 and the total 0 to 255; what is no edition is refused. A ceiling of 0 is that of a kind withdrawn
    after the artwork is fixed: the kinds keep their numbers, each mix has 0 there, and the order is that of the edition without it. A mix is a list
    of counts, one for each kind. Mixes may be given as any iterable of whole numbers, bytes too. An edition never changes; it can be pickled,
    compared and hashed.

    An edition with the ceilings k-1, .., 2, 1 is a puzzle edition of k sheets. Each of its mixes is a sheet order, a permutation of 1 to k: one with
    as many inversions as the total (`permutation`, and back, `inversions`), or one whose major index is the total (`major_permutation`, and back,
    `major_code`).
    """

    __slots__ = ("_upper", "_total", "_count", "_given")

    def __init__(self, upper: Iterable[SupportsIndex], total: SupportsIndex) -> None:
        cells = _bytes(upper)
        self._upper, self._total = tuple(cells), _fits(total, 32)
        self._given = (*_lent(cells), self._total)
        self._count: int = self._accepted(C.huz_check(*self._given)).count

    @property
    def upper(self) -> tuple[int, ...]:
        """the ceilings"""
        return self._upper

    @property
    def total(self) -> int:
        """the number of tiles in a box"""
        return self._total

    @property
    def count(self) -> int:
        """N, the number of mixes; serials run from 1 to N"""
        return self._count

    def __repr__(self) -> str:
        return f"Edition({list(self._upper)}, {self._total})"

    def __eq__(self, other: object) -> bool:
        if not isinstance(other, Edition):
            return NotImplemented
        return (self._upper, self._total) == (other._upper, other._total)

    def __hash__(self) -> int:
        return hash((self._upper, self._total))

    def __reduce__(self) -> tuple[Any, ...]:
        return type(self), (self._upper, self._total)

    def rank(self, composition: Iterable[SupportsIndex]) -> int:
        """the serial of a mix"""
        given = _bytes(composition)
        return self._accepted(C.huz_rank(*self._given, *_lent(given)), given=given).serial

    def unrank(self, serial: SupportsIndex) -> list[int]:
        """the mix of a serial"""
        serial = _fits(serial, 64)
        return list(self._filled(len(self._upper), C.huz_unrank, serial, serial=serial))

    def successor(self, composition: Iterable[SupportsIndex]) -> Step:
        """the mix one serial on, and the kinds that gain and lose a tile"""
        return self._step(C.huz_successor, composition, "last")

    def predecessor(self, composition: Iterable[SupportsIndex]) -> Step:
        """the mix one serial back, and the kinds that gain and lose a tile on that way: those of the way forward exchanged"""
        return self._step(C.huz_predecessor, composition, "first")

    def batch(self, serial: SupportsIndex, copies: SupportsIndex) -> list[list[int]]:
        """the mixes of so many serials, from `serial` on"""
        serial, copies, n = _fits(serial, 64), _fits(copies, 64), len(self._upper)
        there = 1 <= serial <= self._count
        known = {"serial": serial, "copies": copies, "past": there}
        if not there or copies > self._count - serial + 1:  # the engine refuses it before it looks at the tray: no memory is asked for
            self._accepted(C.huz_batch(*self._given, serial, copies, None, 0), **known)
        return self._split(self._filled(n * copies, C.huz_batch, serial, copies, **known))

    def listing(self) -> list[list[int]]:
        """every mix in its order, that of serial 1 first: what `batch(1, count)` answers, but written by the order's two walks, which use no serial

        Where the edition takes more than 1 GiB, a byte for each count of each mix, it is a MemoryError, and no memory is asked for: `mixes` goes
        through an edition of any size. As lists the mixes take ten to thirty times as much.
        """
        size = len(self._upper) * self._count
        if size > _MOST_LISTED:
            raise MemoryError(f"{self._count} mixes are {size} bytes, and at most {_MOST_LISTED} are listed at once: mixes() gives them in turn")
        return self._split(self._filled(size, C.huz_listing))

    def mixes(self, serial: SupportsIndex = 1) -> Iterator[list[int]]:
        """every mix from `serial` on, one after another in their order, for editions of any size: a few thousand are in memory at a time

        A serial that the edition does not have is refused by this call itself, not when the first mix is asked for.
        """
        serial = _fits(serial, 64)
        self.batch(serial, 0)  # refused where there is no such serial
        return self._tray_by_tray(serial)

    def permutation(self, composition: Iterable[SupportsIndex]) -> list[int]:
        """the sheet order of a mix, in a puzzle edition: after place i stand as many smaller sheets as the mix has of kind i"""
        return self._converted(C.huz_permutation, composition, len(self._upper) + 1)

    def inversions(self, permutation: Iterable[SupportsIndex]) -> list[int]:
        """the mix of a sheet order, in a puzzle edition; the order has as many inversions as the total"""
        return self._converted(C.huz_inversions, permutation, len(self._upper))

    def major_permutation(self, composition: Iterable[SupportsIndex]) -> list[int]:
        """the sheet order of a mix by major index, in a puzzle edition of k sheets: of 1 to k, first all sheets are turned right by the count of
        kind 1, then the first k - 1 by that of kind 2, and so on to the first two"""
        return self._converted(C.huz_major_permutation, composition, len(self._upper) + 1)

    def major_code(self, permutation: Iterable[SupportsIndex]) -> list[int]:
        """the mix of a sheet order by major index, in a puzzle edition; the total is the order's major index, the sum of the places i, from 1, at
        which sheet i is greater than sheet i + 1"""
        return self._converted(C.huz_major_code, permutation, len(self._upper))

    def open(self) -> Register:
        """a new register of this edition, with no lines"""
        return Register(self)

    def _step(self, function: Callable[..., Any], composition: Iterable[SupportsIndex], end: str) -> Step:
        given = _bytes(composition)
        answer = self._accepted(function(*self._given, *_lent(given)), given=given, end=end)
        return Step(self._cells(answer), answer.gain, answer.loss)

    def _converted(self, function: Callable[..., Any], values: Iterable[SupportsIndex], size: int) -> list[int]:
        given = _bytes(values)
        return list(self._filled(size, function, *_lent(given), given=given))

    def _tray_by_tray(self, serial: int) -> Iterator[list[int]]:
        """the mixes from a serial of the edition on"""
        while serial <= self._count:
            copies = min(_TRAY, self._count - serial + 1)
            yield from self.batch(serial, copies)
            serial += copies

    def _split(self, out: Any) -> list[list[int]]:
        """the mixes of a tray"""
        tray, n = bytes(out), len(self._upper)
        return [list(tray[at:at + n]) for at in range(0, len(tray), n)]

    def _cells(self, answer: Any) -> list[int]:
        return list(answer.composition)[:len(self._upper)]

    def _filled(self, size: int, function: Callable[..., Any], *arguments: Any, **known: Any) -> Any:
        out = (c_uint8 * size)()
        self._accepted(function(*self._given, *arguments, out, size), **known)
        return out

    def _accepted(self, answer: Any, **known: Any) -> Any:
        """the answer, if it is none that refuses; known is what the call was given"""
        if answer.number:
            raise Refused(answer.number, answer.detail, self._sentence(Number(answer.number), answer.detail, known))
        return answer

    def _sentence(self, number: Number, detail: int, known: dict[str, Any]) -> str:
        n, given = len(self._upper), list(known.pop("given", ()))
        ceiling = self._upper[detail - 1] if number is Number.UPPER_OUT_OF_RANGE else 0
        return sentence(number, detail, {
            "kinds": n, "sheets": n + 1, "ceiling": ceiling, "total": self._total, "sum": sum(self._upper), "count": getattr(self, "_count", 0),
            "given": given, "length": len(given), **known})


class Register:
    """The register of an edition, in memory: which order each serial was sold to. Serials are written one after another, from 1 on.

    A serial is sold to an order number, 1 to 2**32 - 1 with a right check digit (`check_digit_ok`), and an item line, 1 to 99. The item line tells
    the copies on one order apart: of two copies in a basket one is sold with item line 1, the other with item line 2. An order number and an item
    line together stand in a register once.

    Threads may share it, for each call waits until the one before it is done. It cannot be copied or pickled: a copy of a register would sell
    its serials again. Processes that share one need shared memory and a lock of their own (README, "One call after another").
    """

    def __init__(self, edition: Edition) -> None:
        self._edition = edition
        self._lock = threading.Lock()
        lines = edition.count if edition.count <= _MOST_LINES else 0  # more are refused before the columns are looked at
        self._orders, self._items = (c_uint32 * lines)(), (c_uint8 * lines)()
        self._columns = self._orders, lines, self._items, lines
        self._ledger: Ledger = edition._accepted(C.huz_open(*edition._given, *self._columns)).ledger

    @property
    def edition(self) -> Edition:
        """the edition that it sells"""
        return self._edition

    def __reduce__(self) -> tuple[Any, ...]:
        raise TypeError("a register cannot be copied or pickled: the copy would sell its serials again")

    def peek(self) -> Look:
        """a look: the next serial, its mix, and the kinds that gain and lose a tile. Nothing is reserved: another worker may take it first."""
        answer = self._edition._accepted(self._answer(C.huz_peek))
        return Look(answer.serial, self._edition._cells(answer), answer.gain, answer.loss)

    def claim(self, serial: SupportsIndex, order: SupportsIndex, item: SupportsIndex) -> tuple[int, list[int]]:
        """a take: the serial is sold to this order number and item line, if it is the next one; the answer is the serial and its mix

        The item line is 1 for the only copy on an order, and has to be given: a second copy with the first one's item line is refused.
        """
        serial, order, item = _fits(serial, 64), _fits(order, 32), _fits(item, 8)
        return self._entered(self._answer(C.huz_claim_in, serial, order, item), serial=serial, order=order, item=item)

    def void(self, serial: SupportsIndex) -> tuple[int, list[int]]:
        """a spoil: the serial is written off, if it is the next one, and its line is 0 and 0; the answer is the serial and its mix"""
        serial = _fits(serial, 64)
        return self._entered(self._answer(C.huz_void_in, serial), serial=serial)

    def claim_all(self, serial: SupportsIndex, orders: Iterable[SupportsIndex], items: Iterable[SupportsIndex]) -> tuple[int, list[int]]:
        """a club order: consecutive serials from `serial` on, one for each of 1 to 40 order numbers with its item line, or nothing

        Where claims of these serials one after another would all be accepted, it does what they do, and the answer is the first serial and its mix.
        Else it is refused as the first of them that would fail, and no line is written. The order numbers and the item lines, as many of these, are
        any iterables of whole numbers; where there are more than 40 orders, or more item lines than orders, they are read no further than that shows.
        """
        serial = _fits(serial, 64)
        bundle = [_fits(order, 32) for order in islice(orders, _MOST_ORDERS + 1)]
        lines = [_fits(item, 8) for item in islice(items, len(bundle) + 1)]
        given = (c_uint32 * len(bundle))(*bundle), len(bundle), (c_uint8 * len(lines))(*lines), len(lines)
        answer = self._answer(C.huz_claim_all, serial, *given)
        return self._entered(answer, serial=serial, copies=len(bundle), past=1 <= serial <= self._edition.count,
                             **self._said_of(answer, serial, bundle, lines))

    def _said_of(self, answer: Any, serial: int, bundle: list[int], lines: list[int]) -> dict[str, Any]:
        """what a sentence about a refused bundle says besides"""
        if answer.number == Number.ORDER_STANDS_EARLIER:  # with the serial of a line, or with one that the bundle asked for
            twice = answer.detail >= serial
            orders, items, at = (bundle, lines, answer.detail - serial) if twice else (self._orders, self._items, answer.detail - 1)
            return {"twice": twice, "order": orders[at], "item": items[at]}
        if answer.number == Number.BUNDLE_LENGTH:
            uneven = ("more" if len(lines) > len(bundle) else "fewer") if 1 <= len(bundle) <= _MOST_ORDERS else ""
            return {"size": "more" if bundle else "none", "uneven": uneven}
        if answer.number == Number.CHECK_DIGIT:  # its first wrong one: the takes before it would have been accepted
            return {"order": next(order for order in bundle if not check_digit_ok(order))}
        if answer.number == Number.ITEM_LINE:  # likewise
            return {"item": next(item for item in lines if not 1 <= item <= _LAST_ITEM)}
        return {}

    def entries(self) -> list[Entry]:
        """the lines so far, that of serial 1 first: order number and item line, 0 and 0 for a spoilt one"""
        with self._lock:
            lines = C.huz_entries(self._ledger, *self._columns)
            return list(map(Entry, self._orders[:lines], self._items[:lines]))

    def _entered(self, answer: Any, **known: Any) -> tuple[int, list[int]]:
        """serial and mix of an answer, if it is none that refuses; known is what the call was given"""
        accepted = self._edition._accepted(answer, **known)
        return accepted.serial, self._edition._cells(accepted)

    def _answer(self, function: Callable[..., Any], *arguments: Any) -> Any:
        with self._lock:  # C is called without the interpreter's lock
            answer = function(self._ledger, *self._columns, *arguments)
            self._ledger = getattr(answer, "ledger", self._ledger)  # that of a bundle comes back; a lent one is updated where it lies
        return answer

"""Why a call is refused: the numbers with their names, and the exception. docs/REFUSALS.md has the table, and tests/refusals.py compares."""
from __future__ import annotations

from enum import IntEnum
from typing import Optional


class Number(IntEnum):
    """The number of an answer. `meaning` says what it means, `detail` what the detail is where it is not 0."""

    meaning: str
    detail: str

    def __new__(cls, number: int, meaning: str, detail: str = "") -> Number:
        member = int.__new__(cls, number)
        member._value_, member.meaning, member.detail = number, meaning, detail
        return member

    __str__ = int.__repr__  # a number in every version of Python

    ACCEPTED = 0, "the call is accepted"
    PARTS_OUT_OF_RANGE = 1, "the edition has no kinds, or more than 24"
    UPPER_OUT_OF_RANGE = 2, "a ceiling is over 60", "the first such kind, from 1"
    TOTAL_OUT_OF_RANGE = 3, "the total is over 255"
    TOTAL_ABOVE_SUM = 4, "the total is over the sum of the ceilings"
    COUNT_TOO_LARGE = 5, "the edition has more than 9,223,372,036,854,775,807 mixes"
    SERIAL_OUT_OF_RANGE = 6, "the serial is 0 or over the number of mixes, or a tray or a bundle runs past the last mix"
    COMPOSITION_LENGTH = 7, "the mix given does not have one count for each kind"
    NOT_A_COMPOSITION = 8, "a count of the mix given is over its ceiling, or their sum is not the total"
    NO_NEIGHBOUR = 9, "no mix follows the last, and none stands before the first"
    NOT_A_STAIRCASE = 10, "the edition is no puzzle edition: its ceilings are not k-1, .., 2, 1"
    NOT_A_PERMUTATION = 11, "the sheet order given is no permutation of 1 to k"
    INVERSIONS_NOT_TOTAL = 12, "the inversions of the sheet order given are not as many as the total"
    OUTPUT_LENGTH = 13, "the memory lent for the answer is not exactly as long as the answer"
    COUNT_ABOVE_MILLION = 14, "the edition has more than 1,000,000 mixes"
    COLUMN_TOO_SHORT = 15, "a column has fewer entries than the edition has mixes"
    LEDGER_INCONSISTENT = 16, "the record and the columns do not belong together"
    NO_ORDER = 17, "the order number is 0"
    ALREADY_WRITTEN = 18, "the serial is already written", "the order number on its line, 0 if it is spoilt"
    ABOVE_NEXT = 19, "the serial is above the next one", "the next serial"
    ORDER_STANDS_EARLIER = 20, "the order number stands earlier with this item line, on a line or in the bundle", "the lowest such serial"
    ALL_WRITTEN = 21, "every serial is written"
    NOT_A_REQUEST = 22, "the slip does not have the form that the listing program reads"
    MAJOR_INDEX_NOT_TOTAL = 23, "the major index of the sheet order given is not the total"
    BUNDLE_LENGTH = 24, "the bundle has no orders, or more than 40, or not as many item lines as orders"
    ITEM_LINE = 25, "the item line is 0 or over 99"
    CHECK_DIGIT = 26, "the digits of the order number, weighted 1, 3, 1, 3 and so on from the right, do not sum to a multiple of ten"


# What is said where the arguments of the call are known; for other numbers the meaning is said.
_SENTENCES = {
    Number.PARTS_OUT_OF_RANGE: "an edition has 1 to 24 kinds, and this one has {kinds}",
    Number.UPPER_OUT_OF_RANGE: "the ceiling of kind {detail} is {ceiling}, and a ceiling is 0 to 60",
    Number.TOTAL_OUT_OF_RANGE: "the total is {total}, and a total is 0 to 255",
    Number.TOTAL_ABOVE_SUM: "the total is {total}, and the ceilings sum up to {sum}",
    Number.SERIAL_OUT_OF_RANGE: "there is no serial {serial}: the edition has 1 to {count}",
    Number.COMPOSITION_LENGTH: "a mix of this edition has {kinds} counts, and {given} has {length}",
    Number.NOT_A_COMPOSITION: "{given} is no mix of this edition: a count is over its ceiling, or the sum is not {total}",
    Number.NO_NEIGHBOUR: "{given} is the {end} mix of the edition",
    Number.NOT_A_STAIRCASE: "only a puzzle edition has sheet orders, and these ceilings are not {kinds}, .., 2, 1",
    Number.NOT_A_PERMUTATION: "{given} is no permutation of 1 to {sheets}",
    Number.INVERSIONS_NOT_TOTAL: "{given} has another number of inversions than the total, {total}",
    Number.COUNT_ABOVE_MILLION: "the edition has {count} mixes, and a register has at most 1000000",
    Number.NO_ORDER: "an order number is not 0",
    Number.ALREADY_WRITTEN: "serial {serial} is already written, for order {detail}",
    Number.ABOVE_NEXT: "serial {serial} is above the next serial, {detail}",
    Number.ORDER_STANDS_EARLIER: "order {order}, item line {item}, already has serial {detail}",
    Number.MAJOR_INDEX_NOT_TOTAL: "{given} has another major index than the total, {total}",
    Number.BUNDLE_LENGTH: "a bundle has 1 to 40 orders, and this one has {size}",
    Number.ITEM_LINE: "an item line is 1 to 99, and this one is {item}",
    Number.CHECK_DIGIT: "order number {order} is mistyped: its check digit is wrong",
}


def sentence(number: Number, detail: int, known: dict[str, object]) -> str:
    """a refusal in plain words, with what is known of the call"""
    form = _SENTENCES.get(number, number.meaning)
    if number is Number.ALREADY_WRITTEN and detail == 0:
        form = "serial {serial} is already written, as spoilt"
    elif number is Number.SERIAL_OUT_OF_RANGE and known.get("past"):
        form = "{copies} copies from serial {serial} on run past the last serial, {count}"
    elif number is Number.ORDER_STANDS_EARLIER and known.get("twice"):
        form = "order {order}, item line {item}, stands twice in the bundle, first for serial {detail}"
    elif number is Number.BUNDLE_LENGTH and known.get("uneven"):
        form = "a bundle has an item line for each order, and this one has {uneven}"
    return form.format(detail=detail, **known)


class Refused(Exception):
    """A refused call: `number` (a `Number`, also an int), `detail` (0 where the number has none), and `text`, the same in plain words.

    It can be copied, pickled and so handed from one process to another.
    """

    number: Number
    detail: int
    text: str

    def __init__(self, number: int, detail: int = 0, text: Optional[str] = None) -> None:
        self.number, self.detail = Number(number), detail
        if text is None:
            text = self.number.meaning + (f" ({self.number.detail}: {detail})" if self.number.detail else "")
        self.text = text
        super().__init__(self.number, detail, text)  # what is pickled

    def __str__(self) -> str:
        return self.text

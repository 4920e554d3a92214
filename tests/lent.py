"""Memory lent to the engine, with guard bytes on both sides, and calls whose every lent byte is looked at afterwards."""
import ctypes
import os
import random
import sys
from array import array

sys.path.insert(0, os.path.join(os.path.dirname(os.path.abspath(__file__)), "..", "python"))
import huztiral  # noqa: E402

GUARD = 64
PATTERN = bytes(random.Random(20).randrange(1, 256) for _ in range(GUARD))
TYPES = {1: ctypes.c_uint8, 4: ctypes.c_uint32}
# the structures of the record, by the fields of include/huztiral.h
LEDGER = huztiral.FUNCTIONS["huz_peek"][1][0]
BOUNDS, CELLS = dict(LEDGER._fields_)["bounds"], dict(LEDGER._fields_)["next"]


class Lent:
    """a lent part: bytes, or 32-bit numbers where unit is 4"""

    def __init__(self, values, unit=1):
        body = bytes(values) if unit == 1 else array("I", values).tobytes()
        self.count, self.unit = len(body) // unit, unit
        self.whole = ctypes.create_string_buffer(PATTERN + body + PATTERN, len(body) + 2 * GUARD)
        self.pointer = ctypes.cast(ctypes.addressof(self.whole) + GUARD, ctypes.POINTER(TYPES[unit]))

    def passed(self):
        return self.pointer, self.count

    def holds(self, values):
        """the part has exactly these values, and the guards are whole"""
        body = bytes(values) if self.unit == 1 else array("I", values).tobytes()
        return self.whole.raw == PATTERN + body + PATTERN


class Null:
    """no memory at all, for an empty part"""
    count = 0

    def __init__(self, unit=1):
        self.pointer = ctypes.cast(None, ctypes.POINTER(TYPES[unit]))

    def passed(self):
        return self.pointer, 0

    def holds(self, values):
        return len(values) == 0


class LentRecord:
    """a lent record of the register, with guard bytes; what lies between its fields is filled too"""

    def __init__(self, ledger):
        self.whole = ctypes.create_string_buffer(PATTERN * 3, 2 * GUARD + ctypes.sizeof(ledger))
        ctypes.memmove(ctypes.addressof(self.whole) + GUARD + ctypes.sizeof(ledger), PATTERN, GUARD)
        self.ledger = LEDGER.from_buffer(self.whole, GUARD)
        self.write(ledger, self.ledger)

    def write(self, given, to):
        """field by field, so that no byte between two fields is written"""
        for name, _ in given._fields_:
            value = getattr(given, name)
            self.write(value, getattr(to, name)) if isinstance(value, ctypes.Structure) else setattr(to, name, value)

    def passed(self):
        return (self.ledger,)

    def raw(self):
        return self.whole.raw

    def holds(self, raw):
        """the guards are whole; with raw, every byte is as it was then"""
        now = self.raw()
        return now[:GUARD] == PATTERN and now[-GUARD:] == PATTERN and raw in (None, now)


def flat(answer):
    """the fields of a structure in their order, an array as a tuple"""
    if not isinstance(answer, ctypes.Structure):
        return (answer,)
    fields = []
    for name, _ in answer._fields_:
        value = getattr(answer, name)
        fields += flat(value) if isinstance(value, ctypes.Structure) else [tuple(value) if isinstance(value, ctypes.Array) else value]
    return tuple(fields)


def ledger_of(record):
    """a record of tests/reference.py as the C structure"""
    n, upper, total, lines, sold, spoilt, mix = record
    return LEDGER(BOUNDS(n, CELLS(*upper), total), lines, sold, spoilt, CELLS(*mix))


def called(name, *arguments):
    """the answer of a function of the C interface; a lent part is a pointer and a length there"""
    passed = []
    for a in arguments:
        passed += a.passed() if hasattr(a, "passed") else [a]
    return getattr(huztiral.C, name)(*passed)


def call(name, *arguments):
    """the same, flat"""
    return flat(called(name, *arguments))

"""The C interface, include/huztiral.h: its structures and functions under the same names and in the same order, and the library that has them."""
from __future__ import annotations

import ctypes
import os
import re
import subprocess
from ctypes import POINTER, Structure, c_bool, c_size_t, c_uint8, c_uint32, c_uint64
from typing import Any, Optional

TOP = os.path.dirname(os.path.dirname(os.path.dirname(os.path.abspath(__file__))))
HEADER = os.path.join(TOP, "include", "huztiral.h")
LIBRARY = os.path.join(TOP, "target", "shared", "libhuztiral.so")
CELLS = c_uint8 * 24


class Bounds(Structure):
    _fields_ = [("parts", c_size_t), ("upper", CELLS), ("total", c_uint32)]


class Ledger(Structure):
    _fields_ = [("bounds", Bounds), ("entries", c_uint64), ("sold", c_uint64), ("voided", c_uint64), ("next", CELLS)]


_NUMBER = [("number", c_uint32), ("detail", c_uint64)]
_ANSWER = [*_NUMBER, ("serial", c_uint64), ("composition", CELLS)]
_PAIR = [("gain", c_uint32), ("loss", c_uint32)]


class Done(Structure):
    _fields_ = _NUMBER


class Checked(Structure):
    _fields_ = [*_NUMBER, ("bounds", Bounds), ("count", c_uint64)]


class Ranked(Structure):
    _fields_ = [*_NUMBER, ("serial", c_uint64)]


class Stepped(Structure):
    _fields_ = [*_NUMBER, ("composition", CELLS), *_PAIR]


class Opened(Structure):
    _fields_ = [*_NUMBER, ("ledger", Ledger)]


class Peeked(Structure):
    _fields_ = [*_ANSWER, *_PAIR]


class Answer(Structure):
    _fields_ = _ANSWER


class Claimed(Structure):
    _fields_ = [*_ANSWER, ("ledger", Ledger)]


BYTES: list[Any] = [POINTER(c_uint8), c_size_t]
ORDERS: list[Any] = [POINTER(c_uint32), c_size_t]
COLUMNS = ORDERS + BYTES  # order numbers, and their item lines
EDITION: list[Any] = [*BYTES, c_uint32]
FUNCTIONS: dict[str, tuple[Any, list[Any]]] = {
    "huz_version": (c_uint32, []),
    "huz_check": (Checked, EDITION),
    "huz_rank": (Ranked, EDITION + BYTES),
    "huz_unrank": (Done, EDITION + [c_uint64] + BYTES),
    "huz_successor": (Stepped, EDITION + BYTES),
    "huz_predecessor": (Stepped, EDITION + BYTES),
    "huz_batch": (Done, EDITION + [c_uint64, c_uint64] + BYTES),
    "huz_listing": (Done, EDITION + BYTES),
    "huz_permutation": (Done, EDITION + BYTES + BYTES),
    "huz_inversions": (Done, EDITION + BYTES + BYTES),
    "huz_major_permutation": (Done, EDITION + BYTES + BYTES),
    "huz_major_code": (Done, EDITION + BYTES + BYTES),
    "huz_order_passes": (c_bool, [c_uint32]),
    "huz_open": (Opened, EDITION + COLUMNS),
    "huz_peek": (Peeked, [Ledger] + COLUMNS),
    "huz_claim": (Claimed, [Ledger] + COLUMNS + [c_uint64, c_uint32, c_uint8]),
    "huz_void": (Claimed, [Ledger] + COLUMNS + [c_uint64]),
    "huz_claim_all": (Claimed, [Ledger] + COLUMNS + [c_uint64] + COLUMNS),
    "huz_claim_in": (Answer, [POINTER(Ledger)] + COLUMNS + [c_uint64, c_uint32, c_uint8]),
    "huz_void_in": (Answer, [POINTER(Ledger)] + COLUMNS + [c_uint64]),
    "huz_entries": (c_uint64, [Ledger] + COLUMNS),
}


def _dotted(version: int) -> str:
    return f"{version // 10000}.{version // 100 % 100}.{version % 100}"


def version_of(library: ctypes.CDLL) -> str:
    """the version of a library, as 0.15.0"""
    return _dotted(library.huz_version())


def _version_of_header() -> str:
    with open(HEADER, encoding="utf-8") as header:
        said = re.search(r"^#define HUZ_VERSION (\d+)", header.read(), re.MULTILINE)
    if said is None:
        raise ImportError(f"{HEADER} has no HUZ_VERSION")
    return _dotted(int(said.group(1)))


def _built() -> str:
    """the path of the library in target/, which is built first where it is missing or older than a source"""
    try:
        subprocess.run([os.path.join(TOP, "scripts", "build"), "library"], check=True, stdin=subprocess.DEVNULL)
    except (OSError, subprocess.CalledProcessError) as error:
        raise ImportError(f"the engine of Huztiral could not be built in {TOP} (HUZTIRAL_LIBRARY may name one that is built): {error}") from error
    return LIBRARY


def load(path: Optional[str] = None) -> ctypes.CDLL:
    """the library with its functions typed: that of the path, of HUZTIRAL_LIBRARY, or the one in target/; ImportError where it is another version"""
    path = path or os.environ.get("HUZTIRAL_LIBRARY") or _built()
    try:
        library = ctypes.CDLL(path)
        for name, (answer, arguments) in FUNCTIONS.items():
            function = getattr(library, name)
            function.restype, function.argtypes = answer, arguments
    except (OSError, AttributeError) as error:
        raise ImportError(f"{path} is not the engine that {HEADER} is for: {error}") from error
    if version_of(library) != _version_of_header():
        raise ImportError(f"{path} has version {version_of(library)}, and {HEADER} has {_version_of_header()}")
    return library


C = load()

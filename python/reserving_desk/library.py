"""The library that `./build` makes, with its functions declared for ctypes as include/desk.h has them.

An installed package has the library inside; in the checkout it stands in target/lib.
"""

from __future__ import annotations

import ctypes
import os
from ctypes import POINTER, Array, Structure, c_char_p, c_int64, c_size_t, c_uint8, c_uint64, sizeof
from functools import lru_cache
from pathlib import Path
from typing import Any, Callable

VARIABLE = "RESERVING_DESK_LIBRARY"
IN_THE_PACKAGE = Path(__file__).resolve().with_name("libdesk.so")
IN_THE_CHECKOUT = Path(__file__).resolve().parents[2] / "target" / "lib" / "libdesk.so"

ROW_LENGTH = 31  # of the matrix, as the library keeps it

MOST_YEARS = 16  # accident years: so far apart are the marks of two parts among those of struck steps

# The fields of a session, in the order in which they are lent. All zero is the empty session.
SESSION_FIELDS: dict[str, type[Array[Any]]] = {
    "held": c_uint64 * 3,
    "own": c_uint64 * 31,
    "matrix": c_int64 * 961,
    "right_hand": c_int64 * 31,
    "mean": c_int64 * 31,
    "ticks": c_int64 * 303,
    "weights": c_uint64 * 77,
    "variances": c_uint64 * 31,
    "struck": c_uint8 * 496,
}
NARROW = {"struck": 1}  # the fields whose numbers have fewer than 8 bytes in the library, which tells how many numbers there are


class Refusal(Structure):
    """Number 0: the call did its job."""

    _fields_ = [("number", c_uint64), ("place", c_uint64)]


class Judged(Structure):
    _fields_ = [("refusal", Refusal), ("passed", c_uint64), ("part", c_uint64)]


class Swept(Structure):
    _fields_ = [("refusal", Refusal), ("settled", c_uint64), ("total", c_uint64)]


class Shown(Structure):
    _fields_ = [("refusal", Refusal), ("start", c_uint64), ("length", c_uint64)]


class Projected(Structure):
    _fields_ = [("refusal", Refusal), ("floor", c_int64), ("remainder", c_uint64), ("divisor", c_uint64)]


class System(Structure):
    """The figures of the open file: row k, column l of the matrix at 31·k + l."""

    _fields_ = [
        ("refusal", Refusal), ("last", c_uint64), ("closeness", c_uint64),
        ("own", c_uint64 * 31), ("matrix", c_int64 * 961), ("right_hand", c_int64 * 31),
    ]


SESSION: list[Any] = [POINTER(field) for field in SESSION_FIELDS.values()]
HELD = SESSION[:5]  # without the observations, which are open's, and another call's as far as it uses them
LATEST_FIELDS = ("ticks", "variances")
STEPS_FIELDS = ("ticks", "weights", "struck")
LATEST, STEPS = ([POINTER(SESSION_FIELDS[name]) for name in names] for names in (LATEST_FIELDS, STEPS_FIELDS))
LENT: list[Any] = [c_char_p, c_size_t]
BUFFER: list[Any] = [POINTER(c_uint8), c_size_t]

# By name: the answer and the parameters.
FUNCTIONS: dict[str, tuple[Any, list[Any]]] = {
    "desk_open_lent": (Refusal, SESSION + LENT),
    "desk_judge_lent": (Judged, HELD + LENT),
    "desk_residues_lent": (Refusal, HELD + STEPS + LENT + BUFFER),
    "desk_sweep_lent": (Swept, HELD + [c_uint64]),
    "desk_read_lent": (Refusal, HELD + BUFFER),
    "desk_page_lent": (Refusal, HELD + BUFFER),
    "desk_ultimate_lent": (Projected, HELD + LATEST + [c_uint64]),
    "desk_strike_lent": (Refusal, HELD + STEPS + [c_uint64] * 3),
    "desk_figures_lent": (System, HELD),
    "desk_row": (Shown, LENT + [c_uint64, c_uint64]),
    "desk_close_lent": (None, SESSION[:1]),
    "desk_size": (c_uint64, [c_uint64]),
}


class LibraryMissing(OSError):
    """The library is not there, or is not the desk's."""


class SizesDiffer(LibraryMissing):
    """The library is the desk's, and would read or write behind what this package lends it."""


def library_path() -> Path:
    """What the environment names; or the package's own library, or that of the checkout that the package stands in."""
    named = os.environ.get(VARIABLE)
    if named:
        return Path(named)
    return IN_THE_PACKAGE if IN_THE_PACKAGE.is_file() else IN_THE_CHECKOUT


@lru_cache(maxsize=None)
def load(path: Path) -> ctypes.CDLL:
    """The library with its functions declared."""
    if not path.is_file():
        raise LibraryMissing(f"no library {path}: run ./build in the checkout, install the package anew, or name the library in {VARIABLE}")
    try:
        library = ctypes.CDLL(str(path.resolve()))
    except OSError as error:
        raise LibraryMissing(f"{path} is not the desk's library: run ./build in the checkout ({error})") from error
    lacking = [name for name in FUNCTIONS if not hasattr(library, name)]
    if lacking:
        other = "not the desk's library" if len(lacking) == len(FUNCTIONS) else "a library of another version than this package"
        raise LibraryMissing(f"{path} is {other}: run ./build in the checkout (it has no {', '.join(lacking)})")
    for name, (answer, parameters) in FUNCTIONS.items():
        function = getattr(library, name)
        function.restype, function.argtypes = answer, parameters
    differences = _differences(library.desk_size)
    if differences:
        raise SizesDiffer(f"{path} is not the library of this package: {'; '.join(differences)}")
    return library


def _differences(size: Callable[[int], int]) -> list[str]:
    """Where the library keeps to other arrays than the package."""
    fields = [*((name, sizeof(field)) for name, field in SESSION_FIELDS.items()), ("what is behind them", 0)]
    told = [(name, NARROW.get(name, sizeof(c_uint64)) * size(place), here) for place, (name, here) in enumerate(fields)]
    return [f"{name} has {there} bytes there and {here} here" for name, there, here in told if there != here]

"""What a caller hands in: whole numbers, sequences and bytes, or an error that begins with the name of the argument."""

from __future__ import annotations

import reprlib
from collections.abc import Mapping
from operator import index
from typing import Any, SupportsIndex, Union

BytesLike = Union[bytes, bytearray, memoryview]
Buffer = Union[bytearray, memoryview]  # which a call writes into

TRUTH_VALUES = ("bool", "bool_")  # Python's and numpy's, by the names of their types


def wrong_type(name: str, wanted: str, given: object) -> TypeError:
    return TypeError(f"{name} must be {wanted}, not {shown(given)}")


def shown(given: object) -> str:
    """What was given, in short. It may be anything, and a repr that fails must not hide the error that is told."""
    try:
        return reprlib.repr(given)
    except Exception:
        return f"something of the type {type(given).__name__}"


def counted(count: int, thing: str) -> str:
    return f"{count:,} {thing}" if count == 1 else f"{count:,} {thing}s"


def whole(name: str, given: SupportsIndex) -> int:
    """A whole number, also one of numpy's. A truth value is none, though Python would count it as one."""
    if type(given).__name__ in TRUTH_VALUES:
        raise wrong_type(name, "a whole number", given)
    try:
        return index(given)
    except TypeError:
        raise wrong_type(name, "a whole number", given) from None


def not_negative(name: str, given: SupportsIndex) -> int:
    number = whole(name, given)
    if number < 0:
        raise ValueError(f"{name} must be at least 0, not {shown(number)}")
    return number


def within(name: str, given: SupportsIndex, low: int, high: int, because: str = "") -> int:
    """A whole number from low to high, limits that another argument may have set."""
    number = whole(name, given)
    if not low <= number <= high:
        raise ValueError(f"{name} must be from {low} to {high}{because}, not {shown(number)}")
    return number


def sequence(name: str, wanted: str, given: Any) -> tuple[Any, ...]:
    """The things of a list, a tuple or any other sequence. Text and bytes are none of numbers, nor is what gives its things once."""
    is_sequence = hasattr(given, "__getitem__") and hasattr(given, "__len__")
    if not is_sequence or isinstance(given, (str, bytes, bytearray, Mapping)):
        raise wrong_type(name, wanted, given)
    try:
        return tuple(given)
    except TypeError:  # an array of no dimension
        raise wrong_type(name, wanted, given) from None


def sequence_of(name: str, thing: str, given: Any, wanted: int) -> tuple[Any, ...]:
    """A sequence of so many things."""
    things = sequence(name, f"a sequence of {thing}s", given)
    if len(things) != wanted:
        raise ValueError(f"{name} must have {counted(wanted, thing)}, not {len(things)}")
    return things


def lent_bytes(name: str, given: BytesLike) -> bytes:
    """A copy, since another thread could change what is lent while the library reads it."""
    try:
        return memoryview(given).tobytes()
    except TypeError:
        raise wrong_type(name, "bytes, or a buffer of bytes", given) from None
    except (BufferError, ValueError) as error:  # a view that is released
        raise ValueError(f"{name} cannot be read: {error}") from None


def writable_view(name: str, given: Buffer) -> memoryview:
    """A view of the very buffer."""
    try:
        view = memoryview(given)
    except TypeError:
        raise wrong_type(name, "a buffer that can be written, as a bytearray", given) from None
    except (BufferError, ValueError) as error:
        raise ValueError(f"{name} cannot be written: {error}") from None
    if view.readonly:
        raise wrong_type(name, "a buffer that can be written, as a bytearray", given)
    if not view.c_contiguous:
        raise TypeError(f"{name} must be contiguous, not a view that leaves bytes out or turns them round")
    return view

"""Ticks and natural logarithms. Files are in ticks, of which a doubling has 1,048,576; papers use natural logarithms."""

from __future__ import annotations

from decimal import Decimal
from fractions import Fraction
from typing import Union

from .arguments import shown, whole, wrong_type

TICKS_PER_DOUBLING = 1 << 20  # T of the specification

Number = Union[int, float, str, Decimal, Fraction]  # a str such as "0.1393" is the very fraction 1393/10000


def _natural_log_of_two() -> Fraction:
    """Twice the area tangent of 1/3, cut off where less than 2^-128 is left."""
    return sum((Fraction(2, (2 * k + 1) * 3 ** (2 * k + 1)) for k in range(41)), Fraction(0))


TICKS_PER_UNIT = TICKS_PER_DOUBLING / _natural_log_of_two()  # of the natural logarithm


def squared_ticks(deviation: Number) -> int:
    """The variance in squared ticks, to the nearest, of a standard deviation in natural logarithms.

    It is never 0, which as the variance of a prior would mean no prior: one that is too small is at least 1, and the desk refuses it.
    """
    exact = _exact("deviation", deviation)
    if exact <= 0:
        raise ValueError(f"deviation must be above 0, not {shown(deviation)}")
    return max(1, round((exact * TICKS_PER_UNIT) ** 2))


def ticks(natural: Number) -> int:
    """A natural logarithm in ticks, to the nearest."""
    return round(_exact("natural", natural) * TICKS_PER_UNIT)


def natural_log(count: int) -> float:
    """The natural logarithm that so many ticks are."""
    number = whole("count", count)
    try:
        return float(number / TICKS_PER_UNIT)
    except OverflowError:
        raise ValueError(f"count must be a number that a float can hold, not one of {number.bit_length():,} bits") from None


def _exact(name: str, given: Number) -> Fraction:
    try:
        # A whole number of numpy's would count in 64 bits, and wrap.
        return Fraction(whole(name, given)) if hasattr(given, "__index__") else Fraction(given)
    except TypeError:
        raise wrong_type(name, "a number", given) from None
    except (ValueError, ArithmeticError):  # no number, or none that is finite
        raise ValueError(f"{name} must be a finite number, not {shown(given)}") from None

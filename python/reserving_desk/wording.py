"""Numbers in plain words: with commas, and ticks also as doublings or as standard deviations in natural logarithms."""

from __future__ import annotations

from decimal import Decimal
from math import sqrt

from .layout import Kind, Unit
from .scales import TICKS_PER_DOUBLING, natural_log

LONGEST_NUMBER = 128  # in bits; Python itself turns numbers of many thousand digits into no text


def number(value: int) -> str:
    return f"{value:,}" if value.bit_length() <= LONGEST_NUMBER else f"a number of {value.bit_length():,} bits"


def measured(value: int, unit: Unit) -> str:
    """As "5 squared ticks, a standard deviation of 0.0000015"."""
    if unit is Unit.TICKS:
        return f"{number(value)} ticks"
    if unit is Unit.LOGARITHM:
        return f"{number(value)} ticks, that is {doublings(value)} doublings"
    if unit is Unit.VARIANCE:
        return f"{number(value)} squared ticks, a standard deviation of {deviation(value)}"
    return number(value)


def limits(low: int, high: int, unit: Unit = Unit.NUMBER) -> str:
    """As "262,144 to 1,099,511,627,776, a standard deviation from 0.00034 to 0.69"."""
    figures = number(low) if low == high else f"{number(low)} to {number(high)}"
    if unit is Unit.TICKS:
        return f"{figures} ticks"
    if unit is Unit.LOGARITHM:
        return f"{doublings(low)} to {doublings(high)} doublings, that is {figures} ticks"
    if unit is Unit.VARIANCE:
        return f"{figures}, a standard deviation from {deviation(low)} to {deviation(high)}"
    return figures


def allowed(kind: Kind) -> str:
    """What the desk accepts in a field, as "1 to 17,592,186,044,416"."""
    return limits(*kind.limits, kind.unit) + (f", or 0 for {kind.zero}" if kind.zero else "")


def doublings(ticks: int) -> str:
    """To six places, which tell two numbers of ticks apart."""
    return f"{ticks / TICKS_PER_DOUBLING:,.6f}".rstrip("0").rstrip(".")


def deviation(variance: int) -> str:
    """The root of a variance in squared ticks, in natural logarithms, to two figures."""
    return f"{Decimal(f'{sqrt(variance) * natural_log(1):.1e}').normalize():,f}"

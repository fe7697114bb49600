"""How far logarithms are from the exact ones on average: cut off to whole ticks, and to the nearest as the specification has them.

A sum of many logarithms adds up what each is off by, so what counts is the mean. The exact logarithm is no whole number; it is held
between two numbers that are 2^-32 ticks apart, so every digit that is printed is certain.
"""

from fractions import Fraction
from random import Random

from layout import AMOUNT_LIMITS
from scales import TICKS_PER_DOUBLING, half_ticks, logarithm

DRAWN = 10_000
POWER_SQUARINGS = 52  # 20 of them for whole ticks
POWER_BITS = 128


def power_bounds(amount: int, squarings: int, bits: int = POWER_BITS) -> tuple[int, int, int]:
    """Whole numbers low, high, exponent: the amount squared so many times is from low*2^exponent to high*2^exponent.

    After each squaring the two are cut to so many bits, one down and the other up.
    """
    low, high, exponent = amount, amount, 0
    for _ in range(squarings):
        low, high, exponent = low * low, high * high, 2 * exponent
        cut = max(high.bit_length() - bits, 0)
        low, high, exponent = low >> cut, -(-high >> cut), exponent + cut
    return low, high, exponent


def exact_ticks(amount: int, bits: int = POWER_BITS) -> tuple[Fraction, Fraction]:
    """Two numbers between which the exact logarithm is, in ticks."""
    low, high, exponent = power_bounds(amount, POWER_SQUARINGS, bits)
    unit = Fraction(TICKS_PER_DOUBLING, 1 << POWER_SQUARINGS)
    return (exponent + low.bit_length() - 1) * unit, (exponent + high.bit_length()) * unit


def mean_errors(seed: int) -> tuple[Fraction, Fraction]:
    """Of amounts drawn from all that a file may have: the mean of L less the exact logarithm, L cut off and L to the nearest tick."""
    rng = Random(f"rounding {seed}")
    amounts = [rng.randint(*AMOUNT_LIMITS) for _ in range(DRAWN)]
    exact = sum(sum(exact_ticks(amount)) for amount in amounts) / 2
    cut = sum(half_ticks(amount) // 2 for amount in amounts)
    nearest = sum(map(logarithm, amounts))
    return (cut - exact) / DRAWN, (nearest - exact) / DRAWN

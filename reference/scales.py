"""Specification, "From amounts to the loss": the logarithm of an amount and the weight of a variance.

These are the only two formulas that turn one unit into another: an amount into ticks, a variance in
squared ticks into a weight. Everything here is in whole numbers.
"""

TICKS_PER_DOUBLING = 1 << 20  # T: a tick is 1/T of a doubling
SQUARINGS = 21  # one bit of the logarithm each, the last of them half a tick


def half_ticks(amount: int) -> int:
    """L' of an amount of at least 1: its logarithm in half ticks, cut off."""
    if amount < 1:
        raise ValueError(f"an amount is at least 1, not {amount}")
    whole = amount.bit_length() - 1
    # y is the amount as a 32-bit number from 2^31 on; an amount above 32 bits loses its lowest ones.
    y = amount << (31 - whole) if whole <= 31 else amount >> (whole - 31)
    bits = 0
    for _ in range(SQUARINGS):
        square = y * y
        bit = 1 if square >= 1 << 63 else 0
        y = square >> (31 + bit)
        bits = 2 * bits + bit
    return 2 * whole * TICKS_PER_DOUBLING + bits


def logarithm(amount: int) -> int:
    """Ticks L of an amount of at least 1, to the nearest, with 2^(2L) <= 2*amount^(2T) < 2^(2L+3)."""
    return (half_ticks(amount) + 1) // 2


def weight(variance: int) -> int:
    """2^46 over the variance, to the nearest whole number, halves up. A variance of 0 stands for no prior, and has no weight."""
    if variance < 0:
        raise ValueError(f"a variance is at least 0, not {variance}")
    return ((1 << 47) + variance) // (2 * variance) if variance else 0

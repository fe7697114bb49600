"""Files to try the desk on: File F of the specification, files at the limits, files hard to settle, drawn files."""

from collections.abc import Callable, Container, Iterator
from dataclasses import replace
from random import Random

import layout
from layout import (
    AMOUNT_LIMITS, CLOSENESS_LIMITS, FLAT, MEAN_LIMITS, PRIOR_VARIANCE_LIMITS, VARIANCE_LIMITS, File, Triangle,
)
from scales import TICKS_PER_DOUBLING as T
from strikes import Steps, columns_of

CLOSENESSES = (1, 2, 64, 256, 65_536)


def file_f(closeness: int = 1) -> File:
    """File F of the specification; with closeness 2 its other figure."""
    return File(
        last=1,
        closeness=closeness,
        sigma2=(1 << 30, 1 << 30),
        tau2=(1 << 30,),
        prior_means=(10 * T, T, -T),
        prior_variances=(1 << 46, 1 << 46, 1 << 46),
        paid=((1 << 10, 1 << 11), (1 << 10,)),
        incurred=((1 << 12, 1 << 11), (1 << 12,)),
    )


def logarithm_shown(amount: int, other: int) -> File:
    """J = 1, without priors: the right-hand side has 64 times the amount's logarithm twice, then that less 64 times the other's."""
    return File(
        last=1,
        closeness=1,
        sigma2=(1 << 40, 1 << 40),
        tau2=(1 << 40,),
        prior_means=(0, 0, 0),
        prior_variances=(FLAT, FLAT, FLAT),
        paid=((1, amount), (amount,)),
        incurred=((other, amount), (amount,)),
    )


def amounts_of(file: File) -> Iterator[int]:
    return (amount for triangle in (file.paid, file.incurred) for year in triangle for amount in year)


def filled_triangle(last: int, amount: Callable[[], int]) -> Triangle:
    return tuple(tuple(amount() for _ in range(last - year + 1)) for year in range(last + 1))


def with_same_end(file: File) -> File:
    """The file with year 0's last incurred amount made equal to its last paid one, as check 10 asks."""
    first = file.incurred[0][:-1] + file.paid[0][-1:]
    return replace(file, incurred=(first,) + file.incurred[1:])


def without_priors(file: File, parts: Container[int] | None = None) -> File:
    """The file with priors of no weight at these parts, or at all. Their means stay: the sweep starts there."""
    def kept(part: int, variance: int) -> int:
        return FLAT if parts is None or part in parts else variance

    return replace(file, prior_variances=tuple(kept(part, variance) for part, variance in enumerate(file.prior_variances)))


def file_at_limits(last: int, end: int) -> File:
    """Every field at its lowest (end 0) or highest (end 1) value."""
    parts = layout.parts_count(last)
    triangle = filled_triangle(last, lambda: AMOUNT_LIMITS[end])
    return File(
        last=last,
        closeness=CLOSENESS_LIMITS[end],
        sigma2=(VARIANCE_LIMITS[end],) * (last + 1),
        tau2=(VARIANCE_LIMITS[end],) * last,
        prior_means=(MEAN_LIMITS[end],) * parts,
        prior_variances=(PRIOR_VARIANCE_LIMITS[end],) * parts,
        paid=triangle,
        incurred=triangle,
    )


def largest_figures(last: int) -> File:
    """Every weight, every prior mean and every amount at its highest: no right-hand side is larger than phi 0's."""
    high = file_at_limits(last, 1)
    return replace(file_at_limits(last, 0), closeness=256, prior_means=high.prior_means, paid=high.paid, incurred=high.incurred)


def largest_steps(last: int) -> File:
    """The highest amount beside the lowest, in turn: every observation, up or down, is as large as one can be."""
    def in_turn(first: int, year: int) -> tuple[int, ...]:
        return tuple(AMOUNT_LIMITS[(first + column) % 2] for column in range(last - year + 1))

    paid = tuple(in_turn(1, year) for year in range(last + 1))
    incurred = tuple(in_turn(0, year) for year in range(1, last + 1))  # where paid is high, low; but for year 0, whose ends are equal
    return replace(largest_figures(last), paid=paid, incurred=paid[:1] + incurred)


def spent_at_a_limit(closeness: int = 1, sign: int = 1) -> File:
    """J = 1: phi 1 belongs near 71 doublings but is kept at 64, so its residue never comes near enough.

    psi 0 is held near 54 by a prior at 64 and an observation at 44, year 1 asks phi 1 for 44 more than psi 0,
    and phi 1's own observation is at 44: half of 98 and 44 is 71. With sign -1 all of it below zero.
    """
    low, high = AMOUNT_LIMITS[::sign]
    return File(
        last=1,
        closeness=closeness,
        sigma2=(1 << 30, 1 << 40),
        tau2=(1 << 18,),
        prior_means=(0, 0, sign << 26),
        prior_variances=(1 << 46, 1 << 46, 1 << 18),
        paid=((low, high), (low,)),
        incurred=((low, high), (high,)),
    )


def spent_without_priors(closeness: int = 1) -> File:
    """J = 2, no priors: phi 2 belongs at 88 doublings but is kept at 64, so its residue never comes near enough.

    phi 1 and psi 0 are held at -22 and 22, psi 1 at 44, by columns of far more weight. Phi 2's own observation is at 44, year 1 asks
    it for 44 more than psi 1, and year 2 for 44 more than psi 0 and psi 1 less phi 1: a third of 44, 88 and 132 is 88.
    """
    low, high = AMOUNT_LIMITS
    return File(
        last=2,
        closeness=closeness,
        sigma2=(1 << 40, 1 << 18, 1 << 40),
        tau2=(1 << 18, 1 << 18),
        prior_means=(0,) * 5,
        prior_variances=(FLAT,) * 5,
        paid=((high, low, high), (low, low), (low,)),
        incurred=((low, low, high), (low, high), (high,)),
    )


def many_sweeps(last: int = 15, closeness: int = 4) -> File:
    """The last phi and psi share every g and start far off together: each sweep goes only part of the way."""
    ones = filled_triangle(last, lambda: 1)
    return File(
        last=last,
        closeness=closeness,
        sigma2=(1 << 18,) * last + (1 << 40,),
        tau2=(1 << 18,) * (last - 1) + (1 << 40,),
        prior_means=(0,) * last + (1 << 26,) + (0,) * (last - 1) + (1 << 26,),
        prior_variances=(1 << 46,) * layout.parts_count(last),
        paid=ones,
        incurred=ones,
    )


def half_tick(offset: int) -> File:
    """J = 1: phi 0 is half a tick from its rest (its prior mean `offset` = 1 above or -1 below 10 doublings).

    Its prior has twice the weight of an observation, so its own equation is 4p*phi = 4p*10T + 2p*offset.
    Phi 1 and psi 0 start far off, so a sweep is run; the half above must stay and the half below must go up.
    """
    f = file_f()
    return replace(f, prior_means=(10 * T + offset, 0, 0), prior_variances=(1 << 29, 1 << 46, 1 << 46))


def at_the_prior(means: tuple[int, ...]) -> File:
    """Priors far stronger than the observations, and the widest closeness: any means of the priors pass as they are."""
    last, parts = len(means) // 2, len(means)
    ones = filled_triangle(last, lambda: AMOUNT_LIMITS[0])
    return File(
        last=last,
        closeness=CLOSENESS_LIMITS[1],
        sigma2=(VARIANCE_LIMITS[1],) * (last + 1),
        tau2=(VARIANCE_LIMITS[1],) * last,
        prior_means=means,
        prior_variances=(PRIOR_VARIANCE_LIMITS[0],) * parts,
        paid=ones,
        incurred=ones,
    )


def drawn_file(rng: Random, last: int | None = None) -> File:
    """An accepted file: mild, spread over all magnitudes, or made of the limits only."""
    last = rng.randint(1, 15) if last is None else last
    return with_same_end(rng.choice((mild_file, _spread_file, _extreme_file))(rng, last))


def drawn_flat_file(rng: Random, last: int | None = None) -> File:
    """A drawn file whose parts lack a prior: all of them, about half, or the first or the last alone."""
    file = drawn_file(rng, last)
    parts = range(layout.parts_count(file.last))
    half = [part for part in parts if rng.randrange(2)]
    return without_priors(file, rng.choice((parts, half, parts[:1], parts[-1:])))


def drawn_yen_file(rng: Random, last: int | None = None) -> File:
    """A mild file in a currency of small units: its largest amount is from about 2^41 to 2^44."""
    file = with_same_end(mild_file(rng, rng.randint(1, 15) if last is None else last))
    units = rng.randint(1 << 41, AMOUNT_LIMITS[1]) // max(amounts_of(file))

    def in_units(triangle: Triangle) -> Triangle:
        return tuple(tuple(units * amount for amount in year) for year in triangle)

    return replace(file, paid=in_units(file.paid), incurred=in_units(file.incurred))


def drawn_any_file(rng: Random, last: int | None = None) -> File:
    return rng.choice((drawn_file, drawn_flat_file, drawn_yen_file))(rng, last)


def drawn_strikes(rng: Random, last: int) -> Steps:
    """Few steps, about half of them, or all but one of each column; one of each, whichever it is, is left."""
    share = rng.choice((0.1, 0.5, 1.0))
    struck = set()
    for column in columns_of(last):
        kept = rng.choice(column)
        struck |= {step for step in column if step != kept and rng.random() < share}
    return frozenset(struck)


def mild_file(rng: Random, last: int) -> File:
    """Triangles that grow as a portfolio's do, deviations of some per cent."""
    def grown(columns: int) -> tuple[int, ...]:
        amounts = [rng.randint(500_000, 2_000_000)]
        for _ in range(columns - 1):
            amounts.append(amounts[-1] * rng.randint(900, 1_500) // 1_000)
        return tuple(amounts)

    parts = layout.parts_count(last)
    variances = tuple(rng.randint(1 << 20, 1 << 36) for _ in range(parts))
    return File(
        last=last,
        closeness=rng.choice(CLOSENESSES),
        sigma2=variances[:last + 1],
        tau2=variances[last + 1:],
        prior_means=tuple(rng.randint(-T, T) for _ in range(parts)),
        prior_variances=tuple(1 << rng.randint(40, 46) for _ in range(parts)),
        paid=tuple(grown(last - year + 1) for year in range(last + 1)),
        incurred=tuple(grown(last - year + 1) for year in range(last + 1)),
    )


def _spread_file(rng: Random, last: int) -> File:
    return _file_of(rng, last, lambda limits: _any_magnitude(rng, limits))


def _extreme_file(rng: Random, last: int) -> File:
    return _file_of(rng, last, rng.choice)


def _any_magnitude(rng: Random, limits: tuple[int, int]) -> int:
    low, high = limits
    if low < 0:
        return rng.randint(low, high)
    bits = rng.randint(low.bit_length(), high.bit_length())
    return min(max(rng.getrandbits(bits), low), high)


def _file_of(rng: Random, last: int, value: Callable[[tuple[int, int]], int]) -> File:
    parts = layout.parts_count(last)
    variances = tuple(value(VARIANCE_LIMITS) for _ in range(parts))
    return File(
        last=last,
        closeness=rng.choice(CLOSENESSES),
        sigma2=variances[:last + 1],
        tau2=variances[last + 1:],
        prior_means=tuple(value(MEAN_LIMITS) for _ in range(parts)),
        prior_variances=tuple(value(PRIOR_VARIANCE_LIMITS) for _ in range(parts)),
        paid=filled_triangle(last, lambda: value(AMOUNT_LIMITS)),
        incurred=filled_triangle(last, lambda: value(AMOUNT_LIMITS)),
    )

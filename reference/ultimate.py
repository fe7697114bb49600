"""Specification, "The central ultimate": that of an accident year, the mean of its logarithm by Theorem 2.4 of the paper."""

from collections.abc import Sequence
from dataclasses import dataclass

from layout import File
from scales import logarithm


@dataclass(frozen=True)
class Ultimate:
    """Exactly floor + remainder/divisor ticks; the remainder is from 0 to the divisor less 1."""

    floor: int
    remainder: int
    divisor: int


def ultimate_of(file: File, mean: Sequence[int], year: int) -> Ultimate:
    """Of a year from 1 to J. The more the payments to come vary, the more incurred counts, and the other way round."""
    last, latest = file.last, file.last - year
    phi, psi = mean[:last + 1], mean[last + 1:]
    sigma2, tau2 = sum(file.sigma2[latest + 1:]), sum(file.tau2[latest:])
    by_paid = logarithm(file.paid[year][latest]) + sum(phi[latest + 1:])
    by_incurred = logarithm(file.incurred[year][latest]) + sum(psi[latest:])
    divisor = sigma2 + tau2
    floor, remainder = divmod(tau2 * by_paid + sigma2 * by_incurred, divisor)  # rounded down, also below zero
    return Ultimate(floor, remainder, divisor)

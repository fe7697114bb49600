"""Specification, "From amounts to the loss": the loss itself and the distance, for whole and rational vectors.

The desk never works these out; what a passing mean is worth is stated in them, so the tests do. A rational
vector is u/m; its loss is stated times m^2, its distance to a mean times m^2 and times the sum of D: both are
whole numbers.
"""

from collections.abc import Iterator, Sequence
from typing import NamedTuple

from chain import Observations, Weights, observations_of, weights_of
from layout import INCURRED, PAID, File
from strikes import NONE, Step, Steps


class Square(NamedTuple):
    """One term of the loss: weight times (sum of coefficient times part, minus target) squared."""

    weight: int
    coefficients: dict[int, int]  # by part
    target: int

    def miss(self, u: Sequence[int], m: int) -> int:
        """How far u/m is from the target, times m."""
        return sum(coefficient * u[part] for part, coefficient in self.coefficients.items()) - m * self.target


def squares_of(file: File, struck: Steps = NONE) -> list[Square]:
    """The terms of the loss, in the order of the specification; a struck step has none."""
    weights, observations = weights_of(file), observations_of(file)
    return [
        *_own_squares(file.last, weights, observations, struck),
        *_shared_squares(file.last, weights, observations),
        *_prior_squares(file, weights),
    ]


def _own_squares(last: int, weights: Weights, observations: Observations, struck: Steps) -> Iterator[Square]:
    for i, row in enumerate(observations.x):
        for j, x in enumerate(row):
            if Step(PAID, i, j) not in struck:
                yield Square(weights.p[j], {j: 1}, x)
    for i, row in enumerate(observations.z):
        for j, z in enumerate(row):
            if Step(INCURRED, i, j) not in struck:
                yield Square(weights.q[j], {last + 1 + j: 1}, z)


def _shared_squares(last: int, weights: Weights, observations: Observations) -> Iterator[Square]:
    for year in range(1, last + 1):
        latest = last - year  # the last development year seen of this accident year
        phi = {m: 1 for m in range(latest + 1, last + 1)}
        psi = {last + 1 + n: -1 for n in range(latest, last)}
        yield Square(weights.g[latest], phi | psi, observations.y[year])


def _prior_squares(file: File, weights: Weights) -> Iterator[Square]:
    for part, (weight, mean) in enumerate(zip(weights.s + weights.t, file.prior_means)):
        yield Square(weight, {part: 1}, mean)


def loss_of(squares: Sequence[Square], u: Sequence[int], m: int = 1) -> int:
    """The loss of u/m times m^2."""
    return sum(square.weight * square.miss(u, m) ** 2 for square in squares)


def distance_of(own: Sequence[int], mean: Sequence[int], u: Sequence[int], m: int = 1) -> int:
    """The weighted mean square distance of the mean and u/m, times m^2 and times the sum of D."""
    return sum(weight * (part - m * whole) ** 2 for weight, whole, part in zip(own, mean, u))

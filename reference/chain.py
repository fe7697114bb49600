"""Specification, "From amounts to the loss", "The figures" and "The test": a file's figures, the residues, the test, one step, one sweep.

The parts of a vector are phi 0..J, then psi 0..J-1: part j is phi j, part J+1+j is psi j. The matrix is the
precision matrix of Theorem 3.4 of the paper; the solution for the right-hand side is the posterior
mean.
"""

from collections.abc import Sequence
from dataclasses import dataclass
from functools import lru_cache
from typing import NamedTuple

from layout import MEAN_LIMITS, PAID, File, Triangle
from scales import logarithm, weight
from strikes import NONE, Steps, left_of


@dataclass(frozen=True)
class Weights:
    """Weights of sigma^2, tau^2 and of the priors of phi and psi; g by DEVELOPMENT year 0..J-1."""

    p: tuple[int, ...]
    q: tuple[int, ...]
    s: tuple[int, ...]
    t: tuple[int, ...]
    g: tuple[int, ...]


@dataclass(frozen=True)
class Observations:
    """In ticks, by accident year i: x[i][j] of phi j, z[i][j] of psi j, y[i] of what is still to come.

    Accident year 0 is complete, so y[0] stands for nothing and is None.
    """

    x: Triangle
    z: Triangle
    y: tuple[int | None, ...]


class Seen(NamedTuple):
    """An observation of one part alone: an x of a phi, or a z of a psi."""

    part: int
    weight: int
    ticks: int


@dataclass(frozen=True)
class Figures:
    """What the calls need of an accepted file and its strikes, worked out once."""

    closeness: int
    own: tuple[int, ...]
    matrix: tuple[tuple[int, ...], ...]
    right_hand_side: tuple[int, ...]


def weights_of(file: File) -> Weights:
    last = file.last
    # g is the weight of the summed variance: rounded once, never made from weights rounded before.
    to_come = (sum(file.sigma2[k + 1:]) + sum(file.tau2[k:]) for k in range(last))
    prior = tuple(map(weight, file.prior_variances))
    return Weights(
        p=tuple(map(weight, file.sigma2)),
        q=tuple(map(weight, file.tau2)),
        s=prior[:last + 1],
        t=prior[last + 1:],
        g=tuple(map(weight, to_come)),
    )


@lru_cache(maxsize=16)  # the same with every strike
def observations_of(file: File) -> Observations:
    paid = tuple(tuple(map(logarithm, row)) for row in file.paid)
    incurred = tuple(tuple(map(logarithm, row)) for row in file.incurred)
    last_incurred_over_paid = tuple(incurred[i][-1] - paid[i][-1] for i in range(1, file.last + 1))
    return Observations(
        x=tuple(row[:1] + _differences(row) for row in paid),
        z=tuple(map(_differences, incurred)),
        y=(None,) + last_incurred_over_paid,
    )


def _differences(row: Sequence[int]) -> tuple[int, ...]:
    return tuple(after - before for before, after in zip(row, row[1:]))


def seen_of(file: File, weights: Weights, observations: Observations, struck: Steps) -> list[Seen]:
    """Each x and each z that is left, in the order of the steps."""
    seen = []
    for channel, year, column in left_of(file.last, struck):
        if channel == PAID:
            seen.append(Seen(column, weights.p[column], observations.x[year][column]))
        else:
            seen.append(Seen(file.last + 1 + column, weights.q[column], observations.z[year][column]))
    return seen


def own_weights_of(weights: Weights, seen: Sequence[Seen]) -> tuple[int, ...]:
    """D: the prior's weight and that of each observation of the part alone."""
    own = list(weights.s + weights.t)
    for one in seen:
        own[one.part] += one.weight
    return tuple(own)


def matrix_of(own: Sequence[int], g: tuple[int, ...]) -> tuple[tuple[int, ...], ...]:
    """D on the diagonal, and what two parts share."""
    return tuple(row[:k] + (own[k] + row[k],) + row[k + 1:] for k, row in enumerate(shares_of(g)))


@lru_cache(maxsize=16)  # the same with every strike
def shares_of(g: tuple[int, ...]) -> tuple[tuple[int, ...], ...]:
    """By row and column: the g of the ratios y that two parts have in common, taken off between a phi and a psi."""
    last = len(g)

    def shared(k: int) -> int:
        """The sum of g_i for i <= k; nothing for k = -1, which is how phi 0 shares in no g."""
        return sum(g[:k + 1])

    def entry(row: int, column: int) -> int:
        if row <= last and column <= last:
            return shared(min(row, column) - 1)
        if row > last and column > last:
            return shared(min(row, column) - (last + 1))
        phi, psi = min(row, column), max(row, column) - (last + 1)
        return -shared(min(phi - 1, psi))

    parts = range(2 * last + 1)
    return tuple(tuple(entry(row, column) for column in parts) for row in parts)


def right_hand_side_of(file: File, weights: Weights, seen: Sequence[Seen], y: Sequence[int | None]) -> tuple[int, ...]:
    last = file.last
    right = [prior * mean for prior, mean in zip(weights.s + weights.t, file.prior_means)]
    for one in seen:
        right[one.part] += one.weight * one.ticks

    def to_come(first_year: int) -> int:
        return sum(weights.g[last - i] * y[i] for i in range(first_year, last + 1))

    for j in range(last + 1):
        right[j] += to_come(last - j + 1)
    for j in range(last):
        # The sum starts at J-j, as the proof of Theorem 3.4 has it, not at J-1 as the theorem reads.
        right[last + 1 + j] -= to_come(last - j)
    return tuple(right)


def figures_of(file: File, struck: Steps = NONE) -> Figures:
    """Of the observations that are left. The ratios y and their weights g stay: a strike takes out a step, and no amount."""
    weights, observations = weights_of(file), observations_of(file)
    seen = seen_of(file, weights, observations, struck)
    own = own_weights_of(weights, seen)
    return Figures(
        closeness=file.closeness,
        own=own,
        matrix=matrix_of(own, weights.g),
        right_hand_side=right_hand_side_of(file, weights, seen, observations.y),
    )


def residues_of(figures: Figures, u: Sequence[int], m: int = 1) -> list[int]:
    """A times the vector minus the right-hand side; for the rational vector u/m stated times m."""
    return [
        sum(entry * part for entry, part in zip(row, u)) - m * right
        for row, right in zip(figures.matrix, figures.right_hand_side)
    ]


def first_failing_part(figures: Figures, residues: Sequence[int]) -> int | None:
    """The first part with |residue| > e*D; None if the mean passes."""
    for part, (residue, own) in enumerate(zip(residues, figures.own)):
        if abs(residue) > figures.closeness * own:
            return part
    return None


def step(figures: Figures, mean: list[int], residues: list[int], part: int) -> None:
    """Change one part of the working mean; its residues follow by the part's column times the change."""
    column = figures.matrix[part]  # the matrix is symmetric: this row is also the column
    diagonal = column[part]
    wanted = mean[part] + (diagonal - 2 * residues[part]) // (2 * diagonal)
    inside = min(max(wanted, MEAN_LIMITS[0]), MEAN_LIMITS[1])
    change = inside - mean[part]
    if change != 0:
        mean[part] = inside
        residues[:] = [residue + entry * change for residue, entry in zip(residues, column)]


def sweep_once(figures: Figures, mean: list[int], residues: list[int]) -> None:
    for part in range(len(mean)):
        step(figures, mean, residues, part)

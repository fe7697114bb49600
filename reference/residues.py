"""Specification, "Residues by observations": weight times difference, added up; no matrix is formed.

Each observation and each prior is looked at once. What it is off by, times its weight, goes to every part that stands in it, with the
sign that the part has there.
"""

from collections.abc import Sequence

from chain import Observations, Weights, observations_of, seen_of, weights_of
from layout import File, parts_count
from strikes import Steps

BYTES = 8  # of one residue


def residues_length(last: int) -> int:
    return BYTES * parts_count(last)


def build_residues(residues: Sequence[int]) -> bytes:
    return b"".join(residue.to_bytes(BYTES, "big", signed=True) for residue in residues)


def by_observations(file: File, struck: Steps, mean: Sequence[int]) -> list[int]:
    """Of the loss without the struck steps. A prior of no weight adds nothing, wherever its mean is."""
    weights, observations = weights_of(file), observations_of(file)
    found = [weight * (part - prior) for weight, part, prior in zip(weights.s + weights.t, mean, file.prior_means)]
    for part, weight, ticks in seen_of(file, weights, observations, struck):
        found[part] += weight * (mean[part] - ticks)
    _add_ratios(found, weights, observations, mean)
    return found


def _add_ratios(found: list[int], weights: Weights, observations: Observations, mean: Sequence[int]) -> None:
    """The ratio of a year is about all that is still to come of it: each phi counts in full, and each psi is taken off."""
    last = len(mean) // 2
    phi, psi = mean[:last + 1], mean[last + 1:]
    for year in range(1, last + 1):
        latest = last - year  # the last development year seen of this accident year
        off = weights.g[latest] * (sum(phi[latest + 1:]) - sum(psi[latest:]) - observations.y[year])
        for m in range(latest + 1, last + 1):
            found[m] += off
        for n in range(latest, last):
            found[last + 1 + n] -= off

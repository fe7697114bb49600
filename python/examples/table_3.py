"""The reserves of the paper's Table 3, last column, from its Tables 2, 10 and 11: `python3 python/examples/table_3.py`.

The desk settles the posterior mean, and gives each accident year's central ultimate by it, exact as a logarithm: `exp` of that is a
median. Formula (3.7) of the paper gives the expected ultimate, in floats. Of both what is paid already goes off, and what is left is
printed beside the paper's figure.
"""

import sys
from collections.abc import Sequence
from math import exp, log
from pathlib import Path

ROOT = Path(__file__).resolve().parents[2]
sys.path[1:1] = [str(ROOT / "python"), str(ROOT / "reference")]

from paper import INCURRED, PAID, RESERVES, RESERVES_TOTAL, SIGMA, TAU  # the tables, and nothing else of the reference
from reserving_desk import Mean, Session, Ultimate, file_of, natural_log, squared_ticks

LAST = len(PAID) - 1  # J
CLOSENESS = 256  # in ticks: the sample's
WHY = (
    "left is below reserve, and so differs from Table 3: "
    "the mean of a log-normal is above its median, and prediction error is left out"
)

# Table 2 prints deviations in units of 0.0001; here they are variances of natural logarithms.
SIGMA_SQUARED = [(deviation / 10_000) ** 2 for deviation in SIGMA]
TAU_SQUARED = [(deviation / 10_000) ** 2 for deviation in TAU]


def tables_file() -> bytes:
    return file_of(
        PAID,
        INCURRED,
        sigma_squared=[squared_ticks(f"{deviation}e-4") for deviation in SIGMA],
        tau_squared=[squared_ticks(f"{deviation}e-4") for deviation in TAU],
        phi_priors=[None] * (LAST + 1),  # the paper's example has no priors
        psi_priors=[None] * LAST,
        closeness=CLOSENESS,
    )


def settled(file: bytes) -> tuple[Mean, list[Ultimate]]:
    """The mean, and by it the central ultimate of each accident year but 0, which is closed."""
    with Session() as desk:
        desk.open(file)
        while not desk.sweep(1).settled:  # Refused, with number 23, if 4,096 sweeps are not enough
            pass
        return desk.read(), [desk.ultimate(year) for year in range(1, LAST + 1)]


def to_come(year: int, phi: float, psi: float) -> list[float]:
    """A vector with `phi` and `psi` at the parts that the accident year has still to come, and 0 elsewhere."""
    latest = LAST - year
    return [0.0] * (latest + 1) + [phi] * year + [0.0] * latest + [psi] * year


def variances_to_come(year: int) -> tuple[float, float]:
    latest = LAST - year
    return sum(SIGMA_SQUARED[latest + 1:]), sum(TAU_SQUARED[latest:])


def precision_matrix() -> list[list[float]]:
    """Theorem 3.4 with priors of no weight, observation by observation: its precision times the square of its direction."""
    own = [(LAST - j + 1) / variance for j, variance in enumerate(SIGMA_SQUARED)]
    own += [(LAST - j) / variance for j, variance in enumerate(TAU_SQUARED)]
    matrix = [[weight * (row == column) for column in range(len(own))] for row, weight in enumerate(own)]
    for year in range(1, LAST + 1):  # incurred over paid, which tells of phi less psi to come
        direction = to_come(year, 1.0, -1.0)
        for row, a in enumerate(direction):
            for column, b in enumerate(direction):
                matrix[row][column] += a * b / sum(variances_to_come(year))
    return matrix


def solved(matrix: Sequence[Sequence[float]], right: Sequence[float]) -> list[float]:
    """By elimination; the matrix is positive definite, so no row needs to be exchanged."""
    rows = [[*row, value] for row, value in zip(matrix, right)]
    for k, pivot_row in enumerate(rows):
        for other in range(len(rows)):
            factor = rows[other][k] / pivot_row[k]
            if other != k and factor:
                rows[other] = [entry - factor * above for entry, above in zip(rows[other], pivot_row)]
    return [row[-1] / row[k] for k, row in enumerate(rows)]


def product(a: Sequence[float], b: Sequence[float]) -> float:
    return sum(x * y for x, y in zip(a, b))


def expected_ultimate(mean: Mean, year: int) -> float:
    """Formula (3.7)."""
    sigma_squared, tau_squared = variances_to_come(year)
    beta = sigma_squared / (sigma_squared + tau_squared)
    direction = to_come(year, 1 - beta, beta)  # e_i of the paper
    seen = (1 - beta) * log(PAID[year][-1]) + beta * log(INCURRED[year][-1])
    expected = product(direction, [natural_log(part) for part in mean.parts])
    posterior_variance = product(direction, solved(precision_matrix(), direction))
    return exp(seen + expected + (1 - beta) * sigma_squared / 2 + posterior_variance / 2)


def main() -> None:
    mean, ultimates = settled(tables_file())
    paid = [PAID[year][-1] for year in range(1, LAST + 1)]
    central = [exp(ultimate.natural_log) for ultimate in ultimates]
    reserves = [expected_ultimate(mean, year) - PAID[year][-1] for year in range(1, LAST + 1)]
    rows = [(str(year), *row) for year, row in enumerate(zip(paid, central, reserves, RESERVES), start=1)]
    print(f"{'year':>5} {'paid':>12} {'central':>12} {'left':>12} {'reserve':>12} {'Table 3':>12} {'apart':>9}")
    for year, already, median, reserve, printed in rows + [("total", sum(paid), sum(central), sum(reserves), RESERVES_TOTAL)]:
        apart = 100 * (reserve - printed) / printed
        print(f"{year:>5} {already:12,} {median:12,.0f} {median - already:12,.0f} {reserve:12,.0f} {printed:12,} {apart:8.4f}%")
    print(WHY)


if __name__ == "__main__":
    main()

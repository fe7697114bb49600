"""What an actuary would run instead: the same chain in floats, with numpy's matrix and solve.

    python3 bench/numpy_chain.py ROUNDS FILE..    a line for each round and file: J, nanoseconds of the figures and of the solve

The triangles are arrays already; no file is read or checked, and nothing is promised of what comes out.
"""

import sys
from pathlib import Path
from time import perf_counter_ns

import numpy as np

sys.path.insert(1, str(Path(__file__).resolve().parents[1] / "reference"))

from layout import File, read_file
from scales import TICKS_PER_DOUBLING

RUNS = 200  # in a round


def arrays_of(file: File) -> dict[str, np.ndarray]:
    """The two triangles as squares with NaN behind the last diagonal, and the variances and priors."""
    size = file.last + 1

    def square(triangle: tuple[tuple[int, ...], ...]) -> np.ndarray:
        full = np.full((size, size), np.nan)
        for year, row in enumerate(triangle):
            full[year, :len(row)] = row
        return full

    return {
        "paid": square(file.paid),
        "incurred": square(file.incurred),
        "sigma2": np.array(file.sigma2, dtype=float),
        "tau2": np.array(file.tau2, dtype=float),
        "prior_means": np.array(file.prior_means, dtype=float),
        "prior_variances": np.array([variance or np.inf for variance in file.prior_variances]),  # which of no prior is 0
    }


def figures(given: dict[str, np.ndarray]) -> tuple[np.ndarray, np.ndarray]:
    """Precision matrix and right-hand side of Theorem 3.4, with a column for each part."""
    last = len(given["tau2"])
    paid, incurred = (np.log2(given[name]) * TICKS_PER_DOUBLING for name in ("paid", "incurred"))
    of_each = (paid[:, :1], np.diff(paid, axis=1), np.diff(incurred, axis=1))
    steps = np.concatenate([np.nansum(column, axis=0) for column in of_each])
    counts = np.concatenate([np.arange(last + 1, 0, -1), np.arange(last, 0, -1)])
    variances = np.concatenate([given["sigma2"], given["tau2"]])
    to_come = np.cumsum((given["sigma2"][1:] + given["tau2"])[::-1])[::-1]  # by development year
    years = np.arange(last, 0, -1)  # the accident year whose last amount is of development year 0, 1, ...
    ratios = incurred[years, np.arange(last)] - paid[years, np.arange(last)]
    development = np.arange(last)[:, None]
    directions = np.hstack([np.arange(last + 1)[None, :] > development, -1.0 * (np.arange(last)[None, :] >= development)])
    matrix = np.diag(1 / given["prior_variances"] + counts / variances) + (directions.T / to_come) @ directions
    right_hand = given["prior_means"] / given["prior_variances"] + steps / variances + directions.T @ (ratios / to_come)
    return matrix, right_hand


def main() -> None:
    rounds, paths = int(sys.argv[1]), sys.argv[2:]
    for path in paths:
        file = read_file(Path(path).read_bytes())
        given = arrays_of(file)
        for _ in range(rounds):
            start = perf_counter_ns()
            for _ in range(RUNS):
                matrix, right_hand = figures(given)
            built = perf_counter_ns()
            for _ in range(RUNS):
                np.linalg.solve(matrix, right_hand)
            print(file.last, (built - start) / RUNS, (perf_counter_ns() - built) / RUNS, sep="\t")


if __name__ == "__main__":
    main()

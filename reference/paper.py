"""The paper: its Tables 2, 3, 10 and 11, the file they make, and the reserves by formula (3.7).

The outside check: the desk's settled mean of Tables 10 and 11 gives the last column of Table 3. The file is
made in whole numbers; only the reserves are worked out in floats.
"""

from fractions import Fraction
from math import exp, log

import chain
import layout
import session
from layout import File, Triangle
from scales import TICKS_PER_DOUBLING

TICK = log(2) / TICKS_PER_DOUBLING  # in natural logarithms

# Table 2, in units of 0.0001 and of natural logarithms.
SIGMA = (1393, 650, 731, 640, 264, 271, 405, 227, 494, 227)
TAU = (633, 459, 415, 122, 83, 17, 19, 11, 6)

# Table 3, last column: the reserves of accident years 1 to 9 from payments and incurred losses together.
RESERVES = (337_799, 31_686, 331_890, 1_018_308, 1_104_816, 1_842_669, 1_953_767, 1_602_229, 2_402_946)
RESERVES_TOTAL = 10_626_108

# Table 10: cumulative payments.
PAID: Triangle = (
    (1216632, 1347072, 1786877, 2281606, 2656224, 2909307, 3283388, 3587549, 3754403, 3921258),
    (798924, 1051912, 1215785, 1349939, 1655312, 1926210, 2132833, 2287311, 2567056),
    (1115636, 1387387, 1930867, 2177002, 2513171, 2931930, 3047368, 3182511),
    (1052161, 1321206, 1700132, 1971303, 2298349, 2645113, 3003425),
    (808864, 1029523, 1229626, 1590338, 1842662, 2150351),
    (1016862, 1251420, 1698052, 2105143, 2385339),
    (948312, 1108791, 1315524, 1487577),
    (917530, 1082426, 1484405),
    (1001238, 1376124),
    (841930,),
)

# Table 11: incurred losses.
INCURRED: Triangle = (
    (3362115, 5217243, 4754900, 4381677, 4136883, 4094140, 4018736, 3971591, 3941391, 3921258),
    (2640443, 4643860, 3869954, 3248558, 3102002, 3019980, 2976064, 2946941, 2919955),
    (2879697, 4785531, 4045448, 3467822, 3377540, 3341934, 3283928, 3257827),
    (2933345, 5299146, 4451963, 3700809, 3553391, 3469505, 3413921),
    (2768181, 4658933, 3936455, 3512735, 3385129, 3298998),
    (3228439, 5271304, 4484946, 3798384, 3702427),
    (2927033, 5067768, 4066526, 3704113),
    (3083429, 4790944, 4408097),
    (2761163, 4132757),
    (3045376,),
)


def natural_log_of_two() -> Fraction:
    """The sum of 1/(k 2^k), cut off where what is left is below 2^-100."""
    return sum((Fraction(1, k << k) for k in range(1, 101)), Fraction(0))


def squared_ticks(deviation: Fraction) -> int:
    """The variance in squared ticks of a standard deviation in natural logarithms, to the nearest."""
    ticks = deviation * TICKS_PER_DOUBLING / natural_log_of_two()
    return round(ticks * ticks)


def tables_file(closeness: int, prior_variance: int = layout.FLAT) -> File:
    """Tables 10 and 11 with the deviations of Table 2: the paper's own example, whose priors weigh nothing."""
    last = len(PAID) - 1
    parts = layout.parts_count(last)
    return File(
        last=last,
        closeness=closeness,
        sigma2=tuple(squared_ticks(Fraction(deviation, 10_000)) for deviation in SIGMA),
        tau2=tuple(squared_ticks(Fraction(deviation, 10_000)) for deviation in TAU),
        prior_means=(0,) * parts,
        prior_variances=(prior_variance,) * parts,
        paid=PAID,
        incurred=INCURRED,
    )


def resting_file() -> File:
    """The tables at closeness 1 with priors of weight 2: the sweeps come to rest at a mean that does not pass."""
    return tables_file(1, prior_variance=1 << 45)


def settled_mean(file: File) -> tuple[int, ...]:
    _, state = session.open_file(session.EMPTY, layout.build_file(file))
    answer, state = session.sweep(state, session.MOST_SWEEPS)
    if not isinstance(answer, session.Settled):
        raise ValueError("the mean of this file does not settle")
    return state.mean


def reserves(file: File, mean: tuple[int, ...]) -> list[float]:
    """Formula (3.7) less what is paid, of accident years 1 to J."""
    covariance = inverse(chain.figures_of(file).matrix)
    return [_ultimate(file, mean, covariance, year) - file.paid[year][-1] for year in range(1, file.last + 1)]


def _ultimate(file: File, mean: tuple[int, ...], covariance: list[list[float]], year: int) -> float:
    shares = direction(file, year)
    beta = shares[-1]
    to_come = TICK * sum(share * part for share, part in zip(shares, mean))
    seen = (1 - beta) * log(file.paid[year][-1]) + beta * log(file.incurred[year][-1])
    return exp(seen + to_come + logarithm_variance(file, covariance, year) / 2)


def logarithm_variance(file: File, covariance: list[list[float]], year: int) -> float:
    """Of the logarithm of a year's ultimate."""
    shares = direction(file, year)
    sigma2 = TICK**2 * sum(file.sigma2[file.last - year + 1:])
    # A weight is 2^46 over squared ticks, so the matrix's inverse is a covariance in 2^46 squared ticks.
    posterior_variance = 2**46 * TICK**2 * _quadratic_form(covariance, shares)
    return (1 - shares[-1]) * sigma2 + posterior_variance


def direction(file: File, year: int) -> list[float]:
    """e_i of the paper: 1 - beta at the phi still to come, beta at the psi still to come."""
    latest = file.last - year
    sigma2, tau2 = sum(file.sigma2[latest + 1:]), sum(file.tau2[latest:])
    beta = sigma2 / (sigma2 + tau2)
    return [0.0] * (latest + 1) + [1 - beta] * year + [0.0] * latest + [beta] * year


def _quadratic_form(matrix: list[list[float]], vector: list[float]) -> float:
    return sum(a * entry * b for a, row in zip(vector, matrix) for b, entry in zip(vector, row))


def inverse(matrix: tuple[tuple[int, ...], ...]) -> list[list[float]]:
    """By elimination. The matrix is positive definite, so no row needs to be exchanged."""
    size = len(matrix)
    unit = [[float(row == column) for column in range(size)] for row in range(size)]
    rows = [[*map(float, row), *beside] for row, beside in zip(matrix, unit)]
    for k in range(size):
        pivot = rows[k][k]
        rows[k] = [entry / pivot for entry in rows[k]]
        for other in range(size):
            factor = rows[other][k]
            if other != k and factor != 0.0:
                rows[other] = [entry - factor * above for entry, above in zip(rows[other], rows[k])]
    return [row[size:] for row in rows]

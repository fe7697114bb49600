"""Scripts of calls that ask for ultimates, by name. Each starts and ends with nothing open."""

from collections.abc import Iterable, Iterator
from dataclasses import replace
from random import Random

import paper
import samples
from call_bytes import CLOSE, FIGURES, LARGEST_NUMBER, call_judge, call_open, call_page, call_read, call_sweep, call_ultimate
from layout import (
    AMOUNT_LIMITS, CLOSENESS_LIMITS, LARGEST_YEAR, MEAN_LIMITS, VARIANCE_LIMITS, File, Triangle, build_file, build_record, parts_count,
    record_length,
)
from page import page_length
from scales import TICKS_PER_DOUBLING as T

LEAST, MOST = VARIANCE_LIMITS
LOWEST, HIGHEST = MEAN_LIMITS
ENDS = (1, LARGEST_YEAR)  # of J
SAME_SIGNS, OTHER_SIGNS = ((1, 1), (-1, -1)), ((1, -1), (-1, 1))  # of the phi, and of the psi

# What is expected by paid and by incurred, in ticks. With N = M + 1 the numerator is a multiple of N + M, or 1 beside one; or a power of
# two, or 1 beside it: the first of these with M = 2^18, the others with N = 2^40.
MULTIPLES = ((0, 0), (1, 1), (-1, -1), (7, 7), (-7, -7))
BESIDE_MULTIPLES = ((1, -1), (-1, 1), (2, 0), (-2, 0), (0, 2), (0, -2))
AROUND_2_32 = ((1 << 14, 0), ((1 << 14) + 1, -1), ((1 << 14) - 1, 1))
AROUND_2_63 = ((0, 1 << 23), (1, (1 << 23) - 1), (-1, (1 << 23) + 1))
AROUND_2_64 = ((0, 1 << 24), (1, (1 << 24) - 1), (-1, (1 << 24) + 1))


def scripts() -> dict[str, bytes]:
    scenes: dict[str, Iterable[Iterator[bytes]]] = {
        "ultimate-years": (settled(settling(last)) for last in range(1, LARGEST_YEAR + 1)),
        "ultimate-drawn": (settled(at_drawn_priors(last)) for last in (1, 2, 5, LARGEST_YEAR)),
        "ultimate-limits": (settled(at_the_limits(last, *signs)) for last in ENDS for signs in SAME_SIGNS + OTHER_SIGNS),
        "ultimate-lopsided": (settled(file) for last in ENDS for file in lopsided(last)),
        "ultimate-remainders": (at_once(file) for file in (*greatest_remainders(), *around_multiples(), *around_powers())),
        "ultimate-refusals": (nothing_open(), not_passing(), year_outside(), nothing_open()),
        "ultimate-sessions": sessions(),
    }
    return {name: b"".join(call for scene in found for call in scene) for name, found in scenes.items()}


# Scenes.


def settled(file: File) -> Iterator[bytes]:
    """One file, swept until its mean passes: every year, those beside the first and the last, and the largest number."""
    yield from (call_open(build_file(file)), call_sweep(4_096), *years_and_beside(file), call_ultimate(LARGEST_NUMBER), CLOSE)


def years_and_beside(file: File) -> Iterator[bytes]:
    return map(call_ultimate, range(file.last + 2))


def at_once(file: File) -> Iterator[bytes]:
    """One file whose prior means pass: every year, and no sweep."""
    yield from (call_open(build_file(file)), *map(call_ultimate, range(1, file.last + 1)), CLOSE)


def nothing_open() -> Iterator[bytes]:
    """21, also where 25 would refuse: in an empty session, behind a refused open, and behind a close."""
    asked = [*map(call_ultimate, (1, 0, LARGEST_NUMBER))]
    yield from (*asked, call_open(b""), *asked, call_open(build_file(samples.file_f())), CLOSE, *asked)


def not_passing() -> Iterator[bytes]:
    """24, also where 25 would refuse: before the sweeps, between them, and when all are run; one of the files settles in the end."""
    for file in (samples.many_sweeps(2), samples.spent_at_a_limit(), samples.spent_without_priors()):
        asked = (*years_and_beside(file), call_ultimate(LARGEST_NUMBER))
        yield from (call_open(build_file(file)), *asked, call_sweep(1), *asked, call_sweep(4_096), *asked, call_sweep(1), CLOSE)


def year_outside() -> Iterator[bytes]:
    """25, also where the low bytes alone would be a year of the file."""
    outside = (0, 2, 15, 16, 255, 256, 257, (1 << 16) + 1, (1 << 31) + 1, (1 << 32) - 255, LARGEST_NUMBER)
    yield from (call_open(build_file(samples.file_f())), *map(call_ultimate, outside), call_ultimate(1), CLOSE)


def sessions() -> Iterator[Iterator[bytes]]:
    """F, files that settle at once, by sweeps and without priors, and the paper's example: beside the other calls, and between sweeps."""
    for file in (samples.file_f(), held_loosely(), samples.many_sweeps(2), samples.without_priors(settling(4)), paper.tables_file(256)):
        yield beside_other_calls(file)
    yield between_sweeps(paper.tables_file(1), (1, 1, 2, 3, 1, 4_096))
    yield between_sweeps(samples.many_sweeps(3), (1, 2, 3, 5, 8, 13))


def beside_other_calls(file: File) -> Iterator[bytes]:
    """All of it twice: no call changes what another answers, now that the mean has settled."""
    last = file.last
    yield from (call_open(build_file(file)), call_sweep(4_096))
    for _ in range(2):
        yield from (call_ultimate(1), call_read(record_length(last)), call_ultimate(last), call_page(page_length(last)), call_ultimate(1))
        yield from (call_judge(build_record(file.prior_means)), call_ultimate(last + 1), call_sweep(1), call_ultimate(1))
        yield from (FIGURES, call_ultimate(1)) if last == 1 else ()  # those of a larger J are long
    yield CLOSE


def between_sweeps(file: File, counts: Iterable[int]) -> Iterator[bytes]:
    """Refused until a mean passes; from then on the answers are those of a session that was swept in one call."""
    yield call_open(build_file(file))
    for count in counts:
        yield from (call_sweep(count), call_ultimate(1), call_ultimate(file.last))
    yield from (*years_and_beside(file), CLOSE, *settled(file))


# Files.


def settling(last: int) -> File:
    """A portfolio whose mean is found by sweeps."""
    return replace(samples.with_same_end(samples.mild_file(Random(f"settling {last}"), last)), closeness=256)


def at_drawn_priors(last: int) -> File:
    """Any means and any amounts; variances at which the priors still weigh far more than the observations, so that their means pass."""
    rng = Random(f"priors {last}")
    means = tuple(rng.randint(*MEAN_LIMITS) for _ in range(parts_count(last)))
    variances = tuple(rng.randint(MOST >> 2, MOST) for _ in means)

    def amounts() -> Triangle:
        return samples.filled_triangle(last, lambda: max(rng.randint(*AMOUNT_LIMITS) >> rng.randrange(44), AMOUNT_LIMITS[0]))

    file = replace(samples.at_the_prior(means), sigma2=variances[:last + 1], tau2=variances[last + 1:])
    return samples.with_same_end(replace(file, paid=amounts(), incurred=amounts()))


def at_the_limits(last: int, of_phi: int, of_psi: int) -> File:
    """The highest variances, every mean at a limit by its sign, and every amount too; the means pass as they are.

    No numerator is greater than that of year 15 with J = 15 and both signs positive: twice 15·2^40·(44T + 15·2^26), or 30,120·2^60. None
    is less than with both negative: twice -15·2^40·15·2^26, or -28,800·2^60. With one of each, two products of such sizes nearly cancel.
    """
    def amounts(sign: int) -> Triangle:
        return samples.filled_triangle(last, lambda: AMOUNT_LIMITS[sign > 0])

    file = samples.at_the_prior((of_phi << 26,) * (last + 1) + (of_psi << 26,) * last)
    return samples.with_same_end(replace(file, paid=amounts(of_phi), incurred=amounts(of_psi)))


def lopsided(last: int) -> Iterator[File]:
    """The same with N tiny beside M, or M beside N.

    Steps that vary so little hold their part near them against the prior: with J = 15 the phi add up to 152 doublings, and not to 960.
    """
    for signs in SAME_SIGNS:
        yield replace(at_the_limits(last, *signs), sigma2=(LEAST,) * (last + 1))
    for signs in OTHER_SIGNS:
        yield replace(at_the_limits(last, *signs), tau2=(LEAST,) * last)


def greatest_remainders() -> Iterator[File]:
    """At the limits but for one variance, less by 1, and one part, off by 2: each year leaves N + M - 1, with J = 15 up to 30·2^40 - 2."""
    for last in ENDS:
        above, below = (at_the_limits(last, *signs) for signs in SAME_SIGNS)
        tau2 = above.tau2[:-1] + (MOST - 1,)
        yield replace(above, tau2=tau2, prior_means=above.prior_means[:-1] + (HIGHEST - 2,))
        yield replace(below, tau2=tau2, prior_means=(LOWEST,) * last + (LOWEST + 2,) + (LOWEST,) * last)


def around_multiples() -> Iterator[File]:
    """With small variances, with large ones, and with these and means next to their limits."""
    for sides in MULTIPLES + BESIDE_MULTIPLES:
        yield from (one_year(LEAST + 1, LEAST, *sides), one_year(MOST, MOST - 1, *sides))
    for start in (LOWEST + 2, HIGHEST - 2):
        for by_paid, by_incurred in MULTIPLES[:1] + BESIDE_MULTIPLES:
            yield one_year(MOST, MOST - 1, start + by_paid, start + by_incurred)


def around_powers() -> Iterator[File]:
    for sign in (1, -1):
        for by_paid, by_incurred in AROUND_2_32:
            yield one_year(LEAST + 1, LEAST, sign * by_paid, sign * by_incurred)
        for by_paid, by_incurred in AROUND_2_63 + AROUND_2_64:
            yield one_year(MOST, MOST - 1, sign * by_paid, sign * by_incurred)


def one_year(sigma2: int, tau2: int, by_paid: int, by_incurred: int) -> File:
    """J = 1, with N and M as given. All amounts are 1, of logarithm 0, so what is expected by paid and by incurred are the means."""
    return replace(samples.at_the_prior((0, by_paid, by_incurred)), sigma2=(LEAST, sigma2), tau2=(tau2,))


def held_loosely() -> File:
    """F with the widest closeness, at which prior means pass that a sweep would move."""
    return replace(samples.file_f(CLOSENESS_LIMITS[1]), prior_means=(10 * T + 5, T + 9, -T - 4))

"""Scripts of calls that ask for residues, by name. Each starts and ends with nothing open."""

from collections.abc import Iterable, Iterator
from dataclasses import replace
from random import Random

import layout
import paper
import samples
import session
from call_bytes import CLOSE, FIGURES, call_judge, call_open, call_read, call_residues, call_strike, call_sweep
from damage import SPOIL_RECORD, pairs_of_spoils, put
from layout import (
    AMOUNT_LIMITS, FLAT, INCURRED, LARGEST_YEAR, MEAN_LIMITS, PAID, File, Triangle, build_file, build_record, parts_count, record_length,
)
from residues import residues_length
from scales import TICKS_PER_DOUBLING as T
from strikes import Step, Steps, columns_of
from vectors_drawn import swept
from vectors_ultimate import settling

LOWEST, HIGHEST = MEAN_LIMITS
ENDS = (1, LARGEST_YEAR)  # of J
FEW_YEARS = 3  # up to which J the figures are short
X_00 = Step(PAID, 0, 0)
Mean = tuple[int, ...]


def scripts() -> dict[str, bytes]:
    scenes: dict[str, Iterable[Iterator[bytes]]] = {
        "residues-of-document": (of_document(),),
        "residues-years": (around_its_size(settling(last)) for last in range(1, LARGEST_YEAR + 1)),
        "residues-zero": (agreed(last) for last in (1, 2, 3, LARGEST_YEAR)),
        "residues-greatest": at_the_limits(),
        "residues-struck": (one_by_one(file) for file in (samples.file_f(), settling(FEW_YEARS), samples.largest_steps(4))),
        "residues-flat": (without_its_prior(file) for file in without_priors()),
        "residues-refusals": (nothing_open(), *map(refused, ENDS), two_at_once(), other_years(), nothing_open()),
        "residues-sessions": sessions(),
    }
    return {name: b"".join(call for scene in found for call in scene) for name, found in scenes.items()}


def every_part() -> Iterator[bytes]:
    """Too long to be kept: each part of each J moved by one tick, and strikes down to one step of each column."""
    for last in range(1, LARGEST_YEAR + 1):
        mean = mean_agreed(last)
        yield from (call_open(build_file(agreeing(last))), *asked_of(moved(mean, part, 1) for part in range(len(mean))), CLOSE)
        yield from one_by_one(settling(last))


# Scenes.


def of_document() -> Iterator[bytes]:
    """F: means of the specification, each refusal where 13 would refuse too, 13, and the same means without x_(0,0)."""
    means = [build_record(mean) for mean in ((10 * T, T, -T), (10 * T + 1, T, -T), (10 * T, T + 1, -T), (0, 0, 0))]
    asked = [call_residues(mean, residues_length(1)) for mean in means]
    refused = [call_residues(spoil(means[0]), 0) for spoil in SPOIL_RECORD.values()]
    yield from (call_residues(b"", 0), call_open(build_file(samples.file_f())), *refused, call_residues(means[0], 23), *asked)
    yield from (call_strike(*X_00), *asked, call_sweep(1), CLOSE, asked[0])


def asked_of(means: Iterable[Mean]) -> Iterator[bytes]:
    return (call_residues(build_record(mean), residues_length(len(mean) // 2)) for mean in means)


def around_its_size(file: File) -> Iterator[bytes]:
    """One J: any mean in buffers one byte short and one byte longer, and with a step out of each channel just long enough."""
    rng, last = Random(f"residues {file.last}"), file.last
    record, size = build_record(any_mean(rng, last)), residues_length(last)
    struck = (Step(PAID, rng.randint(0, last), 0), *((Step(INCURRED, rng.randint(0, last - 2), 1),) if last > 2 else ()))
    yield from (call_open(build_file(file)), call_residues(record, size - 1), call_residues(record, size + 1))
    yield from (*(call_strike(*step) for step in struck), call_residues(record, size), CLOSE)


def agreed(last: int) -> Iterator[bytes]:
    """Every observation agrees with the mean: no residue, with the steps and without.

    Where a part of it is moved by one tick the residues are a column of the matrix, which is shown beside them where it is short.
    """
    mean = mean_agreed(last)
    parts = range(len(mean)) if last <= FEW_YEARS else (0, last, last + 1, 2 * last)
    shown = (FIGURES,) if last <= FEW_YEARS else ()
    yield from (call_open(build_file(agreeing(last))), *asked_of((mean, *(moved(mean, part, 1) for part in parts))), *shown)
    yield from (call_strike(*step) for step in sorted(one_of_each_column(Random(f"agreed {last}"), last)))
    yield from (*asked_of((mean, *(moved(mean, part, -1) for part in parts[:2]))), *shown, CLOSE)


def at_the_limits() -> Iterator[Iterator[bytes]]:
    """The shortest file with both signs, with priors and without; of the longest the ratios with one, as the other is as great."""
    for sign in (1, -1):
        for file in (first_steps_against(1, sign), ratios_against(1, sign)):
            yield from (against(file, sign), against(samples.without_priors(file), sign))
        yield against(first_steps_against(LARGEST_YEAR, sign), sign)
    yield against(ratios_against(LARGEST_YEAR, 1), 1)


def against(file: File, sign: int) -> Iterator[bytes]:
    """Observations and priors all pull one way: a mean that is as far as can be the other way, with the steps and with x_(0,0) out."""
    (asked,) = asked_of([mean_against(file.last, sign)])
    yield from (call_open(build_file(file)), asked, call_strike(*X_00), asked, CLOSE)


def one_by_one(file: File) -> Iterator[bytes]:
    """Strikes down to one step of each column, each behind the other; refused ones change nothing, and a close forgets them all."""
    rng, lent = Random(f"one by one {file.last}"), build_file(file)
    steps = [step for column in columns_of(file.last) for step in rng.sample(column, len(column) - 1)]
    (asked,) = asked_of([any_mean(rng, file.last)])
    rng.shuffle(steps)
    yield from (call_open(lent), asked)
    for step in steps:
        yield from (call_strike(*step), asked)
    yield from (*(call_strike(*step) for step in (steps[0], (0, 0, file.last), (2, 0, 0))), asked, CLOSE, call_open(lent), asked, CLOSE)


def without_its_prior(file: File) -> Iterator[bytes]:
    """Where its prior mean is counts for nothing: the residues are those of the same file with the opposite one."""
    opposite = tuple(
        -mean if variance == FLAT else mean for mean, variance in zip(file.prior_means, file.prior_variances, strict=True)
    )
    asked = [*asked_of((file.prior_means, any_mean(Random(f"flat {file.last}"), file.last)))]
    yield from (call_open(build_file(file)), *asked, call_strike(*X_00), asked[1], CLOSE)
    yield from (call_open(build_file(replace(file, prior_means=opposite))), *asked, CLOSE)


def nothing_open() -> Iterator[bytes]:
    """21, also where a record's refusals or 13 would refuse: in an empty session, behind a refused open, and behind a close."""
    good = build_record((0, 0, 0))
    asked = [call_residues(*lent) for lent in ((good, 24), (good, 23), (b"", 24), (b"", 0), (SPOIL_RECORD[11](good), 0))]
    yield from (*asked, call_open(b""), *asked, call_open(build_file(samples.file_f())), CLOSE, *asked)


def refused(last: int) -> Iterator[bytes]:
    """1, 2, 4 and 11 before 13 and with room enough, 11 at the first and at the last part; then 13. The buffer is as it was lent."""
    none, size, ends = (0,) * parts_count(last), residues_length(last), (0, parts_count(last) - 1)
    good = build_record(none)
    yield call_open(build_file(settling(last)))
    for number in (1, 2, 4):
        yield from (call_residues(SPOIL_RECORD[number](good), length) for length in (0, size))
    yield from (call_residues(record, 0) for record in (b"", layout.with_length(b""), layout.with_length(good[4:5]), good[:-1]))
    for part, limit in zip(ends, MEAN_LIMITS):
        yield from asked_of([moved(none, part, limit)])
        for value in (LOWEST - 1, HIGHEST + 1, -(1 << 31), (1 << 31) - 1):
            yield call_residues(put(good, layout.part_place(part), value, 4), 0)
        yield call_residues(put(good, layout.part_place(part), HIGHEST + 1, 4), size)
    both = put(put(good, layout.part_place(ends[1]), LOWEST - 1, 4), layout.part_place(1), HIGHEST + 1, 4)
    yield from (call_residues(both, size), *(call_residues(good, length) for length in (0, 1, 7, 8, size - 8, size - 1, size)), CLOSE)


def two_at_once() -> Iterator[bytes]:
    """Of a record's refusals the first, in buffers that are too short and long enough."""
    good = build_record((0,) * parts_count(2))
    yield call_open(build_file(settling(2)))
    for _, _, record in pairs_of_spoils(good, SPOIL_RECORD):
        yield from (call_residues(record, 39), call_residues(record, 40))
    yield CLOSE


def other_years() -> Iterator[bytes]:
    """4: records of another J, before 13 and with room enough for this J."""
    yield call_open(build_file(settling(FEW_YEARS)))
    for other in (1, 2, 4, 5, LARGEST_YEAR):
        record = build_record((0,) * parts_count(other))
        yield from (call_residues(record, 0), call_residues(record, residues_length(FEW_YEARS)))
    yield CLOSE


def sessions() -> Iterator[Iterator[bytes]]:
    """F, files that settle by sweeps, with priors and without, one that never does, and the paper's example."""
    for file in (samples.file_f(), samples.many_sweeps(2), samples.spent_at_a_limit(), samples.without_priors(settling(2))):
        yield between_sweeps(file, (1, session.MOST_SWEEPS))
    yield between_sweeps(paper.tables_file(256), (2, session.MOST_SWEEPS))


def between_sweeps(file: File, counts: Iterable[int]) -> Iterator[bytes]:
    """By its own record those of the mean that is held, and those of others; the calls before it answer the same behind it."""
    last, total, struck = file.last, 0, frozenset([X_00])
    others = [*asked_of((file.prior_means, any_mean(Random(f"others {last}"), last))), call_residues(b"", 1)]
    shown = (FIGURES,) if last <= FEW_YEARS else ()
    yield call_open(build_file(file))
    for count in counts:
        total += count
        mean = swept(file, min(total, session.MOST_SWEEPS))
        beside = (call_judge(build_record(mean)), call_read(record_length(last)), *shown)
        yield from (call_sweep(count), *beside, *asked_of([mean]), *others, *beside)
        shown = ()
    yield from (call_sweep(1), call_strike(*X_00), *asked_of([swept(file, 1)]), call_sweep(1), *asked_of([swept(file, 1, struck)]), CLOSE)


# Means, steps and files.


def any_mean(rng: Random, last: int) -> Mean:
    return tuple(rng.randint(LOWEST, HIGHEST) for _ in range(parts_count(last)))


def moved(mean: Mean, part: int, ticks: int) -> Mean:
    return mean[:part] + (mean[part] + ticks,) + mean[part + 1:]


def one_of_each_column(rng: Random, last: int) -> Steps:
    """Of each that has another."""
    return frozenset(rng.choice(column) for column in columns_of(last) if len(column) > 1)


def without_priors() -> Iterator[File]:
    """All parts, some, and all of a file at its limits."""
    yield from (samples.without_priors(samples.file_f()), samples.without_priors(settling(FEW_YEARS)))
    yield from (samples.without_priors(settling(4), (1, 4, 5, 7)), samples.without_priors(first_steps_against(6, 1)))


def mean_agreed(last: int) -> Mean:
    return (10 * T,) + (T,) * last + (-T,) * last


def agreeing(last: int) -> File:
    """Every observation agrees with the mean above, and every prior; each column varies in its own way, and some parts lack a prior."""
    rng, parts = Random(f"agreeing {last}"), parts_count(last)
    variances = tuple(rng.randint(1 << 28, 1 << 33) for _ in range(parts))
    return File(
        last=last,
        closeness=1,
        sigma2=variances[:last + 1],
        tau2=variances[last + 1:],
        prior_means=mean_agreed(last),
        prior_variances=tuple(rng.choice((FLAT, rng.randint(1 << 33, 1 << 36))) for _ in range(parts)),
        paid=tuple(tuple(1 << 10 + j for j in range(last - i + 1)) for i in range(last + 1)),
        incurred=tuple(tuple(1 << 10 + 2 * last - j for j in range(last - i + 1)) for i in range(last + 1)),
    )


def mean_against(last: int, sign: int) -> Mean:
    """Phi 0 against the others: no first payment is below a logarithm of 0."""
    return (-sign << 26,) + (sign << 26,) * last + (-sign << 26,) * last


def first_steps_against(last: int, sign: int) -> File:
    """Each prior mean opposite to the mean above; the highest amount and the lowest in turn, so that the first steps are opposite too.

    With J = 15 and sign 1 no residue is greater in size than that of phi 0: 2^28·(2·2^26) for the prior and 16·2^28·(2^26 + 44T) for the
    steps, which is 29·2^54, below zero. Of those above zero none is greater than that of phi 1, nor of those of a psi below zero than that
    of psi 0: 2^28·(2·2^26) + 15·2^28·(2^26 + 44T) + g_0·(30·2^26 + 44T), or 28.3·2^54. With sign -1 phi 1 and psi 0 change signs, and phi 0
    has 18·2^54.
    """
    high, low = AMOUNT_LIMITS[::-sign]

    def in_turn(pair: tuple[int, int], year: int) -> tuple[int, ...]:
        return tuple(pair[column % 2] for column in range(last - year + 1))

    paid, incurred = (tuple(in_turn(pair, year) for year in range(last + 1)) for pair in ((high, low), (low, high)))
    return _against(last, sign, paid, incurred)


def ratios_against(last: int, sign: int) -> File:
    """The same with each latest ratio opposite: of phi J, with one step and all ratios, the residue is as great as it can be, 19.8·2^54."""
    high, low = AMOUNT_LIMITS[::-sign]

    def ends_in(pair: tuple[int, int], year: int) -> tuple[int, ...]:
        """The last of the pair where the row ends, and in turn before it."""
        return tuple(pair[1 - (last - year - column) % 2] for column in range(last - year + 1))

    paid = (ends_in((high, low), 0), *(ends_in((low, high), year) for year in range(1, last + 1)))
    incurred = tuple(ends_in((high, low), year) for year in range(last + 1))
    return _against(last, sign, paid, incurred)


def _against(last: int, sign: int, paid: Triangle, incurred: Triangle) -> File:
    prior_means = tuple(-part for part in mean_against(last, sign))
    return samples.with_same_end(replace(samples.file_at_limits(last, 0), prior_means=prior_means, paid=paid, incurred=incurred))

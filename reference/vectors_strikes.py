"""Scripts of calls that strike out steps, by name. Each starts and ends with nothing open."""

from collections.abc import Iterable, Iterator
from dataclasses import replace
from random import Random

import paper
import samples
import session
from call_bytes import (
    CLOSE, FIGURES, LARGEST_NUMBER, call_judge, call_open, call_page, call_read, call_strike, call_sweep, call_ultimate,
)
from layout import FLAT, INCURRED, LARGEST_YEAR, PAID, File, build_file, build_record, record_length
from page import page_length
from scales import TICKS_PER_DOUBLING as T
from strikes import Step, columns_of, steps_of
from vectors_drawn import swept
from vectors_ultimate import settling

ENDS = (1, LARGEST_YEAR)  # of J
FEW_YEARS = 3  # up to which J the figures are short
X_00 = Step(PAID, 0, 0)

# Past the limits, far past them, and such that the low bytes or a sum that wraps would be inside.
FAR = (255, 256, 257, 1 << 16, (1 << 16) + 1, 1 << 31, (1 << 31) + 1, LARGEST_NUMBER - 1, LARGEST_NUMBER)
CHANNELS = (2, 3, 15, 16, *FAR)


def scripts() -> dict[str, bytes]:
    scenes: dict[str, Iterable[Iterator[bytes]]] = {
        "strike-corners": (alone(settling(last), step) for last in (1, 2, 3, LARGEST_YEAR) for step in corners(last)),
        "strike-each": (figures_without(settling(last), step) for last in range(1, FEW_YEARS + 1) for step in steps_of(last)),
        "strike-columns": (down_to_one(settling(last), figures=True) for last in range(1, LARGEST_YEAR + 1)),
        "strike-borders": (borders(last) for last in range(1, LARGEST_YEAR + 1)),
        "strike-limits": (down_to_one(file, figures=file.last == 1) for file in at_the_limits()),
        "strike-flat": (down_to_one(file, figures=file.last <= FEW_YEARS) for file in without_priors()),
        "strike-refusals": (nothing_open(), no_such_channel(), far_outside(), struck_already(), nothing_changed(), nothing_open()),
        "strike-judged": judgements(),
        "strike-sessions": sessions(),
    }
    return {name: b"".join(call for scene in found for call in scene) for name, found in scenes.items()}


def every_strike() -> Iterator[bytes]:
    """Too long to be kept: each step of each J, struck alone, and the figures that are left."""
    for last in range(1, LARGEST_YEAR + 1):
        file = settling(last)
        for step in steps_of(last):
            yield from figures_without(file, step)


# Scenes.


def of_document() -> Iterator[bytes]:
    """F without x_(0,0): each refusal where those behind it would refuse too, figures and means; then F as it was."""
    f = build_file(samples.file_f())
    means = [build_record((10 * T + more, T, -T)) for more in (0, 1, 2)]
    yield from (call_strike(2, 2, 2), call_open(f), call_strike(2, 2, 2), call_strike(1, 1, 0), call_strike(1, 0, 0), call_strike(*X_00))
    yield from (FIGURES, *map(call_judge, means), call_sweep(1), *held(1), call_strike(*X_00), call_strike(0, 1, 0), *held(1), CLOSE)
    yield from (call_open(f), FIGURES, *map(call_judge, means), call_strike(0, 1, 0), FIGURES, CLOSE)


def held(last: int) -> Iterator[bytes]:
    """What is to be had of the mean that is held."""
    yield from (call_read(record_length(last)), call_page(page_length(last)), *map(call_ultimate, range(1, last + 1)))


def figures_without(file: File, step: Step) -> Iterator[bytes]:
    yield from (call_open(build_file(file)), call_strike(*step), FIGURES, CLOSE)


def alone(file: File, step: Step) -> Iterator[bytes]:
    """One step struck, or refused where it is the only one of its column; the session to its end, and the other calls."""
    yield from (call_open(build_file(file)), call_strike(*step), call_sweep(session.MOST_SWEEPS), *held(file.last))
    yield from (call_strike(*step), CLOSE)


def down_to_one(file: File, figures: bool) -> Iterator[bytes]:
    """All but one step of each column in any order; then that one, refused with 27, and one that is out, refused with 26."""
    rng, columns = Random(f"left {file.last}"), columns_of(file.last)
    left = {rng.choice(column) for column in columns}
    struck = [step for column in columns for step in column if step not in left]
    rng.shuffle(struck)
    yield call_open(build_file(file))
    yield from (call_strike(*step) for step in struck)
    yield from (call_strike(*step) for step in (*sorted(left), *struck[:1], *struck[-1:]))
    yield from (FIGURES,) if figures else ()
    yield from (call_sweep(session.MOST_SWEEPS), *held(file.last), CLOSE)


def borders(last: int) -> Iterator[bytes]:
    """The last step of each accident year, of which those of year 0 are alone in their columns, and the cell behind it: 26."""
    file = settling(last)
    yield call_open(build_file(file))
    for channel, border in ((PAID, last), (INCURRED, last - 1)):
        yield from (call_strike(channel, year, border - year) for year in range(border + 1))
        yield from (call_strike(channel, year, border + 1 - year) for year in range(border + 2))
    yield from (FIGURES,) if last <= FEW_YEARS else ()
    yield from (call_sweep(session.MOST_SWEEPS), call_page(page_length(last)), CLOSE)


def nothing_open() -> Iterator[bytes]:
    """21, also where 14, 26 or 27 would refuse: in an empty session, behind a refused open, and behind a close."""
    f = call_open(build_file(samples.file_f()))
    asked = [call_strike(*step) for step in ((0, 0, 0), (2, 0, 0), (0, 2, 2), (1, 0, 0), (LARGEST_NUMBER,) * 3)]
    yield from (*asked, call_open(b""), *asked, f, CLOSE, *asked, f, call_strike(*X_00), CLOSE, *asked)


def no_such_channel() -> Iterator[bytes]:
    """14, alone and where 26 would refuse too: no such step, or one that is struck in channel 0; and where 27 would in channel 0."""
    yield from (call_open(build_file(settling(2))), call_strike(*X_00))
    for year, column in ((1, 0), (0, 0), (0, 2), (2, 1), (LARGEST_NUMBER, LARGEST_NUMBER)):
        yield from (call_strike(channel, year, column) for channel in CHANNELS)
    yield from (FIGURES, CLOSE)


def far_outside() -> Iterator[bytes]:
    """26, with a year or a column far past the file's, or both."""
    for last in ENDS:
        yield call_open(build_file(settling(last)))
        for channel in (PAID, INCURRED):
            for far in (15, 16, 17, *FAR):
                pairs = ((far, 0), (far, 1), (0, far), (1, far), (far, far))
                yield from (call_strike(channel, *pair) for pair in pairs if sum(pair) > last)
            yield from (call_strike(channel, *pair) for pair in ((1 << 31, 1 << 31), (LARGEST_NUMBER, 2), (2, LARGEST_NUMBER)))
        yield from (call_sweep(session.MOST_SWEEPS), *held(last), CLOSE)


def struck_already() -> Iterator[bytes]:
    """26 before 27: a column of three down to one, where the last is refused with 27 and any other with 26, there or not."""
    file = settling(3)
    for channel, column in ((PAID, 1), (INCURRED, 0)):
        yield call_open(build_file(file))
        for year in (1, 0):
            yield from (call_strike(channel, year, column), call_strike(channel, year, column), FIGURES)
        yield from (call_strike(channel, year, column) for year in range(5))
        yield from (FIGURES, call_sweep(session.MOST_SWEEPS), *held(3), *(call_strike(channel, year, column) for year in range(5)))
        yield from (*held(3), call_sweep(1), CLOSE)


def nothing_changed() -> Iterator[bytes]:
    """Refused strikes between sweeps: neither mean nor total goes back."""
    refused = [call_strike(*step) for step in ((2, 0, 0), (0, 2, 1), (1, 0, 2), (0, 0, 2), (1, 0, 1))]
    yield call_open(build_file(samples.many_sweeps(2)))
    for sweeps in (1, 2, session.MOST_SWEEPS, 1):
        yield from (*refused, call_sweep(sweeps), call_read(record_length(2)))
    yield from (*refused, *held(2), FIGURES, CLOSE)


def judgements() -> Iterator[Iterator[bytes]]:
    for step, parts in ((X_00, (9 * T, T, -T)), (Step(PAID, 1, 0), (11 * T, T, -T))):
        yield judged(apart(), step, (10 * T, T, -T), parts)
    for file in (settling(4), paper.tables_file(256)):
        for step in (Step(PAID, 1, 2), Step(INCURRED, 0, 1)):
            yield judged(file, step, *(swept(file, session.MOST_SWEEPS, struck) for struck in (frozenset(), frozenset([step]))))
    for step, part in ((Step(PAID, 1, 1), 1), (Step(INCURRED, 0, 0), 3)):
        yield by_own_weight(step, part)


def judged(file: File, step: Step, with_it: tuple[int, ...], without: tuple[int, ...]) -> Iterator[bytes]:
    """A mean that passes only with the step and one that passes only without it: before the strike, behind it, and opened again."""
    lent, records = build_file(file), [call_judge(build_record(mean)) for mean in (with_it, without)]
    yield from (call_open(lent), *records, call_strike(*step), *records, call_sweep(2), *records, CLOSE, call_open(lent), *records, CLOSE)


def by_own_weight(step: Step, part: int) -> Iterator[bytes]:
    """The step agrees with the mean, so that without it only the own weight is less, and what may be off with it.

    Of the file below, with closeness 64: the part may be off by 64 times 131,072/147,456 with the step, and 65,536/81,920 without.
    """
    means = [[whole + off * (k == part) for k, whole in enumerate(AGREED)] for off in (0, 51, 52, 56, 57, -51, -52)]
    judges = [call_judge(build_record(mean)) for mean in means]
    yield from (call_open(build_file(agreeing())), *judges, call_strike(*step), *judges, FIGURES, CLOSE)


def sessions() -> Iterator[Iterator[bytes]]:
    """F, files that settle by sweeps, with priors and without, and the paper's example; then files whose sweeps are all run."""
    three = (X_00, Step(INCURRED, 1, 0), Step(PAID, 1, 0))
    yield between_sweeps(samples.file_f(), (X_00,))
    for file in (samples.many_sweeps(2), settling(4), samples.without_priors(settling(3)), paper.tables_file(256)):
        yield between_sweeps(file, three)
    yield spent(paper.resting_file(), Step(PAID, 0, 1))
    yield spent(samples.spent_at_a_limit(), X_00)
    yield spent(samples.spent_without_priors(), Step(PAID, 0, 1))


def between_sweeps(file: File, steps: tuple[Step, ...]) -> Iterator[bytes]:
    """Each strike puts mean and total back; a close forgets all of them, and the same file opened again has its steps."""
    last, lent = file.last, build_file(file)
    asked = (call_read(record_length(last)), call_page(page_length(last)), call_ultimate(1))
    prior, mean, left = (build_record(parts) for parts in (
        file.prior_means, swept(file, session.MOST_SWEEPS), swept(file, session.MOST_SWEEPS, frozenset(steps)),
    ))
    judges = (*map(call_judge, (prior, mean, left)),)
    yield from (call_open(lent), *judges, call_sweep(2), *asked)
    for step in steps:
        yield from (call_strike(*step), *asked, *judges, call_sweep(1), *asked, call_sweep(2), call_strike(*step), call_sweep(1))
    yield from (FIGURES,) if last <= FEW_YEARS else ()
    yield from (call_sweep(session.MOST_SWEEPS), *judges, *held(last), call_sweep(1), CLOSE, call_strike(*steps[0]), call_open(lent))
    yield from (*judges, call_sweep(session.MOST_SWEEPS), *held(last), *(call_strike(*step) for step in steps))
    yield from (call_sweep(session.MOST_SWEEPS), *held(last), CLOSE)


def spent(file: File, step: Step) -> Iterator[bytes]:
    """All sweeps run, and refused with 23; behind a strike they are counted anew, and behind a refused one they are not."""
    most = call_sweep(session.MOST_SWEEPS)
    yield from (call_open(build_file(file)), most, call_sweep(1), call_strike(0, 0, file.last), call_sweep(1), call_strike(*step))
    yield from (call_sweep(1), most, most, *held(file.last), call_strike(*step), call_sweep(1), CLOSE)


# Files and steps.


def corners(last: int) -> tuple[Step, ...]:
    """Of both triangles; with J = 1 the three of the incurred one are the same."""
    paid = (X_00, Step(PAID, 0, last), Step(PAID, last, 0))
    return paid + tuple(dict.fromkeys((Step(INCURRED, 0, 0), Step(INCURRED, 0, last - 1), Step(INCURRED, last - 1, 0))))


def at_the_limits() -> Iterator[File]:
    """The largest amounts, the largest steps up and down, and every field at its lowest and its highest."""
    for last in ENDS:
        yield from (samples.largest_figures(last), samples.largest_steps(last))
        yield from (samples.file_at_limits(last, end) for end in (0, 1))


def without_priors() -> Iterator[File]:
    """Where one step is all that a part is left with; some of the files are at the limits, and one never settles."""
    yield from (samples.without_priors(samples.file_f()), samples.without_priors(settling(FEW_YEARS)), samples.spent_without_priors())
    yield from (samples.without_priors(samples.file_at_limits(last, end)) for last in ENDS for end in (0, 1))
    yield from (samples.without_priors(samples.largest_steps(2)), samples.without_priors(settling(6), (0, 4, 12)), paper.tables_file(256))


def apart() -> File:
    """F without priors, its payments of the first column at 11 and 9 doublings: 10 is their mean, and each is what the other leaves."""
    f = samples.without_priors(samples.file_f())
    return replace(f, paid=((1 << 11, 1 << 12), (1 << 9,)), incurred=((1 << 13, 1 << 12), (1 << 11,)))


AGREED = (10 * T, T, T, -T, -T)


def agreeing() -> File:
    """J = 2, without priors: every observation agrees with AGREED. Each p and q is 65,536, g_0 is 16,384 and g_1 is 32,768."""
    return File(
        last=2,
        closeness=64,
        sigma2=(1 << 30,) * 3,
        tau2=(1 << 30,) * 2,
        prior_means=AGREED,
        prior_variances=(FLAT,) * 5,
        paid=((1 << 10, 1 << 11, 1 << 12), (1 << 10, 1 << 11), (1 << 10,)),
        incurred=((1 << 14, 1 << 13, 1 << 12), (1 << 14, 1 << 13), (1 << 14,)),
    )

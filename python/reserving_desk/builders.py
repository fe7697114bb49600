"""Files and mean records from plain numbers.

A builder checks what the bytes can hold, and no more: a number that does not fit its field is a ValueError that names the
field, while one that fits and is beyond the desk's limits is written, and the desk refuses it.
"""

from __future__ import annotations

from collections.abc import Iterable, Iterator, Sequence
from typing import Any, NamedTuple, Optional

from .arguments import counted, sequence, sequence_of, shown, whole, wrong_type
from .layout import VERSION, Field, Mean, file_fields, record_fields
from .wording import allowed
from .wording import number as in_words

Triangle = Sequence[Sequence[int]]  # accident year 0 first; accident year i has columns 0..J-i


class Prior(NamedTuple):
    """Of one part: its mean in ticks and its variance in squared ticks. A variance of 0 is no prior, and not a certain one."""

    mean: int
    variance: int


def flat_prior(mean: int = 0) -> Prior:
    """Of a part without a prior: it weighs nothing, and its mean is only where the sweep starts."""
    return Prior(mean, 0)


def file_of(
    paid: Triangle,
    incurred: Triangle,
    *,
    sigma_squared: Sequence[int],
    tau_squared: Sequence[int],
    phi_priors: Sequence[Optional[tuple[int, int]]],
    psi_priors: Sequence[Optional[tuple[int, int]]],
    closeness: int,
) -> bytes:
    """The file of two triangles of cumulative amounts; J is the number of accident years less 1.

    Variances are in squared ticks (`squared_ticks`): sigma squared of development years 0..J, tau squared of 0..J-1. The priors of
    phi 0..J and psi 0..J-1 are pairs of mean and variance, as `Prior`, or None for a part without one, as `flat_prior()`. Where each
    amount then stands in the file, `cell_place` tells, and docs/CELLS.md prints it for the rows of every J.
    """
    last = len(sequence("paid", "a sequence of accident years", paid)) - 1
    if last < 0:
        raise ValueError("paid must have accident years, and has none")
    amounts = (*_amounts("paid", paid, last), *_amounts("incurred", incurred, last))
    sigma = sequence_of("sigma_squared", "variance", sigma_squared, last + 1)
    tau = sequence_of("tau_squared", "variance", tau_squared, last)
    priors = (*_priors("phi_priors", phi_priors, last + 1), *_priors("psi_priors", psi_priors, last))
    return _written(file_fields(last), [VERSION, last, closeness, *sigma, *tau, *priors, *amounts])


def record_of(mean: Mean) -> bytes:
    """The mean record of a mean, whoever found it, for `Session.judge`."""
    if not isinstance(mean, Mean):
        raise wrong_type("mean", "a Mean", mean)
    return _written(record_fields(len(mean.psi)), [VERSION, *mean.parts])


def _amounts(name: str, triangle: Any, last: int) -> Iterator[Any]:
    for year, row in enumerate(sequence_of(name, "accident year", triangle, last + 1)):
        yield from sequence_of(f"{name} of accident year {year}", "amount", row, last - year + 1)


def _priors(name: str, priors: Any, wanted: int) -> Iterator[Any]:
    """Mean and variance of each, in turn."""
    pair_wanted = "a pair of mean and variance, or None"
    for year, prior in enumerate(sequence_of(name, "prior", priors, wanted)):
        whose = f"{name} of development year {year}"
        pair = flat_prior() if prior is None else sequence(whose, pair_wanted, prior)
        if len(pair) != 2:
            raise ValueError(f"{whose} must be {pair_wanted}, not {shown(prior)}")
        yield from pair


def _written(fields: Iterable[Field], numbers: Sequence[int]) -> bytes:
    """The numbers behind the length word, which counts itself too."""
    length, *others = fields
    body = b"".join(map(_bytes_of, others, numbers))
    return _bytes_of(length, length.kind.width + len(body)) + body


def _bytes_of(field: Field, given: int) -> bytes:
    number, kind = whole(field.name, given), field.kind
    low, high = kind.held()
    if not low <= number <= high:
        held = f"{counted(kind.width, 'byte')} cannot hold {in_words(number)}"
        raise ValueError(f"{field.name} must be from {allowed(kind)}: its {held}")
    return number.to_bytes(kind.width, "big", signed=kind.signed)

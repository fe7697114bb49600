"""Specification, "The file", "The mean record" and "Refusals": fields, places, checks 1 to 11, rows.

A file and a record are read in two steps: the checks on the head and on the length, after which every
field has its place, and then the checks on the fields, number by number and in file order within a number.
"""

from collections.abc import Iterable, Sequence
from dataclasses import dataclass

VERSION = 1
LARGEST_YEAR = 15  # J is at most this
HEAD_LENGTH = 10
RECORD_HEAD_LENGTH = 5

CLOSENESS_LIMITS = (1, 65_536)
VARIANCE_LIMITS = (1 << 18, 1 << 40)
PRIOR_VARIANCE_LIMITS = (1 << 18, 1 << 46)
FLAT = 0  # a prior variance besides: of a prior that weighs nothing
MEAN_LIMITS = (-(1 << 26), 1 << 26)
AMOUNT_LIMITS = (1, 1 << 44)

PAID, INCURRED = 0, 1  # the channels of a row

Triangle = tuple[tuple[int, ...], ...]


@dataclass(frozen=True)
class Refusal:
    """A call turned back: its number and the place of the field."""

    number: int
    place: int = 0


@dataclass(frozen=True)
class File:
    """The numbers of a file. `last` is J, the last development year; a triangle has accident year 0 first."""

    last: int
    closeness: int
    sigma2: tuple[int, ...]  # of development years 0..J
    tau2: tuple[int, ...]  # of development years 0..J-1
    prior_means: tuple[int, ...]  # of the parts: phi 0..J, then psi 0..J-1
    prior_variances: tuple[int, ...]
    paid: Triangle
    incurred: Triangle


def parts_count(last: int) -> int:
    return 2 * last + 1


def file_length(last: int) -> int:
    return HEAD_LENGTH + 20 * parts_count(last) + 8 * (last + 1) * (last + 2)


def record_length(last: int) -> int:
    return RECORD_HEAD_LENGTH + 4 * parts_count(last)


LONGEST_FILE = file_length(LARGEST_YEAR)


# Places: the first byte of each field.


def variance_place(index: int) -> int:
    """Of sigma^2 of development years 0..J, then tau^2 of 0..J-1."""
    return HEAD_LENGTH + 8 * index


def prior_mean_place(last: int, part: int) -> int:
    return variance_place(parts_count(last)) + 12 * part


def prior_variance_place(last: int, part: int) -> int:
    return prior_mean_place(last, part) + 4


def amount_place(last: int, channel: int, year: int, column: int) -> int:
    block = prior_mean_place(last, parts_count(last)) + channel * 4 * (last + 1) * (last + 2)
    years_before = sum(last - earlier + 1 for earlier in range(year))
    return block + 8 * (years_before + column)


def part_place(part: int) -> int:
    return RECORD_HEAD_LENGTH + 4 * part


# Reading.


def unsigned(lent: bytes, place: int, width: int) -> int:
    return int.from_bytes(lent[place:place + width], "big")


def signed(lent: bytes, place: int, width: int) -> int:
    return int.from_bytes(lent[place:place + width], "big", signed=True)


def is_inside(value: int, limits: tuple[int, int]) -> bool:
    return limits[0] <= value <= limits[1]


def read_file(lent: bytes) -> File | Refusal:
    """The file's numbers, or the first of the checks 1 to 10 that turns it back."""
    refusal = _head_refusal(lent)
    if refusal is not None:
        return refusal
    file = _decode_file(lent)
    return _fields_refusal(file) or file


def read_record(lent: bytes, last: int) -> tuple[int, ...] | Refusal:
    """The parts of a mean record, or the first of the checks 1, 2, 4 and 11 that turns it back."""
    if len(lent) < RECORD_HEAD_LENGTH or unsigned(lent, 0, 4) != len(lent):
        return Refusal(1)
    if lent[4] != VERSION:
        return Refusal(2, 4)
    if len(lent) != record_length(last):
        return Refusal(4)
    parts = tuple(signed(lent, part_place(part), 4) for part in range(parts_count(last)))
    places = map(part_place, range(len(parts)))
    return _first_outside(11, zip(places, parts), MEAN_LIMITS) or parts


def row_of(lent: bytes, channel: int, year: int) -> bytes:
    """An accident year's amounts, as they stand in the paid or in the incurred block of an accepted file."""
    last = lent[5]
    start = amount_place(last, channel, year, 0)
    return lent[start:start + 8 * (last - year + 1)]


def _head_refusal(lent: bytes) -> Refusal | None:
    """Checks 1 to 5."""
    if len(lent) < HEAD_LENGTH or unsigned(lent, 0, 4) != len(lent):
        return Refusal(1)
    if lent[4] != VERSION:
        return Refusal(2, 4)
    if not is_inside(lent[5], (1, LARGEST_YEAR)):
        return Refusal(3, 5)
    if len(lent) != file_length(lent[5]):
        return Refusal(4)
    if not is_inside(unsigned(lent, 6, 4), CLOSENESS_LIMITS):
        return Refusal(5, 6)
    return None


def _decode_file(lent: bytes) -> File:
    """The numbers of a file whose length is right for its J; nothing is checked here."""
    last = lent[5]
    parts = range(parts_count(last))
    variances = tuple(unsigned(lent, variance_place(index), 8) for index in parts)

    def amounts(channel: int, year: int) -> tuple[int, ...]:
        places = (amount_place(last, channel, year, column) for column in range(last - year + 1))
        return tuple(unsigned(lent, place, 8) for place in places)

    def triangle(channel: int) -> Triangle:
        return tuple(amounts(channel, year) for year in range(last + 1))

    return File(
        last=last,
        closeness=unsigned(lent, 6, 4),
        sigma2=variances[:last + 1],
        tau2=variances[last + 1:],
        prior_means=tuple(signed(lent, prior_mean_place(last, part), 4) for part in parts),
        prior_variances=tuple(unsigned(lent, prior_variance_place(last, part), 8) for part in parts),
        paid=triangle(PAID),
        incurred=triangle(INCURRED),
    )


def _fields_refusal(file: File) -> Refusal | None:
    """Checks 6 to 10."""
    last = file.last
    parts = range(parts_count(last))
    variances = zip(map(variance_place, parts), file.sigma2 + file.tau2)
    prior_variances = (
        (prior_variance_place(last, part), file.prior_variances[part]) for part in parts if file.prior_variances[part] != FLAT
    )
    prior_means = zip((prior_mean_place(last, part) for part in parts), file.prior_means)
    refusal = (
        _first_outside(6, variances, VARIANCE_LIMITS)
        or _first_outside(7, prior_variances, PRIOR_VARIANCE_LIMITS)
        or _first_outside(8, prior_means, MEAN_LIMITS)
        or _first_outside(9, _amounts(file), AMOUNT_LIMITS)
    )
    if refusal is None and file.paid[0][last] != file.incurred[0][last]:
        return Refusal(10, amount_place(last, PAID, 0, last))
    return refusal


def _amounts(file: File) -> Iterable[tuple[int, int]]:
    """Place and value of every amount, in file order."""
    for channel, triangle in ((PAID, file.paid), (INCURRED, file.incurred)):
        for year, row in enumerate(triangle):
            for column, amount in enumerate(row):
                yield amount_place(file.last, channel, year, column), amount


def _first_outside(number: int, fields: Iterable[tuple[int, int]], limits: tuple[int, int]) -> Refusal | None:
    for place, value in fields:
        if not is_inside(value, limits):
            return Refusal(number, place)
    return None


# Building. Nothing is checked: the tests and vectors also need files that are turned back.


def build_file(file: File) -> bytes:
    body = bytes([VERSION, file.last]) + file.closeness.to_bytes(4, "big")
    body += b"".join(variance.to_bytes(8, "big") for variance in file.sigma2 + file.tau2)
    for mean, variance in zip(file.prior_means, file.prior_variances):
        body += mean.to_bytes(4, "big", signed=True) + variance.to_bytes(8, "big")
    for row in file.paid + file.incurred:
        body += b"".join(amount.to_bytes(8, "big") for amount in row)
    return with_length(body)


def build_record(parts: Sequence[int]) -> bytes:
    return with_length(bytes([VERSION]) + b"".join(part.to_bytes(4, "big", signed=True) for part in parts))


def with_length(body: bytes) -> bytes:
    """The body behind the length word that counts both."""
    return (len(body) + 4).to_bytes(4, "big") + body

"""The fields of a file and of a mean record, in their order, what the desk accepts in each, how long a page and the residues of a mean
are, and which steps there are: sections "The file", "The mean record", "The calls", "The page" and "Struck steps" of docs/SPECIFICATION.md.

Each kind of field stands here once: the builders write by it, and a refusal is explained by it.
"""

from __future__ import annotations

from collections.abc import Iterable, Iterator
from dataclasses import dataclass
from enum import Enum, auto

from .arguments import sequence, whole, within

VERSION = 1
LARGEST_YEAR = 15  # J is at most this
MOST_SWEEPS = 4_096  # since open or the last strike
PAGE_LINE = 28  # bytes of a line of a page, its line feed counted
PAID, INCURRED = 0, 1  # the channels of a row and of a step
CHANNELS = ("paid", "incurred")  # by those numbers


class Unit(Enum):
    """What a number counts, by which it is told in words: ticks of a logarithm are doublings too, and of a variance they are squared."""

    NUMBER = auto()
    TICKS = auto()
    LOGARITHM = auto()
    VARIANCE = auto()


@dataclass(frozen=True)
class Kind:
    """Of fields: so many big-endian bytes, in two's complement where signed; the least and the greatest number that the desk accepts, and
    what 0 stands for where it is accepted besides."""

    width: int
    limits: tuple[int, int]
    unit: Unit = Unit.NUMBER
    signed: bool = False
    zero: str = ""

    def held(self) -> tuple[int, int]:
        """The least and the greatest number that the bytes can hold, whatever the desk accepts."""
        values = 1 << 8 * self.width
        return (-values // 2, values // 2 - 1) if self.signed else (0, values - 1)

    def number_at(self, lent: bytes, place: int) -> int:
        return int.from_bytes(lent[place:place + self.width], "big", signed=self.signed)


LENGTH = Kind(4, (0, (1 << 32) - 1))  # any: which one is right, J says
VERSION_BYTE = Kind(1, (VERSION, VERSION))
LAST_YEAR = Kind(1, (1, LARGEST_YEAR))
CLOSENESS = Kind(4, (1, 1 << 16), Unit.TICKS)
VARIANCE = Kind(8, (1 << 18, 1 << 40), Unit.VARIANCE)
PRIOR_VARIANCE = Kind(8, (1 << 18, 1 << 46), Unit.VARIANCE, zero="no prior")
PART = Kind(4, (-(1 << 26), 1 << 26), Unit.LOGARITHM, signed=True)  # of a mean, and of the prior mean
AMOUNT = Kind(8, (1, 1 << 44))
RESIDUE = Kind(8, (-(1 << 63), (1 << 63) - 1), signed=True)  # any: the desk writes them, and reads none


@dataclass(frozen=True)
class Field:
    name: str
    kind: Kind


HEADER = (Field("length", LENGTH), Field("version", VERSION_BYTE))
FILE_HEADER = (*HEADER, Field("last development year J", LAST_YEAR), Field("closeness", CLOSENESS))


@dataclass(frozen=True)
class Mean:
    """A mean in ticks: `phi` of development years 0..J, `psi` of 0..J-1. Any tool may have found it.

    Sequences of whole numbers are kept as tuples of int.
    """

    phi: tuple[int, ...]
    psi: tuple[int, ...]

    def __post_init__(self) -> None:
        for name in ("phi", "psi"):
            parts = enumerate(sequence(name, "a sequence of whole numbers", getattr(self, name)))
            kept = tuple(whole(f"{name} of development year {j}", part) for j, part in parts)
            object.__setattr__(self, name, kept)
        if len(self.phi) != len(self.psi) + 1:
            raise ValueError(f"phi must have one part more than psi, not {len(self.phi)} and {len(self.psi)}")

    @property
    def parts(self) -> tuple[int, ...]:
        """In the order of a mean record: phi first."""
        return (*self.phi, *self.psi)


def part_names(last: int) -> list[str]:
    return [f"phi of development year {j}" for j in range(last + 1)] + [f"psi of development year {j}" for j in range(last)]


def amount_name(channel: str, year: int, column: int) -> str:
    return f"{channel} amount of accident year {year}, development year {column}"


def file_fields(last: int) -> Iterator[Field]:
    """The fields of a file whose J is `last`."""
    yield from FILE_HEADER
    yield from (Field(f"sigma squared of development year {j}", VARIANCE) for j in range(last + 1))
    yield from (Field(f"tau squared of development year {j}", VARIANCE) for j in range(last))
    for part in part_names(last):
        yield from (Field(f"prior mean of {part}", PART), Field(f"prior variance of {part}", PRIOR_VARIANCE))
    for channel in CHANNELS:
        for year in range(last + 1):
            yield from (Field(amount_name(channel, year, j), AMOUNT) for j in range(last - year + 1))


def record_fields(last: int) -> Iterator[Field]:
    """The fields of a mean record for a file whose J is `last`."""
    yield from HEADER
    yield from (Field(part, PART) for part in part_names(last))


def length_of(fields: Iterable[Field]) -> int:
    return sum(field.kind.width for field in fields)


def record_length(last: int) -> int:
    return length_of(record_fields(last))


def page_length(last: int) -> int:
    """A line for each part."""
    return PAGE_LINE * len(part_names(last))


def residues_length(last: int) -> int:
    """A number for each part."""
    return RESIDUE.width * len(part_names(last))


def step_count(last: int, channel: int, column: int) -> int:
    """How many steps a column has, of accident years 0 on: an incurred row has a step less than amounts, as its first amount is none."""
    return last - column + (1 if channel == PAID else 0)


HEADER_LENGTH = length_of(HEADER)
FILE_HEADER_LENGTH = length_of(FILE_HEADER)
LONGEST_FILE = length_of(file_fields(LARGEST_YEAR))
LONGEST_RECORD = record_length(LARGEST_YEAR)
LONGEST_PAGE = page_length(LARGEST_YEAR)
LONGEST_RESIDUES = residues_length(LARGEST_YEAR)


def placed(fields: Iterable[Field]) -> Iterator[tuple[int, Field]]:
    """Each field with the place of its first byte."""
    place = 0
    for field in fields:
        yield place, field
        place += field.kind.width


def cell_place(last: int, channel: int, year: int, column: int) -> int:
    """The first byte of an amount in a file whose J is `last`: `year` is the accident year, `column` the development year.

    The channel is `PAID` or `INCURRED`. docs/CELLS.md prints the first byte of every row.
    """
    last = within("last", last, 1, LARGEST_YEAR)
    channel = within("channel", channel, PAID, INCURRED)
    year = within("year", year, 0, last, f", as J is {last}")
    column = within("column", column, 0, last - year, f", as J is {last} and the year {year}")
    name = amount_name(CHANNELS[channel], year, column)
    return next(place for place, field in placed(file_fields(last)) if field.name == name)


def last_year_of(file: bytes) -> int:
    """J as a file has it that is no shorter than its header."""
    return next(LAST_YEAR.number_at(file, place) for place, field in placed(FILE_HEADER) if field.kind is LAST_YEAR)


def mean_of(record: bytes) -> Mean:
    """The mean of a record that the desk has written, or taken."""
    parts = tuple(PART.number_at(record, place) for place in range(HEADER_LENGTH, len(record), PART.width))
    last = len(parts) // 2
    return Mean(parts[:last + 1], parts[last + 1:])


def residues_of(written: bytes, count: int) -> tuple[int, ...]:
    """So many residues, as the desk has written them."""
    return tuple(RESIDUE.number_at(written, RESIDUE.width * part) for part in range(count))

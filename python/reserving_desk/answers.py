"""What the calls answer: sections "The calls" and "Struck steps" of docs/SPECIFICATION.md."""

from __future__ import annotations

from dataclasses import dataclass
from fractions import Fraction
from typing import NamedTuple, Optional

from .scales import TICKS_PER_UNIT


@dataclass(frozen=True)
class Judgement:
    """Whether a mean passes, and if not the first part that fails: phi 0..J are parts 0..J, then psi. True if it passes."""

    passed: bool
    part: Optional[int]

    def __bool__(self) -> bool:
        return self.passed


@dataclass(frozen=True)
class Sweeping:
    """Whether the mean is settled, and the sweeps run since open or the last strike. True if it is settled."""

    settled: bool
    total: int

    def __bool__(self) -> bool:
        return self.settled


@dataclass(frozen=True)
class Ultimate:
    """The central ultimate of an accident year: the logarithm of what it is expected to come to, exact.

    It is `floor` + `remainder` / `divisor` ticks, the remainder from 0 to the divisor less 1. `exp` of the natural logarithm is the median
    of what the year comes to, in floats and in the unit of the file's amounts.
    """

    floor: int
    remainder: int
    divisor: int

    @property
    def ticks(self) -> Fraction:
        """As one fraction."""
        return self.floor + Fraction(self.remainder, self.divisor)

    @property
    def natural_log(self) -> float:
        """To the nearest float."""
        return float(self.ticks / TICKS_PER_UNIT)


class Step(NamedTuple):
    """What `Session.strike` takes out: x of an accident year in a column (channel `PAID`), or z (`INCURRED`)."""

    channel: int
    year: int
    column: int


@dataclass(frozen=True)
class Figures:
    """The linear system of the open file without its struck steps, and by how much a mean may miss it.

    A mean passes if `matrix` times its parts is within `closeness` times `own_weights` of `right_hand_side`, part by part. All have
    2J+1 parts, phi first; J is `last`, and `matrix` has its rows, both halves filled.
    """

    last: int
    closeness: int
    own_weights: tuple[int, ...]
    matrix: tuple[tuple[int, ...], ...]
    right_hand_side: tuple[int, ...]

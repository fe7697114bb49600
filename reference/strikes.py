"""Specification, "Struck steps" and "Refusals": the steps of both triangles, those that are left, and what refuses a strike.

A struck step is left out of every list, and that is all: nothing is given a weight of 0.
"""

from collections.abc import Iterator
from typing import NamedTuple

from layout import INCURRED, PAID, Refusal


class Step(NamedTuple):
    """x_(i,j) of the paid channel, z_(i,j) of the incurred one: of accident year i, in column j."""

    channel: int
    year: int
    column: int


Steps = frozenset[Step]
NONE: Steps = frozenset()


def steps_of(last: int) -> Iterator[Step]:
    """Every x, then every z, by accident year. The first amount of a paid row is a step of its own, that of an incurred row is none."""
    for channel, fewer in ((PAID, 0), (INCURRED, 1)):
        for year in range(last + 1):
            for column in range(last - year + 1 - fewer):
                yield Step(channel, year, column)


def columns_of(last: int) -> list[list[Step]]:
    """The steps of each part, phi 0..J and then psi 0..J-1, by accident year."""
    columns: dict[tuple[int, int], list[Step]] = {}
    for step in steps_of(last):
        columns.setdefault((step.channel, step.column), []).append(step)
    return list(columns.values())


def left_of(last: int, struck: Steps) -> list[Step]:
    return [step for step in steps_of(last) if step not in struck]


def refusal_of(last: int, struck: Steps, step: Step) -> Refusal | None:
    """14, 26, 27: there is no such channel, the step is not among those that are left, or no other is left in its column."""
    if step.channel > INCURRED:
        return Refusal(14)
    left = left_of(last, struck)
    if step not in left:
        return Refusal(26)
    in_its_column = [other for other in left if (other.channel, other.column) == (step.channel, step.column)]
    return Refusal(27) if in_its_column == [step] else None

"""Specification, "The calls" and "Refusals": the machine, call by call.

The state is EMPTY, or the accepted file, the struck steps, the figures of what is left, the mean and the total. A
call takes the state and gives its answer with the state afterwards. A state is never changed in place, so a refused
call gives back the very state it was handed.
"""

from collections.abc import Callable
from dataclasses import dataclass, replace
from typing import TypeVar

import chain
import layout
import strikes
from layout import File, Refusal
from page import build_page
from residues import build_residues, by_observations
from strikes import NONE, Step, Steps
from ultimate import Ultimate, ultimate_of

MOST_SWEEPS = 4_096
Done = TypeVar("Done")  # the answer of a call that is not refused


@dataclass(frozen=True)
class Held:
    """A file is open."""

    file: File
    figures: chain.Figures
    mean: tuple[int, ...]
    total: int
    struck: Steps = NONE

    def residues(self) -> list[int]:
        return chain.residues_of(self.figures, self.mean)

    def passes(self) -> bool:
        return chain.first_failing_part(self.figures, self.residues()) is None


EMPTY = None
State = Held | None


@dataclass(frozen=True)
class Opened:
    pass


@dataclass(frozen=True)
class Passed:
    pass


@dataclass(frozen=True)
class Fails:
    part: int


@dataclass(frozen=True)
class Settled:
    total: int


@dataclass(frozen=True)
class Going:
    total: int


@dataclass(frozen=True)
class Written:
    """The record is written."""


@dataclass(frozen=True)
class Paged:
    """The page is written."""


@dataclass(frozen=True)
class Residues:
    """The residues are written."""


@dataclass(frozen=True)
class Struck:
    """The step is out."""


@dataclass(frozen=True)
class Shown:
    pass


def open_file(state: State, lent: bytes) -> tuple[Opened | Refusal, State]:
    """22, then 1 to 10."""
    if state is not EMPTY:
        return Refusal(22), state
    file = layout.read_file(lent)
    if isinstance(file, Refusal):
        return file, state
    return Opened(), _from_the_start(file, NONE)


def _from_the_start(file: File, struck: Steps) -> Held:
    """At the prior means, with no sweep run."""
    return Held(file, chain.figures_of(file, struck), file.prior_means, 0, struck)


def strike(state: State, channel: int, year: int, column: int) -> tuple[Struck | Refusal, State]:
    """21, 14, 26, 27. A mean found with the step is none of the loss without it, so all begins anew."""
    if state is EMPTY:
        return Refusal(21), state
    step = Step(channel, year, column)
    refusal = strikes.refusal_of(state.file.last, state.struck, step)
    if refusal is not None:
        return refusal, state
    return Struck(), _from_the_start(state.file, state.struck | {step})


def judge(state: State, lent: bytes) -> Passed | Fails | Refusal:
    """21, then 1, 2, 4 and 11; the state is untouched, so only the answer is given."""
    if state is EMPTY:
        return Refusal(21)
    parts = layout.read_record(lent, state.file.last)
    if isinstance(parts, Refusal):
        return parts
    failing = chain.first_failing_part(state.figures, chain.residues_of(state.figures, parts))
    return Passed() if failing is None else Fails(failing)


def sweep(state: State, number: int) -> tuple[Settled | Going | Refusal, State]:
    """21, 12, settled, 23; then up to `number` sweeps."""
    if state is EMPTY:
        return Refusal(21), state
    if not 1 <= number <= MOST_SWEEPS:
        return Refusal(12), state
    if state.passes():
        return Settled(state.total), state
    if state.total == MOST_SWEEPS:
        return Refusal(23), state
    return _run_sweeps(state, number)


def _run_sweeps(state: Held, number: int) -> tuple[Settled | Going, Held]:
    """At least one sweep, as neither the mean passes nor the total is reached."""
    figures, total = state.figures, state.total
    mean, residues = list(state.mean), state.residues()
    passes = False
    while not passes and total < min(state.total + number, MOST_SWEEPS):
        chain.sweep_once(figures, mean, residues)
        total += 1
        passes = chain.first_failing_part(figures, residues) is None
    after = replace(state, mean=tuple(mean), total=total)
    return (Settled(total) if passes else Going(total)), after


def read(state: State, buffer: bytes) -> tuple[Written | Refusal, bytes]:
    """The record of a mean that passes."""
    return _of_a_passing_mean(state, buffer, lambda held: layout.build_record(held.mean), Written())


def page(state: State, buffer: bytes) -> tuple[Paged | Refusal, bytes]:
    """The page of a mean that passes, with the own weights that it was tested with."""
    return _of_a_passing_mean(state, buffer, lambda held: build_page(held.mean, held.figures.own), Paged())


def _of_a_passing_mean(
    state: State, buffer: bytes, text: Callable[[Held], bytes], done: Done
) -> tuple[Done | Refusal, bytes]:
    """21, 24, 13; the answer and the buffer afterwards. The state is untouched."""
    if state is EMPTY:
        return Refusal(21), buffer
    if not state.passes():
        return Refusal(24), buffer
    return _at_the_front(buffer, text(state), done)


def _at_the_front(buffer: bytes, written: bytes, done: Done) -> tuple[Done | Refusal, bytes]:
    """13, or the bytes in front of those that stay."""
    if len(buffer) < len(written):
        return Refusal(13), buffer
    return done, written + buffer[len(written):]


def residues(state: State, lent: bytes, buffer: bytes) -> tuple[Residues | Refusal, bytes]:
    """21, then 1, 2, 4 and 11, then 13. Of the record's mean, whether it passes or not; the state is untouched."""
    if state is EMPTY:
        return Refusal(21), buffer
    parts = layout.read_record(lent, state.file.last)
    if isinstance(parts, Refusal):
        return parts, buffer
    return _at_the_front(buffer, build_residues(by_observations(state.file, state.struck, parts)), Residues())


def ultimate(state: State, year: int) -> Ultimate | Refusal:
    """21, 24, 25. By the mean that is held; the state is untouched."""
    if state is EMPTY:
        return Refusal(21)
    if not state.passes():
        return Refusal(24)
    if not 1 <= year <= state.file.last:
        return Refusal(25)
    return ultimate_of(state.file, state.mean, year)


def figures(state: State) -> chain.Figures | Refusal:
    """21. Shows the figures that judge and sweep go by; the state is untouched."""
    return Refusal(21) if state is EMPTY else state.figures


def row(lent: bytes, channel: int, year: int) -> bytes:
    """The accident year's part of the paid (0) or incurred (1) block; empty exactly when it refuses."""
    if isinstance(row_told(lent, channel, year), Refusal):
        return b""
    return layout.row_of(lent, channel, year)


def row_told(lent: bytes, channel: int, year: int) -> Shown | Refusal:
    """Row's second call: 1 to 10, 14, 15."""
    file = layout.read_file(lent)
    if isinstance(file, Refusal):
        return file
    if channel > layout.INCURRED:
        return Refusal(14)
    if year > file.last:
        return Refusal(15)
    return Shown()


def close(_state: State) -> State:
    return EMPTY

"""A session of the desk: section "The calls" of docs/SPECIFICATION.md. A call answers a value, and a refusal is raised."""

from __future__ import annotations

import threading
from collections.abc import Callable, Iterator
from ctypes import Array, c_uint8
from types import TracebackType
from typing import Any, NoReturn, Optional, SupportsIndex

from .answers import Figures, Judgement, Step, Sweeping, Ultimate
from .arguments import Buffer, BytesLike, lent_bytes, not_negative, whole, writable_view
from .details import (
    refused_buffer, refused_file, refused_record, refused_row, refused_state, refused_strike, refused_sweep, refused_ultimate,
)
from .layout import (
    AMOUNT, INCURRED, LONGEST_PAGE, LONGEST_RECORD, LONGEST_RESIDUES, MOST_SWEEPS, PAID, Mean, mean_of, page_length, record_length,
    residues_length, residues_of, step_count,
)
from .library import HELD, LATEST_FIELDS, MOST_YEARS, ROW_LENGTH, SESSION_FIELDS, STEPS_FIELDS, library_path, load

LARGEST_NUMBER = (1 << 64) - 1  # that the library can be handed


def _handed(number: int) -> int:
    """Beyond what the library can be handed the answer is the same as at its limits."""
    return min(max(number, 0), LARGEST_NUMBER)


def _steps_of(marks: bytes, last: int) -> Iterator[Step]:
    """The steps that are marked as struck. A column marked throughout, which no call leaves, counts as unmarked."""
    columns = [(PAID, j) for j in range(last + 1)] + [(INCURRED, j) for j in range(last)] if last else []
    for part, (channel, column) in enumerate(columns):
        first = MOST_YEARS * part
        of_column = marks[first:first + step_count(last, channel, column)]
        if 0 in of_column:
            yield from (Step(channel, year, column) for year, mark in enumerate(of_column) if mark)


class Session:
    """A session of the desk, empty at first. Every call but `close` raises `Refused` where the desk refuses it.

    As a context manager it closes itself at the end. Threads may share a session: its calls run one at a time. A copy of a session
    is a session of its own, and neither sees what the other does later; a session is not pickled.
    """

    def __init__(self) -> None:
        self._library = load(library_path())
        self._fields: tuple[Array[Any], ...] = tuple(field() for field in SESSION_FIELDS.values())
        self._one_at_a_time = threading.Lock()

    def open(self, file: BytesLike) -> None:
        """Opens a file: the session then holds its observations and figures, no struck step, its prior means as mean, 0 sweeps.

        Refused with 22, 1 to 10.
        """
        lent = lent_bytes("file", file)
        with self._one_at_a_time:
            refusal = self._library.desk_open_lent(*self._fields, lent, len(lent))
        if refusal.number:
            raise refused_file(refusal, lent)

    def judge(self, record: BytesLike) -> Judgement:
        """Judges a mean record, whoever wrote it; the session is untouched. Refused with 21, 1, 2, 4, 11."""
        lent = lent_bytes("record", record)
        with self._one_at_a_time:
            judged = self._library.desk_judge_lent(*self._held(), lent, len(lent))
            last = self._last()
        if judged.refusal.number:
            raise refused_record(judged.refusal, lent, last)
        return Judgement(True, None) if judged.passed else Judgement(False, judged.part)

    def residues(self, record: BytesLike) -> tuple[int, ...]:
        """The residues of a mean record, phi first: what a solver that forms no matrix may compare its own with.

        They are worked out observation by observation, as weight times difference, struck steps left out, and are those that the matrix
        of `figures` gives. `judge` lets a mean pass exactly if each is at most the closeness times the part's own weight in size:

            figures = desk.figures()
            sizes = map(abs, desk.residues(record))
            print(all(size <= figures.closeness * own for size, own in zip(sizes, figures.own_weights)))

        The session is untouched. Refused with 21, 1, 2, 4, 11.
        """
        lent, buffer = lent_bytes("record", record), bytearray(LONGEST_RESIDUES)
        self.residues_into(lent, buffer)
        return residues_of(bytes(buffer), len(mean_of(lent).parts))

    def residues_into(self, record: BytesLike, buffer: Buffer) -> None:
        """Writes the residues of a mean record at the front of a buffer, 8 bytes each, big-endian in two's complement, phi first.

        The bytes behind are untouched. The record may overlap the buffer, as it is copied first. Refused with 21, 1, 2, 4, 11, 13.
        """
        self._write(self._library.desk_residues_lent, buffer, "the residues have", residues_length, lent_bytes("record", record))

    def sweep(self, n: int = MOST_SWEEPS) -> Sweeping:
        """Runs up to n sweeps, until the mean passes or the total is 4,096. Refused with 21, 12, 23."""
        wanted = whole("n", n)
        with self._one_at_a_time:
            swept = self._library.desk_sweep_lent(*self._held(), _handed(wanted))
        if swept.refusal.number:
            raise refused_sweep(swept.refusal, wanted)
        return Sweeping(bool(swept.settled), swept.total)

    def read(self) -> Mean:
        """The mean that is held, which passes. Refused with 21, 24."""
        buffer = bytearray(LONGEST_RECORD)
        self.read_into(buffer)
        return mean_of(bytes(buffer[:int.from_bytes(buffer[:4], "big")]))

    def read_into(self, buffer: Buffer) -> None:
        """Writes the record of the mean at the front of a buffer; the bytes behind are untouched. Refused with 21, 24, 13."""
        self._write(self._library.desk_read_lent, buffer, "a mean record has", record_length)

    def page(self) -> str:
        """The mean that is held, which passes, as a page: a line of 28 characters for each part, its line feed counted.

        A line has the part's name, its index, its mean and its own weight, each in its columns. Refused with 21, 24.
        """
        buffer = bytearray(LONGEST_PAGE)
        self.page_into(buffer)
        return buffer.rstrip(b"\0").decode("ascii")  # no page has a zero

    def page_into(self, buffer: Buffer) -> None:
        """Writes the page of the mean at the front of a buffer; the bytes behind are untouched. Refused with 21, 24, 13."""
        self._write(self._library.desk_page_lent, buffer, "a page has", page_length)

    def ultimate(self, year: int) -> Ultimate:
        """The central ultimate of an accident year from 1 to J, by the mean that is held, which passes.

            print(exp(desk.ultimate(1).natural_log))

        is what accident year 1 comes to in the median. Refused with 21, 24, 25.
        """
        wanted = whole("year", year)
        with self._one_at_a_time:
            found = self._library.desk_ultimate_lent(*self._held(), *self._named(LATEST_FIELDS), _handed(wanted))
            last = self._last()
        if found.refusal.number:
            raise refused_ultimate(found.refusal, wanted, last)
        return Ultimate(found.floor, found.remainder, found.divisor)

    def strike(self, channel: int, year: int, column: int) -> None:
        """Takes a step out of the averages: x of an accident year in a column (channel 0), or z (channel 1).

        x of column j is between development years j - 1 and j, and of column 0 what was paid first; z is between j and j + 1. The loss,
        the figures and what a mean is worth are those without the step from here on; the mean is the prior means again, and no sweep is
        run. The amounts stay, and with them the steps beside it, the ratios of incurred to paid, rows and the latest logarithms, from
        which ultimates start. No call puts a step back: close the session, and open the file again. Refused with 21, 14, 26, 27.
        """
        numbers = (not_negative("channel", channel), not_negative("year", year), not_negative("column", column))
        with self._one_at_a_time:
            refusal = self._library.desk_strike_lent(*self._held(), *self._named(STEPS_FIELDS), *map(_handed, numbers))
            last = self._last()
        if refusal.number:
            raise refused_strike(refusal, *numbers, last)

    @property
    def struck(self) -> tuple[Step, ...]:
        """The steps that are struck out of the open file, by channel, accident year and column; none where nothing is open."""
        with self._one_at_a_time:
            (marks,) = self._named(("struck",))
            return tuple(sorted(_steps_of(bytes(marks), self._last())))

    def figures(self) -> Figures:
        """The linear system that judges every mean of the open file without its struck steps, for a solver of one's own.

        Solve it with any tool, round each part, and let the desk judge what comes out:

            figures = desk.figures()
            parts = [round(part) for part in solve(figures.matrix, figures.right_hand_side)]
            mean = Mean(parts[:figures.last + 1], parts[figures.last + 1:])
            print(desk.judge(record_of(mean)).passed)

        With a closeness of at least 256 the exact solution, rounded so, passes if its parts are inside the limits. Refused with 21.
        """
        with self._one_at_a_time:
            system = self._library.desk_figures_lent(*self._held())
        if system.refusal.number:
            raise refused_state(system.refusal)
        parts = 2 * system.last + 1
        rows = (system.matrix[start:start + parts] for start in range(0, parts * ROW_LENGTH, ROW_LENGTH))
        own, right_hand = tuple(system.own[:parts]), tuple(system.right_hand[:parts])
        return Figures(system.last, system.closeness, own, tuple(map(tuple, rows)), right_hand)

    def row(self, file: BytesLike, channel: int, year: int) -> tuple[int, ...]:
        """An accident year's amounts in the paid (0) or incurred (1) block of a file, whatever is open.

        Refused with 1 to 10, 14, 15.
        """
        lent = lent_bytes("file", file)
        numbers = (not_negative("channel", channel), not_negative("year", year))
        shown = self._library.desk_row(lent, len(lent), *map(_handed, numbers))
        if shown.refusal.number:
            raise refused_row(shown.refusal, lent, *numbers)
        return tuple(AMOUNT.number_at(lent, place) for place in range(shown.start, shown.start + shown.length, AMOUNT.width))

    def close(self) -> None:
        """Empties the session, which can be opened again, with every step; never refused."""
        with self._one_at_a_time:
            self._library.desk_close_lent(self._fields[0])

    def _write(
        self, call: Callable[..., Any], buffer: Buffer, thing_has: str, length: Callable[[int], int], record: Optional[bytes] = None,
    ) -> None:
        """Has a call of the library write a thing, of so many bytes for each J, into the very buffer; of a record, if there is one."""
        besides: tuple[Any, ...] = () if record is None else (*self._named(STEPS_FIELDS), record, len(record))
        with writable_view("buffer", buffer) as view:
            size = view.nbytes
            lent = (c_uint8 * size).from_buffer(view)
            with self._one_at_a_time:
                refusal = call(*self._held(), *besides, lent, size)
                last = self._last()
            del lent  # which would keep the buffer's size fixed
        if not refusal.number:
            return
        if record is None or refusal.number == 13:
            raise refused_buffer(refusal, size, thing_has, length, last)
        raise refused_record(refusal, record, last)

    def _held(self) -> tuple[Array[Any], ...]:
        """What every call is lent that is lent a session: all but the observations and the struck steps."""
        return self._fields[:len(HELD)]

    def _named(self, names: tuple[str, ...]) -> Iterator[Array[Any]]:
        """What a call is lent besides."""
        return (self._fields[list(SESSION_FIELDS).index(name)] for name in names)

    def _last(self) -> int:
        """J of the file that is open, or 0."""
        return int(self._fields[0][0])

    def __enter__(self) -> Session:
        return self

    def __exit__(
        self, kind: Optional[type[BaseException]], error: Optional[BaseException], trace: Optional[TracebackType],
    ) -> None:
        self.close()

    def __copy__(self) -> Session:
        twin = type(self).__new__(type(self))
        twin.__dict__.update(self.__dict__)
        with self._one_at_a_time:
            twin._fields = tuple(type(field).from_buffer_copy(field) for field in self._fields)
        twin._one_at_a_time = threading.Lock()
        return twin

    def __deepcopy__(self, memo: dict[int, object]) -> Session:
        return self.__copy__()

    def __reduce_ex__(self, protocol: SupportsIndex) -> NoReturn:
        raise TypeError("a session cannot be pickled: figures that come from elsewhere would be believed; open the file again there")

"""What a refusal tells besides its number and place: the field, the number that stood there and what is allowed, in plain units."""

from __future__ import annotations

from collections.abc import Callable, Iterable
from typing import NamedTuple, Optional

from .arguments import counted
from .layout import (
    AMOUNT, CHANNELS, FILE_HEADER_LENGTH, HEADER_LENGTH, INCURRED, LENGTH, MOST_SWEEPS, PAID, Field, Unit, amount_name, file_fields,
    last_year_of, length_of, placed, record_fields, step_count,
)
from .library import Refusal
from .refusals import Refused
from .wording import allowed, limits, measured, number

WITHOUT_ARTICLE = ("sigma", "tau", "phi", "psi", "n")


class Details(NamedTuple):
    field: Optional[str] = None
    value: Optional[int] = None
    limits: Optional[str] = None
    sentence: Optional[str] = None


def refused_state(refusal: Refusal) -> Refused:
    return Refused(refusal.number, refusal.place)


def refused_file(refusal: Refusal, file: bytes) -> Refused:
    details = Details()
    if refusal.number == 1:
        details = _length_said("file", file, FILE_HEADER_LENGTH)
    elif refusal.number == 4:
        last = last_year_of(file)
        details = _length_wanted("file", file, file_fields(last), last)
    elif refusal.number == 10:
        details = _ends(file)
    elif refusal.place:
        details = _field_at(refusal.place, file, file_fields(last_year_of(file)))
    return Refused(refusal.number, refusal.place, *details)


def refused_record(refusal: Refusal, record: bytes, last: int) -> Refused:
    """Of a session whose J is `last`."""
    details = Details()
    if refusal.number == 1:
        details = _length_said("mean record", record, HEADER_LENGTH)
    elif refusal.number == 4:
        details = _length_wanted("mean record", record, record_fields(last), last)
    elif refusal.place:
        details = _field_at(refusal.place, record, record_fields(last))
    return Refused(refusal.number, refusal.place, *details)


def refused_sweep(refusal: Refusal, n: int) -> Refused:
    details = _outside("n", n, limits(1, MOST_SWEEPS)) if refusal.number == 12 else Details()
    return Refused(refusal.number, refusal.place, *details)


def refused_buffer(refusal: Refusal, size: int, thing_has: str, length: Callable[[int], int], last: int) -> Refused:
    """Of a buffer for a thing that has so many bytes for each J, told as "a page has"."""
    details = Details()
    if refusal.number == 13:
        wanted = length(last)
        sentence = f"the buffer has {counted(size, 'byte')}; with J = {last} {thing_has} {wanted}"
        details = Details("buffer", size, f"{wanted} bytes or more", sentence)
    return Refused(refusal.number, refusal.place, *details)


def refused_ultimate(refusal: Refusal, year: int, last: int) -> Refused:
    """Of a session whose J is `last`."""
    details = _year_outside(year, 1, last) if refusal.number == 25 else Details()
    return Refused(refusal.number, refusal.place, *details)


def refused_strike(refusal: Refusal, channel: int, year: int, column: int, last: int) -> Refused:
    """Of a session whose J is `last`."""
    details = Details()
    if refusal.number == 14:
        details = _channel_outside(channel)
    elif refusal.number == 26:
        details = _step_outside(channel, year, column, last)
    elif refusal.number == 27:
        details = Details(sentence=f"no other {CHANNELS[channel]} step is left in column {column}")
    return Refused(refusal.number, refusal.place, *details)


def refused_row(refusal: Refusal, file: bytes, channel: int, year: int) -> Refused:
    if refusal.number == 14:
        return Refused(14, refusal.place, *_channel_outside(channel))
    if refusal.number == 15:
        return Refused(15, refusal.place, *_year_outside(year, 0, last_year_of(file)))
    return refused_file(refusal, file)


def _channel_outside(channel: int) -> Details:
    return _outside("channel", channel, f"{PAID} and {INCURRED}")


def _step_outside(channel: int, year: int, column: int, last: int) -> Details:
    """Or struck already, where it is inside."""
    youngest = step_count(last, channel, 0) - 1  # the last accident year with a step
    name = CHANNELS[channel]
    if year > youngest:
        return _outside("accident year", year, limits(0, youngest), because=f" for {name} steps, as J is {last}")
    if column > youngest - year:
        because = f" for {name} steps of accident year {year}, as J is {last}"
        return _outside("column", column, limits(0, youngest - year), because=because)
    return Details(sentence=f"the {name} step of accident year {year} in column {column} is struck already")


def _year_outside(year: int, first: int, last: int) -> Details:
    return _outside("accident year", year, limits(first, last), because=f", as J is {last}")


def _outside(name: str, value: int, told: str, unit: Unit = Unit.NUMBER, because: str = "") -> Details:
    subject = name if name.split(" ")[0] in WITHOUT_ARTICLE else f"the {name}"
    subject += "," if "," in name else ""  # which closes "accident year 1, development year 0"
    verb = "is" if told.isdigit() else "are"
    return Details(name, value, told + because, f"{subject} is {measured(value, unit)}; allowed {verb} {told}{because}")


def _field_at(place: int, lent: bytes, fields: Iterable[Field]) -> Details:
    field = next(field for start, field in placed(fields) if start == place)
    kind = field.kind
    return _outside(field.name, kind.number_at(lent, place), allowed(kind), kind.unit)


def _length_said(thing: str, lent: bytes, header: int) -> Details:
    size = counted(len(lent), "byte")
    if len(lent) < header:
        return Details(thing, len(lent), f"{header} bytes or more", f"the {thing} has {size}, and its header alone has {header}")
    said = LENGTH.number_at(lent, 0)
    return Details("length", said, size, f"the length field says {counted(said, 'byte')}, and the {thing} has {size}")


def _length_wanted(thing: str, lent: bytes, fields: Iterable[Field], last: int) -> Details:
    size, wanted = counted(len(lent), "byte"), counted(length_of(fields), "byte")
    return Details("length", len(lent), wanted, f"the length is {size}; with J = {last} a {thing} has {wanted}")


def _ends(file: bytes) -> Details:
    """Both amounts with which accident year 0 ends."""
    last = last_year_of(file)
    places = {field.name: place for place, field in placed(file_fields(last))}
    names = [amount_name(channel, 0, last) for channel in CHANNELS]
    paid, incurred = (AMOUNT.number_at(file, places[name]) for name in names)
    sentence = f"the {names[0]}, is {number(paid)}, and the incurred amount is {number(incurred)}"
    return Details(names[0], paid, f"{number(incurred)}, as incurred", sentence)

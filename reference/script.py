"""The `calls` program: runs a script of calls, one answer each (docs/CALLS.md).

A script is a run of calls, each a letter and its arguments. A number is 4 bytes, big-endian, unsigned; a byte
string is a number and that many bytes, at most 4,096.
"""

from collections.abc import Iterator, Sequence
from typing import BinaryIO

import session
from chain import Figures
from layout import Refusal
from listing import refused_line
from ultimate import Ultimate

LONGEST_STRING = 4_096
LENT_BYTE = b"\xa5"  # what a lent buffer is filled with


class ScriptEnds(Exception):
    """The script is cut off inside a call, has an unknown letter or a byte string that is too long."""


def answers(script: BinaryIO) -> Iterator[str]:
    """The printed lines. Each call's lines are given before the next call is read."""
    state = session.EMPTY
    try:
        while letter := script.read(1):
            lines, state = _call(letter, script, state)
            yield from lines
    except ScriptEnds:
        yield "script"


def _call(letter: bytes, script: BinaryIO, state: session.State) -> tuple[list[str], session.State]:
    match letter:
        case b"o":
            answer, state = session.open_file(state, _bytes(script))
            return [_line(answer)], state
        case b"j":
            return [_line(session.judge(state, _bytes(script)))], state
        case b"s":
            answer, state = session.sweep(state, _number(script))
            return [_line(answer)], state
        case b"r":
            return _lines_with_buffer(*session.read(state, LENT_BYTE * _length(script))), state
        case b"p":
            return _lines_with_buffer(*session.page(state, LENT_BYTE * _length(script))), state
        case b"u":
            return [_line(session.ultimate(state, _number(script)))], state
        case b"k":
            answer, state = session.strike(state, _number(script), _number(script), _number(script))
            return [_line(answer)], state
        case b"d":
            return _lines_with_buffer(*session.residues(state, _bytes(script), LENT_BYTE * _length(script))), state
        case b"f":
            return _figures_lines(session.figures(state)), state
        case b"w":
            return [_row_line(_bytes(script), _number(script), _number(script))], state
        case b"c":
            return ["closed"], session.close(state)
    raise ScriptEnds


def _line(answer: object) -> str:
    match answer:
        case Refusal():
            return refused_line(answer)
        case session.Opened():
            return "opened"
        case session.Passed():
            return "passed"
        case session.Fails(part):
            return f"fails {part}"
        case session.Settled(total):
            return f"settled {total}"
        case session.Going(total):
            return f"going {total}"
        case session.Written():
            return "read"
        case session.Paged():
            return "page"
        case Ultimate(floor, remainder):
            return f"ultimate {floor} {remainder}"
        case session.Struck():
            return "struck"
        case session.Residues():
            return "residues"
    raise TypeError(f"not an answer: {answer!r}")


def _lines_with_buffer(answer: object, buffer: bytes) -> list[str]:
    """Refused or not, the buffer is shown: a refusal must have left it alone."""
    return [_line(answer), f"buffer {buffer.hex()}"]


def _figures_lines(shown: Figures | Refusal) -> list[str]:
    if isinstance(shown, Refusal):
        return [refused_line(shown)]
    return [
        f"figures {len(shown.own) // 2} {shown.closeness}",
        _numbers_line("own", shown.own),
        *(_numbers_line("row", row) for row in shown.matrix),
        _numbers_line("right", shown.right_hand_side),
    ]


def _numbers_line(name: str, numbers: Sequence[int]) -> str:
    return " ".join((name, *map(str, numbers)))


def _row_line(lent: bytes, channel: int, year: int) -> str:
    told = session.row_told(lent, channel, year)
    if isinstance(told, Refusal):
        return refused_line(told)
    return f"row {session.row(lent, channel, year).hex()}"


def _exactly(script: BinaryIO, count: int) -> bytes:
    got = script.read(count)
    if len(got) < count:
        raise ScriptEnds
    return got


def _number(script: BinaryIO) -> int:
    return int.from_bytes(_exactly(script, 4), "big")


def _length(script: BinaryIO) -> int:
    length = _number(script)
    if length > LONGEST_STRING:
        raise ScriptEnds
    return length


def _bytes(script: BinaryIO) -> bytes:
    return _exactly(script, _length(script))

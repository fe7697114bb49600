"""Scripts of calls (docs/CALLS.md) run through the package, so that its answers can be held against the reference's."""

from __future__ import annotations

from collections.abc import Callable, Iterator
from io import BytesIO

import paths  # noqa: F401
from reserving_desk import Figures, Refused, Session
from reserving_desk.arguments import BytesLike

LENT_BYTE = b"\xa5"  # what a lent buffer is filled with
OF_A_RECORD = b"d"  # the one of them that is lent a record besides

# The calls that are lent one.
WRITING: dict[bytes, tuple[str, Callable[..., None]]] = {
    b"r": ("read", Session.read_into), b"p": ("page", Session.page_into), OF_A_RECORD: ("residues", Session.residues_into),
}


class Changed(AssertionError):
    """A refused call changed the session."""


def answers(script: bytes) -> Iterator[str]:
    """The lines that the program `calls` prints for a script that is whole."""
    source = BytesIO(script)
    with Session() as session:
        while letter := source.read(1):
            before = contents(session)
            records = [_string(source)] if letter == OF_A_RECORD else []
            buffer = bytearray(LENT_BYTE * _number(source)) if letter in WRITING else bytearray()
            try:
                yield from _answer(letter, source, session, *records, buffer).splitlines()
            except Refused as refused:
                if contents(session) != before:
                    raise Changed(f"by a call that is {refused}") from refused
                yield f"refused {refused.number} at {refused.place}"
            if letter in WRITING:
                yield f"buffer {buffer.hex()}"


def contents(session: Session) -> bytes:
    """Every byte that the session keeps."""
    return b"".join(bytes(field) for field in session._fields)


def _answer(letter: bytes, source: BytesIO, session: Session, *lent: BytesLike) -> str:
    if letter == b"o":
        session.open(_string(source))
        return "opened"
    if letter == b"j":
        judged = session.judge(_string(source))
        return "passed" if judged.passed else f"fails {judged.part}"
    if letter == b"s":
        swept = session.sweep(_number(source))
        return f"{'settled' if swept.settled else 'going'} {swept.total}"
    if letter in WRITING:
        answer, write = WRITING[letter]
        write(session, *lent)
        return answer
    if letter == b"u":
        ultimate = session.ultimate(_number(source))
        return f"ultimate {ultimate.floor} {ultimate.remainder}"
    if letter == b"k":
        session.strike(_number(source), _number(source), _number(source))
        return "struck"
    if letter == b"f":
        return _system(session.figures())
    if letter == b"w":
        row = session.row(_string(source), _number(source), _number(source))
        return "row " + b"".join(amount.to_bytes(8, "big") for amount in row).hex()
    if letter == b"c":
        session.close()
        return "closed"
    raise ValueError(f"no call has the letter {letter!r}")


def _system(figures: Figures) -> str:
    rows = (("own", figures.own_weights), *(("row", row) for row in figures.matrix), ("right", figures.right_hand_side))
    lines = (" ".join((name, *map(str, numbers))) for name, numbers in rows)
    return "\n".join((f"figures {figures.last} {figures.closeness}", *lines))


def _number(source: BytesIO) -> int:
    return int.from_bytes(source.read(4), "big")


def _string(source: BytesIO) -> bytes:
    return source.read(_number(source))

"""The calls of a script, as the bytes that `script` reads."""

from collections.abc import Iterator

LARGEST_NUMBER = (1 << 32) - 1


def number(value: int) -> bytes:
    return value.to_bytes(4, "big")


def string(lent: bytes) -> bytes:
    return number(len(lent)) + lent


def call_open(lent: bytes) -> bytes:
    return b"o" + string(lent)


def call_judge(record: bytes) -> bytes:
    return b"j" + string(record)


def call_sweep(sweeps: int) -> bytes:
    return b"s" + number(sweeps)


def call_read(size: int) -> bytes:
    return b"r" + number(size)


def call_page(size: int) -> bytes:
    return b"p" + number(size)


def call_ultimate(year: int) -> bytes:
    return b"u" + number(year)


def call_strike(channel: int, year: int, column: int) -> bytes:
    return b"k" + number(channel) + number(year) + number(column)


def call_residues(record: bytes, size: int) -> bytes:
    return b"d" + string(record) + number(size)


def call_row(lent: bytes, channel: int, year: int) -> bytes:
    return b"w" + string(lent) + number(channel) + number(year)


FIGURES = b"f"
CLOSE = b"c"


def one_of_each() -> Iterator[bytes]:
    """Every kind of call, once, on an empty session, which is empty again behind the last."""
    yield from (call_open(b""), call_judge(b""), call_sweep(1), call_read(0), call_page(0), call_ultimate(1))
    yield from (call_strike(0, 0, 0), call_residues(b"", 0), FIGURES, call_row(b"", 0, 0), CLOSE)

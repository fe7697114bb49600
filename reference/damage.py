"""Ways to spoil a file or a record so that a given check turns it back; for the vectors and the tests."""

from collections.abc import Callable, Iterator
from random import Random

import layout
from layout import (
    AMOUNT_LIMITS, CLOSENESS_LIMITS, INCURRED, MEAN_LIMITS, PAID, PRIOR_VARIANCE_LIMITS, VARIANCE_LIMITS,
    amount_place, parts_count, prior_mean_place, prior_variance_place, variance_place,
)

Spoils = dict[int, Callable[[bytes], bytes]]


def put(lent: bytes, place: int, value: int, width: int) -> bytes:
    """The bytes with one field changed; a negative value in two's complement."""
    field = (value % (1 << 8 * width)).to_bytes(width, "big")
    return lent[:place] + field + lent[place + width:]


def _longer(lent: bytes) -> bytes:
    """One amount too long for its J, the length word agreeing with what is lent."""
    return layout.with_length(lent[4:] + bytes(7) + b"\x01")


def _other_end(lent: bytes) -> bytes:
    """Year 0's last incurred amount no longer its last paid one, both inside the limits."""
    last = lent[5]
    place = amount_place(last, INCURRED, 0, last)
    amount = layout.unsigned(lent, place, 8)
    return put(lent, place, amount - 1 if amount > 1 else 2, 8)


# By number: what makes the check fail, and leaves the lower numbers' checks as they were. To spoil a file for
# two checks the higher number comes first, as J and the length are changed last.
SPOIL_FILE: Spoils = {
    1: lambda lent: put(lent, 0, len(lent) + 1, 4),
    2: lambda lent: put(lent, 4, 2, 1),
    3: lambda lent: put(lent, 5, 16, 1),
    4: _longer,
    5: lambda lent: put(lent, 6, 0, 4),
    6: lambda lent: put(lent, variance_place(lent[5] + 1), VARIANCE_LIMITS[1] + 1, 8),
    7: lambda lent: put(lent, prior_variance_place(lent[5], 1), PRIOR_VARIANCE_LIMITS[0] - 1, 8),
    8: lambda lent: put(lent, prior_mean_place(lent[5], 0), MEAN_LIMITS[0] - 1, 4),
    9: lambda lent: put(lent, amount_place(lent[5], PAID, 1, 0), 0, 8),
    10: _other_end,
}

SPOIL_RECORD: Spoils = {
    1: lambda lent: put(lent, 0, len(lent) - 1, 4),
    2: lambda lent: put(lent, 4, 0, 1),
    4: lambda lent: layout.with_length(lent[4:] + bytes(4)),
    11: lambda lent: put(lent, layout.part_place(2), MEAN_LIMITS[1] + 1, 4),
}


def pairs_of_spoils(lent: bytes, spoils: Spoils) -> Iterator[tuple[int, int, bytes]]:
    """For every two checks: the lower number, the higher one, and the bytes that fail both."""
    for lower in spoils:
        for higher in spoils:
            if lower < higher:
                yield lower, higher, spoils[lower](spoils[higher](lent))


def fields_of(last: int) -> list[tuple[str, int, int, int, tuple[int, int]]]:
    """Name, number, place, width and limits of the first and the last field of each kind, and of each block of amounts, in number order."""
    parts = parts_count(last)
    return [
        ("closeness", 5, 6, 4, CLOSENESS_LIMITS),
        ("variance-first", 6, variance_place(0), 8, VARIANCE_LIMITS),
        ("variance-last", 6, variance_place(parts - 1), 8, VARIANCE_LIMITS),
        ("prior-variance-first", 7, prior_variance_place(last, 0), 8, PRIOR_VARIANCE_LIMITS),
        ("prior-variance-last", 7, prior_variance_place(last, parts - 1), 8, PRIOR_VARIANCE_LIMITS),
        ("prior-mean-first", 8, prior_mean_place(last, 0), 4, MEAN_LIMITS),
        ("prior-mean-last", 8, prior_mean_place(last, parts - 1), 4, MEAN_LIMITS),
        ("amount-first", 9, amount_place(last, PAID, 0, 0), 8, AMOUNT_LIMITS),
        ("amount-end-of-paid", 9, amount_place(last, PAID, last, 0), 8, AMOUNT_LIMITS),
        ("amount-start-of-incurred", 9, amount_place(last, INCURRED, 0, 0), 8, AMOUNT_LIMITS),
        ("amount-last", 9, amount_place(last, INCURRED, last, 0), 8, AMOUNT_LIMITS),
    ]


def drawn_file_damage(rng: Random, lent: bytes) -> bytes:
    """Any damage, or for an accepted file one field at a limit or one past it."""
    if rng.randrange(2) == 0:
        return drawn_damage(rng, lent)
    _, _, place, width, (low, high) = rng.choice(fields_of(lent[5]))
    return put(lent, place, rng.choice((low - 1, low, high, high + 1)), width)


def drawn_damage(rng: Random, lent: bytes) -> bytes:
    """A byte or a bit changed, cut, lengthened, emptied, or bytes drawn anew."""
    kind = rng.randrange(6)
    if kind == 0 and lent:
        return put(lent, rng.randrange(len(lent)), rng.getrandbits(8), 1)
    if kind == 1 and lent:
        place = rng.randrange(len(lent))
        return put(lent, place, lent[place] ^ (1 << rng.randrange(8)), 1)
    if kind == 2:
        return lent[:rng.randint(0, len(lent))]
    if kind == 3:
        return lent + rng.randbytes(rng.randint(1, 9))
    if kind == 4:
        return layout.with_length(lent[4:4 + rng.randint(0, len(lent))])
    return rng.randbytes(rng.randint(0, 200))

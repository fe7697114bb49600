"""File F of the specification with its record and page, and the residues of a mean beside it; sessions that have a file open, and the
refusal of a call."""

from __future__ import annotations

from collections.abc import Callable

import paths  # noqa: F401

import samples
from layout import build_file, build_record
from reserving_desk import TICKS_PER_DOUBLING as T
from reserving_desk import Refused, Session
from reserving_desk.arguments import Buffer

F = build_file(samples.file_f())
RECORD_OF_F = build_record(samples.file_f().prior_means)
PAGE_OF_F = b"phi  0  10485760     131073\nphi  1   1048576      65537\npsi  0  -1048576      65537\n"

BESIDE_F = build_record((10 * T + 1, T, -T - 1))
RESIDUES_BESIDE_F = bytes.fromhex("0000000000020001 0000000000008000 fffffffffffe7fff")  # 131,073, 32,768 and -98,305


def write_residues(desk: Session, buffer: Buffer) -> None:
    desk.residues_into(BESIDE_F, buffer)


# The calls that write into a lent buffer, each with what it writes for F; the first two of the mean that is held, which passes.
Writing = tuple[Callable[[Session, Buffer], None], bytes]
WRITING_THE_MEAN: tuple[Writing, ...] = ((Session.read_into, RECORD_OF_F), (Session.page_into, PAGE_OF_F))
WRITING: tuple[Writing, ...] = (*WRITING_THE_MEAN, (write_residues, RESIDUES_BESIDE_F))


def opened(file: bytes = F) -> Session:
    desk = Session()
    desk.open(file)
    return desk


def refusal_of(call: Callable[[], object]) -> Refused:
    try:
        call()
    except Refused as refused:
        return refused
    raise AssertionError("not refused")

"""Specification, "The table of row starts": the cells of a block before each row, and docs/CELLS.md, which prints them."""

from layout import INCURRED, LARGEST_YEAR, PAID, amount_place, file_length

YEARS = range(LARGEST_YEAR + 1)  # of the table: 0 to 15, for J and for the accident year

HEAD = """# Where a cell stands

An insurer who lays out a file finds here where each row starts: by cells, and by bytes of the file in both blocks. Cells and bytes are
counted from 0, and an amount has 8 bytes, so the amount of development year j starts 8·j bytes behind the start of its row.
`python3 reference cells` prints this page, and `cell_place` of the Python package gives the first byte of any amount.

## The table of row starts

Entry 16·J + year, for J = 0..15 and year 0..15, is the cells of a block before the row of that accident year, and 0 where the year
exceeds J. The desk finds its rows by this very table (`ROW_STARTS` of `row_starts`). Here it has a line for each J and a column for each
year; no file has J = 0.

"""


def row_start(last: int, year: int) -> int:
    """The cells of a block before the row of a year, and 0 where the year exceeds J."""
    return year * (last + 1) - year * (year - 1) // 2 if year <= last else 0


def table() -> tuple[int, ...]:
    """Entry 16·J + year."""
    return tuple(row_start(last, year) for last in YEARS for year in YEARS)


def aligned(head: tuple[str, ...], rows: list[tuple[int, ...]]) -> str:
    """A table of numbers whose text has straight columns too."""
    widths = [max(len(cell) for cell in column) for column in zip(head, *(map(str, row) for row in rows))]

    def line(cells: tuple[object, ...]) -> str:
        return "| " + " | ".join(f"{cell!s:>{width}}" for cell, width in zip(cells, widths)) + " |\n"

    rule = "|" + "|".join("-" * (width + 1) + ":" for width in widths) + "|\n"
    return line(head) + rule + "".join(map(line, rows))


def rows_of(last: int) -> str:
    """The rows of a file whose J is `last`."""
    rows = [
        (year, last - year + 1, row_start(last, year), *(amount_place(last, channel, year, 0) for channel in (PAID, INCURRED)))
        for year in range(last + 1)
    ]
    return aligned(("accident year", "amounts", "cells before", "paid: from byte", "incurred: from byte"), rows)


def printed() -> str:
    starts = [(last, *(row_start(last, year) for year in YEARS)) for last in YEARS]
    files = "".join(f"\n## J = {last}: {file_length(last):,} bytes\n\n{rows_of(last)}" for last in YEARS if last)
    return HEAD + aligned(("J", *map(str, YEARS)), starts) + files

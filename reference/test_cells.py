"""The table of row starts, and the page that prints it."""

import re
import unittest
from pathlib import Path

import layout
from cells import YEARS, printed, row_start, table
from layout import INCURRED, PAID

PAGE = Path(__file__).resolve().parent.parent / "docs" / "CELLS.md"
LAST_ROW_OF_THE_TABLE = (0, 16, 31, 45, 58, 70, 81, 91, 100, 108, 115, 121, 126, 130, 133, 135)  # added up by hand


def rows_of(text: str) -> list[list[str]]:
    lines = [line for line in text.splitlines() if line.startswith("| ")]
    return [[cell.strip() for cell in line.strip("|").split("|")] for line in lines]


def numbers(text: str) -> list[tuple[int, ...]]:
    """The rows of a table behind its head."""
    return [tuple(map(int, row)) for row in rows_of(text)[1:]]


def sections() -> dict[str, str]:
    _, *found = re.split(r"^## ", PAGE.read_text(), flags=re.MULTILINE)
    return {title: text for title, text in (section.split("\n", 1) for section in found)}


class Table(unittest.TestCase):
    def test_counts_the_cells_of_the_rows_before(self) -> None:
        entries = table()
        self.assertEqual(len(entries), 256)
        for last in YEARS:
            for year in YEARS:
                before = sum(last + 1 - earlier for earlier in range(year)) if year <= last else 0
                self.assertEqual(entries[16 * last + year], before)

    def test_of_the_largest_j(self) -> None:
        self.assertEqual(table()[-16:], LAST_ROW_OF_THE_TABLE)

    def test_finds_every_cell(self) -> None:
        for last in YEARS[1:]:
            first = layout.prior_mean_place(last, layout.parts_count(last))
            cells = (last + 1) * (last + 2) // 2
            places = [
                first + 8 * (channel * cells + row_start(last, year) + column)
                for channel in (PAID, INCURRED) for year in range(last + 1) for column in range(last - year + 1)
            ]
            self.assertEqual(places, list(range(first, layout.file_length(last), 8)))


class Page(unittest.TestCase):
    def test_is_the_printed_one(self) -> None:
        self.assertEqual(PAGE.read_text(), printed(), "python3 reference cells > docs/CELLS.md makes it anew")

    def test_heads(self) -> None:
        title, *others = sections()
        self.assertEqual(rows_of(sections()[title])[0], ["J", *(str(year) for year in range(16))])
        for other in others:
            head = rows_of(sections()[other])[0]
            self.assertEqual(head, ["accident year", "amounts", "cells before", "paid: from byte", "incurred: from byte"])

    def test_says_how_to_read_it(self) -> None:
        text = " ".join(PAGE.read_text().split())
        for said in ("Entry 16·J + year, for J = 0..15 and year 0..15,", "starts 8·j bytes behind the start of its row"):
            self.assertIn(said, text)

    def test_prints_the_table(self) -> None:
        rows = numbers(sections()["The table of row starts"])
        self.assertEqual([row[0] for row in rows], list(YEARS))
        self.assertEqual(tuple(entry for row in rows for entry in row[1:]), table())

    def test_prints_the_bytes_of_every_row(self) -> None:
        titles = [f"J = {last}: {layout.file_length(last):,} bytes" for last in YEARS[1:]]
        self.assertEqual(list(sections())[1:], titles)
        for last, title in zip(YEARS[1:], titles):
            rows = numbers(sections()[title])
            self.assertEqual([row[:3] for row in rows], [(year, last + 1 - year, row_start(last, year)) for year in range(last + 1)])
            for year, _, _, *places in rows:
                self.assertEqual(places, [layout.amount_place(last, channel, year, 0) for channel in (PAID, INCURRED)])

    def test_of_file_f(self) -> None:
        self.assertEqual(numbers(sections()["J = 1: 118 bytes"]), [(0, 2, 0, 70, 94), (1, 1, 2, 86, 110)])


if __name__ == "__main__":
    unittest.main()

"""Where a cell stands: as the reference counts it, and as the desk reads it."""

import unittest
from collections.abc import Iterator

from refusing import refusal_of

import damage
import layout
import samples
from layout import build_file
from reserving_desk import INCURRED, PAID, Session, cell_place

Cell = tuple[int, int, int]  # channel, accident year, development year


def cells(last: int) -> Iterator[Cell]:
    """In file order."""
    for channel in (PAID, INCURRED):
        for year in range(last + 1):
            yield from ((channel, year, column) for column in range(last - year + 1))


class CellPlace(unittest.TestCase):
    def test_as_the_reference_counts_it(self) -> None:
        for last in range(1, 16):
            for cell in cells(last):
                self.assertEqual(cell_place(last, *cell), layout.amount_place(last, *cell))

    def test_an_amount_of_0_is_refused_at_it(self) -> None:
        for last in (1, 2, 9, 15):
            file = build_file(samples.many_sweeps(last))
            for cell in cells(last):
                place = cell_place(last, *cell)
                refused = refusal_of(lambda: Session().open(damage.put(file, place, 0, 8)))
                self.assertEqual((refused.number, refused.place), (9, place))

    def test_the_row_read_at_it(self) -> None:
        desk = Session()
        for last in range(1, 16):
            file = build_file(samples.many_sweeps(last))
            for channel, year, column in cells(last):
                place = cell_place(last, channel, year, column)
                self.assertEqual(desk.row(file, channel, year)[column], int.from_bytes(file[place:place + 8], "big"))

    def test_of_file_f(self) -> None:
        self.assertEqual([cell_place(1, *cell) for cell in cells(1)], [70, 78, 86, 94, 102, 110])


if __name__ == "__main__":
    unittest.main()

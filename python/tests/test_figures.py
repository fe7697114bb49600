"""The figures of an open file: File F's as the specification has them, others as the reference works them out."""

import inspect
import re
import textwrap
import unittest
from collections.abc import Sequence
from contextlib import redirect_stdout
from dataclasses import FrozenInstanceError, replace
from fractions import Fraction
from io import StringIO
from random import Random

from refusing import opened, refusal_of

import chain
import exact
import layout
import samples
from layout import build_file
from reserving_desk import TICKS_PER_DOUBLING as T
from reserving_desk import Figures, Mean, Session, record_of


def solve(matrix: Sequence[Sequence[int]], right: Sequence[int]) -> list[Fraction]:
    """Exactly, as the reference does."""
    u, m = exact.solve(matrix, right)
    return [Fraction(part, m) for part in u]


class OfFileF(unittest.TestCase):
    EXPECTED = Figures(
        last=1,
        closeness=1,
        own_weights=(131_073, 65_537, 65_537),
        matrix=((131_073, 0, 0), (0, 98_305, -32_768), (0, -32_768, 98_305)),
        right_hand_side=(1_310_730 * T, 131_073 * T, -131_073 * T),
    )

    def test_as_the_specification_has_them(self) -> None:
        self.assertEqual(opened().figures(), self.EXPECTED)
        self.assertEqual(opened(build_file(samples.file_f(closeness=2))).figures(), replace(self.EXPECTED, closeness=2))

    def test_a_sweep_changes_none(self) -> None:
        desk = opened(build_file(replace(samples.file_f(), prior_means=(0, 0, 0))))
        before = desk.figures()
        self.assertGreater(desk.sweep().total, 0)
        self.assertEqual(desk.figures(), before)

    def test_plain_numbers(self) -> None:
        figures = opened().figures()
        with self.assertRaises(FrozenInstanceError):
            figures.last = 2  # type: ignore[misc]
        self.assertIs(type(figures.last), int)
        for numbers in (figures.own_weights, figures.right_hand_side, *figures.matrix):
            self.assertEqual((type(numbers), {type(number) for number in numbers}), (tuple, {int}))


class OfOtherFiles(unittest.TestCase):
    def test_as_the_reference_works_them_out(self) -> None:
        rng = Random("figures")
        for last in range(1, layout.LARGEST_YEAR + 1):
            for file in (samples.drawn_file(rng, last), samples.many_sweeps(last), samples.file_at_limits(last, 0)):
                expected = chain.figures_of(file)
                figures = opened(build_file(file)).figures()
                self.assertEqual((figures.last, figures.closeness), (last, file.closeness))
                self.assertEqual(figures.own_weights, expected.own)
                self.assertEqual(figures.matrix, expected.matrix)
                self.assertEqual(figures.right_hand_side, expected.right_hand_side)

    def test_refused(self) -> None:
        desk = opened()
        desk.close()
        for refused in (refusal_of(Session().figures), refusal_of(desk.figures)):
            self.assertEqual((refused.number, refused.place, refused.field), (21, 0, None))


class Solved(unittest.TestCase):
    def test_the_example_of_the_docstring(self) -> None:
        """A solution of the system, rounded, passes where closeness is at least 256."""
        block = re.findall(r"(?:^ {4}.*\n)+", inspect.getdoc(Session.figures) or "", re.MULTILINE)[0]
        rng = Random("solved")
        for last in (1, 2, 7):
            file = replace(samples.with_same_end(samples.mild_file(rng, last)), closeness=256)
            said = StringIO()
            with redirect_stdout(said):
                exec(textwrap.dedent(block), {"desk": opened(build_file(file)), "solve": solve, "Mean": Mean, "record_of": record_of})
            self.assertEqual(said.getvalue(), "True\n")


if __name__ == "__main__":
    unittest.main()

"""The central ultimate: File F's, the sample's and others as the reference finds them, as a fraction and as a natural logarithm."""

import unittest
from decimal import Decimal, localcontext
from fractions import Fraction
from math import exp, log
from random import Random

import scripts
from paths import ROOT
from refusing import opened, refusal_of

import layout
import paper
import session
from layout import build_file
from reserving_desk import TICKS_PER_DOUBLING, Session, Ultimate
from vectors_ultimate import at_the_limits, one_year, settling

SAMPLE = ROOT / "samples" / "tables-10-11.file"


class Figure(unittest.TestCase):
    def test_of_f(self) -> None:
        found = opened().ultimate(1)
        self.assertEqual(found, Ultimate(floor=11 * TICKS_PER_DOUBLING, remainder=0, divisor=1 << 31))
        self.assertEqual((found.ticks, found.natural_log), (11 * TICKS_PER_DOUBLING, 11 * log(2)))
        self.assertIs(type(found.ticks), Fraction)

    def test_below_zero(self) -> None:
        """-8/5: the floor is -2, and the fraction has all of it."""
        found = opened(build_file(one_year(3 << 18, 2 << 18, -1, -2))).ultimate(1)
        self.assertEqual(found, Ultimate(-2, 2 << 18, 5 << 18))
        self.assertEqual(found.ticks, Fraction(-8, 5))

    def test_natural_log_is_the_nearest_float(self) -> None:
        """With logarithms of 60 digits, of drawn figures: nothing is rounded before the last, of which a quarter would tell."""
        rng, twice = Random("package 4"), 0
        with localcontext() as context:
            context.prec = 60
            for _ in range(400):
                divisor = rng.randint(1 << 19, 30 << 40)
                found = Ultimate(rng.randint(-(1 << 30), 1 << 30), rng.randrange(divisor), divisor)
                exact = Decimal(found.floor * found.divisor + found.remainder) / found.divisor * Decimal(2).ln() / TICKS_PER_DOUBLING
                self.assertEqual(found.natural_log, float(exact))
                twice += float(found.ticks) / (TICKS_PER_DOUBLING / log(2)) != found.natural_log
        self.assertGreater(twice, 50)

    def test_of_the_sample(self) -> None:
        """What is left of each year's median is within half a per cent of the reserve of the paper's Table 3, which goes by the mean."""
        desk = opened(SAMPLE.read_bytes())
        self.assertEqual(refusal_of(lambda: desk.ultimate(0)).number, 24)  # the prior means do not pass
        self.assertTrue(desk.sweep())
        for year, printed in enumerate(paper.RESERVES, start=1):
            left = exp(desk.ultimate(year).natural_log) - paper.PAID[year][-1]
            self.assertTrue(0.995 * printed < left < 1.0001 * printed)

    def test_leaves_the_session_as_it_was(self) -> None:
        desk = opened()
        before = scripts.contents(desk)
        desk.ultimate(1)
        refusal_of(lambda: desk.ultimate(2))
        self.assertEqual(scripts.contents(desk), before)


class AgainstTheReference(unittest.TestCase):
    def assert_as_the_reference(self, desk: Session, state: session.Held) -> None:
        for year in range(1, state.file.last + 1):
            expected = session.ultimate(state, year)
            assert not isinstance(expected, layout.Refusal)
            found = desk.ultimate(year)
            self.assertEqual(found, Ultimate(expected.floor, expected.remainder, expected.divisor))
            self.assertEqual(found.ticks * expected.divisor, expected.floor * expected.divisor + expected.remainder)

    def test_every_year_of_every_j(self) -> None:
        for last in range(1, layout.LARGEST_YEAR + 1):
            for file in (settling(last), at_the_limits(last, 1, 1), at_the_limits(last, -1, -1)):
                desk, (_, state) = opened(build_file(file)), session.open_file(session.EMPTY, build_file(file))
                self.assertTrue(desk.sweep())
                self.assert_as_the_reference(desk, session.sweep(state, 4_096)[1])


if __name__ == "__main__":
    unittest.main()

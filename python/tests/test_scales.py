"""Ticks, natural logarithms and squared ticks."""

import unittest
from decimal import Decimal
from fractions import Fraction
from math import inf, log, nan
from random import Random

import paths  # noqa: F401

import paper
from reserving_desk import TICKS_PER_DOUBLING as T
from reserving_desk import natural_log, scales, squared_ticks, ticks
from reserving_desk.scales import Number


class Ticks(unittest.TestCase):
    def test_doublings(self) -> None:
        self.assertEqual([ticks(log(2)), ticks(-log(2)), ticks(10 * log(2)), ticks(0)], [T, -T, 10 * T, 0])
        self.assertEqual([natural_log(T), natural_log(-T), natural_log(0)], [log(2), -log(2), 0.0])

    def test_to_the_nearest(self) -> None:
        tick = log(2) / T
        self.assertEqual([ticks(1.49 * tick), ticks(1.51 * tick), ticks(-1.49 * tick), ticks(-1.51 * tick)], [1, 2, -1, -2])

    def test_there_and_back(self) -> None:
        rng = Random("ticks")
        drawn = [rng.randint(-(1 << 26), 1 << 26) for _ in range(500)]
        for count in (0, 1, -1, T - 1, 1 << 26, -(1 << 26), *drawn):
            self.assertEqual(ticks(natural_log(count)), count)


class SquaredTicks(unittest.TestCase):
    def test_as_the_reference(self) -> None:
        for deviation in (*paper.SIGMA, *paper.TAU, *range(1, 20_000, 137)):
            exact = Fraction(deviation, 10_000)
            self.assertEqual(squared_ticks(exact), paper.squared_ticks(exact))

    def test_every_kind_of_number(self) -> None:
        expected = paper.squared_ticks(Fraction(1393, 10_000))
        numbers: tuple[Number, ...] = (0.1393, "0.1393", "1393e-4", Decimal("0.1393"), Fraction(1393, 10_000))
        for deviation in numbers:
            self.assertEqual(squared_ticks(deviation), expected)

    def test_however_small_it_is_not_0(self) -> None:
        self.assertEqual([squared_ticks(deviation) for deviation in ("1e-6", "4e-7", "1e-7", "1e-99")], [2, 1, 1, 1])

    def test_no_deviation(self) -> None:
        wrong: tuple[Number, ...] = (0, "0.0", -1, "-0.1", nan, inf, "much")
        for deviation in wrong:
            with self.assertRaisesRegex(ValueError, "^deviation must be "):
                squared_ticks(deviation)

    def test_natural_log_of_two(self) -> None:
        """By another series, of which less than 2^-139 is left."""
        other = sum(Fraction(1, k << k) for k in range(1, 140))
        self.assertLess(abs(scales._natural_log_of_two() - other), Fraction(1, 1 << 128))


if __name__ == "__main__":
    unittest.main()

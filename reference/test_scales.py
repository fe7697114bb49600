"""The logarithm and the weight against the specification's figures and bounds."""

import unittest
from collections.abc import Callable
from decimal import Decimal, localcontext
from fractions import Fraction
from random import Random

from rounding import POWER_BITS, exact_ticks, mean_errors, power_bounds
from scales import TICKS_PER_DOUBLING as T
from scales import half_ticks, logarithm, weight
from vectors_calls import LOGARITHMS_OF


Divided = Callable[[int, int, str], int]


def rounded_down(number: int, divisor: int, _place: str) -> int:
    return number // divisor


def by_the_words(amount: int, divided: Divided = rounded_down) -> int:
    """The specification's logarithm read once more, with divisions instead of shifts and its bits as a text."""
    return (half_ticks_by_the_words(amount, 21, divided) + 1) // 2


def half_ticks_by_the_words(amount: int, squarings: int, divided: Divided = rounded_down) -> int:
    """With 21 squarings; with 20 they are whole ticks."""
    whole = max(h for h in range(64) if 2**h <= amount)
    y = amount * 2 ** (31 - whole) if whole <= 31 else divided(amount, 2 ** (whole - 31), "start")
    bits = ""
    for _ in range(squarings):
        if y * y >= 2**63:
            bits, y = bits + "1", divided(y * y, 2**32, "bit 1")
        else:
            bits, y = bits + "0", divided(y * y, 2**31, "bit 0")
    return whole * 2**squarings + int(bits, 2)


def drawn_amounts(seed: int, count: int) -> list[int]:
    """So many of each number of bits up to 64, and those beside the powers of two."""
    rng = Random(seed)
    drawn = [rng.randint(1, (1 << bits) - 1) for bits in range(1, 65) for _ in range(count)]
    return drawn + [(1 << h) + d for h in range(2, 65) for d in (-1, 0, 1) if (1 << h) + d < 1 << 64]


class Logarithm(unittest.TestCase):
    def test_figures_of_the_document(self) -> None:
        figures = {1: 0, 1 << 40: 41_943_040, 1 << 44: 46_137_344, 3: 1_661_954, 5: 2_434_718}
        self.assertEqual({amount: logarithm(amount) for amount in figures}, figures)

    def test_powers_of_two_are_whole_doublings(self) -> None:
        self.assertEqual([logarithm(1 << h) for h in range(64)], [h * T for h in range(64)])
        self.assertEqual(logarithm((1 << 64) - 1), 64 * T)

    def test_bound_by_the_power_itself(self) -> None:
        for amount in (1, 2, 3, 5, 6, 7, 10):
            power, ticks = amount ** (2 * T), logarithm(amount)
            self.assertTrue(1 << 2 * ticks <= 2 * power < 1 << (2 * ticks + 3), amount)

    def test_bounds_by_intervals(self) -> None:
        for amount in [*range(1, 3_000), *drawn_amounts(1, 50)]:
            low, high, exponent = power_bounds(amount, 21)
            unit = 1 << (2 * logarithm(amount) - exponent)
            self.assertLessEqual(unit, 2 * low, amount)
            self.assertLess(2 * high, 8 * unit, amount)
            self.assertLess(511 * high, 512 * 2 * unit, amount)

    def test_reads_as_the_document(self) -> None:
        # Amounts from 2^32 on lose their lowest bits before the first squaring.
        # Few amounts tell a floor on the way from another rounding, so many are drawn.
        for amount in [*drawn_amounts(2, 300), *LOGARITHMS_OF]:
            self.assertEqual(logarithm(amount), by_the_words(amount), amount)
        # Of this one the bit that is lost decides: rounded up at the start, it would be a tick more.
        self.assertEqual((logarithm(4_294_968_715), logarithm(4_294_968_716)), (32 * T, 32 * T + 1))

    def test_the_vectors_tell_each_floor_from_another_rounding(self) -> None:
        """So that a desk whose definition and code share one mistake still prints something else."""
        roundings: dict[str, Callable[[int, int], int]] = {
            "one less where exact": lambda number, divisor: (number - 1) // divisor,
            "to the nearest": lambda number, divisor: (2 * number + divisor) // (2 * divisor),
            "up": lambda number, divisor: -(-number // divisor),
        }
        for place in ("start", "bit 1", "bit 0"):
            for name, other in roundings.items():
                def divided(number: int, divisor: int, where: str) -> int:
                    return other(number, divisor) if where == place else number // divisor

                self.assertTrue(any(by_the_words(amount, divided) != logarithm(amount) for amount in LOGARITHMS_OF), (place, name))

    def test_grows_with_the_amount(self) -> None:
        amounts = sorted(drawn_amounts(3, 50))
        logarithms = list(map(logarithm, amounts))
        self.assertEqual(logarithms, sorted(logarithms))

    def test_no_amount_is_below_one(self) -> None:
        for amount in (0, -1):
            with self.assertRaises(ValueError):
                logarithm(amount)


class Rounding(unittest.TestCase):
    def test_the_power_is_between(self) -> None:
        """Of few bits, so that much is cut off."""
        for amount in (3, 5, 7, 1_000_003, (1 << 40) - 1, (1 << 44) - 1):
            low, high, exponent = power_bounds(amount, 10, bits=20)
            self.assertLess(low << exponent, amount**1_024)
            self.assertLess(amount**1_024, high << exponent)

    def test_the_exact_logarithm_is_between(self) -> None:
        """By the natural logarithms of the standard library, to 40 figures."""
        with localcontext() as context:
            context.prec = 40
            for amount in (2, 3, 5, 2_411, 1_000_003, (1 << 40) - 1, 1 << 40, (1 << 44) - 1, 1 << 44):
                ticks = Fraction(T * (Decimal(amount).ln() / Decimal(2).ln()))
                for bits in (POWER_BITS, 50):  # of so few the ends are several bits apart
                    low, high = exact_ticks(amount, bits)
                    self.assertTrue(low <= ticks + Fraction(1, 10**30) and ticks < high, amount)
                low, high = exact_ticks(amount)
                self.assertEqual(high - low, Fraction(1, 1 << 32))

    def test_half_a_tick_may_be_passed(self) -> None:
        """By what the squarings lose: so the bound has 511 and 512, and 1,023 and 1,024 would be too near."""
        self.assertGreater(exact_ticks(2_411)[0] - logarithm(2_411), Fraction(1, 2))
        amount = 141_007_702_397
        low, _, exponent = power_bounds(amount, 21)
        self.assertGreater(1_023 * low, 1_024 * 2 << (2 * logarithm(amount) - exponent))

    def test_cut_off_they_are_of_one_squaring_less(self) -> None:
        for amount in drawn_amounts(4, 50):
            self.assertEqual(half_ticks(amount) // 2, half_ticks_by_the_words(amount, 20), amount)

    def test_cut_off_they_lose_half_a_tick_and_rounded_none(self) -> None:
        """The mean of 10,000 is off by some thousandths of a tick, as it is drawn."""
        for seed in (1, 2):
            cut, nearest = mean_errors(seed)
            self.assertLess(abs(cut + Fraction(1, 2)), Fraction(1, 100))
            self.assertLess(abs(nearest), Fraction(1, 100))


class Weight(unittest.TestCase):
    def test_figures_of_the_document(self) -> None:
        self.assertEqual((weight(1 << 18), weight(1 << 46)), (1 << 28, 1))

    def test_nearest(self) -> None:
        rng = Random(3)
        for _ in range(2_000):
            variance = rng.randint(1 << 18, 1 << rng.randint(19, 46))
            self.assertLessEqual(abs(weight(variance) - Fraction(1 << 46, variance)), Fraction(1, 2))

    def test_halves_go_up(self) -> None:
        self.assertEqual(weight(1 << 47), 1)

    def test_falls_as_the_variance_grows(self) -> None:
        variances = sorted(Random(4).randint(1 << 18, 1 << 46) for _ in range(500))
        weights = [weight(variance) for variance in variances]
        self.assertEqual(weights, sorted(weights, reverse=True))

    def test_a_variance_of_0_has_no_weight(self) -> None:
        self.assertEqual((weight(0), weight(1)), (0, 1 << 46))

    def test_no_variance_is_below_zero(self) -> None:
        with self.assertRaises(ValueError):
            weight(-1)


if __name__ == "__main__":
    unittest.main()

"""The outside check: Tables 10 and 11 of the paper give the last column of its Table 3."""

import unittest
from fractions import Fraction
from math import log

import chain
import exact
import layout
import paper
from layout import read_file


class Tables(unittest.TestCase):
    def test_shape(self) -> None:
        for triangle in (paper.PAID, paper.INCURRED):
            self.assertEqual([len(row) for row in triangle], list(range(10, 0, -1)))
        self.assertEqual((len(paper.SIGMA), len(paper.TAU), len(paper.RESERVES)), (10, 9, 9))
        self.assertEqual(paper.PAID[0][9], paper.INCURRED[0][9])

    def test_total_of_the_printed_reserves(self) -> None:
        # The printed nine add up to two more than the printed total: each is rounded for itself.
        self.assertLessEqual(abs(sum(paper.RESERVES) - paper.RESERVES_TOTAL), 4)

    def test_accepted_at_every_closeness(self) -> None:
        for closeness in (1, 64, 256, 65_536):
            file = paper.tables_file(closeness)
            lent = layout.build_file(file)
            self.assertEqual((len(lent), read_file(lent)), (1_270, file))


class SquaredTicks(unittest.TestCase):
    def test_natural_log_of_two(self) -> None:
        self.assertAlmostEqual(float(paper.natural_log_of_two()), log(2), delta=1e-15)

    def test_a_doubling_has_t_squared(self) -> None:
        self.assertEqual(paper.squared_ticks(paper.natural_log_of_two()), 1 << 40)

    def test_table_2(self) -> None:
        for deviation in paper.SIGMA + paper.TAU:
            ticks = deviation / 10_000 / log(2) * (1 << 20)
            self.assertAlmostEqual(paper.squared_ticks(Fraction(deviation, 10_000)) / ticks**2, 1, delta=1e-6)


class Reserves(unittest.TestCase):
    """At the sample's closeness."""

    def setUp(self) -> None:
        self.file = paper.tables_file(256)
        self.figures = chain.figures_of(self.file)

    def assert_agree(self, mean: tuple[int, ...]) -> None:
        """To 0.01 per cent. Table 2 has its deviations to four decimals, and the least of them is 0.0006."""
        reserves = paper.reserves(self.file, mean)
        self.assertEqual(len(reserves), 9)
        for reserve, printed in zip(reserves, paper.RESERVES):
            self.assertLess(abs(reserve - printed), 0.0001 * printed)
        self.assertLess(abs(sum(reserves) - paper.RESERVES_TOTAL), 0.0001 * paper.RESERVES_TOTAL)

    def test_no_part_has_a_prior(self) -> None:
        self.assertEqual(set(self.file.prior_variances), {layout.FLAT})
        weights = chain.weights_of(self.file)
        self.assertEqual(set(weights.s + weights.t), {0})

    def test_settled_mean_gives_table_3(self) -> None:
        self.assert_agree(paper.settled_mean(self.file))

    def test_exact_solution_gives_table_3(self) -> None:
        """Without sweeping: the solution of the file's equations, rounded."""
        u, m = exact.solve(self.figures.matrix, self.figures.right_hand_side)
        self.assert_agree(tuple(exact.rounded(u, m)))

    def test_settled_mean_at_closeness_1_is_within_a_tick_of_the_exact_solution(self) -> None:
        u, m = exact.solve(self.figures.matrix, self.figures.right_hand_side)
        for part, settled in zip(u, paper.settled_mean(paper.tables_file(1)), strict=True):
            self.assertLess(abs(part - m * settled), m)

    def test_the_mean_matters(self) -> None:
        """One per cent (15,000 ticks) more in psi 3 moves year 6 out of the tolerance."""
        mean = list(paper.settled_mean(self.file))
        mean[self.file.last + 1 + 3] += 15_000
        reserve, printed = paper.reserves(self.file, tuple(mean))[6 - 1], paper.RESERVES[6 - 1]
        self.assertGreater(abs(reserve - printed), 0.0001 * printed)

    def test_inverse(self) -> None:
        matrix = self.figures.matrix
        for k, row in enumerate(paper.inverse(matrix)):
            for column in range(len(matrix)):
                entry = sum(a * matrix[n][column] for n, a in enumerate(row))
                self.assertAlmostEqual(entry, float(k == column), delta=1e-9)

    def test_a_mean_that_does_not_settle(self) -> None:
        with self.assertRaises(ValueError):
            paper.settled_mean(paper.resting_file())


if __name__ == "__main__":
    unittest.main()

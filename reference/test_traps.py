"""Traps in the formulas: for each, a case where the wrong formula gives something else.

The right value is worked out beside it by hand or from the loss, observation by observation.
"""

import unittest
from collections.abc import Callable
from dataclasses import replace
from fractions import Fraction
from math import floor
from random import Random

import chain
import exact
import loss
import paper
import samples
import session
from layout import File, build_file


def right_hand_side_by_loss(file: File) -> list[int]:
    """Minus the residue at the zero vector, summed observation by observation."""
    summed = [0] * len(file.prior_means)
    for square in loss.squares_of(file):
        for part, coefficient in square.coefficients.items():
            summed[part] += square.weight * coefficient * square.target
    return summed


def psi_right_hand_side(
    file: File, first_year: Callable[[int], int], g_index: Callable[[int], int]
) -> list[int]:
    """b_j with the start of its last sum (from j) and the index of g (from the accident year) left open."""
    weights, observations, last = chain.weights_of(file), chain.observations_of(file), file.last
    return [
        weights.t[j] * file.prior_means[last + 1 + j]
        + weights.q[j] * sum(observations.z[i][j] for i in range(last - j))
        - sum(weights.g[g_index(i)] * observations.y[i] for i in range(first_year(j), last + 1))
        for j in range(last)
    ]


class LastSumOfB(unittest.TestCase):
    """The theorem starts it at J-1, its proof at J-j."""

    FILE = paper.tables_file(2)
    LAST = FILE.last

    def by_start(self, first_year: Callable[[int], int]) -> list[int]:
        return psi_right_hand_side(self.FILE, first_year, lambda i: self.LAST - i)

    def test_the_proof_is_right_and_the_theorem_is_not(self) -> None:
        by_loss = right_hand_side_by_loss(self.FILE)[self.LAST + 1:]
        self.assertEqual(self.by_start(lambda j: self.LAST - j), by_loss)
        self.assertEqual(list(chain.figures_of(self.FILE).right_hand_side[self.LAST + 1:]), by_loss)
        theorem = self.by_start(lambda j: self.LAST - 1)
        # Only psi 1 starts at J-1 in both.
        self.assertEqual([j for j in range(self.LAST) if theorem[j] == by_loss[j]], [1])

    def test_the_paper_s_reserves_tell_them_apart(self) -> None:
        figures = chain.figures_of(self.FILE)
        wrong = figures.right_hand_side[:self.LAST + 1] + tuple(self.by_start(lambda j: self.LAST - 1))
        mean = tuple(exact.rounded(*exact.solve(figures.matrix, wrong)))
        apart = [abs(a - b) / b for a, b in zip(paper.reserves(self.FILE, mean), paper.RESERVES)]
        self.assertGreater(max(apart), 0.0001)


class GByDevelopmentYear(unittest.TestCase):
    def test_accident_year_i_takes_g_of_its_latest_development_year(self) -> None:
        file = paper.tables_file(2)
        last = file.last
        by_loss = right_hand_side_by_loss(file)[last + 1:]
        self.assertEqual(list(chain.figures_of(file).right_hand_side[last + 1:]), by_loss)
        by_accident_year = psi_right_hand_side(file, lambda j: last - j, lambda i: i - 1)
        self.assertEqual([j for j in range(last) if by_accident_year[j] == by_loss[j]], [])

    def test_g_grows_with_the_development_year(self) -> None:
        """Less is to come in later development years, so the variance is smaller and the weight larger."""
        g = chain.weights_of(paper.tables_file(2)).g
        self.assertTrue(all(earlier < later for earlier, later in zip(g, g[1:])))


class GFromTheSummedVariance(unittest.TestCase):
    def test_rounded_weights_combine_to_something_else(self) -> None:
        variance = (1 << 47) // 129  # 2^46 over it is a little above 64.5
        weights = chain.weights_of(replace(samples.file_f(), sigma2=(1 << 30, variance), tau2=(variance,)))
        self.assertEqual((weights.p[1], weights.q[0]), (65, 65))
        combined = floor(1 / (Fraction(1, 65) + Fraction(1, 65)) + Fraction(1, 2))
        self.assertEqual(combined, 33)  # of 32.5, halves up
        self.assertEqual(weights.g, (32,))  # of 32.25


class PhiZeroSharesNothing(unittest.TestCase):
    def test_its_row_has_only_its_own_weight(self) -> None:
        for last in range(1, 16):
            figures = chain.figures_of(samples.drawn_file(Random(44), last))
            self.assertEqual(figures.matrix[0], (figures.own[0],) + (0,) * (2 * last))

    def test_file_f_would_have_another_entry(self) -> None:
        figures, weights = chain.figures_of(samples.file_f()), chain.weights_of(samples.file_f())
        self.assertEqual(figures.matrix[0][0], 131_073)
        self.assertNotEqual(figures.matrix[0][0], 131_073 + weights.g[0])

    def test_it_is_in_no_shared_term_of_the_loss(self) -> None:
        for square in loss.squares_of(samples.drawn_file(Random(45), 5)):
            self.assertFalse(len(square.coefficients) > 1 and 0 in square.coefficients)


class HalvesInTheSweep(unittest.TestCase):
    """-1/2 goes to 0; away from zero it would go to -1."""

    def swept_once(self, offset: int) -> int:
        file = samples.half_tick(offset)
        _, state = session.open_file(session.EMPTY, build_file(file))
        own = state.figures.matrix[0][0]
        # The residue at the start is half of the diagonal entry, so phi 0 wants to change by half a tick.
        self.assertEqual(2 * state.residues()[0], offset * own)
        answer, state = session.sweep(state, 1)
        self.assertEqual(answer, session.Going(1))
        return state.mean[0] - file.prior_means[0]

    def test_minus_half_goes_to_zero(self) -> None:
        self.assertEqual(self.swept_once(1), 0)

    def test_plus_half_goes_to_one(self) -> None:
        self.assertEqual(self.swept_once(-1), 1)


if __name__ == "__main__":
    unittest.main()

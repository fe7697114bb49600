"""What is guaranteed of the loss of what is left: its slopes are the residues; near, nearly least, least, and rounding passes."""

import unittest
from collections.abc import Sequence
from dataclasses import replace
from fractions import Fraction
from random import Random

import chain
import exact
import samples
import test_guarantee
import test_theorem
from layout import INCURRED, LARGEST_YEAR, PAID, File
from scales import TICKS_PER_DOUBLING as T
from strikes import Step, Steps


class Theorem(test_theorem.ObservationByObservation):
    """Matrix and right-hand side are the slopes of the loss of what is left."""

    def strike(self, rng: Random, last: int) -> Steps:
        return samples.drawn_strikes(rng, last)

    def test_each_case_has_its_strikes(self) -> None:
        """Nearly each, and some have all that can be: but for the priors and the ratios, a term of each part is left."""
        self.assertGreater(sum(len(struck) > 0 for struck in self.struck), 45)
        fewest = [len(squares) == 2 * len(u) + len(u) // 2 for _, squares, u, _ in self.cases]
        self.assertGreater(sum(fewest), 10)


class Guarantee(test_guarantee.Guarantee):
    """Near, nearly least, strictly least, and rounding passes with e = 256: of the loss of what is left, and its own weights."""

    draw = staticmethod(samples.drawn_any_file)

    def strike(self, rng: Random, last: int) -> Steps:
        return samples.drawn_strikes(rng, last)

    def test_strictly_least_where_the_loss_is_not_zero(self) -> None:
        """x_(1,0) of phi 0, at 9 doublings, and its prior at 11 do not agree, but their mean is a whole number; x_(0,0), at 10, is out."""
        self.assert_strictly_least(replace(
            samples.file_f(),
            prior_means=(11 * T, T, -T),
            prior_variances=(1 << 30, 1 << 46, 1 << 46),
            paid=((1 << 10, 1 << 11), (1 << 9,)),
            incurred=((1 << 12, 1 << 11), (1 << 11,)),
        ), frozenset([Step(PAID, 0, 0)]))

    def test_own_weights_and_diagonal(self) -> None:
        """One step and no prior is enough: an own weight is at least the weight of a step, and an entry of the diagonal at least that."""
        rng = Random(74)
        for last in [*range(1, LARGEST_YEAR + 1)] * 2:
            file, struck = samples.drawn_flat_file(rng, last), self.strike(rng, last)
            weights, figures = chain.weights_of(file), chain.figures_of(file, struck)
            for part, observed in enumerate(weights.p + weights.q):
                self.assertGreaterEqual(figures.own[part], observed)
                self.assertGreaterEqual(figures.matrix[part][part], figures.own[part])

    def test_in_fractions(self) -> None:
        """Small files: the exact mean of what is left, its loss the least, and a mean that passes near it, all without a common m."""
        rng = Random(75)
        for last in [1, 2, 3] * 8:
            file, struck = self.draw(rng, last), self.strike(rng, last)
            figures = chain.figures_of(file, struck)
            u, m = exact.solve(figures.matrix, figures.right_hand_side)
            least = [Fraction(part, m) for part in u]
            allowed = file.closeness**2 * sum(figures.own)
            for mean in test_guarantee.passing_means(rng, file, struck, figures):
                apart = sum(own * (part - whole) ** 2 for own, part, whole in zip(figures.own, least, mean))
                self.assertLessEqual(apart, allowed)
                self.assertLessEqual(lost(file, struck, mean), lost(file, struck, least) + allowed)
                if list(mean) != least:
                    self.assertLess(lost(file, struck, least), lost(file, struck, mean))


def lost(file: File, struck: Steps, vector: Sequence[Fraction]) -> Fraction:
    """The loss by document 01's list, term by term, those of struck steps passed over."""
    weights, seen, last = chain.weights_of(file), chain.observations_of(file), file.last
    phi, psi = vector[:last + 1], vector[last + 1:]
    own = [weights.p[j] * (phi[j] - seen.x[i][j]) ** 2 for i in range(last + 1) for j in range(last + 1 - i) if (PAID, i, j) not in struck]
    own += [weights.q[j] * (psi[j] - seen.z[i][j]) ** 2 for i in range(last) for j in range(last - i) if (INCURRED, i, j) not in struck]
    shared = [weights.g[last - i] * (sum(phi[last - i + 1:]) - sum(psi[last - i:]) - seen.y[i]) ** 2 for i in range(1, last + 1)]
    prior = [weight * (part - mean) ** 2 for weight, part, mean in zip(weights.s + weights.t, vector, file.prior_means)]
    return sum(own + shared + prior, Fraction(0))


if __name__ == "__main__":
    unittest.main()

"""What a passing mean is worth, exactly: near, nearly least, least; and that rounding the solution passes."""

import unittest
from dataclasses import replace
from random import Random

import chain
import exact
import layout
import loss
import samples
import session
from layout import File
from scales import TICKS_PER_DOUBLING as T
from strikes import NONE, Steps
from vectors_drawn import opened


def without_noise(rng: Random, drawn: File) -> tuple[File, list[int]]:
    """The file with observations that all agree with one whole mean, and that mean: it has zero residue."""
    last = drawn.last
    phi = [20] + [rng.randint(-1, 1) for _ in range(last)]
    psi = [rng.randint(-1, 1) for _ in range(last)]
    ultimate = sum(phi)
    columns = [range(last - i + 1) for i in range(last + 1)]
    file = replace(
        drawn,
        prior_means=tuple(T * part for part in phi + psi),
        paid=tuple(tuple(1 << sum(phi[:j + 1]) for j in row) for row in columns),
        incurred=tuple(tuple(1 << ultimate - sum(psi[j:]) for j in row) for row in columns),
    )
    return file, [T * part for part in phi + psi]


def passing_means(rng: Random, file: File, struck: Steps, figures: chain.Figures) -> list[tuple[int, ...]]:
    """The settled mean, if it settles, and means near it that pass as well."""
    answer, state = session.sweep(opened(file, struck), 200)
    if not isinstance(answer, session.Settled):
        return []
    means = [state.mean]
    for _ in range(6):
        reach = max(1, file.closeness // 2)
        moved = tuple(part + rng.randint(-reach, reach) for part in state.mean)
        if chain.first_failing_part(figures, chain.residues_of(figures, moved)) is None:
            means.append(moved)
    return means


class Guarantee(unittest.TestCase):
    draw = staticmethod(samples.drawn_file)

    def strike(self, _rng: Random, _last: int) -> Steps:
        """The steps that are struck; here none."""
        return NONE

    def drawn_figures(self, rng: Random, last: int) -> chain.Figures:
        return chain.figures_of(self.draw(rng, last), self.strike(rng, last))

    def test_exact_solution_has_zero_residue(self) -> None:
        rng = Random(21)
        for last in range(1, 16):
            figures = self.drawn_figures(rng, last)
            u, m = exact.solve(figures.matrix, figures.right_hand_side)
            self.assertGreaterEqual(m, 1)
            self.assertEqual(chain.residues_of(figures, u, m), [0] * len(u))

    def test_near_and_nearly_least(self) -> None:
        rng = Random(22)
        tried = 0
        for last in [1, 2, 3, 4] * 12 + [8, 15]:
            file, struck = self.draw(rng, last), self.strike(rng, last)
            figures, squares = chain.figures_of(file, struck), loss.squares_of(file, struck)
            u, m = exact.solve(figures.matrix, figures.right_hand_side)
            allowed = figures.closeness**2 * sum(figures.own)
            for mean in passing_means(rng, file, struck, figures):
                tried += 1
                self.assertLessEqual(loss.distance_of(figures.own, mean, u, m), m * m * allowed)
                here = loss.loss_of(squares, mean)
                self.assertLessEqual(m * m * here, loss.loss_of(squares, u, m) + m * m * allowed)
                for _ in range(3):
                    n = rng.randint(1, 9)
                    v = [n * part + rng.randint(-99, 99) for part in mean]
                    self.assertLessEqual(n * n * here, loss.loss_of(squares, v, n) + n * n * allowed)
        self.assertGreater(tried, 100)

    def test_a_far_mean_does_not_pass(self) -> None:
        """The other way round: beyond the bound of nearness nothing passes."""
        rng = Random(23)
        for last in (1, 2, 3, 6):
            figures = self.drawn_figures(rng, last)
            u, m = exact.solve(figures.matrix, figures.right_hand_side)
            far = [part + 2 * figures.closeness for part in exact.rounded(u, m)]
            beyond = m * m * figures.closeness**2 * sum(figures.own)
            self.assertGreater(loss.distance_of(figures.own, far, u, m), beyond)
            self.assertIsNotNone(chain.first_failing_part(figures, chain.residues_of(figures, far)))

    def test_rounding_the_exact_solution_passes(self) -> None:
        rng = Random(24)
        failing_at_one = 0
        for last in [*range(1, 16)] * 2:
            figures = replace(self.drawn_figures(rng, last), closeness=256)
            u, m = exact.solve(figures.matrix, figures.right_hand_side)
            near = exact.rounded(u, m)
            for part, whole in zip(u, near):
                self.assertLessEqual(2 * abs(part - m * whole), m)
            residues = chain.residues_of(figures, near)
            self.assertIsNone(chain.first_failing_part(figures, residues))
            failing_at_one += chain.first_failing_part(replace(figures, closeness=1), residues) is not None
        # Not so at closeness 1, which is why the promise starts at 256.
        self.assertGreater(failing_at_one, 0)

    def test_a_mean_with_zero_residue_is_strictly_least(self) -> None:
        rng = Random(25)
        for last in range(1, 16):
            file, mean = without_noise(rng, self.draw(rng, last))
            struck = self.strike(rng, last)
            figures, squares = chain.figures_of(file, struck), loss.squares_of(file, struck)
            self.assertEqual(chain.residues_of(figures, mean), [0] * len(mean))
            least = loss.loss_of(squares, mean)
            for part in range(len(mean)):
                for m in (1, 2, 1_000):
                    u = [m * whole for whole in mean]
                    u[part] += rng.choice((-1, 1))
                    self.assertLess(m * m * least, loss.loss_of(squares, u, m))
            u = [3 * whole + rng.randint(1, 9) for whole in mean]
            self.assertLess(9 * least, loss.loss_of(squares, u, 3))

    def test_strictly_least_where_the_loss_is_not_zero(self) -> None:
        """The observations of phi 0, at 10 and 9 doublings, and its prior at 11 do not agree, but their mean is a whole number."""
        self.assert_strictly_least(replace(
            samples.file_f(),
            prior_means=(11 * T, T, -T),
            prior_variances=(1 << 30, 1 << 46, 1 << 46),
            paid=((1 << 10, 1 << 11), (1 << 9,)),
            incurred=((1 << 12, 1 << 11), (1 << 11,)),
        ))

    def assert_strictly_least(self, file: File, struck: Steps = NONE) -> None:
        """Of a file in which (10T, T, -T) has zero residue and is off by a doubling twice."""
        figures, squares, mean = chain.figures_of(file, struck), loss.squares_of(file, struck), (10 * T, T, -T)
        self.assertEqual(chain.residues_of(figures, mean), [0, 0, 0])
        least = loss.loss_of(squares, mean)
        self.assertEqual(least, 2 * 65_536 * T * T)
        for part in range(3):
            for m in (1, 7):
                u = [m * whole for whole in mean]
                u[part] += 1
                self.assertLess(m * m * least, loss.loss_of(squares, u, m))


class GuaranteeWithoutPriors(Guarantee):
    """All of it for files whose parts lack a prior, some or all: an own weight is never less than an observation's."""

    draw = staticmethod(samples.drawn_flat_file)

    def test_strictly_least_where_the_loss_is_not_zero(self) -> None:
        """The two observations of phi 0, at 11 and 9 doublings, do not agree; there is no prior, and their mean is a whole number."""
        f = samples.without_priors(samples.file_f())
        self.assert_strictly_least(replace(f, paid=((1 << 11, 1 << 12), (1 << 9,)), incurred=((1 << 13, 1 << 12), (1 << 11,))))

    def test_own_weights(self) -> None:
        rng = Random(26)
        for last in [*range(1, 16)] * 4:
            file = self.draw(rng, last)
            weights, own = chain.weights_of(file), chain.figures_of(file).own
            counts = [*range(last + 1, 0, -1), *range(last, 0, -1)]
            for part, (observed, count) in enumerate(zip(weights.p + weights.q, counts)):
                self.assertGreaterEqual(observed, 1)
                self.assertGreaterEqual(own[part], observed)
                if file.prior_variances[part] == layout.FLAT:
                    self.assertEqual(own[part], count * observed)

    def test_no_prior_mean_counts_where_none_weighs(self) -> None:
        rng = Random(27)
        for last in range(1, 16):
            file = samples.without_priors(self.draw(rng, last))
            moved = replace(file, prior_means=tuple(rng.randint(*layout.MEAN_LIMITS) for _ in file.prior_means))
            self.assertEqual(chain.figures_of(moved), chain.figures_of(file))


if __name__ == "__main__":
    unittest.main()

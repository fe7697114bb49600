"""The figures of a file, the residues, the test, the step and the sweep."""

import unittest
from dataclasses import replace
from fractions import Fraction
from math import floor
from random import Random

import chain
import layout
import samples
from layout import File
from scales import TICKS_PER_DOUBLING as T


class FileF(unittest.TestCase):
    """The figures of the specification."""

    def setUp(self) -> None:
        self.file = samples.file_f()
        self.figures = chain.figures_of(self.file)

    def test_weights(self) -> None:
        expected = chain.Weights(p=(65_536, 65_536), q=(65_536,), s=(1, 1), t=(1,), g=(32_768,))
        self.assertEqual(chain.weights_of(self.file), expected)

    def test_observations(self) -> None:
        expected = chain.Observations(x=((10 * T, T), (10 * T,)), z=((-T,), ()), y=(None, 2 * T))
        self.assertEqual(chain.observations_of(self.file), expected)

    def test_own_weights_matrix_and_right_hand_side(self) -> None:
        self.assertEqual(self.figures.own, (131_073, 65_537, 65_537))
        rows = ((131_073, 0, 0), (0, 98_305, -32_768), (0, -32_768, 98_305))
        self.assertEqual(self.figures.matrix, rows)
        self.assertEqual(self.figures.right_hand_side, (1_310_730 * T, 131_073 * T, -131_073 * T))

    def test_judged_means(self) -> None:
        self.assertEqual(chain.residues_of(self.figures, (10 * T, T, -T)), [0, 0, 0])
        self.assertEqual(chain.residues_of(self.figures, (10 * T + 1, T, -T)), [131_073, 0, 0])
        wider = replace(self.figures, closeness=2)
        for figures, mean, failing in (
            (self.figures, (10 * T, T, -T), None),
            (self.figures, (10 * T + 1, T, -T), None),
            (self.figures, (10 * T + 2, T, -T), 0),
            (self.figures, (10 * T, T + 1, -T), 1),
            (wider, (10 * T, T + 1, -T), None),
        ):
            residues = chain.residues_of(figures, mean)
            self.assertEqual(chain.first_failing_part(figures, residues), failing, mean)


class ThreeYears(unittest.TestCase):
    """J = 2 worked out by hand, every variance another one, so that no two indices can be confused."""

    FILE = File(
        last=2,
        closeness=1,
        sigma2=(1 << 30, 1 << 31, 1 << 32),
        tau2=(1 << 33, 1 << 34),
        prior_means=(1, 2, 3, 4, 5),
        prior_variances=(1 << 40, 1 << 41, 1 << 42, 1 << 43, 1 << 44),
        paid=((2, 8, 32), (4, 64), (16,)),
        incurred=((512, 128, 32), (256, 1024), (2048,)),
    )

    def test_weights(self) -> None:
        weights = chain.weights_of(self.FILE)
        self.assertEqual(weights.p, (1 << 16, 1 << 15, 1 << 14))
        self.assertEqual(weights.q, (1 << 13, 1 << 12))
        self.assertEqual((weights.s, weights.t), ((64, 32, 16), (8, 4)))
        # g_0 of 2^31 + 2^32 + 2^33 + 2^34 = 15 * 2^31, g_1 of 2^32 + 2^34 = 5 * 2^32, to the nearest
        self.assertEqual(weights.g, (2_185, 3_277))

    def test_observations(self) -> None:
        observations = chain.observations_of(self.FILE)
        self.assertEqual(observations.x, ((T, 2 * T, 2 * T), (2 * T, 4 * T), (4 * T,)))
        self.assertEqual(observations.z, ((-2 * T, -2 * T), (2 * T,), ()))
        self.assertEqual(observations.y, (None, 4 * T, 7 * T))

    def test_matrix(self) -> None:
        figures = chain.figures_of(self.FILE)
        own = (64 + 3 * 65_536, 32 + 2 * 32_768, 16 + 16_384, 8 + 2 * 8_192, 4 + 4_096)
        self.assertEqual(figures.own, own)
        g0, both = 2_185, 2_185 + 3_277
        self.assertEqual(figures.matrix, (
            (own[0], 0, 0, 0, 0),
            (0, own[1] + g0, g0, -g0, -g0),
            (0, g0, own[2] + both, -g0, -both),
            (0, -g0, -g0, own[3] + g0, g0),
            (0, -g0, -both, g0, own[4] + both),
        ))

    def test_right_hand_side(self) -> None:
        g0, g1 = 2_185, 3_277
        self.assertEqual(chain.figures_of(self.FILE).right_hand_side, (
            64 * 1 + 65_536 * 7 * T,
            32 * 2 + 32_768 * 6 * T + g0 * 7 * T,
            16 * 3 + 16_384 * 2 * T + g1 * 4 * T + g0 * 7 * T,
            8 * 4 + 8_192 * 0 * T - g0 * 7 * T,
            4 * 5 + 4_096 * -2 * T - g1 * 4 * T - g0 * 7 * T,
        ))


class Sweeping(unittest.TestCase):
    def test_residues_held_are_residues_worked_out(self) -> None:
        rng = Random(7)
        for last in range(1, 16):
            figures = chain.figures_of(samples.drawn_any_file(rng, last))
            mean = [rng.randint(-(1 << 26), 1 << 26) for _ in figures.own]
            residues = chain.residues_of(figures, mean)
            for part in [*range(len(mean)), *range(len(mean))]:
                chain.step(figures, mean, residues, part)
                self.assertEqual(residues, chain.residues_of(figures, mean))

    def test_a_step_is_the_change_of_the_document_brought_back_inside(self) -> None:
        rng = Random(8)
        brought_back = 0
        for _ in range(400):
            figures = chain.figures_of(samples.drawn_any_file(rng, rng.randint(1, 15)))
            mean = [rng.choice((-(1 << 26), rng.randint(-99, 99), 1 << 26)) for _ in figures.own]
            part = rng.randrange(len(mean))
            residue = sum(a * m for a, m in zip(figures.matrix[part], mean)) - figures.right_hand_side[part]
            change = floor(Fraction(1, 2) - Fraction(residue, figures.matrix[part][part]))
            wanted = mean[part] + change
            nearest = sorted((-(1 << 26), wanted, 1 << 26))[1]
            brought_back += nearest != wanted
            after, residues = list(mean), chain.residues_of(figures, mean)
            chain.step(figures, after, residues, part)
            self.assertEqual(after, mean[:part] + [nearest] + mean[part + 1:])
        self.assertGreater(brought_back, 5)

    def test_a_sweep_visits_the_parts_in_order(self) -> None:
        figures = chain.figures_of(samples.many_sweeps(3))
        mean, residues = list(samples.many_sweeps(3).prior_means), [0] * 7
        residues[:] = chain.residues_of(figures, mean)
        by_steps, steps_residues = list(mean), list(residues)
        for part in range(7):
            chain.step(figures, by_steps, steps_residues, part)
        chain.sweep_once(figures, mean, residues)
        self.assertEqual((mean, residues), (by_steps, steps_residues))
        backwards = list(samples.many_sweeps(3).prior_means)
        backwards_residues = chain.residues_of(figures, backwards)
        for part in reversed(range(7)):
            chain.step(figures, backwards, backwards_residues, part)
        self.assertNotEqual(backwards, mean)

    def test_halves_by_hand(self) -> None:
        figures = chain.Figures(closeness=1, own=(4,), matrix=((4,),), right_hand_side=(0,))
        # The mean wants to change by -residue/4.
        for residue, change in ((2, 0), (-2, 1), (6, -1), (-6, 2), (3, -1), (-3, 1), (1, 0), (-1, 0), (0, 0)):
            mean, residues = [100], [residue]
            chain.step(figures, mean, residues, 0)
            self.assertEqual((mean, residues), ([100 + change], [residue + 4 * change]))


class Diagonal(unittest.TestCase):
    """Positive for every file that is not refused, with priors and without."""

    def diagonal(self, file: File) -> list[int]:
        self.assertEqual(layout.read_file(layout.build_file(file)), file)  # which 1 to 10 let through
        return [row[k] for k, row in enumerate(chain.figures_of(file).matrix)]

    def test_at_the_limits(self) -> None:
        for last in range(1, 16):
            for file in (samples.file_at_limits(last, 0), samples.file_at_limits(last, 1)):
                self.assertGreater(min(self.diagonal(file)), 0)
                self.assertGreater(min(self.diagonal(samples.without_priors(file))), 0)

    def test_of_drawn_files(self) -> None:
        rng = Random(16)
        for last in [*range(1, 16)] * 4:
            self.assertGreater(min(self.diagonal(samples.drawn_file(rng, last))), 0)
            self.assertGreater(min(self.diagonal(samples.drawn_flat_file(rng, last))), 0)

    def test_the_least_by_hand(self) -> None:
        # A variance of 2^40 has weight 64 and two of them 32: two observations, then one and the ratio.
        self.assertEqual(self.diagonal(samples.without_priors(samples.file_at_limits(1, 1))), [2 * 64, 64 + 32, 64 + 32])


if __name__ == "__main__":
    unittest.main()

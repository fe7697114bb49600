"""Theorem 3.4 on rounded weights: matrix and right-hand side are what the observations give, exactly."""

import unittest
from random import Random

import chain
import loss
import samples
from strikes import NONE, Steps


class ObservationByObservation(unittest.TestCase):
    def strike(self, _rng: Random, _last: int) -> Steps:
        """The steps that are struck; here none."""
        return NONE

    def setUp(self) -> None:
        rng = Random(11)
        self.cases, self.struck = [], []
        for last in range(1, 16):
            for _ in range(4):
                file = samples.drawn_any_file(rng, last)
                m = rng.choice((1, 2, 7, rng.randint(1, 1 << 40)))
                u = [rng.randint(-m << 27, m << 27) for _ in file.prior_means]
                struck = self.strike(rng, last)
                self.cases.append((chain.figures_of(file, struck), loss.squares_of(file, struck), u, m))
                self.struck.append(struck)

    def test_residues(self) -> None:
        for figures, squares, u, m in self.cases:
            summed = [0] * len(u)
            for square in squares:
                for part, coefficient in square.coefficients.items():
                    summed[part] += square.weight * coefficient * square.miss(u, m)
            self.assertEqual(chain.residues_of(figures, u, m), summed)

    def test_loss_along_each_part(self) -> None:
        """A tick up and a tick down in part k: the losses alone give its residue and diagonal entry."""
        for figures, squares, u, m in self.cases[::5]:
            here, residues = loss.loss_of(squares, u, m), chain.residues_of(figures, u, m)
            for part in range(len(u)):
                up, down = list(u), list(u)
                up[part] += m
                down[part] -= m
                above, below = loss.loss_of(squares, up, m), loss.loss_of(squares, down, m)
                self.assertEqual(above - below, 4 * m * residues[part])
                self.assertEqual(above + below - 2 * here, 2 * m * m * figures.matrix[part][part])

    def test_number_of_terms(self) -> None:
        for (_, squares, u, _), struck in zip(self.cases, self.struck):
            last = (len(u) - 1) // 2
            own = (last + 1) * (last + 2) // 2 + last * (last + 1) // 2 - len(struck)
            self.assertEqual(len(squares), own + last + (2 * last + 1))

    def test_matrix_is_symmetric(self) -> None:
        for figures, _, _, _ in self.cases:
            self.assertEqual(figures.matrix, tuple(zip(*figures.matrix)))

    def test_own_weight_counts_the_terms_of_one_part(self) -> None:
        for figures, squares, u, _ in self.cases:
            counted = [0] * len(u)
            shared = 0
            for square in squares:
                if len(square.coefficients) == 1:
                    counted[next(iter(square.coefficients))] += square.weight
                else:
                    shared += 1
            self.assertEqual(tuple(counted), figures.own)
            self.assertEqual(shared, (len(u) - 1) // 2)


class Scaling(unittest.TestCase):
    def test_a_whole_mean_is_a_rational_vector(self) -> None:
        rng = Random(12)
        file = samples.drawn_file(rng, 3)
        squares, figures = loss.squares_of(file), chain.figures_of(file)
        mean = [rng.randint(-(1 << 26), 1 << 26) for _ in file.prior_means]
        times = [5 * part for part in mean]
        self.assertEqual(loss.loss_of(squares, times, 5), 25 * loss.loss_of(squares, mean))
        residues = chain.residues_of(figures, mean)
        self.assertEqual(chain.residues_of(figures, times, 5), [5 * residue for residue in residues])
        self.assertEqual(loss.distance_of(figures.own, mean, times, 5), 0)
        moved = [part + 10 for part in times]  # two ticks off in every part
        self.assertEqual(loss.distance_of(figures.own, mean, moved, 5), 25 * 4 * sum(figures.own))

    def test_loss_of_file_f(self) -> None:
        squares = loss.squares_of(samples.file_f())
        t = 1 << 20
        self.assertEqual(loss.loss_of(squares, (10 * t, t, -t)), 0)
        self.assertEqual(loss.loss_of(squares, (10 * t + 1, t, -t)), 131_073)
        self.assertEqual(loss.loss_of(squares, (10 * t, t + 3, -t)), 9 * 98_305)


if __name__ == "__main__":
    unittest.main()

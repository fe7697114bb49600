"""The observations that a session keeps, which no call shows: those of the reference, by their places in the arrays of the library.

Behind them are the marks of struck steps.
"""

import unittest
from ctypes import memmove, sizeof
from itertools import chain as joined
from random import Random

import scripts
from refusing import F, opened, refusal_of

import samples
from chain import weights_of
from damage import drawn_file_damage
from layout import File, build_file, build_record
from reserving_desk import PAID, Refused, Session
from reserving_desk.library import HELD, SESSION_FIELDS
from scales import logarithm

MOST_CELLS, MOST_PARTS, MOST_RATIOS, MOST_MARKS = 272, 31, 15, 496
OBSERVED = tuple(SESSION_FIELDS)[len(HELD):]


def behind(numbers: tuple[int, ...], most: int) -> list[int]:
    """With zeros up to where the next kind of number stands."""
    return [*numbers, *[0] * (most - len(numbers))]


def expected(file: File) -> list[list[int]]:
    weights = weights_of(file)
    logs = tuple(logarithm(amount) for amount in joined(*file.paid, *file.incurred))
    parts, priors, ratios = weights.p + weights.q, weights.s + weights.t, weights.g
    return [
        behind(logs, MOST_CELLS) + behind(file.prior_means, MOST_PARTS),
        behind(parts, MOST_PARTS) + behind(priors, MOST_PARTS) + behind(ratios, MOST_RATIOS),
        behind(file.sigma2 + file.tau2, MOST_PARTS),
        [0] * MOST_MARKS,
    ]


def kept(desk: Session) -> list[list[int]]:
    return [list(field) for field in desk._fields[len(HELD):]]


def spoilt(desk: Session, rng: Random) -> None:
    """Whatever bytes, where only the observations stand."""
    for field in desk._fields[len(HELD):]:
        memmove(field, rng.randbytes(sizeof(field)), sizeof(field))


class Observations(unittest.TestCase):
    def test_their_arrays(self) -> None:
        self.assertEqual(OBSERVED, ("ticks", "weights", "variances", "struck"))

    def test_of_files(self) -> None:
        rng = Random(19)
        for last in range(1, 16):
            drawn = [samples.drawn_any_file(rng, last) for _ in range(12)]
            ends = [samples.largest_figures(last), samples.largest_steps(last), samples.without_priors(drawn[0])]
            for file in drawn + ends:
                self.assertEqual(kept(opened(build_file(file))), expected(file))

    def test_of_one_file_after_another(self) -> None:
        """Nothing of a larger file is left behind the numbers of a smaller one."""
        large, small = samples.drawn_file(Random(1), 15), samples.drawn_file(Random(2), 2)
        desk = opened(build_file(large))
        desk.close()
        self.assertEqual(kept(desk), expected(large))
        desk.open(build_file(small))
        self.assertEqual(kept(desk), expected(small))

    def test_a_strike_marks_its_step_alone(self) -> None:
        """The next open takes the mark away."""
        file = samples.drawn_file(Random(5), 3)
        desk = opened(build_file(file))
        desk.strike(PAID, 1, 2)
        *others, marks = kept(desk)
        self.assertEqual(others, expected(file)[:-1])
        self.assertEqual([place for place, mark in enumerate(marks) if mark], [16 * 2 + 1])
        desk.close()
        desk.open(build_file(file))
        self.assertEqual(kept(desk), expected(file))

    def test_no_call_but_open_and_strike_changes_them(self) -> None:
        file = samples.file_f()
        desk = opened(build_file(file))
        desk.judge(build_record((0, 0, 0))), desk.residues(build_record((0, 0, 0)))
        desk.sweep()
        desk.read(), desk.page(), desk.ultimate(1), desk.figures(), desk.struck, desk.row(F, 0, 0)
        self.assertEqual(kept(desk), expected(file))

    def test_a_refused_open_leaves_them(self) -> None:
        rng = Random(3)
        for taken in (True, False):
            desk = opened() if taken else Session()
            spoilt(desk, rng)
            before = scripts.contents(desk)
            for _ in range(50):
                damaged = drawn_file_damage(rng, build_file(samples.drawn_file(rng)))
                try:
                    desk.open(damaged)
                except Refused:
                    self.assertEqual(scripts.contents(desk), before)
                else:  # the damage was none
                    desk.close()
                    spoilt(desk, rng)
                    before = scripts.contents(desk)
            self.assertEqual(refusal_of(lambda: desk.open(b"")).number, 22 if taken else 1)

    def test_the_other_calls_answer_whatever_they_are(self) -> None:
        rng = Random(4)
        for last in (1, 7, 15):
            file = build_file(samples.with_same_end(samples.mild_file(rng, last)))
            desk, twin = opened(file), opened(file)
            spoilt(twin, rng)
            self.assertEqual(desk.sweep(), twin.sweep())
            self.assertEqual(desk.read(), twin.read())
            self.assertEqual(desk.page(), twin.page())
            self.assertEqual(desk.figures(), twin.figures())


if __name__ == "__main__":
    unittest.main()

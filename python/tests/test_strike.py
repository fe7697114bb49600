"""Struck steps: File F's figures as the specification has them, others as the reference works them out, and what is told of them."""

import threading
import unittest
from ctypes import memset, sizeof
from random import Random
from typing import Any

import scripts
from paths import ROOT
from refusing import F, opened, refusal_of

import chain
import layout
import samples
import session
import vectors
import vectors_strikes
from layout import INCURRED, PAID, build_file, build_record
from reserving_desk import TICKS_PER_DOUBLING as T
from reserving_desk import Figures, Judgement, Session, Step
from strikes import Steps, columns_of, steps_of

SLOW = samples.many_sweeps(3)  # whose mean takes some sweeps
SPECIFICATION = " ".join((ROOT / "docs" / "SPECIFICATION.md").read_text().split())


def struck_out(file: layout.File, struck: Steps, rng: Random) -> Session:
    """Open, with these steps struck in any order."""
    desk = opened(build_file(file))
    for step in rng.sample(sorted(struck), len(struck)):
        desk.strike(*step)
    return desk


def marks_of(desk: Session) -> Any:
    return desk._fields[-1]


class FileF(unittest.TestCase):
    """Without x_(0,0)."""

    LEFT = Figures(
        last=1,
        closeness=1,
        own_weights=(65_537, 65_537, 65_537),
        matrix=((65_537, 0, 0), (0, 98_305, -32_768), (0, -32_768, 98_305)),
        right_hand_side=(655_370 * T, 131_073 * T, -131_073 * T),
    )

    def setUp(self) -> None:
        self.desk = opened()
        self.desk.strike(PAID, 0, 0)

    def test_figures(self) -> None:
        self.assertEqual(self.desk.figures(), self.LEFT)

    def test_as_the_specification_has_them(self) -> None:
        own, right = self.LEFT.own_weights, [part // T for part in self.LEFT.right_hand_side]
        for said in (
            "F without x_(0,0): D is {:,}, {:,}, {:,};".format(*own),
            "the first row of A is ({:,}, {}, {}) and the others stay;".format(*self.LEFT.matrix[0]),
            "b is T times {:,}, {:,} and −{:,}.".format(*right[:2], -right[2]),
        ):
            self.assertIn(said, SPECIFICATION)

    def test_judged_by_what_is_left(self) -> None:
        for parts, answer in (
            ((10 * T + 1, T, -T), Judgement(True, None)), ((10 * T + 2, T, -T), Judgement(False, 0)),
            ((10 * T, T + 1, -T), Judgement(False, 1)),
        ):
            self.assertEqual(self.desk.judge(build_record(parts)), answer)

    def test_page_and_ultimate(self) -> None:
        self.assertEqual(self.desk.page().splitlines()[0], "phi  0  10485760      65537")
        self.assertEqual(self.desk.ultimate(1), opened().ultimate(1))


class Begins(unittest.TestCase):
    def test_anew(self) -> None:
        desk = opened(build_file(SLOW))
        self.assertEqual(desk.sweep(2).total, 2)
        desk.strike(INCURRED, 1, 0)
        self.assertEqual(tuple(desk._fields[4][:7]), SLOW.prior_means)
        self.assertEqual(desk.sweep(1).total, 1)

    def test_not_where_it_is_refused(self) -> None:
        desk = opened(build_file(SLOW))
        desk.strike(PAID, 0, 0)
        desk.sweep(2)
        before = scripts.contents(desk)
        for step, number in (((2, 0, 0), 14), ((PAID, 0, 0), 26), ((PAID, 3, 1), 26), ((INCURRED, 0, 3), 26), ((PAID, 0, 3), 27)):
            self.assertEqual(refusal_of(lambda: desk.strike(*step)).number, number)
            self.assertEqual(scripts.contents(desk), before)

    def test_a_close_forgets(self) -> None:
        desk, fresh = opened(), opened()
        desk.strike(PAID, 1, 0)
        desk.close()
        self.assertEqual(refusal_of(lambda: desk.strike(PAID, 1, 0)).number, 21)
        desk.open(F)
        self.assertEqual(scripts.contents(desk), scripts.contents(fresh))


class Told(unittest.TestCase):
    """`Session.struck`."""

    def test_none(self) -> None:
        desk = Session()
        self.assertEqual(desk.struck, ())
        desk.open(F)
        self.assertEqual(desk.struck, ())
        desk.strike(PAID, 0, 0)
        desk.close()
        self.assertEqual(desk.struck, ())
        desk.open(F)
        self.assertEqual(desk.struck, ())

    def test_in_order_whatever_was_struck_first(self) -> None:
        desk = opened(build_file(SLOW))
        for step in ((INCURRED, 0, 1), (PAID, 1, 0), (PAID, 0, 2), (PAID, 0, 1), (INCURRED, 0, 0)):
            desk.strike(*step)
        told = ((PAID, 0, 1), (PAID, 0, 2), (PAID, 1, 0), (INCURRED, 0, 0), (INCURRED, 0, 1))
        self.assertEqual(desk.struck, told)
        self.assertEqual({type(step) for step in desk.struck}, {Step})
        self.assertEqual((desk.struck[0].channel, desk.struck[0].year, desk.struck[0].column), told[0])

    def test_can_be_struck_elsewhere(self) -> None:
        desk, other = opened(build_file(SLOW)), opened(build_file(SLOW))
        for step in ((PAID, 2, 1), (INCURRED, 1, 1)):
            desk.strike(*step)
        for step in desk.struck:
            other.strike(*step)
        self.assertEqual(scripts.contents(other), scripts.contents(desk))

    def test_is_only_told(self) -> None:
        with self.assertRaises(AttributeError):
            opened().struck = ()  # type: ignore[misc]

    def test_a_column_marked_throughout_counts_as_unmarked(self) -> None:
        """As in the library; no call leaves one so."""
        desk = opened()
        memset(marks_of(desk), 0xFF, sizeof(marks_of(desk)))
        self.assertEqual(desk.struck, ())
        desk.strike(PAID, 0, 0)
        self.assertEqual(desk.struck, (Step(PAID, 0, 0),))
        self.assertEqual(desk.figures(), FileF.LEFT)

    def test_waits_for_a_call_that_runs(self) -> None:
        told: list[tuple[Step, ...]] = []
        desk = opened()
        with desk._one_at_a_time:
            asking = threading.Thread(target=lambda: told.append(desk.struck), daemon=True)
            asking.start()
            asking.join(0.05)
            self.assertEqual(told, [])
        asking.join(60)
        self.assertEqual(told, [()])


class AgainstTheReference(unittest.TestCase):
    def assert_left(self, desk: Session, file: layout.File, struck: Steps) -> None:
        expected, figures = chain.figures_of(file, struck), desk.figures()
        self.assertEqual(desk.struck, tuple(sorted(struck)))
        self.assertEqual((figures.own_weights, figures.matrix), (expected.own, expected.matrix))
        self.assertEqual(figures.right_hand_side, expected.right_hand_side)

    def test_drawn_strikes_of_every_j(self) -> None:
        rng = Random("package 5")
        for last in range(1, layout.LARGEST_YEAR + 1):
            for _ in range(4):
                file, struck = samples.drawn_any_file(rng, last), samples.drawn_strikes(rng, last)
                self.assert_left(struck_out(file, struck, rng), file, struck)

    def test_every_step_alone(self) -> None:
        for last in (1, 2, 3, 5):
            file = samples.many_sweeps(last)
            alone = {column[0] for column in columns_of(last) if len(column) == 1}
            for step in steps_of(last):
                desk = opened(build_file(file))
                if step in alone:
                    self.assertEqual(refusal_of(lambda: desk.strike(*step)).number, 27)
                else:
                    desk.strike(*step)
                    self.assert_left(desk, file, frozenset([step]))

    def test_every_number_of_a_strike(self) -> None:
        """Inside the triangles and around them, the first strike of a file."""
        for last in (1, 2, 4):
            file = samples.many_sweeps(last)
            held = session.open_file(session.EMPTY, build_file(file))[1]
            for step in ((c, i, j) for c in range(3) for i in range(last + 2) for j in range(last + 2)):
                answer, _ = session.strike(held, *step)
                desk = opened(build_file(file))
                if isinstance(answer, layout.Refusal):
                    self.assertEqual(refusal_of(lambda: desk.strike(*step)).number, answer.number)
                else:
                    desk.strike(*step)

    def test_scripts(self) -> None:
        """The vectors of strikes, as the program `calls` prints them."""
        for name, script in vectors_strikes.scripts().items():
            expected = (ROOT / "vectors" / "script" / f"{name}.out").read_text()
            self.assertEqual(expected.encode(), vectors.answers(script), name)
            for line, (ours, theirs) in enumerate(zip(scripts.answers(script), expected.splitlines(), strict=True), start=1):
                self.assertEqual(ours, theirs, f"{name}, line {line}")


if __name__ == "__main__":
    unittest.main()

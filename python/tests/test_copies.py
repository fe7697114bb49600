"""A copy of a session is a session of its own, and no session is pickled; what the calls answer may be both."""

import copy
import pickle
import threading
import unittest
from collections.abc import Callable
from concurrent.futures import ProcessPoolExecutor
from multiprocessing import get_context

import scripts
from refusing import BESIDE_F, PAGE_OF_F, F, opened, refusal_of

import samples
from layout import build_file, build_record
from reserving_desk import PAID, Session, Step, Sweeping

COPIES: tuple[Callable[[Session], Session], ...] = (copy.copy, copy.deepcopy)
SLOW = build_file(samples.many_sweeps(3))  # whose mean takes some sweeps


def read_of(desk: Session) -> tuple[int, ...]:
    """At the top of the module, so that another process finds it."""
    return desk.read().parts


class Copies(unittest.TestCase):
    def test_hold_the_same(self) -> None:
        for copied in COPIES:
            desk = opened(SLOW)
            desk.sweep(2)
            twin = copied(desk)
            self.assertIsInstance(twin, Session)
            self.assertEqual(scripts.contents(twin), scripts.contents(desk))
            self.assertEqual(twin.sweep(1).total, 3)

    def test_go_their_own_ways(self) -> None:
        for copied in COPIES:
            desk = opened(SLOW)
            twin = copied(desk)
            self.assertEqual(twin.sweep(3), Sweeping(False, 3))
            self.assertEqual(desk.sweep(1), Sweeping(False, 1))
            twin.close()
            self.assertEqual([refusal_of(call).number for call in (twin.read, twin.page)], [21, 21])
            self.assertEqual(desk.sweep(1).total, 2)
            twin.open(F)
            desk.close()
            self.assertEqual(twin.read().parts, samples.file_f().prior_means)
            self.assertEqual(twin.page().encode(), PAGE_OF_F)

    def test_each_has_its_own_strikes(self) -> None:
        for copied in COPIES:
            desk = opened(SLOW)
            desk.strike(PAID, 0, 0)
            twin = copied(desk)
            twin.strike(PAID, 1, 0)
            desk.strike(PAID, 0, 1)
            self.assertEqual(twin.struck, (Step(PAID, 0, 0), Step(PAID, 1, 0)))
            self.assertEqual(desk.struck, (Step(PAID, 0, 0), Step(PAID, 0, 1)))

    def test_each_has_its_own_residues(self) -> None:
        for copied in COPIES:
            desk = opened()
            twin = copied(desk)
            twin.strike(PAID, 0, 0)
            self.assertEqual((desk.residues(BESIDE_F)[0], twin.residues(BESIDE_F)[0]), (131_073, 65_537))

    def test_of_an_empty_session(self) -> None:
        for copied in COPIES:
            desk = Session()
            copied(desk).open(F)
            self.assertEqual(refusal_of(desk.read).number, 21)

    def test_each_has_a_lock_of_its_own(self) -> None:
        for copied in COPIES:
            desk = opened()
            twin = copied(desk)
            with desk._one_at_a_time:
                self.assertFalse(twin._one_at_a_time.locked())
                self.assertTrue(twin.judge(build_record(samples.file_f().prior_means)).passed)

    def test_wait_for_a_call_that_runs(self) -> None:
        """Half of a sweep is never copied."""
        for copied in COPIES:
            desk, twins = opened(), []
            with desk._one_at_a_time:
                copier = threading.Thread(target=lambda: twins.append(copied(desk)), daemon=True)
                copier.start()
                copier.join(0.05)
                self.assertEqual(twins, [])
            copier.join(60)
            self.assertEqual(len(twins), 1)

    def test_one_that_stands_twice_is_copied_once(self) -> None:
        desk = opened()
        first, second = copy.deepcopy([desk, desk])
        self.assertIs(first, second)
        self.assertIsNot(first, desk)


class Pickles(unittest.TestCase):
    def test_none(self) -> None:
        for desk in (Session(), opened()):
            for protocol in range(pickle.HIGHEST_PROTOCOL + 1):
                with self.assertRaisesRegex(TypeError, "^a session cannot be pickled: .*; open the file again there$"):
                    pickle.dumps(desk, protocol)

    def test_none_goes_to_another_process(self) -> None:
        with ProcessPoolExecutor(1, get_context("spawn")) as pool:
            with self.assertRaisesRegex(TypeError, "^a session cannot be pickled"):
                pool.submit(read_of, opened()).result()


class Answers(unittest.TestCase):
    """Plain values, which go anywhere."""

    def test_pickled_and_copied(self) -> None:
        desk = opened()
        judged = (desk.judge(BESIDE_F), desk.residues(BESIDE_F))
        answers = (*judged, desk.sweep(), desk.read(), desk.page(), desk.ultimate(1), desk.figures())
        desk.strike(PAID, 0, 0)
        for answer in (*answers, *desk.struck):
            for same in (pickle.loads(pickle.dumps(answer)), copy.copy(answer), copy.deepcopy(answer)):
                self.assertEqual((type(same), same), (type(answer), answer))


if __name__ == "__main__":
    unittest.main()

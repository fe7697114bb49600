"""The calls: the specification's figures of File F, and sessions against the reference, answer by answer."""

import unittest
from array import array
from concurrent.futures import ThreadPoolExecutor
from random import Random
from typing import Any

import scripts
from paths import ROOT
from refusing import WRITING, WRITING_THE_MEAN, opened, refusal_of

import layout
import samples
import vectors
import vectors_calls
import vectors_drawn
from layout import build_file, build_record
from reserving_desk import INCURRED, PAID, TICKS_PER_DOUBLING as T
from reserving_desk import Judgement, Mean, Refused, Session, Sweeping
from reserving_desk.arguments import BytesLike

F = build_file(samples.file_f())
SETTLED = (10 * T, T, -T)


class FileF(unittest.TestCase):
    def setUp(self) -> None:
        self.desk = Session()
        self.desk.open(F)

    def judged(self, *parts: int) -> Judgement:
        return self.desk.judge(build_record(parts))

    def test_judged(self) -> None:
        self.assertEqual(self.judged(*SETTLED), Judgement(True, None))
        self.assertEqual(self.judged(10 * T + 1, T, -T), Judgement(True, None))
        self.assertEqual(self.judged(10 * T + 2, T, -T), Judgement(False, 0))
        self.assertEqual(self.judged(10 * T, T + 1, -T), Judgement(False, 1))

    def test_closeness_2(self) -> None:
        self.desk.close()
        self.desk.open(build_file(samples.file_f(closeness=2)))
        self.assertEqual(self.judged(10 * T, T + 1, -T), Judgement(True, None))

    def test_swept_and_read(self) -> None:
        self.assertEqual(self.desk.sweep(), Sweeping(True, 0))
        mean = self.desk.read()
        self.assertEqual(mean, Mean(phi=(10 * T, T), psi=(-T,)))
        self.assertEqual(mean.parts, SETTLED)

    def test_answers_are_true_where_the_mean_passes(self) -> None:
        self.assertTrue(self.judged(*SETTLED))
        self.assertFalse(self.judged(0, 0, 0))
        self.assertTrue(Sweeping(True, 0))
        self.assertFalse(Sweeping(False, 1))

    def test_rows(self) -> None:
        self.assertEqual(self.desk.row(F, PAID, 0), (1 << 10, 1 << 11))
        self.assertEqual(self.desk.row(F, PAID, 1), (1 << 10,))
        self.assertEqual(self.desk.row(F, INCURRED, 0), (1 << 12, 1 << 11))
        self.assertEqual(self.desk.row(F, INCURRED, 1), (1 << 12,))


class Lent(unittest.TestCase):
    def test_any_bytes(self) -> None:
        words: Any = array("H")
        words.frombytes(F)
        files: tuple[BytesLike, ...] = (bytearray(F), memoryview(F), memoryview(bytes(2) + F)[2:], memoryview(F[::-1])[::-1], words)
        for file in files:
            with Session() as desk:
                desk.open(file)
                self.assertEqual(desk.judge(bytearray(build_record(SETTLED))), Judgement(True, None))

    def test_buffer(self) -> None:
        desk = opened()
        for write, written in WRITING:
            for size in (len(written), len(written) + 1, 200):
                buffer = bytearray(scripts.LENT_BYTE * size)
                write(desk, memoryview(buffer))
                self.assertEqual(buffer, written + scripts.LENT_BYTE * (size - len(written)))
                buffer.append(0)  # nothing holds on to it

    def test_a_refused_buffer_is_untouched(self) -> None:
        """21, 24 and 13, in that order: each is refused with the first, also where the buffer is too short besides."""
        spent = build_file(samples.spent_at_a_limit())
        for write, written in WRITING:
            states = [(21, Session(), 200), (24, opened(spent), 200), (13, opened(), len(written) - 1)]
            for number, desk, longest in states if (write, written) in WRITING_THE_MEAN else states[::2]:
                for size in {0, 1, len(written) - 1, longest}:
                    buffer = bytearray(scripts.LENT_BYTE * size)
                    self.assertEqual(refusal_of(lambda: write(desk, buffer)).number, number)
                    self.assertEqual(buffer, scripts.LENT_BYTE * size)

    def test_a_buffer_that_is_too_short_can_be_made_longer(self) -> None:
        desk = opened()
        for write, written in WRITING:
            buffer = bytearray()
            refused = refusal_of(lambda: write(desk, buffer))  # unlike assertRaises it keeps the frames
            buffer.extend(bytes(len(written)))  # while the refusal, and what it holds on to, is there
            self.assertEqual(refused.number, 13)
            write(desk, buffer)
            self.assertEqual(buffer, written)

    def test_a_part_of_a_buffer(self) -> None:
        for write, written in WRITING:
            buffer = bytearray(scripts.LENT_BYTE * 200)
            write(opened(), memoryview(buffer)[7:7 + len(written)])
            self.assertEqual(buffer, scripts.LENT_BYTE * 7 + written + scripts.LENT_BYTE * (193 - len(written)))


class Numbers(unittest.TestCase):
    """Every whole number has its answer, also those beyond 64 bits."""

    def refusal(self, call: str, *arguments: object) -> int:
        desk = Session()
        desk.open(F)
        with self.assertRaises(Refused) as caught:
            getattr(desk, call)(*arguments)
        return caught.exception.number

    def test_sweeps(self) -> None:
        for n in (0, 4_097, -1, 1 << 64, (1 << 64) + 1, 1 - (1 << 64)):
            self.assertEqual(self.refusal("sweep", n), 12)

    def test_row(self) -> None:
        for past in (2, 256, 1 << 32, 1 << 64, 1 << 70):
            self.assertEqual(self.refusal("row", F, past, 0), 14)
            self.assertEqual(self.refusal("row", F, 0, past), 15)

    def test_strike(self) -> None:
        for past in (2, 256, 1 << 32, 1 << 64, 1 << 70):
            self.assertEqual(self.refusal("strike", past, 0, 0), 14)
            self.assertEqual(self.refusal("strike", 0, past, 0), 26)
            self.assertEqual(self.refusal("strike", 0, 0, past), 26)


class Sessions(unittest.TestCase):
    def test_context(self) -> None:
        desk = Session()
        with desk as same:
            self.assertIs(same, desk)
            desk.open(F)
        with self.assertRaises(Refused) as caught:
            desk.read()
        self.assertEqual(caught.exception.number, 21)
        desk.open(F)  # a closed session can be opened again

    def test_context_that_fails(self) -> None:
        desk = Session()
        with self.assertRaises(ZeroDivisionError), desk:
            desk.open(F)
            raise ZeroDivisionError
        desk.open(F)

    def test_apart(self) -> None:
        one, other = Session(), Session()
        one.open(F)
        with self.assertRaises(Refused):
            other.read()
        other.open(build_file(samples.many_sweeps(3)))
        self.assertEqual(one.read().parts, SETTLED)

    def test_threads_share_a_session(self) -> None:
        """Each sweep is counted once, whichever thread asked for it."""
        desk = Session()
        desk.open(build_file(samples.spent_at_a_limit()))
        with ThreadPoolExecutor(8) as pool:
            totals = sorted(swept.total for swept in pool.map(desk.sweep, [1] * 400))
        self.assertEqual(totals, list(range(1, 401)))


class AgainstTheReference(unittest.TestCase):
    def assert_same(self, script: bytes, expected: str) -> None:
        answers = list(scripts.answers(script))
        for line, (ours, theirs) in enumerate(zip(answers, expected.splitlines()), start=1):
            self.assertEqual(ours, theirs, f"line {line}")
        self.assertEqual(len(answers), len(expected.splitlines()))

    def test_scenes(self) -> None:
        """The script that the gate runs `calls` on, whose answers the reference gave."""
        folder = ROOT / "crates" / "calls"
        self.assert_same((folder / "stdin").read_bytes(), (folder / "stdout").read_text())

    def test_drawn_sessions(self) -> None:
        rng = Random("package 1")
        for _ in range(40):
            script = b"".join(vectors_drawn.drawn_session(rng))
            self.assert_same(script, vectors.answers(script).decode())

    def test_every_j(self) -> None:
        rng = Random("package 2")
        for last in range(1, layout.LARGEST_YEAR + 1):
            file = samples.drawn_file(rng, last)
            script = b"".join((*vectors_calls.settle_and_read(rng, file), *vectors_calls.every_row(build_file(file))))
            self.assert_same(script, vectors.answers(script).decode())


if __name__ == "__main__":
    unittest.main()

"""The residues of a mean record: File F's by hand, others as the figures give them, and buffers of every kind and length."""

import inspect
import re
import textwrap
import unittest
from array import array
from collections.abc import Sequence
from concurrent.futures import ThreadPoolExecutor
from contextlib import redirect_stdout
from io import StringIO
from random import Random
from typing import Any

import scripts
from paths import ROOT
from refusing import BESIDE_F, RECORD_OF_F, RESIDUES_BESIDE_F, F, opened, refusal_of

import damage
import layout
import samples
from layout import MEAN_LIMITS, PAID, build_file, build_record, parts_count
from reserving_desk import TICKS_PER_DOUBLING as T
from reserving_desk import Figures, Session, record_of
from strikes import Steps

SAMPLE = (ROOT / "samples" / "tables-10-11.file").read_bytes()
OPENED = b"o" + len(F).to_bytes(4, "big") + F  # in a script


def by_the_matrix(figures: Figures, parts: Sequence[int]) -> tuple[int, ...]:
    """In whole numbers of any size."""
    rows = zip(figures.matrix, figures.right_hand_side)
    return tuple(sum(entry * part for entry, part in zip(row, parts)) - right for row, right in rows)


def in_bytes(residues: Sequence[int]) -> bytes:
    return b"".join(residue.to_bytes(8, "big", signed=True) for residue in residues)


class FileF(unittest.TestCase):
    def test_whole(self) -> None:
        desk = opened()
        for parts, residues in (
            ((10 * T, T, -T), (0, 0, 0)),
            ((10 * T + 1, T, -T), (131_073, 0, 0)),
            ((10 * T - 2, T, -T), (-262_146, 0, 0)),
            ((10 * T, T + 1, -T), (0, 98_305, -32_768)),
            ((10 * T, T, -T + 1), (0, -32_768, 98_305)),
            ((0, 0, 0), (-1_310_730 * T, -131_073 * T, 131_073 * T)),
        ):
            found = desk.residues(build_record(parts))
            self.assertEqual(found, residues)
            self.assertEqual((type(found), {type(residue) for residue in found}), (tuple, {int}))

    def test_without_a_step(self) -> None:
        """x_(0,0) is out: of phi 0 the other step is left, and the prior."""
        desk = opened()
        desk.strike(PAID, 0, 0)
        self.assertEqual(desk.residues(build_record((10 * T + 1, T, -T))), (65_537, 0, 0))
        self.assertEqual(desk.residues(build_record((0, 0, 0))), (-655_370 * T, -131_073 * T, 131_073 * T))

    def test_without_priors(self) -> None:
        desk = opened(build_file(samples.without_priors(samples.file_f())))
        self.assertEqual(desk.residues(build_record((10 * T + 1, T + 1, -T))), (131_072, 98_304, -32_768))

    def test_written(self) -> None:
        buffer = bytearray(24)
        opened().residues_into(BESIDE_F, buffer)
        self.assertEqual(buffer, RESIDUES_BESIDE_F)
        self.assertEqual(opened().residues(BESIDE_F), (131_073, 32_768, -98_305))


class AsTheFiguresGiveThem(unittest.TestCase):
    def assert_same(self, desk: Session, parts: Sequence[int]) -> None:
        """And a mean passes exactly if each of its residues is small enough."""
        figures, record, before = desk.figures(), build_record(parts), scripts.contents(desk)
        expected = by_the_matrix(figures, parts)
        self.assertEqual(desk.residues(record), expected)
        buffer = bytearray(scripts.LENT_BYTE * 250)
        desk.residues_into(record, buffer)
        self.assertEqual(buffer, in_bytes(expected) + scripts.LENT_BYTE * (250 - 8 * len(parts)))
        failing = [part for part, own in enumerate(figures.own_weights) if abs(expected[part]) > figures.closeness * own]
        judged = desk.judge(record)
        self.assertEqual((judged.passed, judged.part), (not failing, failing[0] if failing else None))
        self.assertEqual(scripts.contents(desk), before)

    def assert_all_same(self, rng: Random, file: layout.File, struck: Steps = frozenset()) -> None:
        """Of means at the limits, at the priors and anywhere; before any sweep, and after some."""
        desk, count = opened(build_file(file)), parts_count(file.last)
        for step in rng.sample(sorted(struck), len(struck)):
            desk.strike(*step)
        drawn = [[rng.choice((rng.choice(MEAN_LIMITS), rng.randint(*MEAN_LIMITS))) for _ in range(count)] for _ in range(3)]
        means: list[Sequence[int]] = [[limit] * count for limit in MEAN_LIMITS]
        apart = [MEAN_LIMITS[part > file.last] for part in range(count)]  # phi and psi as far apart as they can be
        means += [apart, apart[::-1], file.prior_means, *drawn]
        for mean in means:
            self.assert_same(desk, mean)
        desk.sweep(2)
        self.assert_same(desk, means[-1])

    def test_the_sample(self) -> None:
        desk = opened(SAMPLE)
        self.assert_same(desk, (0,) * 19)
        self.assertTrue(desk.sweep())
        self.assert_same(desk, desk.read().parts)
        desk.strike(PAID, 3, 2)
        self.assertTrue(desk.sweep())
        self.assert_same(desk, desk.read().parts)

    def test_drawn_files_of_every_j(self) -> None:
        rng = Random("package 6")
        for last in range(1, layout.LARGEST_YEAR + 1):
            self.assert_all_same(rng, samples.drawn_any_file(rng, last))
            self.assert_all_same(rng, samples.without_priors(samples.drawn_file(rng, last)))

    def test_drawn_strikes_of_every_j(self) -> None:
        rng = Random("package 7")
        for last in range(1, layout.LARGEST_YEAR + 1):
            self.assert_all_same(rng, samples.drawn_any_file(rng, last), samples.drawn_strikes(rng, last))

    def test_the_largest(self) -> None:
        rng = Random("package 8")
        for last in (1, 2, 9, layout.LARGEST_YEAR):
            ends = [samples.file_at_limits(last, end) for end in (0, 1)]
            for file in (*ends, samples.largest_figures(last), samples.largest_steps(last), samples.many_sweeps(last)):
                self.assert_all_same(rng, file)
                self.assert_all_same(rng, samples.without_priors(file), samples.drawn_strikes(rng, last))

    def test_the_example_of_the_docstring(self) -> None:
        block = re.findall(r"(?:^ {4}.*\n)+", inspect.getdoc(Session.residues) or "", re.MULTILINE)[0]
        for parts in ((10 * T, T, -T), (10 * T + 1, T, -T), (10 * T + 2, T, -T), (10 * T, T + 1, -T), (10 * T, T, -T - 1)):
            desk, record, said = opened(), build_record(parts), StringIO()
            with redirect_stdout(said):
                exec(textwrap.dedent(block), {"desk": desk, "record": record})
            self.assertEqual(said.getvalue(), f"{desk.judge(record).passed}\n")


class Lent(unittest.TestCase):
    def test_any_bytes_as_the_record(self) -> None:
        records: tuple[Any, ...] = (
            bytearray(BESIDE_F), memoryview(BESIDE_F), memoryview(BESIDE_F[::-1])[::-1], array("B", BESIDE_F),
        )
        for record in records:
            self.assertEqual(in_bytes(opened().residues(record)), RESIDUES_BESIDE_F)

    def test_every_size(self) -> None:
        desk = opened()
        for size in range(60):
            buffer = bytearray(scripts.LENT_BYTE * size)
            if size < 24:
                self.assertEqual(refusal_of(lambda: desk.residues_into(BESIDE_F, buffer)).number, 13)
                self.assertEqual(buffer, scripts.LENT_BYTE * size)
            else:
                desk.residues_into(BESIDE_F, buffer)
                self.assertEqual(buffer, RESIDUES_BESIDE_F + scripts.LENT_BYTE * (size - 24))

    def test_one_object_as_both(self) -> None:
        """No record is as long as its residues, so it is refused, and left as it was."""
        for record, number in ((BESIDE_F, 13), (RECORD_OF_F, 13), (BESIDE_F + bytes(7), 1), (build_record((0,) * 5), 4)):
            room = bytearray(record)
            self.assertEqual(refusal_of(lambda: opened().residues_into(room, room)).number, number)
            self.assertEqual(room, record)

    def test_record_and_buffer_overlap(self) -> None:
        """The record is copied before a byte is written."""
        desk = opened()
        for start in (0, 3, 7, 13, 24):  # the record at the residues' start, over them and behind
            room = bytearray(scripts.LENT_BYTE * start + BESIDE_F + scripts.LENT_BYTE * 24)
            behind = bytes(room[24:])
            desk.residues_into(memoryview(room)[start:start + len(BESIDE_F)], room)
            self.assertEqual(room, RESIDUES_BESIDE_F + behind)

    def test_numbers_of_8_bytes(self) -> None:
        numbers: Any = array("q", [-1] * 5)
        opened().residues_into(BESIDE_F, numbers)
        numbers.byteswap()
        self.assertEqual(numbers.tolist(), [131_073, 32_768, -98_305, -1, -1])

    def test_nothing_holds_on_to_the_buffer(self) -> None:
        desk, buffer = opened(), bytearray()
        refused = refusal_of(lambda: desk.residues_into(BESIDE_F, buffer))
        buffer.extend(bytes(24))
        self.assertEqual(refused.number, 13)
        desk.residues_into(BESIDE_F, buffer)
        buffer.append(0)
        self.assertEqual(buffer, RESIDUES_BESIDE_F + b"\0")


class Refusals(unittest.TestCase):
    """21, what is wrong with the record, 13: each with room and without. The buffer and the session stay as they were."""

    def assert_refused(self, desk: Session, record: bytes, number: int, sizes: Sequence[int] = (0, 23, 24, 250)) -> None:
        before = scripts.contents(desk)
        for size in sizes:
            buffer = bytearray(scripts.LENT_BYTE * size)
            self.assertEqual(refusal_of(lambda: desk.residues_into(record, buffer)).number, number)
            self.assertEqual((buffer, scripts.contents(desk)), (scripts.LENT_BYTE * size, before))

    def test_in_order(self) -> None:
        spoiled = {number: spoil(BESIDE_F) for number, spoil in damage.SPOIL_RECORD.items()}
        self.assertEqual(list(spoiled), [1, 2, 4, 11])
        closed = opened()
        closed.close()
        for record in (BESIDE_F, b"", *spoiled.values()):
            for desk in (Session(), closed):
                self.assert_refused(desk, record, 21)
        for number, record in spoiled.items():
            self.assert_refused(opened(), record, number)
        self.assert_refused(opened(), BESIDE_F, 13, range(24))

    def test_no_mean_has_to_pass(self) -> None:
        spent = opened(build_file(samples.spent_at_a_limit()))
        spent.sweep()
        self.assertEqual(refusal_of(spent.read).number, 24)
        self.assertEqual(spent.residues(BESIDE_F), by_the_matrix(spent.figures(), (10 * T + 1, T, -T - 1)))
        self.assert_refused(spent, BESIDE_F, 13, (0, 23))


class Shared(unittest.TestCase):
    def test_while_others_sweep(self) -> None:
        """The figures stay, and so do the residues of a record."""
        desk = opened(build_file(samples.spent_at_a_limit()))
        expected = desk.residues(BESIDE_F)
        with ThreadPoolExecutor(8) as pool:
            swept = pool.map(desk.sweep, [1] * 200)
            found = set(pool.map(desk.residues, [BESIDE_F] * 200))
            self.assertEqual(sorted(one.total for one in swept), list(range(1, 201)))
        self.assertEqual(found, {expected})


class Scripts(unittest.TestCase):
    """The letter `d`."""

    def call(self, record: bytes, size: int) -> bytes:
        return b"d" + len(record).to_bytes(4, "big") + record + size.to_bytes(4, "big")

    def test_answers(self) -> None:
        script = b"".join((
            self.call(BESIDE_F, 2), OPENED, self.call(BESIDE_F, 26), self.call(BESIDE_F[:-1], 1), self.call(BESIDE_F, 1),
        ))
        self.assertEqual(list(scripts.answers(script)), [
            "refused 21 at 0", "buffer a5a5", "opened", "residues", f"buffer {RESIDUES_BESIDE_F.hex()}a5a5",
            "refused 1 at 0", "buffer a5", "refused 13 at 0", "buffer a5",
        ])


class OfASolver(unittest.TestCase):
    def test_its_own(self) -> None:
        """One that adds up F's terms itself, and forms no matrix, finds the same."""
        phi, psi = (10 * T + 5, T - 3), (-T + 2,)
        residues = [weight * (part - mean) for weight, part, mean in zip((1, 1, 1), phi + psi, (10 * T, T, -T))]
        residues[0] += 2 * 65_536 * (phi[0] - 10 * T)
        residues[1] += 65_536 * (phi[1] - T)
        residues[2] += 65_536 * (psi[0] + T)
        ratio = 32_768 * (phi[1] - psi[0] - 2 * T)
        residues[1] += ratio
        residues[2] -= ratio
        desk = opened()
        self.assertEqual(desk.residues(build_record(phi + psi)), tuple(residues))
        self.assertEqual(desk.residues(record_of(desk.read())), (0, 0, 0))


if __name__ == "__main__":
    unittest.main()

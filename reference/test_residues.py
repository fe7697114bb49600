"""Residues by observations: F by hand, beside the matrix and the loss, the greatest, bytes, refusals and their order, the specification."""

import re
import struct
import unittest
from collections.abc import Iterator
from dataclasses import replace
from random import Random

import chain
import damage
import layout
import loss
import paper
import samples
import session
import test_chain
import vectors_residues
from layout import INCURRED, LARGEST_YEAR, MEAN_LIMITS, PAID, File, Refusal, build_record, parts_count
from residues import build_residues, by_observations, residues_length
from scales import TICKS_PER_DOUBLING as T
from session import EMPTY, Held, Residues
from strikes import NONE, Step, Steps, columns_of, left_of
from test_specification import number, rows, section
from vectors_drawn import opened

F, X_00 = samples.file_f(), Step(PAID, 0, 0)
GOING = samples.many_sweeps(2)
LENT = b"\xa5"
LIMIT = 19_732 << 47  # what is proved of every one; 8 bytes hold more than three times as much


def holding(file: File, struck: Steps) -> Held:
    """An open file and steps of it struck, without a call for each."""
    return Held(file, chain.figures_of(file, struck), file.prior_means, 0, struck)


def written_for(state: Held, mean: tuple[int, ...]) -> tuple[int, ...]:
    """The numbers of a buffer that is just long enough."""
    parts = len(mean)
    answer, buffer = session.residues(state, build_record(mean), LENT * 8 * parts)
    assert answer == Residues()
    return struct.unpack(f">{parts}q", buffer)


class FileF(unittest.TestCase):
    """p = q = 65,536, g_0 = 32,768 and every prior weighs 1; x_(i,0) is 10T, x_(0,1) is T, z_(0,0) is -T and y_1 is 2T."""

    def test_by_hand(self) -> None:
        """One tick off: phi 0 stands in two steps and a prior, the others in one, a prior and the ratio."""
        for mean, found in (
            ((10 * T, T, -T), (0, 0, 0)),
            ((10 * T + 1, T, -T), (131_073, 0, 0)),
            ((10 * T - 1, T, -T), (-131_073, 0, 0)),
            ((10 * T, T + 1, -T), (0, 65_537 + 32_768, -32_768)),
            ((10 * T, T, -T + 1), (0, -32_768, 65_537 + 32_768)),
            ((10 * T, T - 2, -T - 2), (0, -2 * 65_537, -2 * 65_537)),
            ((0, 0, 0), (-131_073 * 10 * T, -65_537 * T - 32_768 * 2 * T, 65_537 * T + 32_768 * 2 * T)),
        ):
            self.assertEqual(written_for(opened(F), mean), found)

    def test_without_a_step(self) -> None:
        """One tick off at phi 0 is 65,537, whichever of its two steps is out."""
        for step in (X_00, Step(PAID, 1, 0)):
            state = opened(F, frozenset([step]))
            self.assertEqual(written_for(state, (10 * T + 1, T, -T)), (65_537, 0, 0))
            self.assertEqual(written_for(state, (10 * T, T + 1, -T)), (0, 98_305, -32_768))

    def test_without_priors(self) -> None:
        state = opened(samples.without_priors(F))
        self.assertEqual(written_for(state, (10 * T + 1, T, -T)), (131_072, 0, 0))
        self.assertEqual(written_for(state, (10 * T, T, -T - 1)), (0, 32_768, -98_304))

    def test_bytes(self) -> None:
        _, buffer = session.residues(opened(F), build_record((10 * T, T + 1, -T)), LENT * 26)
        self.assertEqual(buffer.hex(" ", -8), "0000000000000000 0000000000018001 ffffffffffff8000 a5a5")


class ThreeYears(unittest.TestCase):
    """The file of which every figure is worked out in test_chain, at the mean of no ticks: each observation is off by itself."""

    FILE = test_chain.ThreeYears.FILE

    def test_by_hand(self) -> None:
        struck = frozenset((Step(PAID, 1, 0), Step(PAID, 0, 1), Step(INCURRED, 0, 0)))
        g0, g1 = 2_185 * -7 * T, 3_277 * -4 * T  # of the ratios 7T and 4T
        of_phi = (64 * -1 + 65_536 * -5 * T, 32 * -2 + 32_768 * -4 * T + g0, 16 * -3 + 16_384 * -2 * T + g0 + g1)
        of_psi = (8 * -4 + 8_192 * -2 * T - g0, 4 * -5 + 4_096 * 2 * T - g0 - g1)
        self.assertEqual(written_for(opened(self.FILE, struck), (0,) * 5), of_phi + of_psi)


def tried(rng: Random) -> Iterator[tuple[File, Steps]]:
    """Of every J: drawn files, with any priors or none, files at the limits and files whose observations are as large as can be."""
    for last in range(1, LARGEST_YEAR + 1):
        files = [samples.drawn_any_file(rng, last), samples.drawn_flat_file(rng, last), samples.largest_steps(last)]
        files += [samples.file_at_limits(last, rng.randrange(2)), vectors_residues.ratios_against(last, rng.choice((1, -1)))]
        for file in files:
            yield from ((file, NONE), (file, samples.drawn_strikes(rng, last)))


def drawn_mean(rng: Random, last: int) -> tuple[int, ...]:
    """Anywhere, or every part at a limit."""
    draw = rng.choice((lambda: rng.randint(*MEAN_LIMITS), lambda: rng.choice(MEAN_LIMITS)))
    return tuple(draw() for _ in range(parts_count(last)))


class ByOtherWays(unittest.TestCase):
    def test_by_the_matrix(self) -> None:
        """Matrix times mean less the right-hand side, of what is left."""
        rng, signs = Random(91), set()
        for file, struck in tried(rng):
            state = holding(file, struck)
            means = (drawn_mean(rng, file.last), drawn_mean(rng, file.last), session.sweep(state, 3)[1].mean)
            for mean in means:
                found = written_for(state, mean)
                self.assertEqual(list(found), chain.residues_of(state.figures, mean))
                signs |= {(residue > 0) - (residue < 0) for residue in found}
        self.assertEqual(signs, {1, 0, -1})

    def test_by_the_loss(self) -> None:
        """The loss is a square in each part, so from one tick below to one above it grows by four times the residue, exactly."""
        rng = Random(92)
        for file, struck in tried(rng):
            mean, squares = list(drawn_mean(rng, file.last)), loss.squares_of(file, struck)
            found = by_observations(file, struck, mean)
            for part in rng.sample(range(len(mean)), min(len(mean), 4)):
                above, below = (loss.loss_of(squares, vectors_residues.moved(tuple(mean), part, ticks)) for ticks in (1, -1))
                self.assertEqual(above - below, 4 * found[part])

    def test_of_the_mean_that_is_held(self) -> None:
        """Sweeps go by the residues of the matrix, which follow each step; they are those of the observations."""
        for file in (GOING, paper.tables_file(256), samples.without_priors(vectors_residues.settling(5))):
            state = opened(file, frozenset([X_00]))
            for sweeps in (1, 2, 4_096):
                _, state = session.sweep(state, sweeps)
                self.assertEqual(list(written_for(state, state.mean)), state.residues())

    def test_a_mean_passes_by_them(self) -> None:
        """A solver that never forms a matrix tells of every mean what judge tells, as it knows the own weights."""
        rng, failing = Random(93), set()
        for file, struck in tried(rng):
            state = holding(file, struck)
            _, settled = session.sweep(state, 20)
            for mean in (settled.mean, drawn_mean(rng, file.last)):
                limits = (file.closeness * own for own in state.figures.own)
                fails = [part for part, (found, limit) in enumerate(zip(written_for(state, mean), limits)) if abs(found) > limit]
                answer = session.judge(state, build_record(mean))
                self.assertEqual(answer, session.Fails(fails[0]) if fails else session.Passed())
                failing.add(bool(fails))
        self.assertEqual(failing, {True, False})

    def test_the_mean_of_a_flat_prior_counts_for_nothing(self) -> None:
        rng = Random(94)
        for last in range(1, LARGEST_YEAR + 1):
            file = samples.without_priors(samples.drawn_file(rng, last))
            mean, other = drawn_mean(rng, last), replace(file, prior_means=drawn_mean(rng, last))
            self.assertEqual(by_observations(file, NONE, mean), by_observations(other, NONE, mean))

    def test_the_order_of_strikes_makes_no_difference(self) -> None:
        steps = [step for column in columns_of(4) for step in column[1:]]
        mean, file = drawn_mean(Random(95), 4), vectors_residues.settling(4)
        found = []
        for order in (steps, steps[::-1]):
            state = opened(file)
            for step in order:
                _, state = session.strike(state, *step)
            found.append(written_for(state, mean))
        self.assertEqual(*found)
        self.assertNotEqual(found[0], written_for(opened(file), mean))


def greatest(last: int, part: int) -> int:
    """What no residue of the part exceeds in size: each term as great as its limits allow, and every weight too."""
    weights = chain.weights_of(samples.file_at_limits(last, 0))
    wide, step = 1 << 26, 44 * T
    column, ratios = (part, part) if part <= last else (part - last - 1, part - last)
    steps = last - column + (part <= last)
    shared = sum(weights.g[k] * (2 * (last - k) * wide + step) for k in range(ratios))
    return (1 << 28) * (2 * wide + steps * (wide + step)) + shared


class Greatest(unittest.TestCase):
    def of(self, file: File, sign: int) -> tuple[int, ...]:
        return written_for(opened(file), vectors_residues.mean_against(file.last, sign))

    def test_first_steps(self) -> None:
        """Phi 0, phi 1 and psi 0 have the most that there can be."""
        last = LARGEST_YEAR
        found = self.of(vectors_residues.first_steps_against(last, 1), 1)
        self.assertEqual(found[0], -29 << 54)
        for part, sign in ((0, -1), (1, 1), (last + 1, -1)):
            self.assertEqual(found[part], sign * greatest(last, part))
        self.assertEqual(found[1], (2 << 54) + 15 * ((1 << 26) + 44 * T << 28) + 8_947_849 * ((30 << 26) + 44 * T))
        turned = self.of(vectors_residues.first_steps_against(last, -1), -1)
        self.assertEqual(turned[0], 18 << 54)
        self.assertEqual((turned[1], turned[last + 1]), (-found[1], -found[last + 1]))

    def test_ratios(self) -> None:
        """Phi J has one step and every ratio."""
        for sign in (1, -1):
            found = self.of(vectors_residues.ratios_against(LARGEST_YEAR, sign), sign)
            self.assertEqual(found[LARGEST_YEAR], sign * greatest(LARGEST_YEAR, LARGEST_YEAR))

    def test_none_is_greater(self) -> None:
        bounds = {(last, part): greatest(last, part) for last in range(1, LARGEST_YEAR + 1) for part in range(parts_count(last))}
        most = max(bounds.values())
        self.assertEqual(([key for key, bound in bounds.items() if bound == most], most), ([(LARGEST_YEAR, 0)], 29 << 54))
        self.assertEqual(max(bound for (_, part), bound in bounds.items() if part), bounds[LARGEST_YEAR, 1])
        rng = Random(96)
        for file, struck in tried(rng):
            for part, residue in enumerate(by_observations(file, struck, drawn_mean(rng, file.last))):
                self.assertLessEqual(abs(residue), bounds[file.last, part])

    def test_they_fit(self) -> None:
        self.assertLess(29 << 54, LIMIT)
        self.assertLess(LIMIT, 1 << 63)


class Bytes(unittest.TestCase):
    def test_two_s_complement(self) -> None:
        for residue, written in (
            (0, "0000000000000000"), (1, "0000000000000001"), (-1, "ffffffffffffffff"), (131_073, "0000000000020001"),
            (-(1 << 32), "ffffffff00000000"), (29 << 54, "0740000000000000"), (-29 << 54, "f8c0000000000000"),
        ):
            self.assertEqual(build_residues([residue]).hex(), written)

    def test_the_bytes_behind_stay(self) -> None:
        rng = Random(97)
        for last in range(1, LARGEST_YEAR + 1):
            state, record = opened(samples.drawn_any_file(rng, last)), build_record(drawn_mean(rng, last))
            size = residues_length(last)
            self.assertEqual(size, 8 * (2 * last + 1))
            answer, exact = session.residues(state, record, bytes(size))
            self.assertEqual((answer, len(exact)), (Residues(), size))
            for behind in (1, 7, 8, 100, 4_096 - size):
                lent = rng.randbytes(size + behind)
                self.assertEqual(session.residues(state, record, lent), (Residues(), exact + lent[size:]))

    def test_short_buffers(self) -> None:
        for last in range(1, LARGEST_YEAR + 1):
            state, record = opened(samples.many_sweeps(last)), build_record((0,) * parts_count(last))
            size = residues_length(last)
            for length in {0, 1, 8, size - 8, size - 1, layout.record_length(last) - 1}:
                self.assertEqual(session.residues(state, record, LENT * length), (Refusal(13, 0), LENT * length))


class Refusals(unittest.TestCase):
    def assert_refused(self, state: session.State, record: bytes, refusal: Refusal) -> None:
        """With room for the residues and without; the buffer is as it was."""
        for size in (0, 1, 39, 40, 300):
            self.assertEqual(session.residues(state, record, LENT * size), (refusal, LENT * size))

    def test_nothing_open_comes_first(self) -> None:
        good = build_record((0,) * 5)
        for state in (EMPTY, session.close(opened(GOING))):
            for record in (good, b"", *(spoil(good) for spoil in damage.SPOIL_RECORD.values())):
                self.assert_refused(state, record, Refusal(21, 0))

    def test_the_record_s_come_before_the_size(self) -> None:
        """Each as judge gives it, alone and two at once."""
        state, good = opened(GOING), build_record((0,) * 5)
        spoilt = {number: spoil(good) for number, spoil in damage.SPOIL_RECORD.items()}
        places = {1: 0, 2: 4, 4: 0, 11: layout.part_place(2)}
        for number, record in spoilt.items():
            self.assert_refused(state, record, Refusal(number, places[number]))
            self.assertEqual(session.judge(state, record), Refusal(number, places[number]))
        for lower, _, record in damage.pairs_of_spoils(good, damage.SPOIL_RECORD):
            self.assert_refused(state, record, Refusal(lower, places[lower]))

    def test_places_of_parts(self) -> None:
        for last in range(1, LARGEST_YEAR + 1):
            state, good = opened(samples.many_sweeps(last)), build_record((0,) * parts_count(last))
            for part in (0, last, last + 1, 2 * last):
                for value in (MEAN_LIMITS[0] - 1, MEAN_LIMITS[1] + 1, -(1 << 31), (1 << 31) - 1):
                    self.assert_refused(state, damage.put(good, 5 + 4 * part, value, 4), Refusal(11, 5 + 4 * part))
                for value in MEAN_LIMITS:
                    answer, _ = session.residues(state, damage.put(good, 5 + 4 * part, value, 4), bytes(residues_length(last)))
                    self.assertEqual(answer, Residues())

    def test_records_of_other_years(self) -> None:
        for last in range(1, LARGEST_YEAR + 1):
            for other in {1, 2, last, LARGEST_YEAR}:
                answer, _ = session.residues(opened(samples.many_sweeps(last)), build_record((0,) * parts_count(other)), bytes(248))
                self.assertEqual(answer, Residues() if other == last else Refusal(4, 0))

    def test_a_mean_need_not_pass(self) -> None:
        """Neither the record's nor the one that is held, before all sweeps are run or behind them."""
        for state in (opened(GOING), session.sweep(opened(samples.spent_at_a_limit()), 4_096)[1]):
            self.assertFalse(state.passes())
            self.assertEqual(list(written_for(state, state.mean)), state.residues())


class Specification(unittest.TestCase):
    """The text has the reference's figures, and its formulas are the reference's sums."""

    TEXT = " ".join(section("Residues by observations").split())

    def test_of_f(self) -> None:
        means = {"(10T, T, −T)": (10 * T, T, -T), "(10T+1, T, −T)": (10 * T + 1, T, -T), "(10T, T+1, −T)": (10 * T, T + 1, -T)}
        for name, mean in means.items():
            told = re.search(rf"{re.escape(name)} has (?:the residues )?([−\d, ]+\d)", self.TEXT)[1]
            found = by_observations(F, NONE, mean)
            self.assertEqual([number(one) for one in told.split(", ")], found)
        self.assertIn(f"the last is written {build_residues(found[-1:]).hex(' ')}.", self.TEXT)
        first, *others = by_observations(F, frozenset([X_00]), means["(10T+1, T, −T)"])
        self.assertIn(f"Without x_(0,0) those of (10T+1, T, −T) are {first:,}, {others[0]}, {others[1]}.", self.TEXT)

    def test_formulas(self) -> None:
        told = dict(rows(section("Residues by observations"), 2))
        for name, ends in (("Φ_j", "+ (sum of g_(J−i)·d_i over i = J−j+1..J)"), ("Ψ_j", "− (sum of g_(J−i)·d_i over i = J−j..J)")):
            self.assertTrue(told[name].endswith(ends), name)
        rng = Random(98)
        for file, struck in tried(rng):
            mean = drawn_mean(rng, file.last)
            self.assertEqual(by_formulas(file, struck, mean), by_observations(file, struck, mean))

    def test_sizes(self) -> None:
        self.assertIn(f"8(2J+1) bytes in all, at most {residues_length(LARGEST_YEAR)}.", self.TEXT)
        self.assertIn("at most 19,732·2^47 in size. (The greatest, computed and not proved, is 29·2^54: with J = 15, of Φ_0", self.TEXT)

    def test_refusals(self) -> None:
        """In this order, those of the record being judge's."""
        told = {row[3]: row[4:] for row in rows(section("The calls"), 7)}
        self.assertEqual(told["`d`"], ["mean record, buffer", "written", f"{told['`j`'][2]}, 13"])
        good = build_record((0, 0, 0))
        spoilt = {refusal: (opened(F), spoil(good)) for refusal, spoil in damage.SPOIL_RECORD.items()}
        asked = {21: (EMPTY, b"")} | spoilt | {13: (opened(F), good)}
        self.assertEqual(", ".join(map(str, asked)), told["`d`"][2])
        for refusal, (state, record) in asked.items():
            self.assertEqual(session.residues(state, record, b"")[0].number, refusal)


def by_formulas(file: File, struck: Steps, mean: tuple[int, ...]) -> list[int]:
    """The specification's table, part by part: each sum over accident years i, with the limits that it has there."""
    weights, seen, J = chain.weights_of(file), chain.observations_of(file), file.last
    phi, psi, priors = mean[:J + 1], mean[J + 1:], file.prior_means
    d = {i: sum(phi[J - i + 1:]) - sum(psi[J - i:]) - seen.y[i] for i in range(1, J + 1)}
    left = set(left_of(J, struck))
    paid, incurred = ([[i for i in range(J + 1) if (channel, i, j) in left] for j in range(J + 1)] for channel in (PAID, INCURRED))
    of_phi = [weights.s[j] * (phi[j] - priors[j]) + sum(weights.p[j] * (phi[j] - seen.x[i][j]) for i in paid[j])
              + sum(weights.g[J - i] * d[i] for i in range(J - j + 1, J + 1)) for j in range(J + 1)]
    of_psi = [weights.t[j] * (psi[j] - priors[J + 1 + j]) + sum(weights.q[j] * (psi[j] - seen.z[i][j]) for i in incurred[j])
              - sum(weights.g[J - i] * d[i] for i in range(J - j, J + 1)) for j in range(J)]
    return of_phi + of_psi


if __name__ == "__main__":
    unittest.main()

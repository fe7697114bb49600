"""Steps struck out: F and three years by hand, refusals and their order, what begins anew, what is left, and the paper's example."""

import unittest
from dataclasses import replace
from itertools import permutations
from random import Random

import chain
import exact
import layout
import loss
import paper
import samples
import session
import test_chain
import vectors_strikes
from layout import INCURRED, LARGEST_YEAR, PAID, File, Refusal, build_file, build_record, parts_count, record_length
from page import build_page, page_length
from scales import TICKS_PER_DOUBLING as T
from session import EMPTY, Fails, Going, Held, Opened, Passed, Settled, Struck
from strikes import NONE, Step, Steps, columns_of, left_of, steps_of
from vectors_drawn import opened

F, X_00 = samples.file_f(), Step(PAID, 0, 0)
GOING = samples.many_sweeps(2)
LARGEST_64 = (1 << 64) - 1


def steps(*found: tuple[int, int, int]) -> Steps:
    return frozenset(Step(*step) for step in found)


class FileF(unittest.TestCase):
    """Without x_(0,0): phi 0 is left with x_(1,0) and its prior, at 10 doublings both, of weight 65,536 and 1."""

    def setUp(self) -> None:
        self.state = opened(F, steps(X_00))

    def test_figures(self) -> None:
        self.assertEqual(session.figures(self.state), chain.Figures(
            closeness=1,
            own=(65_537, 65_537, 65_537),
            matrix=((65_537, 0, 0), (0, 98_305, -32_768), (0, -32_768, 98_305)),
            right_hand_side=(655_370 * T, 131_073 * T, -131_073 * T),
        ))

    def test_loss(self) -> None:
        """One tick off costs 65,537 at phi 0 and 98,305 at the others; with the step it costs 131,073 at phi 0."""
        squares = loss.squares_of(F, steps(X_00))
        self.assertEqual(len(squares), len(loss.squares_of(F)) - 1)
        for mean, lost in (((10 * T, T, -T), 0), ((10 * T + 1, T, -T), 65_537), ((10 * T, T - 2, -T), 4 * 98_305)):
            self.assertEqual(loss.loss_of(squares, mean), lost)

    def test_judged_means(self) -> None:
        """Of 10T + 1 the residue is 65,537, which is D; of 10T + 2 it is twice that."""
        self.assertEqual(chain.residues_of(self.state.figures, (10 * T + 1, T, -T)), [65_537, 0, 0])
        for mean, answer in (
            ((10 * T, T, -T), Passed()), ((10 * T + 1, T, -T), Passed()), ((10 * T + 2, T, -T), Fails(0)), ((10 * T, T + 1, -T), Fails(1)),
        ):
            self.assertEqual(session.judge(self.state, build_record(mean)), answer)

    def test_page_has_the_own_weights_that_are_left(self) -> None:
        _, written = session.page(self.state, bytes(page_length(1)))
        self.assertEqual(written, build_page((10 * T, T, -T), (65_537,) * 3))
        self.assertEqual(written.splitlines()[0], b"phi  0  10485760      65537")

    def test_the_other_three(self) -> None:
        """x_(1,0) leaves the same; x_(0,1) and z_(0,0) are alone in their columns."""
        self.assertEqual(chain.figures_of(F, steps((PAID, 1, 0))), self.state.figures)
        for step in ((PAID, 0, 1), (INCURRED, 0, 0)):
            self.assertEqual(session.strike(opened(F), *step)[0], Refusal(27, 0))


class ThreeYears(unittest.TestCase):
    """The file of which every figure is worked out in test_chain, without x_(1,0), x_(0,1) and z_(0,0): 2, 2 and -2 doublings."""

    STRUCK = steps((PAID, 1, 0), (PAID, 0, 1), (INCURRED, 0, 0))

    def setUp(self) -> None:
        self.figures = chain.figures_of(test_chain.ThreeYears.FILE, self.STRUCK)

    def test_matrix(self) -> None:
        own = (64 + 2 * 65_536, 32 + 32_768, 16 + 16_384, 8 + 8_192, 4 + 4_096)
        self.assertEqual(self.figures.own, own)
        g0, both = 2_185, 2_185 + 3_277
        self.assertEqual(self.figures.matrix, (
            (own[0], 0, 0, 0, 0),
            (0, own[1] + g0, g0, -g0, -g0),
            (0, g0, own[2] + both, -g0, -both),
            (0, -g0, -g0, own[3] + g0, g0),
            (0, -g0, -both, g0, own[4] + both),
        ))

    def test_right_hand_side(self) -> None:
        """x_(0,0) and x_(2,0) have 5 doublings, x_(1,1) has 4, z_(1,0) has 2; the ratios y are those of the file."""
        g0, g1 = 2_185, 3_277
        self.assertEqual(self.figures.right_hand_side, (
            64 * 1 + 65_536 * 5 * T,
            32 * 2 + 32_768 * 4 * T + g0 * 7 * T,
            16 * 3 + 16_384 * 2 * T + g1 * 4 * T + g0 * 7 * T,
            8 * 4 + 8_192 * 2 * T - g0 * 7 * T,
            4 * 5 + 4_096 * -2 * T - g1 * 4 * T - g0 * 7 * T,
        ))


def by_the_documents(last: int, channel: int, year: int, column: int) -> Struck | Refusal:
    """What the first strike of a file answers, by the limits of i + j."""
    if channel > 1:
        return Refusal(14, 0)
    if year + column > last if channel == 0 else year + column >= last:
        return Refusal(26, 0)
    return Refusal(27, 0) if column == (last, last - 1)[channel] else Struck()


class Refusals(unittest.TestCase):
    def assert_refused(self, state: Held | None, step: tuple[int, int, int], number: int) -> None:
        answer, after = session.strike(state, *step)
        self.assertEqual(answer, Refusal(number, 0), step)
        self.assertIs(after, state)

    def test_every_first_strike(self) -> None:
        for last in range(1, LARGEST_YEAR + 1):
            state = opened(samples.many_sweeps(last))
            for channel in range(4):
                for year in range(last + 3):
                    for column in range(last + 3):
                        answer, after = session.strike(state, channel, year, column)
                        self.assertEqual(answer, by_the_documents(last, channel, year, column))
                        self.assertEqual(after is state, isinstance(answer, Refusal))

    def test_nothing_open_comes_first(self) -> None:
        for state in (EMPTY, session.close(opened(F, steps(X_00)))):
            for step in ((0, 0, 0), (2, 0, 0), (0, 2, 2), (0, 0, 1), (LARGEST_64,) * 3):
                self.assert_refused(state, step, 21)

    def test_the_channel_comes_before_the_step(self) -> None:
        """Also where the step is struck or the only one of its column in channel 0."""
        state = opened(F, steps(X_00))
        for channel in (2, 3, 256, 1 << 32, LARGEST_64):
            for year, column in ((1, 0), (0, 0), (0, 1), (1, 1), (LARGEST_64, LARGEST_64)):
                self.assert_refused(state, (channel, year, column), 14)

    def test_no_such_step(self) -> None:
        """Any numbers of 64 bits, also where the sum would wrap or the low bytes would be inside."""
        half = 1 << 63
        for last in (1, 2, LARGEST_YEAR):
            state = opened(samples.many_sweeps(last))
            pairs = [(LARGEST_64, 0), (LARGEST_64, 1), (LARGEST_64, LARGEST_64), (half, 0), (half, half), (1 << 32, 0), (256, 0)]
            for year, column in pairs + [(column, year) for year, column in pairs]:
                for channel in (PAID, INCURRED):
                    self.assert_refused(state, (channel, year, column), 26)

    def test_at_the_borders(self) -> None:
        for last in range(1, LARGEST_YEAR + 1):
            state = opened(samples.many_sweeps(last))
            for channel, border in ((PAID, last), (INCURRED, last - 1)):
                for year in range(border + 2):
                    self.assert_refused(state, (channel, year, border + 1 - year), 26)
                    inside = session.strike(state, channel, year, border - year)[0] if year <= border else Struck()
                    self.assertEqual(inside, Struck() if year else Refusal(27, 0))

    def test_struck_already_comes_before_the_last_of_its_column(self) -> None:
        """All but one of each column: that one is refused with 27, the others and those that never were with 26."""
        rng = Random(71)
        for last in range(1, LARGEST_YEAR + 1):
            left = {rng.choice(column) for column in columns_of(last)}
            state = opened(samples.many_sweeps(last), frozenset(steps_of(last)) - left)
            self.assertEqual(set(left_of(last, state.struck)), left)
            for step in steps_of(last):
                self.assert_refused(state, step, 27 if step in left else 26)
            self.assert_refused(state, (PAID, 1, last), 26)
            self.assert_refused(state, (INCURRED, 1, last - 1), 26)

    def test_the_last_columns_at_once(self) -> None:
        for last in range(1, LARGEST_YEAR + 1):
            state = opened(samples.many_sweeps(last))
            self.assert_refused(state, (PAID, 0, last), 27)
            self.assert_refused(state, (INCURRED, 0, last - 1), 27)


class Beginning(unittest.TestCase):
    """Mean and total go back with every strike, and with no refused one; a close forgets."""

    def test_after_sweeps(self) -> None:
        for sweeps in (1, 2, 4_096):
            _, swept = session.sweep(opened(GOING), sweeps)
            self.assertNotEqual((swept.mean, swept.total), (GOING.prior_means, 0))
            answer, state = session.strike(swept, PAID, 1, 0)
            self.assertEqual((answer, state), (Struck(), opened(GOING, steps((PAID, 1, 0)))))
            self.assertEqual((state.mean, state.total), (GOING.prior_means, 0))
            self.assertEqual(session.read(state, bytes(25)), (Refusal(24, 0), bytes(25)))
            self.assertEqual(session.ultimate(state, 1), Refusal(24, 0))
            self.assertEqual(session.sweep(state, 1)[0], Going(1))

    def test_sweeps_that_were_all_run(self) -> None:
        """The tables come to rest without passing; without x_(0,1) they settle, counted from 0."""
        _, spent = session.sweep(opened(paper.resting_file()), 4_096)
        self.assertEqual(session.sweep(spent, 1)[0], Refusal(23, 0))
        _, state = session.strike(spent, PAID, 0, 1)
        self.assertEqual(session.sweep(state, 4_096)[0], Settled(8))

    def test_sweeps_keep_the_strikes(self) -> None:
        struck = steps(X_00, (INCURRED, 1, 0))
        _, state = session.sweep(opened(GOING, struck), 3)
        self.assertEqual((state.struck, state.figures), (struck, chain.figures_of(GOING, struck)))

    def test_any_order_leaves_the_same(self) -> None:
        struck = (X_00, Step(PAID, 1, 0), Step(INCURRED, 1, 0), Step(PAID, 0, 1))
        states = []
        for order in permutations(struck):
            state = opened(GOING)
            for step in order:
                answer, state = session.strike(session.sweep(state, 1)[1], *step)
                self.assertEqual(answer, Struck())
            states.append(state)
        self.assertEqual(states, [opened(GOING, frozenset(struck))] * 24)

    def test_a_close_forgets(self) -> None:
        state = session.close(opened(GOING, steps(X_00)))
        answer, state = session.open_file(state, build_file(GOING))
        self.assertEqual((answer, state), (Opened(), opened(GOING)))
        self.assertEqual(session.strike(state, *X_00)[0], Struck())

    def test_a_second_open_is_refused_and_keeps_the_strikes(self) -> None:
        state = opened(GOING, steps(X_00))
        answer, after = session.open_file(state, build_file(GOING))
        self.assertEqual(answer, Refusal(22, 0))
        self.assertIs(after, state)


class WhatIsLeft(unittest.TestCase):
    def test_steps(self) -> None:
        """By the limits of i + j; each part has its column."""
        for last in range(1, LARGEST_YEAR + 1):
            years = range(last + 1)
            paid = [(PAID, i, j) for i in years for j in years if i + j <= last]
            incurred = [(INCURRED, i, j) for i in years for j in years if i + j < last]
            self.assertEqual([*steps_of(last)], paid + incurred)
            named = [{(step.channel, step.column) for step in column} for column in columns_of(last)]
            self.assertEqual(named, [{(PAID, j)} for j in range(last + 1)] + [{(INCURRED, j)} for j in range(last)])

    def test_nothing_struck(self) -> None:
        """Own weights as document 01 has them, count times weight, and right-hand sides weight times sum."""
        rng = Random(72)
        for last in range(1, LARGEST_YEAR + 1):
            file = samples.drawn_any_file(rng, last)
            weights, seen, figures = chain.weights_of(file), chain.observations_of(file), chain.figures_of(file, NONE)
            own = [s + (last - j + 1) * p for j, (s, p) in enumerate(zip(weights.s, weights.p))]
            own += [t + (last - j) * q for j, (t, q) in enumerate(zip(weights.t, weights.q))]
            self.assertEqual((figures.own, figures), (tuple(own), chain.figures_of(file)))
            of_phi_0 = weights.s[0] * file.prior_means[0] + weights.p[0] * sum(row[0] for row in seen.x)
            self.assertEqual(figures.right_hand_side[0], of_phi_0)
            self.assertEqual(opened(file).struck, NONE)

    def test_a_strike_moves_its_own_part_alone(self) -> None:
        rng = Random(73)
        for last in range(1, LARGEST_YEAR + 1):
            file, struck = samples.drawn_any_file(rng, last), samples.drawn_strikes(rng, last)
            before = chain.figures_of(file)
            for step in rng.sample(sorted(struck), min(6, len(struck))):
                self.assert_moved(file, before, chain.figures_of(file, steps(step)), step)

    def assert_moved(self, file: File, before: chain.Figures, after: chain.Figures, step: Step) -> None:
        weights, seen = chain.weights_of(file), chain.observations_of(file)
        weight, ticks = ((weights.p, seen.x), (weights.q, seen.z))[step.channel]
        part, less = step.column + step.channel * (file.last + 1), weight[step.column]
        own, right, matrix = list(before.own), list(before.right_hand_side), [list(row) for row in before.matrix]
        own[part] -= less
        matrix[part][part] -= less
        right[part] -= less * ticks[step.year][step.column]
        self.assertEqual(after, chain.Figures(file.closeness, tuple(own), tuple(map(tuple, matrix)), tuple(right)))

    def test_rows_and_logarithms_stay(self) -> None:
        """The ultimate of a mean is the same with and without a strike: its logarithms are the file's."""
        state, struck = (replace(opened(GOING, found), mean=opened(GOING).mean) for found in (NONE, steps(X_00, (PAID, 1, 1))))
        wide = [replace(held, figures=replace(held.figures, closeness=1 << 40)) for held in (state, struck)]  # whatever the mean is
        for year in (1, 2):
            self.assertEqual(*(session.ultimate(held, year) for held in wide))


class Tables(unittest.TestCase):
    """Tables 10 and 11: what a strike does to the ultimates, by which side its step is on."""

    def moved(self, step: Step) -> list[int]:
        """By how many ticks each year's ultimate is higher without the step."""
        file = paper.tables_file(2)
        (answer, before), (other, after) = (session.sweep(opened(file, struck), 4_096) for struck in (NONE, steps(step)))
        self.assertIsInstance(answer, Settled)
        self.assertIsInstance(other, Settled)
        return [session.ultimate(after, year).floor - session.ultimate(before, year).floor for year in range(1, file.last + 1)]

    def test_the_larger_of_two_payments_out(self) -> None:
        """x_(1,8) is the larger of its column, so years 2 to 9, for which it counts, come to less."""
        found = self.moved(Step(PAID, 1, 8))
        self.assertLess(max(found[1:]), -30)
        self.assertLess(found[-1], -5_000)

    def test_an_incurred_step_out(self) -> None:
        """Most by its own weight: z_(1,7) is below z_(0,7), and the years that have the step still to come rise by about the same."""
        found = self.moved(Step(INCURRED, 1, 7))
        self.assertTrue(all(1_000 < more < 1_300 for more in found[1:]), found)

    def test_a_first_payment_out(self) -> None:
        """Nothing is still to come of phi 0, and it shares no ratio."""
        self.assertEqual(self.moved(Step(PAID, 3, 0)), [0] * 9)

    def test_the_settled_mean_is_that_of_what_is_left(self) -> None:
        step = steps((PAID, 1, 8))
        _, state = session.sweep(opened(paper.tables_file(1), step), 4_096)
        figures = chain.figures_of(paper.tables_file(1), step)
        u, m = exact.solve(figures.matrix, figures.right_hand_side)
        for part, settled in zip(u, state.mean, strict=True):
            self.assertLess(abs(part - m * settled), m)


class OwnWeight(unittest.TestCase):
    def test_what_may_be_off(self) -> None:
        """The step agrees with the mean and is out: only the own weight is less, and 52 ticks at phi 1 pass no longer."""
        file, agreed = vectors_strikes.agreeing(), vectors_strikes.AGREED
        self.assertEqual(chain.weights_of(file).g, (16_384, 32_768))
        for struck, most in ((NONE, 56), (steps((PAID, 1, 1)), 51)):
            state = opened(file, struck)
            self.assertEqual(state.residues(), [0] * 5)
            for off, answer in ((most, Passed()), (most + 1, Fails(1)), (-most, Passed()), (-most - 1, Fails(1))):
                self.assertEqual(session.judge(state, build_record((agreed[0], agreed[1] + off, *agreed[2:]))), answer)


class Drawn(unittest.TestCase):
    def test_one_step_of_each_column_is_left(self) -> None:
        rng, shares = Random(76), set()
        for last in [*range(1, LARGEST_YEAR + 1)] * 4:
            struck = samples.drawn_strikes(rng, last)
            for column in columns_of(last):
                self.assertLess(len(struck & set(column)), len(column))
            shares.add((len(struck) > 0, len(left_of(last, struck)) == parts_count(last)))
        self.assertEqual(shares, {(False, False), (True, False), (True, True)})  # none, some, and all that can be

    def test_a_session_of_them(self) -> None:
        rng = Random(77)
        for last in range(1, LARGEST_YEAR + 1):
            file, struck = samples.drawn_any_file(rng, last), samples.drawn_strikes(rng, last)
            answer, state = session.sweep(opened(file, struck), 200)
            done, buffer = session.read(state, bytes(record_length(last)))
            self.assertEqual(isinstance(answer, Settled), isinstance(done, session.Written))
            if isinstance(answer, Settled):
                self.assertEqual((session.judge(state, buffer), layout.read_record(buffer, last)), (Passed(), state.mean))


if __name__ == "__main__":
    unittest.main()

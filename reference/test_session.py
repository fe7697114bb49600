"""The machine: the calls but ultimate, strike and residues, every refusal, every order of refusals, and that a refusal changes nothing."""

import struct
import unittest
from operator import mul
from random import Random

import chain
import damage
import layout
import paper
import samples
import session
from layout import Refusal, build_file, build_record
from page import page_length
from session import EMPTY, Fails, Going, Held, Opened, Paged, Passed, Settled, Shown, Written
from test_page import PAGE_OF_F

F = build_file(samples.file_f())
RECORD_OF_F = struct.pack(">IBiii", 17, 1, 10 << 20, 1 << 20, -(1 << 20))
WRITING = ((session.read, RECORD_OF_F, Written()), (session.page, PAGE_OF_F, Paged()))  # with what F has written and answered
GOING = samples.many_sweeps(2)
SPENT = samples.spent_at_a_limit()


def opened(file: layout.File) -> Held:
    answer, state = session.open_file(EMPTY, build_file(file))
    assert isinstance(answer, Opened) and isinstance(state, Held)
    return state


class Open(unittest.TestCase):
    def test_holds_the_prior_means_and_no_sweeps(self) -> None:
        answer, state = session.open_file(EMPTY, F)
        self.assertEqual(answer, Opened())
        self.assertEqual((state.file, state.total), (samples.file_f(), 0))
        self.assertEqual(state.mean, (10 << 20, 1 << 20, -(1 << 20)))

    def test_every_refusal_leaves_it_empty(self) -> None:
        for number, spoil in damage.SPOIL_FILE.items():
            answer, state = session.open_file(EMPTY, spoil(build_file(GOING)))
            self.assertEqual(answer.number, number)
            self.assertIs(state, EMPTY)

    def test_a_file_open_already_comes_before_any_input_check(self) -> None:
        before = opened(GOING)
        for lent in (F, b"", *(spoil(F) for spoil in damage.SPOIL_FILE.values())):
            answer, state = session.open_file(before, lent)
            self.assertEqual(answer, Refusal(22, 0))
            self.assertIs(state, before)


class Judge(unittest.TestCase):
    def test_means_of_the_document(self) -> None:
        t = 1 << 20
        state = opened(samples.file_f())
        for mean, answer in (
            ((10 * t, t, -t), Passed()),
            ((10 * t + 1, t, -t), Passed()),
            ((10 * t + 2, t, -t), Fails(0)),
            ((10 * t, t + 1, -t), Fails(1)),
        ):
            self.assertEqual(session.judge(state, build_record(mean)), answer)
        wider = opened(samples.file_f(closeness=2))
        self.assertEqual(session.judge(wider, build_record((10 * t, t + 1, -t))), Passed())

    def test_the_last_part_can_be_the_first_to_fail(self) -> None:
        # Every g is small beside psi 0's own weight, so moving psi 0 alone fails psi 0 alone.
        file = layout.File(1, 64, (1 << 40, 1 << 40), (1 << 18,), (0, 0, 0), (1 << 46,) * 3, ((1, 1), (1,)),
                           ((1, 1), (1,)))
        self.assertEqual(session.judge(opened(file), build_record((0, 0, 65))), Fails(2))

    def test_refusals_and_their_order(self) -> None:
        state = opened(GOING)
        good = build_record((0,) * 5)
        for number, spoil in damage.SPOIL_RECORD.items():
            self.assertEqual(session.judge(state, spoil(good)).number, number)
        for lower, _, spoilt in damage.pairs_of_spoils(good, damage.SPOIL_RECORD):
            self.assertEqual(session.judge(state, spoilt).number, lower)

    def test_nothing_open_comes_before_any_input_check(self) -> None:
        good = build_record((0,) * 5)
        for record in (good, b"", *(spoil(good) for spoil in damage.SPOIL_RECORD.values())):
            self.assertEqual(session.judge(EMPTY, record), Refusal(21, 0))


class Sweep(unittest.TestCase):
    def test_numbers_outside(self) -> None:
        for state in (opened(GOING), opened(samples.file_f())):
            for number in (0, 4_097, 1 << 16, (1 << 32) - 1):
                self.assertEqual(session.sweep(state, number), (Refusal(12, 0), state))

    def test_nothing_open_comes_before_the_number(self) -> None:
        for number in (0, 1, 4_097):
            self.assertEqual(session.sweep(EMPTY, number), (Refusal(21, 0), EMPTY))

    def test_a_passing_mean_is_left_alone(self) -> None:
        # (10T + 1, T, -T) passes although a sweep would move it.
        t = 1 << 20
        file = layout.File(**{**vars(samples.file_f()), "prior_means": (10 * t + 1, t, -t)})
        state = opened(file)
        self.assertEqual(session.sweep(state, 4_096), (Settled(0), state))

    def test_one_sweep_a_time_is_the_same_as_all_at_once(self) -> None:
        at_once, together = session.sweep(opened(samples.many_sweeps()), 4_096)
        self.assertGreater(at_once.total, 60)
        state, answer = opened(samples.many_sweeps()), Going(0)
        while isinstance(answer, Going):
            before = answer.total
            answer, state = session.sweep(state, 1)
            self.assertEqual(answer.total, before + 1)
        self.assertEqual((answer, state), (at_once, together))

    def test_partial_sweeps_add_up(self) -> None:
        settled, _ = session.sweep(opened(samples.many_sweeps()), 4_096)
        state, total = opened(samples.many_sweeps()), 0
        for number in range(1, 11):
            answer, state = session.sweep(state, number)
            total += number
            self.assertEqual(answer, Going(total))
        self.assertEqual(session.sweep(state, 4_096)[0], settled)
        answer, state = session.sweep(state, settled.total - total)
        self.assertEqual(answer, settled)

    def test_each_sweep_is_the_chain_s(self) -> None:
        state = opened(GOING)
        mean, residues = list(GOING.prior_means), chain.residues_of(state.figures, GOING.prior_means)
        for _ in range(3):
            _, state = session.sweep(state, 1)
            chain.sweep_once(state.figures, mean, residues)
            self.assertEqual(state.mean, tuple(mean))

    def test_it_stops_after_the_first_passing_sweep(self) -> None:
        answer, state = session.sweep(opened(GOING), 4_096)
        _, before = session.sweep(opened(GOING), answer.total - 1)
        self.assertFalse(before.passes())
        self.assertTrue(state.passes())

    def test_spent(self) -> None:
        answer, state = session.sweep(opened(SPENT), 4_096)
        self.assertEqual((answer, state.total), (Going(4_096), 4_096))
        self.assertEqual(state.mean[1], 1 << 26)  # phi 1 rests at the limit
        for number in (1, 4_096):
            self.assertEqual(session.sweep(state, number), (Refusal(23, 0), state))
        for number in (0, 4_097):
            self.assertEqual(session.sweep(state, number), (Refusal(12, 0), state))
        for call, text, _ in WRITING:
            self.assertEqual(call(state, bytes(len(text))), (Refusal(24, 0), bytes(len(text))))
        self.assertEqual(session.judge(state, build_record(state.mean)), Fails(1))

    def test_spent_at_either_limit_at_every_closeness(self) -> None:
        for closeness in (1, 65_536):
            for sign in (1, -1):
                answer, state = session.sweep(opened(samples.spent_at_a_limit(closeness, sign)), 4_096)
                self.assertEqual((answer, state.mean[1]), (Going(4_096), sign << 26))

    def test_not_spent_before_the_last_sweep(self) -> None:
        answer, state = session.sweep(opened(SPENT), 4_095)
        self.assertEqual(answer, Going(4_095))
        answer, state = session.sweep(state, 4_096)
        self.assertEqual(answer, Going(4_096))
        self.assertEqual(session.sweep(state, 1)[0], Refusal(23, 0))

    def test_a_passing_mean_at_the_total_is_settled(self) -> None:
        state = opened(samples.file_f())
        spent = Held(state.file, state.figures, state.mean, 4_096)
        self.assertEqual(session.sweep(spent, 1), (Settled(4_096), spent))
        self.assertEqual(session.sweep(spent, 0), (Refusal(12, 0), spent))

    def test_at_rest_without_passing(self) -> None:
        """A sweep changes nothing any more, and phi 8 still fails: its residue is above D and below half its diagonal entry."""
        answer, state = session.sweep(opened(paper.resting_file()), 100)
        self.assertEqual(answer, Going(100))
        _, after = session.sweep(state, 1)
        self.assertEqual(after.mean, state.mean)
        self.assertEqual(chain.first_failing_part(state.figures, state.residues()), 8)
        residue = abs(state.residues()[8])
        self.assertTrue(state.figures.own[8] < residue < state.figures.matrix[8][8] / 2)


class ReadAndPage(unittest.TestCase):
    def test_writes_at_the_front_only(self) -> None:
        state = opened(samples.file_f())
        for call, text, done in WRITING:
            for behind in (0, 1, 28, 83):
                self.assertEqual(call(state, b"\xa5" * (len(text) + behind)), (done, text + b"\xa5" * behind))

    def test_short_buffers(self) -> None:
        state = opened(samples.file_f())
        for call, text, _ in WRITING:
            for size in (0, 1, len(text) - 1):
                self.assertEqual(call(state, b"\xa5" * size), (Refusal(13, 0), b"\xa5" * size))

    def test_room_for_every_last_year(self) -> None:
        """One byte short is refused; a buffer that has room for the record has none for the page."""
        for last in range(1, 16):
            state = opened(samples.at_the_prior((0,) * layout.parts_count(last)))
            for call, size, done in ((session.read, layout.record_length(last), Written()), (session.page, page_length(last), Paged())):
                self.assertEqual([call(state, bytes(length))[0] for length in (size - 1, size)], [Refusal(13, 0), done])
            self.assertLess(layout.record_length(last), page_length(last))

    def test_order(self) -> None:
        for call, text, _ in WRITING:
            for size in (0, len(text) - 1, len(text)):
                self.assertEqual(call(EMPTY, bytes(size)), (Refusal(21, 0), bytes(size)))
        for call, size in ((session.read, layout.record_length(2)), (session.page, page_length(2))):
            for length in (0, size - 1, size, size + 1):
                self.assertEqual(call(opened(GOING), bytes(length)), (Refusal(24, 0), bytes(length)))

    def test_what_is_read_passes_when_judged(self) -> None:
        rng = Random(31)
        written = 0
        for last in range(1, 16):
            _, state = session.sweep(opened(samples.drawn_any_file(rng, last)), 100)
            answer, buffer = session.read(state, bytes(layout.record_length(last)))
            if answer == Written():
                written += 1
                self.assertEqual(session.judge(state, buffer), Passed())
        self.assertGreater(written, 10)


class Figures(unittest.TestCase):
    def test_figures_of_the_document(self) -> None:
        t = 1 << 20
        self.assertEqual(session.figures(opened(samples.file_f())), chain.Figures(
            closeness=1,
            own=(131_073, 65_537, 65_537),
            matrix=((131_073, 0, 0), (0, 98_305, -32_768), (0, -32_768, 98_305)),
            right_hand_side=(1_310_730 * t, 131_073 * t, -131_073 * t),
        ))

    def test_nothing_open(self) -> None:
        for state in (EMPTY, session.close(opened(GOING))):
            self.assertEqual(session.figures(state), Refusal(21, 0))

    def test_sweeps_change_none(self) -> None:
        before = opened(GOING)
        _, after = session.sweep(before, 2)
        self.assertNotEqual(after.mean, before.mean)
        self.assertEqual(session.figures(after), session.figures(before))

    def test_a_mean_is_judged_by_them(self) -> None:
        """A solver that has the figures alone tells of every mean what judge tells."""
        rng = Random(33)
        low, high = layout.MEAN_LIMITS
        failing = set()
        for last in range(1, 16):
            state = opened(samples.drawn_any_file(rng, last))
            shown, parts = session.figures(state), layout.parts_count(last)
            self.assertEqual([len(row) for row in shown.matrix], [parts] * parts)
            _, settled = session.sweep(state, 4_096)
            for offset in (0, shown.closeness, 10 * shown.closeness):
                mean = [min(max(part + rng.randint(-offset, offset), low), high) for part in settled.mean]
                lines = zip(shown.matrix, shown.right_hand_side, shown.own, strict=True)
                fails = [
                    k for k, (row, target, own) in enumerate(lines)
                    if abs(sum(map(mul, row, mean)) - target) > shown.closeness * own
                ]
                self.assertEqual(session.judge(state, build_record(mean)), Fails(fails[0]) if fails else Passed())
                failing.add(bool(fails))
        self.assertEqual(failing, {True, False})


class Row(unittest.TestCase):
    def test_every_channel_and_year(self) -> None:
        rng = Random(32)
        for last in range(1, 16):
            file = samples.drawn_any_file(rng, last)
            lent = build_file(file)
            for channel, triangle in enumerate((file.paid, file.incurred)):
                for year, amounts in enumerate(triangle):
                    shown = struct.pack(f">{len(amounts)}Q", *amounts)
                    self.assertEqual(session.row_told(lent, channel, year), Shown())
                    self.assertEqual(session.row(lent, channel, year), shown)
            self.assertEqual(session.row_told(lent, 0, last + 1), Refusal(15, 0))

    def test_past_them(self) -> None:
        channels, years = ((2, 0, 14), (256, 0, 14), (2, 2, 14)), ((0, 2, 15), (1, 256, 15), (1, 1 << 31, 15))
        for channel, year, number in channels + years:
            self.assertEqual(session.row_told(F, channel, year), Refusal(number, 0))
            self.assertEqual(session.row(F, channel, year), b"")

    def test_the_file_s_checks_come_first(self) -> None:
        for spoil in damage.SPOIL_FILE.values():
            lent = spoil(build_file(GOING))
            refusal, _ = session.open_file(EMPTY, lent)
            for channel, year in ((0, 0), (2, 0), (0, 3), (2, 3)):
                self.assertEqual(session.row_told(lent, channel, year), refusal)
                self.assertEqual(session.row(lent, channel, year), b"")


class Close(unittest.TestCase):
    def test_empties(self) -> None:
        for state in (EMPTY, opened(GOING), session.sweep(opened(SPENT), 4_096)[1]):
            self.assertIs(session.close(state), EMPTY)

    def test_a_reopened_file_starts_anew(self) -> None:
        _, swept = session.sweep(opened(GOING), 2)
        answer, state = session.open_file(session.close(swept), build_file(GOING))
        self.assertEqual((answer, state), (Opened(), opened(GOING)))


if __name__ == "__main__":
    unittest.main()

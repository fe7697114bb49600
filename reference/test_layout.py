"""Files and records: fields, places, and every check with its number and place."""

import struct
import unittest
from random import Random

import damage
import layout
import samples
from layout import File, Refusal, build_file, build_record, read_file, read_record
from scales import TICKS_PER_DOUBLING as T

F_BY_HAND = (
    struct.pack(">IBBI", 118, 1, 1, 1)
    + struct.pack(">QQQ", 2**30, 2**30, 2**30)
    + struct.pack(">iQiQiQ", 10 * T, 2**46, T, 2**46, -T, 2**46)
    + struct.pack(">QQQ", 2**10, 2**11, 2**10)
    + struct.pack(">QQQ", 2**12, 2**11, 2**12)
)


def fields_in_file_order(last: int) -> list[tuple[int, int, int, int, int]]:
    """Place, width, number, low and high of every field behind the head, the places by counting bytes."""
    kinds = [(8, 6, 2**18, 2**40)] * (2 * last + 1)
    kinds += [(4, 8, -(2**26), 2**26), (8, 7, 2**18, 2**46)] * (2 * last + 1)
    kinds += [(8, 9, 1, 2**44)] * ((last + 1) * (last + 2))
    fields, place = [], 10
    for width, *rest in kinds:
        fields.append((place, width, *rest))
        place += width
    return fields


class Lengths(unittest.TestCase):
    def test_figures_of_the_document(self) -> None:
        self.assertEqual((layout.file_length(1), layout.file_length(15)), (118, 2_806))
        self.assertEqual([layout.record_length(last) for last in (1, 15)], [17, 129])

    def test_built_bytes_have_them(self) -> None:
        for last in range(1, 16):
            lent = build_file(samples.drawn_file(Random(last), last))
            self.assertEqual(len(lent), 10 + 20 * (2 * last + 1) + 8 * (last + 1) * (last + 2))
            self.assertEqual(struct.unpack(">I", lent[:4]), (len(lent),))


class Reading(unittest.TestCase):
    def test_file_f_by_hand(self) -> None:
        self.assertEqual(build_file(samples.file_f()), F_BY_HAND)
        self.assertEqual(read_file(F_BY_HAND), samples.file_f())

    def test_reads_what_was_built(self) -> None:
        rng = Random(5)
        for last in range(1, 16):
            file = samples.drawn_file(rng, last)
            self.assertEqual(read_file(build_file(file)), file)

    def test_limits_are_inside(self) -> None:
        for last in (1, 15):
            for end in (0, 1):
                file = samples.file_at_limits(last, end)
                self.assertEqual(read_file(build_file(file)), file)


class FileChecks(unittest.TestCase):
    def test_figures_of_the_document(self) -> None:
        self.assertEqual(read_file(damage.put(F_BY_HAND, 86, 0, 8)), Refusal(9, 86))
        self.assertEqual(read_file(damage.put(F_BY_HAND, 102, 2**12, 8)), Refusal(10, 78))

    def test_head(self) -> None:
        cases = {
            b"": Refusal(1),
            F_BY_HAND[:9]: Refusal(1),
            F_BY_HAND[:-1]: Refusal(1),
            F_BY_HAND + b"\0": Refusal(1),
            struct.pack(">I", 9) + F_BY_HAND[4:9]: Refusal(1),
            struct.pack(">IBBI", 10, 1, 1, 1): Refusal(4),
            struct.pack(">IBBI", 10, 0, 1, 1): Refusal(2, 4),
            struct.pack(">IBBI", 10, 2, 0, 0): Refusal(2, 4),
            struct.pack(">IBBI", 10, 1, 0, 0): Refusal(3, 5),
            struct.pack(">IBBI", 10, 1, 16, 0): Refusal(3, 5),
            struct.pack(">IBBI", 118, 1, 2, 1) + F_BY_HAND[10:]: Refusal(4),
            struct.pack(">IBBI", 118, 1, 1, 0) + F_BY_HAND[10:]: Refusal(5, 6),
            struct.pack(">IBBI", 118, 1, 1, 65_537) + F_BY_HAND[10:]: Refusal(5, 6),
        }
        for lent, refusal in cases.items():
            self.assertEqual(read_file(lent), refusal, lent.hex())

    def test_every_field_at_its_limits_and_one_past(self) -> None:
        for last in (1, 2, 3, 15):
            lent = build_file(samples.many_sweeps(last))
            for place, width, number, low, high in fields_in_file_order(last):
                past = {read_file(damage.put(lent, place, value, width)) for value in (low - 1, high + 1)}
                self.assertEqual(past, {Refusal(number, place)})
                for value in (low, high):
                    answer = read_file(damage.put(lent, place, value, width))
                    # Year 0's last amounts are the only fields bound to each other.
                    bound = isinstance(answer, Refusal) and answer.number == 10
                    self.assertTrue(isinstance(answer, File) or bound, (last, place, value, answer))

    def test_the_lower_number_first(self) -> None:
        for last in (1, 2, 15):
            lent = build_file(samples.many_sweeps(last))
            alone = {number: read_file(spoil(lent)) for number, spoil in damage.SPOIL_FILE.items()}
            self.assertEqual({number: refusal.number for number, refusal in alone.items()},
                             {number: number for number in range(1, 11)})
            pairs = list(damage.pairs_of_spoils(lent, damage.SPOIL_FILE))
            self.assertEqual(len(pairs), 45)
            for lower, higher, spoilt in pairs:
                self.assertEqual(read_file(spoilt), alone[lower], (lower, higher))

    def test_the_lower_place_first_within_a_number(self) -> None:
        lent = build_file(samples.many_sweeps(3))
        fields = fields_in_file_order(3)
        for number in (6, 7, 8, 9):
            of_number = [field for field in fields if field[2] == number]
            for (place, width, _, low, _), (behind, _, _, _, high) in zip(of_number, of_number[1:]):
                both = damage.put(damage.put(lent, behind, high + 1, width), place, low - 1, width)
                self.assertEqual(read_file(both), Refusal(number, place))

    def test_a_prior_variance_of_0_is_taken(self) -> None:
        """At every part, and at all at once; 1 and 2^18 - 1 are refused there as anywhere."""
        for last in (1, 2, 15):
            lent = build_file(samples.many_sweeps(last))
            all_flat = lent
            for part in range(2 * last + 1):
                place = layout.prior_variance_place(last, part)
                self.assertEqual(read_file(damage.put(lent, place, 0, 8)).prior_variances[part], 0)
                for variance in (1, 2**18 - 1):
                    self.assertEqual(read_file(damage.put(lent, place, variance, 8)), Refusal(7, place))
                all_flat = damage.put(all_flat, place, 0, 8)
            self.assertEqual(read_file(all_flat), samples.without_priors(samples.many_sweeps(last)))

    def test_the_mean_of_a_flat_prior_has_its_limits(self) -> None:
        flat = damage.put(F_BY_HAND, 38, 0, 8)
        for mean in (-(2**26), 2**26):
            self.assertEqual(read_file(damage.put(flat, 34, mean, 4)).prior_means[0], mean)
        for mean in (-(2**26) - 1, 2**26 + 1):
            self.assertEqual(read_file(damage.put(flat, 34, mean, 4)), Refusal(8, 34))

    def test_no_other_variance_may_be_0(self) -> None:
        for place in (10, 18, 26):
            self.assertEqual(read_file(damage.put(F_BY_HAND, place, 0, 8)), Refusal(6, place))

    def test_prior_variances_before_prior_means(self) -> None:
        # The mean's field comes first in the file, its check second.
        lent = damage.put(F_BY_HAND, 34, 2**26 + 1, 4)
        self.assertEqual(read_file(lent), Refusal(8, 34))
        self.assertEqual(read_file(damage.put(lent, 62, 2**18 - 1, 8)), Refusal(7, 62))

    def test_means_are_signed_and_variances_are_not(self) -> None:
        self.assertEqual(read_file(damage.put(F_BY_HAND, 34, -(2**26), 4)).prior_means[0], -(2**26))
        self.assertEqual(read_file(damage.put(F_BY_HAND, 34, -(2**31), 4)), Refusal(8, 34))
        self.assertEqual(read_file(damage.put(F_BY_HAND, 38, 2**64 - 1, 8)), Refusal(7, 38))
        self.assertEqual(read_file(damage.put(F_BY_HAND, 10, 2**63 + 2**30, 8)), Refusal(6, 10))


class RecordChecks(unittest.TestCase):
    GOOD = struct.pack(">IBiii", 17, 1, 2**26, 0, -(2**26))

    def test_reads_what_was_built(self) -> None:
        self.assertEqual(build_record((2**26, 0, -(2**26))), self.GOOD)
        self.assertEqual(read_record(self.GOOD, 1), (2**26, 0, -(2**26)))

    def test_checks(self) -> None:
        cases = {
            b"": Refusal(1),
            struct.pack(">I", 4): Refusal(1),
            self.GOOD[:-1]: Refusal(1),
            self.GOOD + b"\0": Refusal(1),
            struct.pack(">IB", 5, 1): Refusal(4),
            struct.pack(">IB", 5, 0): Refusal(2, 4),
            struct.pack(">IBiiii", 21, 1, 0, 0, 0, 0): Refusal(4),
            struct.pack(">IBii", 13, 1, 2**27, 0): Refusal(4),
            struct.pack(">IBiii", 17, 1, 0, 2**26 + 1, 2**27): Refusal(11, 9),
            struct.pack(">IBiii", 17, 1, -(2**26) - 1, 0, 0): Refusal(11, 5),
            struct.pack(">IBiii", 17, 1, 0, 0, -(2**31)): Refusal(11, 13),
        }
        for lent, refusal in cases.items():
            self.assertEqual(read_record(lent, 1), refusal, lent.hex())

    def test_the_lower_number_first(self) -> None:
        good = build_record((0,) * 7)
        alone = {1: Refusal(1), 2: Refusal(2, 4), 4: Refusal(4), 11: Refusal(11, 13)}
        for number, spoil in damage.SPOIL_RECORD.items():
            self.assertEqual(read_record(spoil(good), 3), alone[number])
        for lower, higher, spoilt in damage.pairs_of_spoils(good, damage.SPOIL_RECORD):
            self.assertEqual(read_record(spoilt, 3), alone[lower], (lower, higher))

    def test_another_years_record_has_the_wrong_length(self) -> None:
        for last in range(1, 16):
            for other in range(1, 16):
                answer = read_record(build_record((0,) * (2 * other + 1)), last)
                self.assertEqual(answer, (0,) * (2 * last + 1) if last == other else Refusal(4))


if __name__ == "__main__":
    unittest.main()

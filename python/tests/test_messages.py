"""What a refusal says, word by word. The expected figures are worked out by hand: a tick is ln 2 / 2^20, which is 0.000000661."""

import unittest
from collections.abc import Callable

from refusing import RECORD_OF_F, F, opened, refusal_of

import damage
import layout
import page
from layout import build_record
from reserving_desk import Session
from reserving_desk import layout as package

LENGTH = "shorter than a header (10 bytes of a file, 5 of a mean record), or not as long as its length field says"
VARIANCE = "a variance of sigma or tau must be from 2^18 to 2^40 squared ticks"
VARIANCES = "262,144 to 1,099,511,627,776, a standard deviation from 0.00034 to 0.69"
PARTS = "-64 to 64 doublings, that is -67,108,864 to 67,108,864 ticks"


class OfAFile(unittest.TestCase):
    def assert_said(self, file: bytes, said: str) -> None:
        self.assertEqual(str(refusal_of(lambda: Session().open(file))), said)
        self.assertEqual(str(refusal_of(lambda: Session().row(file, 0, 0))), said)

    def test_length(self) -> None:
        self.assert_said(b"", f"refused 1 at 0: {LENGTH} (the file has 0 bytes, and its header alone has 10)")
        self.assert_said(b"\x00", f"refused 1 at 0: {LENGTH} (the file has 1 byte, and its header alone has 10)")
        self.assert_said(F[:-1], f"refused 1 at 0: {LENGTH} (the length field says 118 bytes, and the file has 117 bytes)")
        longer = layout.with_length(F[4:] + bytes(8))
        said = "the length is 126 bytes; with J = 1 a file has 118 bytes"
        self.assert_said(longer, f"refused 4 at 0: the length does not suit the number of development years ({said})")

    def test_header(self) -> None:
        self.assert_said(damage.put(F, 4, 2, 1), "refused 2 at 4: the version of the format must be 1 (the version is 2; allowed is 1)")
        said = "the last development year J is 16; allowed are 1 to 15"
        self.assert_said(damage.put(F, 5, 16, 1), f"refused 3 at 5: the last development year J must be from 1 to 15 ({said})")
        said = "the closeness is 65,537 ticks; allowed are 1 to 65,536 ticks"
        self.assert_said(damage.put(F, 6, 65_537, 4), f"refused 5 at 6: the closeness must be from 1 to 65,536 ticks ({said})")

    def test_variances(self) -> None:
        sigma = "sigma squared of development year 0 is"
        for value, shown in (
            (5, "5 squared ticks, a standard deviation of 0.0000015"),
            (0, "0 squared ticks, a standard deviation of 0"),
            ((1 << 64) - 1, "18,446,744,073,709,551,615 squared ticks, a standard deviation of 2,800"),
        ):
            self.assert_said(damage.put(F, 10, value, 8), f"refused 6 at 10: {VARIANCE} ({sigma} {shown}; allowed are {VARIANCES})")
        said = "the prior variance of psi of development year 0 is 262,143 squared ticks, a standard deviation of 0.00034"
        allowed = "262,144 to 70,368,744,177,664, a standard deviation from 0.00034 to 5.5, or 0 for no prior"
        words = "the variance of a prior must be 0 (no prior) or from 2^18 to 2^46 squared ticks"
        self.assert_said(damage.put(F, 62, (1 << 18) - 1, 8), f"refused 7 at 62: {words} ({said}; allowed are {allowed})")

    def test_prior_means(self) -> None:
        said = "the prior mean of phi of development year 1 is -67,108,865 ticks, that is -64.000001 doublings"
        words = "the mean of a prior must be from -2^26 to 2^26 ticks"
        self.assert_said(damage.put(F, 46, -(1 << 26) - 1, 4), f"refused 8 at 46: {words} ({said}; allowed are {PARTS})")

    def test_amounts(self) -> None:
        words = "an amount must be from 1 to 2^44"
        for amount, told in ((0, "0"), ((1 << 44) + 1, "17,592,186,044,417")):
            said = f"the paid amount of accident year 1, development year 0, is {told}; allowed are 1 to 17,592,186,044,416"
            self.assert_said(damage.put(F, 86, amount, 8), f"refused 9 at 86: {words} ({said})")
        said = "the paid amount of accident year 0, development year 1, is 2,048, and the incurred amount is 4,096"
        words = "the oldest accident year must end with the same amount paid as incurred"
        self.assert_said(damage.put(F, 102, 1 << 12, 8), f"refused 10 at 78: {words} ({said})")

    def test_limits_alone(self) -> None:
        for place, value, width, limits in (
            (4, 0, 1, "1"), (5, 0, 1, "1 to 15"), (6, 0, 4, "1 to 65,536 ticks"), (10, 0, 8, VARIANCES),
            (86, 0, 8, "1 to 17,592,186,044,416"), (102, 1 << 12, 8, "4,096, as incurred"),
        ):
            self.assertEqual(refusal_of(lambda: Session().open(damage.put(F, place, value, width))).limits, limits)


class OfOtherArguments(unittest.TestCase):
    def assert_said(self, call: Callable[[], object], said: str) -> None:
        self.assertEqual(str(refusal_of(call)), said)

    def test_record(self) -> None:
        """In the same words by each call that is lent one, also where there is no room for what it writes."""
        desk = opened()
        calls: tuple[Callable[[bytes], object], ...] = (
            desk.judge, desk.residues, lambda record: desk.residues_into(record, bytearray()),
        )
        for record, said in (
            (b"123", f"refused 1 at 0: {LENGTH} (the mean record has 3 bytes, and its header alone has 5)"),
            (RECORD_OF_F[:-1], f"refused 1 at 0: {LENGTH} (the length field says 17 bytes, and the mean record has 16 bytes)"),
            (damage.put(RECORD_OF_F, 4, 7, 1), "refused 2 at 4: the version of the format must be 1 (the version is 7; allowed is 1)"),
            (
                build_record((0,) * 5),
                "refused 4 at 0: the length does not suit the number of development years "
                "(the length is 25 bytes; with J = 1 a mean record has 17 bytes)",
            ),
            (
                build_record((0, 0, 1 << 27)),
                "refused 11 at 13: each part of a mean must be from -2^26 to 2^26 ticks "
                f"(psi of development year 0 is 134,217,728 ticks, that is 128 doublings; allowed are {PARTS})",
            ),
        ):
            for call in calls:
                self.assert_said(lambda: call(record), said)

    def test_numbers(self) -> None:
        desk = opened()
        sweeps = "refused 12 at 0: the number of sweeps must be from 1 to 4,096"
        self.assert_said(lambda: desk.sweep(5_000), f"{sweeps} (n is 5,000; allowed are 1 to 4,096)")
        self.assert_said(lambda: desk.sweep(-1), f"{sweeps} (n is -1; allowed are 1 to 4,096)")
        self.assert_said(lambda: desk.sweep(1 << 20_000), f"{sweeps} (n is a number of 20,001 bits; allowed are 1 to 4,096)")
        said = "the channel is 2; allowed are 0 and 1"
        self.assert_said(lambda: desk.row(F, 2, 0), f"refused 14 at 0: the channel must be 0 (paid) or 1 (incurred) ({said})")
        said = "the accident year is 2; allowed are 0 to 1, as J is 1"
        self.assert_said(lambda: desk.row(F, 0, 2), f"refused 15 at 0: the file has no such accident year ({said})")
        said = "the accident year is 0; allowed is 1, as J is 1"
        self.assert_said(lambda: desk.ultimate(0), f"refused 25 at 0: the accident year must be from 1 to J ({said})")

    def test_strikes(self) -> None:
        desk = opened()
        self.assert_said(
            lambda: desk.strike(2, 5, 5),
            "refused 14 at 0: the channel must be 0 (paid) or 1 (incurred) (the channel is 2; allowed are 0 and 1)",
        )
        words = "refused 26 at 0: there is no such step, or it is struck already"
        desk.strike(0, 0, 0)
        for step, said in (
            ((0, 2, 0), "the accident year is 2; allowed are 0 to 1 for paid steps, as J is 1"),
            ((1, 1, 0), "the accident year is 1; allowed is 0 for incurred steps, as J is 1"),
            ((0, 0, 1_000), "the column is 1,000; allowed are 0 to 1 for paid steps of accident year 0, as J is 1"),
            ((0, 1, 1), "the column is 1; allowed is 0 for paid steps of accident year 1, as J is 1"),
            ((1, 0, 1 << 64), "the column is 18,446,744,073,709,551,616; allowed is 0 for incurred steps of accident year 0, as J is 1"),
            ((0, 0, 0), "the paid step of accident year 0 in column 0 is struck already"),
        ):
            self.assert_said(lambda: desk.strike(*step), f"{words} ({said})")
        words = "refused 27 at 0: it is the last step left in its column"
        for step, said in (
            ((0, 1, 0), "no other paid step is left in column 0"),
            ((0, 0, 1), "no other paid step is left in column 1"),
            ((1, 0, 0), "no other incurred step is left in column 0"),
        ):
            self.assert_said(lambda: desk.strike(*step), f"{words} ({said})")

    def test_buffer(self) -> None:
        words = "refused 13 at 0: the buffer is too short for what is to be written"
        said = "the buffer has 16 bytes; with J = 1 a mean record has 17"
        self.assert_said(lambda: opened().read_into(bytearray(16)), f"{words} ({said})")
        self.assertEqual(refusal_of(lambda: opened().read_into(bytearray(1))).limits, "17 bytes or more")
        said = "the buffer has 1 byte; with J = 1 a page has 84"
        self.assert_said(lambda: opened().page_into(bytearray(1)), f"{words} ({said})")
        self.assertEqual(refusal_of(lambda: opened().page_into(bytearray(83))).limits, "84 bytes or more")
        said = "the buffer has 23 bytes; with J = 1 the residues have 24"
        self.assert_said(lambda: opened().residues_into(RECORD_OF_F, bytearray(23)), f"{words} ({said})")
        self.assertEqual(refusal_of(lambda: opened().residues_into(RECORD_OF_F, bytearray())).limits, "24 bytes or more")


class Limits(unittest.TestCase):
    """What the package tells as allowed is what the reference accepts."""

    def test_of_each_kind_of_field(self) -> None:
        for kind, limits in (
            (package.VERSION_BYTE, (layout.VERSION, layout.VERSION)),
            (package.LAST_YEAR, (1, layout.LARGEST_YEAR)),
            (package.CLOSENESS, layout.CLOSENESS_LIMITS),
            (package.VARIANCE, layout.VARIANCE_LIMITS),
            (package.PRIOR_VARIANCE, layout.PRIOR_VARIANCE_LIMITS),
            (package.PART, layout.MEAN_LIMITS),
            (package.AMOUNT, layout.AMOUNT_LIMITS),
        ):
            self.assertEqual(kind.limits, limits)
            self.assertEqual(bool(kind.zero), kind is package.PRIOR_VARIANCE)
        self.assertEqual(layout.FLAT, 0)

    def test_of_headers(self) -> None:
        self.assertEqual(package.FILE_HEADER_LENGTH, layout.HEAD_LENGTH)
        self.assertEqual(package.HEADER_LENGTH, layout.RECORD_HEAD_LENGTH)

    def test_lengths(self) -> None:
        for last in range(1, layout.LARGEST_YEAR + 1):
            self.assertEqual(package.length_of(package.file_fields(last)), layout.file_length(last))
            self.assertEqual(package.record_length(last), layout.record_length(last))
            self.assertEqual(package.page_length(last), page.page_length(last))
            self.assertEqual(package.residues_length(last), 8 * layout.parts_count(last))


if __name__ == "__main__":
    unittest.main()

"""Wrong arguments: each error begins with the name of the argument or of the field, and says what was wanted and what was given."""

import unittest
from array import array
from collections.abc import Callable
from decimal import Decimal
from fractions import Fraction
from math import inf, nan
from typing import Any

from refusing import RECORD_OF_F, WRITING, F, opened

import samples
from reserving_desk import Mean, Prior, Session, cell_place, file_of, natural_log, record_of, squared_ticks, ticks

# The calls that are lent a record, each with what it is lent besides; of two wrong arguments the first is told.
RECORD_CALLS: tuple[tuple[Callable[..., object], tuple[Any, ...]], ...] = (
    (Session.judge, ()), (Session.residues, ()), (Session.residues_into, (bytearray(24),)), (Session.residues_into, (b"",)),
)
NOT_WHOLE: tuple[Any, ...] = (1.5, 1.0, "1", None, True, False, Fraction(1), Decimal(1), [1], b"1")


class Number:
    """A whole number by its index alone, as numpy's are."""

    def __init__(self, number: int) -> None:
        self.number = number

    def __index__(self) -> int:
        return self.number


class bool_(Number):  # by the name that numpy has for it
    pass


class WithoutRepr:
    def __repr__(self) -> str:
        raise RuntimeError("no repr")


class Named(unittest.TestCase):
    def assert_told(self, error: type[Exception], said: str, call: Callable[..., object], *arguments: Any, **named: Any) -> None:
        with self.assertRaises(error) as caught:
            call(*arguments, **named)
        self.assertEqual(str(caught.exception), said)
        self.assertIsNone(caught.exception.__cause__)


class OfCalls(Named):
    def test_whole_numbers(self) -> None:
        desk = opened()
        for wrong in (*NOT_WHOLE, bool_(1), WithoutRepr(), [1 << 20_000]):  # the last two have no repr
            calls: dict[str, Callable[[], object]] = {
                "n": lambda: desk.sweep(wrong), "channel": lambda: desk.row(F, wrong, 0), "year": lambda: desk.row(F, 0, wrong),
            }
            for name, call in calls.items():
                with self.assertRaisesRegex(TypeError, f"^{name} must be a whole number, not "):
                    call()
            with self.assertRaisesRegex(TypeError, "^year must be a whole number, not "):
                desk.ultimate(wrong)
            for place, name in enumerate(("channel", "year", "column")):
                with self.assertRaisesRegex(TypeError, f"^{name} must be a whole number, not "):
                    desk.strike(*(wrong if place == k else 0 for k in range(3)))
        self.assert_told(TypeError, "n must be a whole number, not 1.5", desk.sweep, 1.5)

    def test_whole_numbers_by_their_index(self) -> None:
        n: Any = Number(1)
        self.assertEqual(opened().sweep(n).total, 0)
        self.assertEqual(opened().row(F, n, n), (1 << 12,))
        self.assertEqual(opened().ultimate(n), opened().ultimate(1))
        zero: Any = Number(0)
        desk = opened()
        desk.strike(zero, n, zero)
        self.assertEqual(desk.struck, ((0, 1, 0),))
        self.assertEqual([type(number) for number in desk.struck[0]], [int] * 3)

    def test_negative(self) -> None:
        self.assert_told(ValueError, "channel must be at least 0, not -1", Session().row, F, -1, 0)
        self.assert_told(ValueError, "year must be at least 0, not -7", Session().row, F, 0, -7)
        for place, name in enumerate(("channel", "year", "column")):
            step = [-1 if place == k else 0 for k in range(3)]
            self.assert_told(ValueError, f"{name} must be at least 0, not -1", opened().strike, *step)

    def test_bytes(self) -> None:
        desk = opened()
        for wrong, shown in (("text", "'text'"), (118, "118"), (None, "None"), ([1, 2], "[1, 2]"), (1.5, "1.5"), (True, "True")):
            self.assert_told(TypeError, f"file must be bytes, or a buffer of bytes, not {shown}", desk.open, wrong)
            self.assert_told(TypeError, f"file must be bytes, or a buffer of bytes, not {shown}", desk.row, wrong, 0, 0)
            for call, besides in RECORD_CALLS:
                self.assert_told(TypeError, f"record must be bytes, or a buffer of bytes, not {shown}", call, desk, wrong, *besides)
            wanted = "a buffer that can be written, as a bytearray"
            for write, _ in WRITING:
                self.assert_told(TypeError, f"buffer must be {wanted}, not {shown}", write, desk, wrong)
        self.assertTrue(desk.judge(RECORD_OF_F))  # none of them changed the session

    def test_long_arguments_are_shown_in_short(self) -> None:
        with self.assertRaises(TypeError) as caught:
            opened().judge("x" * 1_000_000)  # type: ignore[arg-type]
        self.assertLess(len(str(caught.exception)), 100)

    def test_released_views(self) -> None:
        view = memoryview(bytearray(200))
        view.release()
        for call, besides in RECORD_CALLS:
            with self.assertRaisesRegex(ValueError, "^record cannot be read: "):
                call(opened(), view, *besides)
        for write, _ in WRITING:
            with self.assertRaisesRegex(ValueError, "^buffer cannot be written: "):
                write(opened(), view)

    def test_buffers(self) -> None:
        desk = opened()
        bare = bytearray(200)
        for write, written in WRITING:
            for wrong in (bytes(100), memoryview(bytes(100)), memoryview(bare).toreadonly()):
                with self.assertRaisesRegex(TypeError, "^buffer must be a buffer that can be written, as a bytearray, not "):
                    write(desk, wrong)  # type: ignore[arg-type]
            for view in (memoryview(bare)[::2], memoryview(bare)[::-1]):
                with self.assertRaisesRegex(TypeError, "^buffer must be contiguous, not a view that leaves bytes out"):
                    write(desk, view)
            self.assertEqual(bare, bytes(200))
            numbers: Any = array("q", [0] * 25)
            write(desk, numbers)
            self.assertEqual(numbers.tobytes(), written + bytes(200 - len(written)))


class OfMeans(Named):
    def test_kept_as_tuples_of_int(self) -> None:
        for phi, psi in (([1, 2], [3]), ((1, 2), (3,)), (array("q", [1, 2]), array("q", [3])), ([Number(1), Number(2)], [Number(3)])):
            mean = Mean(phi, psi)  # type: ignore[arg-type]
            self.assertEqual(mean, Mean((1, 2), (3,)))
            self.assertEqual(hash(mean), hash(Mean((1, 2), (3,))))
            self.assertEqual([type(part) for part in mean.parts], [int] * 3)

    def test_no_sequences(self) -> None:
        for wrong, shown in ((5, "5"), ("12", "'12'"), (b"12", "b'12'"), ({0: 1}, "{0: 1}"), ({1, 2}, "{1, 2}"), (None, "None")):
            self.assert_told(TypeError, f"phi must be a sequence of whole numbers, not {shown}", Mean, wrong, (3,))
            self.assert_told(TypeError, f"psi must be a sequence of whole numbers, not {shown}", Mean, (1, 2), wrong)
        with self.assertRaisesRegex(TypeError, "^phi must be a sequence of whole numbers, not <generator"):
            Mean((part for part in (1, 2)), (3,))  # type: ignore[arg-type]

    def test_no_whole_numbers(self) -> None:
        for wrong in NOT_WHOLE:
            with self.assertRaisesRegex(TypeError, "^phi of development year 1 must be a whole number, not "):
                Mean((0, wrong), (0,))
            with self.assertRaisesRegex(TypeError, "^psi of development year 0 must be a whole number, not "):
                Mean((0, 0), (wrong,))

    def test_counts(self) -> None:
        self.assert_told(ValueError, "phi must have one part more than psi, not 2 and 2", Mean, (0, 0), (0, 0))

    def test_records(self) -> None:
        for wrong, shown in (((1, 2, 3), "(1, 2, 3)"), (b"\0", "b'\\x00'"), (None, "None")):
            self.assert_told(TypeError, f"mean must be a Mean, not {shown}", record_of, wrong)


class OfFiles(Named):
    def setUp(self) -> None:
        f = samples.file_f()
        priors = [Prior(*pair) for pair in zip(f.prior_means, f.prior_variances)]
        self.right: dict[str, Any] = {
            "paid": f.paid, "incurred": f.incurred, "sigma_squared": f.sigma2, "tau_squared": f.tau2, "phi_priors": priors[:2],
            "psi_priors": priors[2:], "closeness": f.closeness,
        }

    def assert_wrong(self, error: type[Exception], said: str, **wrong: Any) -> None:
        self.assert_told(error, said, file_of, **{**self.right, **wrong})

    def test_right(self) -> None:
        self.assertEqual(file_of(**self.right), F)
        self.right["phi_priors"] = [array("q", prior) for prior in self.right["phi_priors"]]
        self.assertEqual(file_of(**self.right), F)

    def test_no_sequences(self) -> None:
        for wrong, shown in ((5, "5"), ("12", "'12'"), (b"12", "b'12'"), ({0: 1}, "{0: 1}"), (None, "None")):
            for name, things in (
                ("paid", "accident years"), ("incurred", "accident years"), ("sigma_squared", "variances"), ("tau_squared", "variances"),
                ("phi_priors", "priors"), ("psi_priors", "priors"),
            ):
                self.assert_wrong(TypeError, f"{name} must be a sequence of {things}, not {shown}", **{name: wrong})

    def test_rows_that_are_no_sequences(self) -> None:
        self.assert_wrong(TypeError, "paid of accident year 1 must be a sequence of amounts, not 1024", paid=((1, 2), 1024))
        self.assert_wrong(TypeError, "incurred of accident year 0 must be a sequence of amounts, not '12'", incurred=("12", (1,)))

    def test_priors_that_are_no_pairs(self) -> None:
        pair = "must be a pair of mean and variance, or None, not"
        self.assert_wrong(TypeError, f"phi_priors of development year 1 {pair} 5", phi_priors=[(0, 1), 5])
        self.assert_wrong(TypeError, f"psi_priors of development year 0 {pair} '12'", psi_priors=["12"])
        self.assert_wrong(ValueError, f"phi_priors of development year 0 {pair} (1, 2, 3)", phi_priors=[(1, 2, 3), (1, 2)])
        self.assert_wrong(TypeError, f"phi_priors of development year 0 {pair} 0", phi_priors=[0, (0, 1)])  # None alone is none
        self.assert_wrong(ValueError, f"psi_priors of development year 0 {pair} ()", psi_priors=[()])

    def test_counts(self) -> None:
        self.assert_wrong(ValueError, "paid must have accident years, and has none", paid=())
        self.assert_wrong(ValueError, "incurred must have 2 accident years, not 1", incurred=((1, 2),))
        self.assert_wrong(ValueError, "paid of accident year 1 must have 1 amount, not 2", paid=((1, 2), (1, 2)))
        self.assert_wrong(ValueError, "incurred of accident year 0 must have 2 amounts, not 1", incurred=((1,), (1,)))
        self.assert_wrong(ValueError, "sigma_squared must have 2 variances, not 1", sigma_squared=(1,))
        self.assert_wrong(ValueError, "tau_squared must have 1 variance, not 0", tau_squared=())
        self.assert_wrong(ValueError, "phi_priors must have 2 priors, not 1", phi_priors=[(0, 1)])
        self.assert_wrong(ValueError, "psi_priors must have 1 prior, not 2", psi_priors=[(0, 1), (0, 1)])

    def test_no_whole_numbers(self) -> None:
        for wrong in NOT_WHOLE:
            for name, argument in (
                ("closeness", {"closeness": wrong}),
                ("paid amount of accident year 1, development year 0", {"paid": ((1, 2), (wrong,))}),
                ("incurred amount of accident year 0, development year 1", {"incurred": ((1, wrong), (1,))}),
                ("sigma squared of development year 1", {"sigma_squared": (1, wrong)}),
                ("tau squared of development year 0", {"tau_squared": (wrong,)}),
                ("prior mean of phi of development year 0", {"phi_priors": [(wrong, 1), (0, 1)]}),
                ("prior variance of psi of development year 0", {"psi_priors": [(0, wrong)]}),
            ):
                with self.assertRaisesRegex(TypeError, f"^{name} must be a whole number, not "):
                    file_of(**{**self.right, **argument})


class OfCells(Named):
    def test_outside(self) -> None:
        for cell, said in (
            ((0, 0, 0, 0), "last must be from 1 to 15, not 0"),
            ((16, 0, 0, 0), "last must be from 1 to 15, not 16"),
            ((9, 2, 0, 0), "channel must be from 0 to 1, not 2"),
            ((9, -1, 0, 0), "channel must be from 0 to 1, not -1"),
            ((9, 0, 10, 0), "year must be from 0 to 9, as J is 9, not 10"),
            ((9, 0, -1, 0), "year must be from 0 to 9, as J is 9, not -1"),
            ((9, 1, 6, 4), "column must be from 0 to 3, as J is 9 and the year 6, not 4"),
            ((9, 1, 6, -1), "column must be from 0 to 3, as J is 9 and the year 6, not -1"),
            ((1, 1, 1, 1), "column must be from 0 to 0, as J is 1 and the year 1, not 1"),
        ):
            self.assert_told(ValueError, said, cell_place, *cell)

    def test_no_whole_numbers(self) -> None:
        for place, name in enumerate(("last", "channel", "year", "column")):
            for wrong in (*NOT_WHOLE, bool_(1), WithoutRepr()):
                cell: list[Any] = [1, 0, 0, 0]
                cell[place] = wrong
                with self.assertRaisesRegex(TypeError, f"^{name} must be a whole number, not "):
                    cell_place(*cell)
        numbers: list[Any] = [Number(1)] * 3 + [Number(0)]
        self.assertEqual(cell_place(*numbers), 110)


class OfScales(Named):
    def test_no_numbers(self) -> None:
        no_numbers: tuple[Any, ...] = (None, True, bool_(1), [1], b"1", 1j)
        for wrong in no_numbers:
            for name, call in (("deviation", squared_ticks), ("natural", ticks)):
                with self.assertRaisesRegex(TypeError, f"^{name} must be a number, not "):
                    call(wrong)

    def test_no_finite_numbers(self) -> None:
        for wrong in ("much", "1/0", nan, inf, -inf, Decimal("NaN"), Decimal("Infinity")):
            shown = repr(wrong)
            self.assert_told(ValueError, f"deviation must be a finite number, not {shown}", squared_ticks, wrong)
            self.assert_told(ValueError, f"natural must be a finite number, not {shown}", ticks, wrong)
        self.assert_told(ValueError, "deviation must be above 0, not -0.5", squared_ticks, -0.5)

    def test_ticks_back(self) -> None:
        for wrong in NOT_WHOLE:
            with self.assertRaisesRegex(TypeError, "^count must be a whole number, not "):
                natural_log(wrong)
        self.assert_told(ValueError, "count must be a number that a float can hold, not one of 2,001 bits", natural_log, 1 << 2_000)

    def test_whole_numbers_by_their_index(self) -> None:
        three: Any = Number(3)
        self.assertEqual((squared_ticks(three), ticks(three), natural_log(three)), (squared_ticks(3), ticks(3), natural_log(3)))


class OfNumpy(unittest.TestCase):
    """Whole numbers of numpy are whole numbers, and do not wrap."""

    def setUp(self) -> None:
        try:
            import numpy
        except ImportError:
            self.skipTest("numpy is missing")
        self.numpy: Any = numpy

    def test_whole_numbers(self) -> None:
        one, many = self.numpy.int64(1), self.numpy.int64(1 << 20)
        self.assertEqual(opened().sweep(one).total, 0)
        self.assertEqual(opened().row(F, one, one), (1 << 12,))
        desk = opened()
        desk.strike(self.numpy.uint8(0), one, self.numpy.int16(0))
        self.assertEqual(desk.struck, ((0, 1, 0),))
        self.assertEqual((squared_ticks(one), ticks(many), natural_log(many)), (squared_ticks(1), ticks(1 << 20), natural_log(1 << 20)))
        self.assertEqual(Mean(self.numpy.array([1, 2]), self.numpy.array([3])), Mean((1, 2), (3,)))

    def test_others(self) -> None:
        for wrong in (self.numpy.bool_(True), self.numpy.float64(1.0)):
            with self.assertRaisesRegex(TypeError, "^n must be a whole number, not "):
                opened().sweep(wrong)
        with self.assertRaisesRegex(TypeError, "^phi must be a sequence of whole numbers, not "):
            Mean(self.numpy.array(1), (3,))


if __name__ == "__main__":
    unittest.main()

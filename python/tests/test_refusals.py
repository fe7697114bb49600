"""Every refusal: its number, place and words, the name of its field, the number that stood there and what is allowed."""

import copy
import pickle
import unittest
from collections.abc import Callable, Iterator
from concurrent.futures import ProcessPoolExecutor
from multiprocessing import get_context

from refusing import F, opened, refusal_of

import damage
import layout
import samples
from layout import build_file, build_record, parts_count
from reserving_desk import INCURRED, PAID, Refused, Session
from reserving_desk.refusals import WORDS

LAST = 3
FILE = build_file(samples.many_sweeps(LAST))
RECORD = build_record((0,) * parts_count(LAST))

# The field that damage.SPOIL_FILE and SPOIL_RECORD spoil for each number, and the number that they put there.
SPOILED_FILE = {
    1: ("length", len(FILE) + 1),
    2: ("version", 2),
    3: ("last development year J", 16),
    4: ("length", len(FILE) + 8),
    5: ("closeness", 0),
    6: ("tau squared of development year 0", (1 << 40) + 1),
    7: ("prior variance of phi of development year 1", (1 << 18) - 1),
    8: ("prior mean of phi of development year 0", -(1 << 26) - 1),
    9: ("paid amount of accident year 1, development year 0", 0),
    10: ("paid amount of accident year 0, development year 3", 1),
}
SPOILED_RECORD = {
    1: ("length", len(RECORD) - 1),
    2: ("version", 0),
    4: ("length", len(RECORD) + 4),
    11: ("phi of development year 2", (1 << 26) + 1),
}


def open_nothing(file: bytes) -> None:
    """At the top of the module, so that another process finds it."""
    Session().open(file)


def refusals_of_a_record(record: bytes, file: bytes = FILE) -> Iterator[Refused]:
    """Of each call that is lent one; a buffer that is too short besides is not looked at."""
    yield refusal_of(lambda: opened(file).judge(record))
    yield refusal_of(lambda: opened(file).residues(record))
    yield refusal_of(lambda: opened(file).residues_into(record, bytearray()))


class OfANewerLibrary(unittest.TestCase):
    def test_a_number_without_words(self) -> None:
        self.assertEqual(str(Refused(99)), "refused 99 at 0: no such refusal")


class ByNumber(unittest.TestCase):
    def test_of_a_file(self) -> None:
        self.assertEqual(SPOILED_FILE.keys(), damage.SPOIL_FILE.keys())
        for number, spoil in damage.SPOIL_FILE.items():
            file = spoil(FILE)
            expected = layout.read_file(file)
            assert isinstance(expected, layout.Refusal)
            for refused in (refusal_of(lambda: Session().open(file)), refusal_of(lambda: Session().row(file, 0, 0))):
                self.assertEqual((refused.number, refused.place), (expected.number, expected.place))
                self.assertEqual((refused.number, (refused.field, refused.value)), (number, SPOILED_FILE[number]))

    def test_of_a_record(self) -> None:
        self.assertEqual(SPOILED_RECORD.keys(), damage.SPOIL_RECORD.keys())
        for number, spoil in damage.SPOIL_RECORD.items():
            record = spoil(RECORD)
            expected = layout.read_record(record, LAST)
            assert isinstance(expected, layout.Refusal)
            for refused in refusals_of_a_record(record):
                self.assertEqual((refused.number, refused.place), (expected.number, expected.place))
                self.assertEqual((refused.number, (refused.field, refused.value)), (number, SPOILED_RECORD[number]))

    def test_of_numbers_and_buffers(self) -> None:
        for expected, call in (
            ((12, "n", 0), lambda: opened(FILE).sweep(0)),
            ((12, "n", -(1 << 70)), lambda: opened(FILE).sweep(-(1 << 70))),
            ((13, "buffer", 16), lambda: opened(F).read_into(bytearray(16))),
            ((13, "buffer", 83), lambda: opened(F).page_into(bytearray(83))),
            ((13, "buffer", 0), lambda: opened(FILE).residues_into(RECORD, bytearray())),
            ((13, "buffer", 55), lambda: opened(FILE).residues_into(RECORD, bytearray(55))),
            ((14, "channel", 2), lambda: Session().row(FILE, 2, LAST + 1)),
            ((14, "channel", 1 << 70), lambda: Session().row(FILE, 1 << 70, 0)),
            ((15, "accident year", LAST + 1), lambda: Session().row(FILE, 1, LAST + 1)),
            ((25, "accident year", 0), lambda: opened(F).ultimate(0)),
            ((25, "accident year", 2), lambda: opened(F).ultimate(2)),
            ((25, "accident year", -1), lambda: opened(F).ultimate(-1)),
            ((25, "accident year", 257), lambda: opened(F).ultimate(257)),
            ((25, "accident year", (1 << 32) + 1), lambda: opened(F).ultimate((1 << 32) + 1)),
            ((25, "accident year", (1 << 64) - 1), lambda: opened(F).ultimate((1 << 64) - 1)),
            ((25, "accident year", (1 << 64) + 1), lambda: opened(F).ultimate((1 << 64) + 1)),
            ((14, "channel", 2), lambda: opened(F).strike(2, 9, 9)),
            ((14, "channel", (1 << 64) + 1), lambda: opened(F).strike((1 << 64) + 1, 0, 0)),
            ((26, "accident year", 2), lambda: opened(F).strike(0, 2, 9)),
            ((26, "accident year", 1), lambda: opened(F).strike(1, 1, 0)),
            ((26, "accident year", 1 << 64), lambda: opened(F).strike(0, 1 << 64, 0)),
            ((26, "column", 1), lambda: opened(F).strike(0, 1, 1)),
            ((26, "column", 1), lambda: opened(F).strike(1, 0, 1)),
            ((26, "column", 1 << 64), lambda: opened(F).strike(0, 0, 1 << 64)),
            ((27, None, None), lambda: opened(F).strike(0, 0, 1)),
            ((27, None, None), lambda: opened(F).strike(1, 0, 0)),
        ):
            refused = refusal_of(call)
            self.assertEqual((refused.number, refused.field, refused.value), expected)
            self.assertEqual(refused.place, 0)

    def test_of_the_state(self) -> None:
        spent = opened(build_file(samples.spent_at_a_limit()))
        spent.sweep()
        calls: dict[int, tuple[Callable[[], object], ...]] = {
            21: (
                lambda: Session().judge(RECORD), lambda: Session().judge(b""), lambda: Session().sweep(0),
                lambda: Session().residues(RECORD), lambda: Session().residues(b""),
                lambda: Session().residues_into(RECORD, bytearray(56)), lambda: Session().residues_into(b"", bytearray()),
                Session().read, lambda: Session().read_into(bytearray()), Session().page, lambda: Session().page_into(bytearray()),
                lambda: Session().ultimate(1), lambda: Session().ultimate(0),
                lambda: Session().strike(0, 0, 0), lambda: Session().strike(2, 2, 2),
            ),
            22: (lambda: spent.open(FILE), lambda: spent.open(b"")),
            23: (spent.sweep,),
            24: (
                spent.read, lambda: spent.read_into(bytearray()), spent.page, lambda: spent.page_into(bytearray()),
                lambda: spent.ultimate(1), lambda: spent.ultimate(0),
            ),
        }
        for number, refused_calls in calls.items():
            for refused in map(refusal_of, refused_calls):
                self.assertEqual((refused.number, refused.place), (number, 0))
                self.assertEqual((refused.field, refused.value, refused.limits), (None, None, None))
                self.assertEqual(str(refused), f"refused {number} at 0: {WORDS[number]}")

    def test_every_number_has_words(self) -> None:
        for number, words in WORDS.items():
            self.assertEqual(Refused(number).words, words)
            self.assertEqual(str(Refused(number)), f"refused {number} at 0: {words}")


class Fields(unittest.TestCase):
    """The name and the number at every place, with places by the reference."""

    def assert_field(self, number: int, place: int, name: str, value: int, width: int) -> None:
        refused = refusal_of(lambda: Session().open(damage.put(FILE, place, value, width)))
        self.assertEqual((refused.number, refused.place, refused.field, refused.value), (number, place, name, value))

    def part_names(self) -> list[str]:
        years = [("phi", j) for j in range(LAST + 1)] + [("psi", j) for j in range(LAST)]
        return [f"{part} of development year {j}" for part, j in years]

    def test_variances(self) -> None:
        years = [("sigma", j) for j in range(LAST + 1)] + [("tau", j) for j in range(LAST)]
        for k, (name, j) in enumerate(years):
            self.assert_field(6, layout.variance_place(k), f"{name} squared of development year {j}", 100 + k, 8)

    def test_priors(self) -> None:
        for part, name in enumerate(self.part_names()):
            self.assert_field(7, layout.prior_variance_place(LAST, part), f"prior variance of {name}", 100 + part, 8)
            self.assert_field(8, layout.prior_mean_place(LAST, part), f"prior mean of {name}", -(1 << 27) - part, 4)

    def test_amounts(self) -> None:
        for channel, name in ((PAID, "paid"), (INCURRED, "incurred")):
            for year in range(LAST + 1):
                for column in range(LAST - year + 1):
                    place = layout.amount_place(LAST, channel, year, column)
                    said = f"{name} amount of accident year {year}, development year {column}"
                    self.assert_field(9, place, said, (1 << 44) + 1 + column, 8)

    def test_parts_of_a_record(self) -> None:
        for part, name in enumerate(self.part_names()):
            place, value = layout.part_place(part), (1 << 27) + part
            for refused in refusals_of_a_record(damage.put(RECORD, place, value, 4)):
                self.assertEqual((refused.number, refused.place, refused.field, refused.value), (11, place, name, value))

    def test_last_fields_of_the_longest(self) -> None:
        last = layout.LARGEST_YEAR
        file = build_file(samples.many_sweeps(last))
        place = layout.amount_place(last, INCURRED, last, 0)
        refused = refusal_of(lambda: Session().open(damage.put(file, place, 0, 8)))
        self.assertEqual(refused.field, "incurred amount of accident year 15, development year 0")
        record = build_record((0,) * 30 + (1 << 27,))
        for refused in refusals_of_a_record(record, file):
            self.assertEqual(refused.field, "psi of development year 14")


class Handed(unittest.TestCase):
    """An exception crosses processes, and is copied, with all that it tells."""

    def told(self, refused: Refused) -> tuple[object, ...]:
        return (str(refused), refused.number, refused.place, refused.field, refused.value, refused.limits, refused.words)

    def test_pickled_and_copied(self) -> None:
        for refused in (refusal_of(lambda: Session().open(damage.put(F, 86, 0, 8))), refusal_of(Session().read)):
            for protocol in range(pickle.HIGHEST_PROTOCOL + 1):
                self.assertEqual(self.told(pickle.loads(pickle.dumps(refused, protocol))), self.told(refused))
            for twin in (copy.copy(refused), copy.deepcopy(refused)):
                self.assertEqual(self.told(twin), self.told(refused))

    def test_out_of_another_process(self) -> None:
        with ProcessPoolExecutor(1, get_context("spawn")) as pool:
            raised = pool.submit(open_nothing, damage.put(F, 86, 0, 8)).exception()
        assert isinstance(raised, Refused)
        self.assertEqual(self.told(raised), self.told(refusal_of(lambda: Session().open(damage.put(F, 86, 0, 8)))))


if __name__ == "__main__":
    unittest.main()

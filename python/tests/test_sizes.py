"""A library that keeps to other sizes than the package is not used: it would write behind what it is lent."""

import unittest
from contextlib import AbstractContextManager
from ctypes import c_int32, c_uint8, c_uint64, sizeof
from typing import Any
from unittest import mock

import paths  # noqa: F401

import layout
from reserving_desk import LibraryMissing, SizesDiffer
from reserving_desk import library as package
from reserving_desk.layout import LONGEST_FILE, LONGEST_RECORD


def load_anew() -> None:
    package.load.__wrapped__(package.library_path())


def with_size(name: str, size: Any) -> AbstractContextManager[Any]:
    """The package with one of its fields changed."""
    return mock.patch.dict(package.SESSION_FIELDS, {name: size})


def kind_of(name: str) -> tuple[Any, int]:
    """The numbers that a field of a session holds: their type, and how many they are."""
    field = package.SESSION_FIELDS[name]
    return field._type_, field._length_


class Sizes(unittest.TestCase):
    def test_agree(self) -> None:
        load_anew()
        self.assertEqual(LONGEST_FILE, layout.LONGEST_FILE)
        self.assertEqual(LONGEST_RECORD, layout.record_length(layout.LARGEST_YEAR))

    def test_every_size_that_differs_is_named(self) -> None:
        for name in package.SESSION_FIELDS:
            number, count = kind_of(name)
            for other in (count - 1, count + 1):
                with self.subTest(name), with_size(name, number * other):
                    with self.assertRaisesRegex(SizesDiffer, f"is not the library of this package: {name} has "):
                        load_anew()

    def test_an_array_more_or_less(self) -> None:
        with with_size("residues", c_uint64 * 17):
            with self.assertRaisesRegex(SizesDiffer, "residues has 0 bytes there and 136 here"):
                load_anew()
        fewer = dict(list(package.SESSION_FIELDS.items())[:-1])
        with mock.patch.object(package, "SESSION_FIELDS", fewer):
            with self.assertRaisesRegex(SizesDiffer, "what is behind them has 3968 bytes there and 0 here"):
                load_anew()

    def test_a_library_of_the_version_before(self) -> None:
        """It has no such function, and is not called."""
        with mock.patch.dict(package.FUNCTIONS, {"desk_sizes": package.FUNCTIONS["desk_size"]}):
            with self.assertRaisesRegex(LibraryMissing, "is a library of another version"):
                load_anew()

    def test_numbers_of_four_bytes(self) -> None:
        for name in package.SESSION_FIELDS:
            number, count = kind_of(name)
            with self.subTest(name), with_size(name, c_int32 * count):
                said = f"{name} has {sizeof(number) * count} bytes there and {4 * count} here"
                with self.assertRaisesRegex(SizesDiffer, said):
                    load_anew()

    def test_marks_of_one_byte(self) -> None:
        """As many words of 8 bytes would be taken for another array."""
        self.assertEqual(kind_of("struck"), (c_uint8, 496))
        with with_size("struck", c_uint64 * 496), self.assertRaisesRegex(SizesDiffer, "struck has 496 bytes there and 3968 here"):
            load_anew()

    def test_is_a_library_missing(self) -> None:
        with with_size("matrix", c_uint64 * 960), self.assertRaises(LibraryMissing):
            load_anew()


if __name__ == "__main__":
    unittest.main()

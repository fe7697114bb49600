"""The library is found, or what to do is said."""

import _ctypes
import os
import shutil
import tempfile
import unittest
from pathlib import Path
from unittest import mock

import paths  # noqa: F401

import samples
from layout import build_file
from reserving_desk import LibraryMissing, Session, Sweeping
from reserving_desk import library as package
from reserving_desk.library import IN_THE_CHECKOUT, VARIABLE, library_path


class Library(unittest.TestCase):
    def test_named_by_the_environment(self) -> None:
        with tempfile.TemporaryDirectory() as folder:
            copy = shutil.copy(library_path(), Path(folder) / "elsewhere.so")
            with mock.patch.dict(os.environ, {VARIABLE: str(copy)}):
                desk = Session()
            desk.open(build_file(samples.file_f()))
            self.assertEqual(Path(desk._library._name), Path(copy).resolve())
            self.assertEqual(desk.sweep(), Sweeping(True, 0))

    def test_its_own_comes_before_that_of_the_checkout(self) -> None:
        with tempfile.TemporaryDirectory() as folder:
            own = Path(folder) / "libdesk.so"
            with mock.patch.object(package, "IN_THE_PACKAGE", own), mock.patch.dict(os.environ):
                os.environ.pop(VARIABLE, None)
                self.assertEqual(library_path(), IN_THE_CHECKOUT)
                own.touch()
                self.assertEqual(library_path(), own)
                os.environ[VARIABLE] = "/named"
                self.assertEqual(library_path(), Path("/named"))

    def test_missing(self) -> None:
        with mock.patch.dict(os.environ, {VARIABLE: "/nowhere/libdesk.so"}):
            with self.assertRaisesRegex(LibraryMissing, r"no library /nowhere/libdesk.so: run \./build"):
                Session()

    def test_one_that_lacks_a_call(self) -> None:
        """As an older one does."""
        said = r"is a library of another version than this package: run \./build .*it has no desk_later_lent\)$"
        with mock.patch.dict(package.FUNCTIONS, {"desk_later_lent": (None, [])}):
            with self.assertRaisesRegex(LibraryMissing, said):
                package.load.__wrapped__(library_path())

    def test_something_else(self) -> None:
        for other in (__file__, _ctypes.__file__):  # no library, and another one
            with mock.patch.dict(os.environ, {VARIABLE: other}):
                with self.assertRaisesRegex(LibraryMissing, r"is not the desk's library: run \./build"):
                    Session()


if __name__ == "__main__":
    unittest.main()

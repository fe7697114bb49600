"""`pip install ./python` gives a package that has the library inside and runs outside of the checkout; without one it says so.

A test is left out where no interpreter of the machine can build a wheel or make an environment; its message names what is missing.
"""

import os
import shutil
import tempfile
import unittest
from pathlib import Path
from zipfile import ZipFile

from installing import PACKAGE, TO_BUILD, TO_INSTALL, build_wheel, files_in, interpreter, interpreters, run
from paths import ROOT

from reserving_desk import __version__
from reserving_desk.library import IN_THE_CHECKOUT, IN_THE_PACKAGE, VARIABLE

SAMPLE = ROOT / "samples" / "tables-10-11.file"
LISTING = (ROOT / "samples" / "tables-10-11.listing").read_text()  # by the reference

# Lists the file that it is given, and then what was used for it.
SCRIPT = """
import sys
from pathlib import Path
import reserving_desk
from reserving_desk.library import library_path

with reserving_desk.Session() as desk:
    desk.open(Path(sys.argv[1]).read_bytes())
    total = desk.sweep().total
    mean = desk.read()
    assert desk.figures().last == len(mean.psi)
    assert desk.page().count("\\n") == len(mean.parts)
print("J", len(mean.psi))
print("sweeps", total)
for name in ("phi", "psi"):
    for index, part in enumerate(getattr(mean, name)):
        print(name, index, part)
print(reserving_desk.__version__)
print(Path(reserving_desk.__file__).parent)
print(library_path())
"""


class Wheel(unittest.TestCase):
    """Built once, in a folder outside of the checkout."""

    folder: Path
    wheel: Path
    before: dict[str, int]

    @classmethod
    def setUpClass(cls) -> None:
        if not interpreter(TO_BUILD)[0]:
            raise unittest.SkipTest(f"no wheel can be built: {interpreter(TO_BUILD)[1]}")
        cls.folder = Path(tempfile.mkdtemp()).resolve()
        cls.addClassCleanup(shutil.rmtree, cls.folder)
        cls.before = files_in(PACKAGE)
        built = build_wheel(PACKAGE, cls.folder / "wheels")
        assert built.returncode == 0, built.stdout + built.stderr
        (cls.wheel,) = (cls.folder / "wheels").iterdir()
        (cls.folder / "list.py").write_text(SCRIPT)

    def assert_lists(self, python: object, package: Path, library: Path, **changed: str) -> None:
        done = run(python, "-s", self.folder / "list.py", SAMPLE, **changed)
        self.assertEqual((done.returncode, done.stderr), (0, ""))
        *listing, version, package_used, library_used = done.stdout.splitlines()
        self.assertEqual((listing, version), (LISTING.splitlines(), __version__))
        self.assertEqual((Path(package_used).resolve(), Path(library_used).resolve()), (package, library))

    def test_name(self) -> None:
        self.assertEqual(self.wheel.name, f"reserving_desk-{__version__}-py3-none-linux_x86_64.whl")

    def test_holds_the_package_and_the_library(self) -> None:
        expected = {f"reserving_desk/{path.name}": path for path in (PACKAGE / "reserving_desk").iterdir() if path.is_file()}
        expected["reserving_desk/libdesk.so"] = IN_THE_CHECKOUT
        with ZipFile(self.wheel) as wheel:
            self.assertEqual({name for name in wheel.namelist() if ".dist-info/" not in name}, set(expected))
            for name, path in expected.items():
                self.assertEqual((name, wheel.read(name) == path.read_bytes()), (name, True))

    def test_leaves_nothing_behind(self) -> None:
        self.assertEqual(files_in(PACKAGE), self.before)
        self.assertFalse(IN_THE_PACKAGE.exists(), "which the package in the checkout would take for its own")

    def test_runs_with_every_python_of_the_machine(self) -> None:
        """Unpacked, as there may be no pip for each."""
        unpacked = self.folder / "unpacked"
        with ZipFile(self.wheel) as wheel:
            wheel.extractall(unpacked)
        package = unpacked / "reserving_desk"
        for python in interpreters():
            with self.subTest(python):
                self.assert_lists(python, package, package / "libdesk.so", PYTHONPATH=str(unpacked))

    def test_in_an_environment_of_its_own(self) -> None:
        python, lacks = interpreter(TO_INSTALL)
        if not python:
            self.skipTest(f"no environment can be made: {lacks}")
        made = run(python, "-m", "venv", self.folder / "environment")
        self.assertEqual(made.returncode, 0, made.stdout + made.stderr)
        own_python = self.folder / "environment" / "bin" / "python"
        installed = run(own_python, "-m", "pip", "install", "--no-index", "--no-deps", self.wheel)
        self.assertEqual(installed.returncode, 0, installed.stdout + installed.stderr)
        (package,) = (self.folder / "environment").glob("lib/python3*/site-packages/reserving_desk")
        self.assert_lists(own_python, package, package / "libdesk.so")
        named = shutil.copy(IN_THE_CHECKOUT, self.folder / "named.so")
        self.assert_lists(own_python, package, Path(named), **{VARIABLE: str(named)})


class Built(unittest.TestCase):
    """From a checkout of which only the package and the library are there."""

    def setUp(self) -> None:
        if not interpreter(TO_BUILD)[0]:
            self.skipTest(f"no wheel can be built: {interpreter(TO_BUILD)[1]}")
        folder = tempfile.TemporaryDirectory()
        self.addCleanup(folder.cleanup)
        self.checkout = Path(folder.name).resolve() / "a checkout"
        self.library = self.checkout / "target" / "lib" / "libdesk.so"
        shutil.copytree(PACKAGE, self.checkout / "python", ignore=shutil.ignore_patterns("tests", "__pycache__", ".mypy_cache"))
        self.library.parent.mkdir(parents=True)

    def assert_not_built(self, why: str) -> None:
        done = build_wheel(self.checkout / "python", self.checkout / "wheels")
        said = done.stdout + done.stderr
        self.assertNotEqual(done.returncode, 0)
        self.assertIn(f"error: {why}: run ./build first, in the checkout of the reserving desk\n", said)
        self.assertNotIn("Traceback", said)
        self.assertEqual(list(self.checkout.glob("wheels/*")), [])

    def test_not_without_the_library(self) -> None:
        self.assert_not_built(f"there is no library {self.library}")

    def test_not_with_a_library_older_than_its_sources(self) -> None:
        source = self.checkout / "crates" / "desk" / "src" / "exports.rt"
        source.parent.mkdir(parents=True)
        source.write_text("")
        shutil.copyfile(IN_THE_CHECKOUT, self.library)
        os.utime(self.library, (0, source.stat().st_mtime - 1))
        self.assert_not_built(f"the library {self.library} is older than {source}")

    def test_with_the_library_of_now(self) -> None:
        """Also where it was another one before, and where its name is a link."""
        real = self.library.with_name(f"libdesk.so.{__version__}")
        self.library.symlink_to(real.name)
        for content in (b"one", b"another"):
            real.write_bytes(content)
            done = build_wheel(self.checkout / "python", self.checkout / "wheels")
            self.assertEqual(done.returncode, 0, done.stdout + done.stderr)
            (built,) = (self.checkout / "wheels").iterdir()
            with ZipFile(built) as wheel:
                self.assertEqual(wheel.read("reserving_desk/libdesk.so"), content)


if __name__ == "__main__":
    unittest.main()

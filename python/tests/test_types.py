"""The package, its example and its tests are typed throughout, for the oldest Python that they support as for this one.

Left out where mypy is missing.
"""

import os
import shutil
import subprocess
import tempfile
import unittest

from paths import ROOT

PACKAGE, EXAMPLES, TESTS, REFERENCE = (ROOT / name for name in ("python/reserving_desk", "python/examples", "python/tests", "reference"))
OLDEST = "3.10"  # as the reference, without which no test of the package runs
MYPY = shutil.which("mypy") or ""


@unittest.skipUnless(MYPY, "mypy is missing")
class Types(unittest.TestCase):
    def assert_typed(self, *arguments: object) -> None:
        """What is imported from the reference is looked at, and not complained of."""
        paths = os.pathsep.join(map(str, (PACKAGE.parent, TESTS, EXAMPLES, REFERENCE)))
        with tempfile.TemporaryDirectory() as cache:
            options = ("--strict", "--follow-imports=silent", "--no-error-summary", f"--cache-dir={cache}")
            command = [MYPY, *options, *map(str, arguments)]
            done = subprocess.run(command, cwd=cache, env={**os.environ, "MYPYPATH": paths}, capture_output=True, text=True)
        self.assertEqual((done.returncode, done.stdout, done.stderr), (0, "", ""))

    def test_for_this_python(self) -> None:
        self.assert_typed(PACKAGE, EXAMPLES, TESTS)

    def test_for_the_oldest_python(self) -> None:
        for name, said in (("pyproject.toml", f'requires-python = ">={OLDEST}"'), ("README.md", f"Python {OLDEST} or newer")):
            self.assertIn(said, (ROOT / "python" / name).read_text())
        self.assert_typed(f"--python-version={OLDEST}", PACKAGE, EXAMPLES, TESTS)


if __name__ == "__main__":
    unittest.main()

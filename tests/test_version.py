"""The desk has one version: that of the header is the package's, and the newest of the changelog."""

import re
import sys
import unittest
from pathlib import Path

ROOT = Path(__file__).resolve().parent.parent
sys.path.insert(1, str(ROOT / "python"))

import reserving_desk


class Version(unittest.TestCase):
    def test_of_the_header(self) -> None:
        header = (ROOT / "include" / "desk.h").read_text()
        self.assertEqual(re.findall(r'^#define DESK_VERSION "(.*)"', header, re.MULTILINE), [reserving_desk.__version__])

    def test_of_the_changelog(self) -> None:
        headings = re.findall(r"^## (.*)", (ROOT / "CHANGELOG.md").read_text(), re.MULTILINE)
        self.assertEqual(headings[0], reserving_desk.__version__)

    def test_three_numbers(self) -> None:
        self.assertRegex(reserving_desk.__version__, r"^\d+\.\d+\.\d+$")

    def test_said_once_in_the_package(self) -> None:
        files = [path for path in (ROOT / "python").rglob("*") if path.suffix in (".py", ".toml", ".md") and path.is_file()]
        saying = [path.relative_to(ROOT) for path in files if f'"{reserving_desk.__version__}"' in path.read_text()]
        self.assertEqual(saying, [Path("python/reserving_desk/__init__.py")])


if __name__ == "__main__":
    unittest.main()

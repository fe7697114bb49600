"""The table of row starts: as the code has it, it is the reference's, entry by entry, and rows are found by it alone."""

import re
import sys
import unittest
from pathlib import Path

ROOT = Path(__file__).resolve().parent.parent
sys.path.insert(1, str(ROOT / "reference"))

import cells

SOURCES = {str(path.relative_to(ROOT / "crates")): path.read_text() for path in sorted((ROOT / "crates").glob("*/src/**/*.rt"))}
TABLE = SOURCES["row_starts/src/lib.rt"]


class RowStarts(unittest.TestCase):
    def test_of_the_source(self) -> None:
        [(count, written)] = re.findall(r"^const ROW_STARTS: \[u8; (\d+)\] = \[\n(.*?)^\];", TABLE, re.MULTILINE | re.DOTALL)
        entries = [int(number) for number in re.findall(r"\d+", re.sub(r"//.*", "", written))]
        self.assertEqual((int(count), len(entries)), (256, 256))
        for last in range(16):
            for year in range(16):
                self.assertEqual(entries[16 * last + year], cells.table()[16 * last + year], f"J = {last}, year {year}")

    def test_promised_for_every_j(self) -> None:
        contract = re.search(r"pub fn starts_of\(last: u8\) -> \[usize; 16\]\n(.*?)\{\n", TABLE, re.DOTALL)[1]
        self.assertEqual(" ".join(contract.split()), "requires { last ≤ 15 } ensures { Starts last result }")

    def test_nothing_else_promises_a_start(self) -> None:
        imported = re.compile(r"^ghost use .*\brow_start\b|\.row_start\b", re.MULTILINE)  # what a clause can speak of
        self.assertEqual([name for name, text in SOURCES.items() if imported.search(text)], ["row_starts/src/lib.rt"])
        users = {name: re.findall(r"^use row_starts::(\w+);", text, re.MULTILINE) for name, text in SOURCES.items()}
        self.assertEqual(
            {name: found for name, found in users.items() if found},
            {
                "differences/src/lib.rt": ["starts_of"], "figures/src/lib.rt": ["starts_of"],
                "projecting/src/central.rt": ["row_start"], "readings/src/rows.rt": ["row_start"],
            },
        )


class PrintedList(unittest.TestCase):
    def test_is_pointed_to(self) -> None:
        for name in ("README.md", "docs/SPECIFICATION.md", "python/README.md", "python/reserving_desk/builders.py"):
            self.assertIn("CELLS.md", (ROOT / name).read_text(), name)


if __name__ == "__main__":
    unittest.main()

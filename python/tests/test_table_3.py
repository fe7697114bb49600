"""The example: the file is the sample, and its reserves are the paper's to 0.01 per cent."""

import re
import subprocess
import sys
import unittest
from fractions import Fraction

from paths import ROOT

sys.path.append(str(ROOT / "python" / "examples"))

import layout
import paper
import table_3
from ultimate import ultimate_of

EXAMPLE = ROOT / "python" / "examples" / "table_3.py"


class Table3(unittest.TestCase):
    def test_file(self) -> None:
        self.assertEqual(table_3.tables_file(), layout.build_file(paper.tables_file(table_3.CLOSENESS)))
        self.assertEqual(table_3.tables_file(), (ROOT / "samples" / "tables-10-11.file").read_bytes())

    def test_mean(self) -> None:
        mean, ultimates = table_3.settled(table_3.tables_file())
        self.assertEqual(mean.parts, paper.settled_mean(paper.tables_file(table_3.CLOSENESS)))
        expected = [ultimate_of(paper.tables_file(table_3.CLOSENESS), mean.parts, year) for year in range(1, 10)]
        self.assertEqual([ultimate.ticks for ultimate in ultimates], [of.floor + Fraction(of.remainder, of.divisor) for of in expected])

    def test_reserves(self) -> None:
        said = subprocess.run([sys.executable, EXAMPLE], capture_output=True, text=True, check=True).stdout
        rows = re.findall(r"^ *(\w+)" + r" +([\d,]+)" * 5 + r" +(-?[\d.]+)%$", said, re.MULTILINE)
        years = [(str(year), paper.PAID[year][-1], reserve) for year, reserve in enumerate(paper.RESERVES, start=1)]
        total = ("total", sum(paid for _, paid, _ in years), paper.RESERVES_TOTAL)
        for (name, *figures, apart), expected in zip(rows, [*years, total], strict=True):
            paid, central, left, reserve, printed = (int(figure.replace(",", "")) for figure in figures)
            self.assertEqual((name, paid, printed), expected)
            self.assertLessEqual(abs(central - paid - left), 1)
            self.assertLess(left, reserve)
            self.assertLessEqual(abs(reserve - printed), 0.0001 * printed)
            self.assertLessEqual(abs(float(apart)), 0.01)
        self.assertEqual(said.splitlines()[-1], table_3.WHY)
        specification = " ".join((ROOT / "docs" / "SPECIFICATION.md").read_text().split())
        self.assertIn(f"medians exceed what is paid by {rows[-1][3]}, it is {rows[-1][4]}.", specification)


if __name__ == "__main__":
    unittest.main()

"""Puts the package and the reference on the path, behind the tests: some of the reference's have the same names."""

import sys
from pathlib import Path

ROOT = Path(__file__).resolve().parents[2]
sys.path[1:1] = [str(ROOT / "python"), str(ROOT / "reference")]

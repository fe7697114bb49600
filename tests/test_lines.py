"""Lines that can be read: at most 140 characters in sources, definitions, laws, contracts and tests, 160 in proofs and in imports."""

import re
import unittest

from declared import files, text_of

SUFFIXES = (".rt", ".antt", ".py", ".sh", ".c", ".h", ".cpp", ".rs")


def limit(name: str, line: str) -> int:
    return 160 if "/proofs/" in name or re.match(r"(?:ghost |unfoldable |pub )*use ", line) else 140


def is_source(name: str) -> bool:
    """By its ending, or a script without one."""
    return name.endswith(SUFFIXES) or files()[name] and text_of(name).startswith("#!")


class Lines(unittest.TestCase):
    def test_none_is_too_long(self) -> None:
        names = [name for name in files() if is_source(name)]
        self.assertLessEqual({"run", "build", "test", "scripts/common.sh", "tests/c/run", "include/desk.h"}, set(names))
        lines = [(name, number, line) for name in names for number, line in enumerate(text_of(name).split("\n"), start=1)]
        self.assertGreater(len(lines), 20_000)
        long = [f"{name}:{number}: {len(line)}" for name, number, line in lines if len(line) > limit(name, line)]
        self.assertEqual(long, [])


if __name__ == "__main__":
    unittest.main()

"""Runs every test of a folder, and says which of them are left out on this machine, and why: `python3 tests/suite.py reference`."""

import sys
import unittest


def main() -> int:
    if len(sys.argv) != 2:
        print(__doc__, file=sys.stderr)
        return 2
    del sys.path[0]  # this folder, whose modules are not those of another
    result = unittest.TextTestRunner(verbosity=0).run(unittest.defaultTestLoader.discover(sys.argv[1]))
    for test, why in result.skipped:
        print(f"left out: {test.id()}: {why}")
    return 0 if result.wasSuccessful() and result.testsRun else 1


if __name__ == "__main__":
    sys.exit(main())

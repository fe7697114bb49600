"""Every example of each README runs, and prints what its comments say."""

import os
import re
import subprocess
import sys
import textwrap
import unittest

from paths import ROOT


def examples(document: str) -> list[str]:
    """The blocks of code that import the package."""
    blocks = re.findall(r"(?:^ {4}.*\n|^\n)+", (ROOT / document).read_text(), re.MULTILINE)
    return [textwrap.dedent(block) for block in blocks if "from reserving_desk import" in block]


class Readme(unittest.TestCase):
    def assert_prints_what_it_says(self, code: str) -> None:
        environment = {**os.environ, "PYTHONPATH": str(ROOT / "python")}
        command = [sys.executable, "-W", "error", "-c", code]
        done = subprocess.run(command, cwd=ROOT, env=environment, capture_output=True, text=True)
        self.assertEqual((done.returncode, done.stderr), (0, ""))
        comments = re.findall(r"print\(.*  # (.*)", code)
        printed = done.stdout.splitlines()
        self.assertEqual(len(printed), len(comments))
        for line, comment in zip(printed, comments):
            self.assertRegex(comment, rf"{re.escape(line)}(?!\w)", f"{line!r} is printed, and {comment!r} is said")

    def test_examples(self) -> None:
        for document, count in (("README.md", 1), ("python/README.md", 1)):
            self.assertEqual(len(examples(document)), count, document)
            for code in examples(document):
                self.assert_prints_what_it_says(code)

    def test_the_package_links_to_nothing_that_is_not_installed(self) -> None:
        self.assertNotRegex((ROOT / "python" / "README.md").read_text(), r"\]\(")


if __name__ == "__main__":
    unittest.main()

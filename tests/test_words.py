"""The words of refusals are the same in the header and in the package."""

import ast
import re
import unittest

from declared import text_of


def words_of_the_header() -> dict[int, str]:
    """The cases of desk_refusal_text, but for 0, which is no refusal."""
    body = text_of("include/desk.h").split("*desk_refusal_text(")[1].split("default:")[0]
    cases = re.findall(r'case (\d+): return "([^"]*)";', body)
    return {int(number): words for number, words in cases if number != "0"}


def words_of_the_package() -> dict[int, str]:
    for node in ast.parse(text_of("python/reserving_desk/refusals.py")).body:
        target = node.target if isinstance(node, ast.AnnAssign) else node.targets[0] if isinstance(node, ast.Assign) else None
        if isinstance(target, ast.Name) and target.id == "WORDS":
            return ast.literal_eval(node.value)
    raise AssertionError("python/reserving_desk/refusals.py has no WORDS")


class Words(unittest.TestCase):
    maxDiff = None

    def test_of_the_header_are_those_of_the_package(self) -> None:
        self.assertEqual(words_of_the_header(), words_of_the_package())

    def test_there_are_words_for_every_number(self) -> None:
        self.assertEqual(list(words_of_the_header()), [*range(1, 16), *range(21, 28)])


if __name__ == "__main__":
    unittest.main()

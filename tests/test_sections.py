"""Sections that comments and documents cite are there, under that very title."""

import re
import unittest

from declared import files, text_of

SPECIFICATION = "docs/SPECIFICATION.md"
TITLES = r'"[^"]+"(?:(?:, | and )"[^"]+")*'

# How the specification is cited, by where; a title may stand on the next line.
CITED = (
    rf"[Ss]pecification(?:'s)?,? \(?({TITLES})",
    rf"sections? ({TITLES})\s+(?:of|in) docs/SPECIFICATION\.md",
    rf"docs/SPECIFICATION\.md, ({TITLES})",
    rf"\((?:see |the specification, )({TITLES})\)",
    rf"(?:the bytes|words of|a number of|says what each call does:) ({TITLES})",
    rf"({TITLES}) (?:have the bytes|the answers|the numbers with their places|what an answer is worth)",
)


def titles(document: str) -> set[str]:
    return set(re.findall(r"^## (.*)", text_of(document), re.MULTILINE))


def citations(name: str) -> list[str]:
    plain = re.sub(r"\s+(?:--|//|\*|#)?\s*", " ", text_of(name))
    return [title for pattern in CITED for found in re.findall(pattern, plain) for title in re.findall(r'"([^"]+)"', found)]


class Sections(unittest.TestCase):
    def test_of_the_specification(self) -> None:
        sources = [name for name in files() if name.endswith((".antt", ".rt", ".py", ".h", ".c", ".md")) and not name.startswith("tests/")]
        cited = {name: citations(name) for name in sources}
        self.assertGreaterEqual(len({name for name in cited if cited[name]}), 20)
        self.assertGreaterEqual({title for found in cited.values() for title in found}, {"The file", "The calls", "Refusals", "The test"})
        wrong = [f"{name}: {title}" for name, found in cited.items() for title in found if title not in titles(SPECIFICATION)]
        self.assertEqual(wrong, [])

    def test_of_other_documents(self) -> None:
        for name, title, holder in (
            (SPECIFICATION, "What must be believed besides", "docs/CLAIMS.md"), (SPECIFICATION, "Forms", "docs/CLAIMS.md"),
            ("docs/PERFORMANCE.md", "Forms", "docs/DECISIONS.md"),
        ):
            self.assertIn(f'"{title}"', " ".join(text_of(name).split()))
            self.assertIn(title, titles(holder))
        self.assertIn('"What a caller owes" in include/desk.h', " ".join(text_of(SPECIFICATION).split()))
        self.assertIn("* What a caller owes.", text_of("include/desk.h"))


class Landings(unittest.TestCase):
    def test_each_ticket_has_its_rows(self) -> None:
        notes = [name.split("/")[-1] for name in files() if name.startswith("docs/landings/")]
        tickets = sorted(int(name[:2]) for name in notes if name[2] == "-")  # 06b-... is no ticket: it stands between two
        self.assertEqual(tickets, list(range(1, len(tickets) + 1)))
        for ticket in tickets:
            self.assertIn(f"\n| ticket {ticket}, ", text_of(SPECIFICATION))
            self.assertIn(f"\n| {ticket}. ", text_of("docs/CLAIMS.md"))


if __name__ == "__main__":
    unittest.main()

"""Limits and refusals are those of crates/definitions, wherever else they are written: in the specification's tables, in the README, in
the header, in the package and in the reference. Each is read from its file, so that a number changed in one place alone shows."""

import re
import sys
import unittest
from pathlib import Path

ROOT = Path(__file__).resolve().parent.parent
sys.path[1:1] = [str(ROOT / "python"), str(ROOT / "reference")]

import layout
import page
import reserving_desk
import session
from reserving_desk import layout as package_layout
from reserving_desk.refusals import WORDS

README = (ROOT / "README.md").read_text()
SPECIFICATION = (ROOT / "docs" / "SPECIFICATION.md").read_text()
HEADER = (ROOT / "include" / "desk.h").read_text()
SPECS = ROOT / "crates" / "definitions" / "specs"
DEFINED_IN = ("Logarithm", "Refusals", "Sweep", "Strikes", "Machine", "Guarantee")
DEFINITIONS = "".join((SPECS / f"{name}.antt").read_text() for name in DEFINED_IN)
PAGE, LAYOUT = ((SPECS / f"{name}.antt").read_text() for name in ("Page", "Layout"))
LAW = (ROOT / "crates" / "laws" / "proofs" / "Pinned.antt").read_text()
CALLS = "".join((ROOT / "crates" / source).read_text() for source in ("session/src/calls.rt", "desk/src/exports.rt"))

# Where the definitions write the numbers that a refusal's words repeat, in the order of the words.
WRITTEN = {
    1: (r"^check1 s = unless \(leb (.+?) \(length s\)", r"^record_check J r =\s+unless \(leb (.+?) \(length r\)"),
    2: (r"^check2 s = unless \(eqb \(version s\) (.+?)\)",),
    3: (r"^check3 s = unless \(within (.+?) (.+?) \(last_year s\)\)",),
    5: (r"^check5 s = unless \(within (.+?) (.+?) \(closeness s\)\)",),
    6: (r"^good_variance v = within \((.+?)\) \((.+?)\) v",),
    7: (r"^good_prior_variance v = eqb v (.+?) \|\| within \((.+?)\) \((.+?)\) v",),
    8: (r"^good_part z = leb \(nat_abs z\) (?P<size>.+)",),
    9: (r"^good_amount a = within (.+?) (.+?) a$",),
    11: (r"^good_part z = leb \(nat_abs z\) (?P<size>.+)",),
    12: (r"\(within (.+?) (.+?) n\)\) .* \(refused 12 0\)",),
    14: (r"unless \(leb channel (.+?)\) 14 ",),
    23: (r"\(leb (.+?) total\) .* \(refused 23 0\)",),
    25: (r"\(within (.+?) \(figures x\)\.last year\)\) \(refused 25 0\)",),
}


def value(text: str) -> int:
    """A numeral of the definitions or of the words, a power of them, or the name of a limit."""
    base, power, exponent = text.replace(",", "").replace("−", "-").partition("^")
    if power:
        sign = -1 if base.startswith("-") else 1
        return sign * value(base.strip(" -")) ** value(exponent.strip())
    return int(base) if base.strip("-").isdigit() else value(re.search(rf"^{text} = (.+)$", DEFINITIONS, re.MULTILINE)[1])


def defined(number: int) -> list[int]:
    """The numbers of a refusal's words, by the definitions; a limit on a size counts on both sides of 0."""
    found = []
    for pattern in WRITTEN.get(number, ()):
        match = re.search(pattern, DEFINITIONS, re.MULTILINE)
        values = [value(text) for text in match.groups()]
        found += [-values[0], values[0]] if "size" in match.groupdict() else values
    return found


def parts_count(last: int) -> int:
    """So many parts for each J, by the definitions."""
    times, more = re.search(r"^parts J = (\d+) \* J \+ (\d+)$", LAYOUT, re.MULTILINE).groups()
    return int(times) * last + int(more)


def page_length(last: int) -> int:
    """Of a page by the definitions: so many bytes for each part."""
    line = re.search(r"^page_length J = (\d+) \* parts J$", PAGE, re.MULTILINE)[1]
    return int(line) * parts_count(last)


def places() -> dict[int, str]:
    """Every number that the definitions refuse with, and its place in the specification's words."""
    constant = re.findall(r"\) (\d+) (\d+)(?: then|$)", DEFINITIONS, re.MULTILINE)
    constant += re.findall(r"\brefused (\d+) (\d+)", DEFINITIONS)
    of_fields = re.findall(r"= fields .* (\d+) \(?\w+_at\b|then fields .* (\d+) part_at", DEFINITIONS)
    paid = re.findall(r"\) (\d+) \(paid_at ", DEFINITIONS)
    found = {int(number): place for number, place in constant}
    found |= {int(one or other): "its first byte" for one, other in of_fields}
    return found | {int(number): "the paid one's first byte" for number in paid}


def numbers_in(words: str) -> list[int]:
    return [value(text) for text in re.findall(r"[−-]?\d[\d,]*\d(?:\^\d+)?|[−-]?\d(?:\^\d+)?", words)]


def listed(text: str) -> list[int]:
    """The numbers of a text such as `1 to 10, 14, 15`."""
    runs = re.findall(r"(\d+)(?: to (\d+))?", text)
    return [number for first, last in runs for number in range(int(first), int(last or first) + 1)]


def table_of_numbers() -> dict[int, tuple[str, str]]:
    section = SPECIFICATION.split("## Refusals")[1].split("\n## ")[0]
    rows = re.findall(r"^\| (\d+) \| (.*) \| (.*) \|$", section, re.MULTILINE)
    return {int(number): (meaning, place) for number, meaning, place in rows}


class Refusals(unittest.TestCase):
    maxDiff = None

    def test_the_package_has_the_words_of_the_specification(self) -> None:
        self.assertEqual(WORDS, {number: meaning for number, (meaning, _) in table_of_numbers().items()})

    def test_numbers_and_places_are_the_definitions(self) -> None:
        self.assertEqual({number: place for number, (_, place) in table_of_numbers().items()}, places())

    def test_the_law_lists_the_numbers_of_the_table(self) -> None:
        run = r"\(\((\d+) ≤ number\) × \(number ≤ (\d+)\)\)"
        runs = re.search(rf"^pub in_table : .*\n    → .* → {run} ⊎ {run}$", LAW, re.MULTILINE).groups()
        self.assertEqual(listed("{} to {}, {} to {}".format(*runs)), [*table_of_numbers()])

    def test_16_is_not_used(self) -> None:
        self.assertRegex(SPECIFICATION, r"(?m)^\| 15 \|.*\n\| 16 \| is not used \| \|\n\| 21 \|")
        self.assertNotIn(16, {*table_of_numbers(), *places(), *WORDS})
        self.assertNotIn("Refusal(16", "".join(path.read_text() for path in (ROOT / "reference").glob("*.py")))

    def test_limits_in_the_words_are_the_definitions(self) -> None:
        for number, words in WORDS.items():
            wanted = list(range(defined(number)[0] + 1)) if number == 14 else defined(number)  # whose words name each channel
            self.assertEqual(numbers_in(words), wanted, f"{number}: {words}")

    def test_each_call_may_refuse_with_the_same_numbers(self) -> None:
        rows = re.findall(r"^\| `\w+::\w+::(\w+)` \|.*\| ([\d, to]+) \|$", SPECIFICATION, re.MULTILINE)
        wanted = {call.removesuffix("_told"): listed(numbers) for call, numbers in rows}
        comments = re.findall(r"May be refused with ((?:(?!\*/).)*)\*/\n(?:static inline )?\w+ desk_(\w+)\(", HEADER, re.DOTALL)
        self.assertEqual({call: listed(numbers) for numbers, call in comments}, wanted)
        writing = {call: f"{call}_into" for call in ("read", "page", "residues")}  # of each the method that is lent a buffer
        calls = {call: getattr(reserving_desk.Session, writing.get(call, call)) for call in wanted}
        told = {call: listed(re.search(r"Refused with (.*)\.", method.__doc__)[1]) for call, method in calls.items()}
        self.assertEqual(told, wanted)


    def test_so_do_the_comments_of_the_code(self) -> None:
        rows = re.findall(r"^\| `\w+::\w+::\w+` \| `desk_(\w+)` .*\| ([\d, to]+) \|$", SPECIFICATION, re.MULTILINE)
        function = r'(?:#\[unsafe\(no_mangle\)\]\n)?pub (?:extern "C" )?fn (?:desk_)?(\w+?)(?:_lent)?(?:<\'a>)?\('
        comments = re.findall(rf"^// (\d[^.\n]*)\..*\n{function}", CALLS, re.MULTILINE)
        rows += [(call, numbers) for call, numbers in rows if call != "row"]  # over a value; row's two calls stand in `readings`
        told = [(call, listed(numbers)) for numbers, call in comments]
        self.assertCountEqual(told, [(call, listed(numbers)) for call, numbers in rows])


class Limits(unittest.TestCase):
    def test_of_the_fields_in_the_specification(self) -> None:
        """The last column of the tables of a file and of a record, row by row."""
        file, record = (SPECIFICATION.split(name)[1].split("\n\n")[2] for name in ("## The file", "## The mean record"))
        allowed = re.findall(r"\| (1|[^|]+ to [^|]+) \|$", f"{file}\n{record}", re.MULTILINE)
        self.assertEqual([numbers_in(row) for row in allowed], [defined(number) for number in (2, 3, 5, 6, 8, 7, 9, 9, 2, 11)])

    def test_of_the_specification(self) -> None:
        rows = re.findall(r"^\| ([^|]+) \| ([^|]+) \|[^|]*\|$", SPECIFICATION.split("## Limits")[1].split("\n## ")[0], re.MULTILINE)
        told = {name: numbers_in(limit) for name, limit in rows if numbers_in(limit)}
        self.assertEqual(told, {
            "J": defined(3), "amount": defined(9), "σ², τ²": defined(6), "prior variance": defined(7),
            "prior mean, part of a mean": defined(8), "closeness": defined(5), "sweeps of an open file": defined(23),
        })

    def test_of_the_readme(self) -> None:
        said = re.search(r"^## Limits\n\n(.*?)\. The desk estimates", README, re.MULTILINE | re.DOTALL)[1]
        last, part = value("year_limit"), value("part_limit")
        doublings = part // reserving_desk.TICKS_PER_DOUBLING
        years = [2, last + 1, *defined(3)]
        self.assertEqual(numbers_in(said), years + defined(9) + defined(7) + [part, doublings] + defined(5) + defined(23))

    def test_of_what_is_guaranteed(self) -> None:
        ticks = re.search(r"a doubling has ([\d,]+)\.", README)[1]
        self.assertEqual({value(ticks), reserving_desk.TICKS_PER_DOUBLING}, {value("ticks_per_doubling")})
        room = re.search(r"^ +pub room : (\d+) ≤ e$", DEFINITIONS, re.MULTILINE)[1]
        for text in (README, SPECIFICATION):
            self.assertEqual(re.findall(r"with e ≥ (\d+),", text), [room])
            self.assertEqual(re.findall(r"Use (?:closeness )?(\d+)\b", text), [room])

    def test_of_the_reference(self) -> None:
        for number, limits in (
            (1, (layout.HEAD_LENGTH, layout.RECORD_HEAD_LENGTH)), (2, (layout.VERSION,)), (3, (1, layout.LARGEST_YEAR)),
            (5, layout.CLOSENESS_LIMITS), (6, layout.VARIANCE_LIMITS), (7, (layout.FLAT, *layout.PRIOR_VARIANCE_LIMITS)),
            (8, layout.MEAN_LIMITS), (9, layout.AMOUNT_LIMITS), (11, layout.MEAN_LIMITS), (12, (1, session.MOST_SWEEPS)),
            (14, (layout.INCURRED,)),
        ):
            self.assertEqual(list(limits), defined(number), number)

    def test_of_a_page(self) -> None:
        last = value("year_limit")
        for j in range(1, last + 1):
            self.assertEqual([page.page_length(j), package_layout.page_length(j)], [page_length(j)] * 2)
        line = page_length(0)  # which would be one
        said = f"A line has {line} bytes, a page has {line}(2J+1) bytes, and the longest, J = {last}, has {page_length(last)} "
        self.assertIn(said, " ".join(SPECIFICATION.split()))
        self.assertIn(f"/* a page has {line}(2J+1) bytes */", HEADER)

    def test_of_residues(self) -> None:
        """8 bytes for each part."""
        for j in range(1, value("year_limit") + 1):
            self.assertEqual(package_layout.residues_length(j), 8 * parts_count(j))
        self.assertIn("/* the residues of a mean have 8(2J+1) bytes */", HEADER)

    def test_of_the_package(self) -> None:
        self.assertEqual([package_layout.VERSION], defined(2))
        self.assertEqual([1, package_layout.LARGEST_YEAR], defined(3))
        self.assertEqual([reserving_desk.MOST_SWEEPS], defined(23))
        self.assertEqual((reserving_desk.PAID, reserving_desk.INCURRED), (layout.PAID, layout.INCURRED))
        self.assertEqual(package_layout.LONGEST_FILE, layout.LONGEST_FILE)
        self.assertEqual(package_layout.LONGEST_RECORD, layout.record_length(layout.LARGEST_YEAR))
        self.assertEqual(package_layout.LONGEST_PAGE, page_length(layout.LARGEST_YEAR))
        self.assertEqual(package_layout.LONGEST_RESIDUES, 8 * parts_count(layout.LARGEST_YEAR))

    def test_of_the_header(self) -> None:
        macros = dict(re.findall(r"^#define (DESK_\w+) (.+?)(?:\s+/\*.*)?$", HEADER, re.MULTILINE))
        self.assertEqual(macros.pop("DESK_EMPTY"), "{" + ", ".join(["{0}"] * 9) + "}")
        self.assertEqual(macros.pop("DESK_EMPTY_SESSION"), "((desk_session)DESK_EMPTY)")
        version = ".".join(macros.pop(f"DESK_VERSION_{part}") for part in ("MAJOR", "MINOR", "PATCH"))
        self.assertEqual(macros.pop("DESK_VERSION"), f'"{version}"')
        numbers = {name: int(re.fullmatch(r"(?:UINT64_C\()?(\d+)[u)]?", text)[1]) for name, text in macros.items()}
        self.assertEqual(numbers, {
            "DESK_PAID": layout.PAID,
            "DESK_INCURRED": layout.INCURRED,
            "DESK_MOST_SWEEPS": value("sweep_limit"),
            "DESK_LONGEST_FILE": layout.LONGEST_FILE,
            "DESK_LONGEST_RECORD": layout.record_length(layout.LARGEST_YEAR),
            "DESK_LONGEST_PAGE": page_length(layout.LARGEST_YEAR),
            "DESK_LONGEST_RESIDUES": 8 * parts_count(layout.LARGEST_YEAR),
        })


if __name__ == "__main__":
    unittest.main()

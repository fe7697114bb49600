"""Symbols mean what a reader takes them to mean, in what must be believed and in what is pinned: each operator and each name of the kit is
the kit's, each name of a definition or of a sum is that one's, and no text hides in a comment or in a string.

A file has such a name by a `use` line that says it, from the one module that it is of. The kit then refuses a declaration of that name, and
an operator without a fixity. What would bring a name unsaid is refused here, and so are fields and variables of that name.
"""

import re
import unittest
from collections.abc import Iterator

from believed import reached
from declared import ROOT, antt_file, antt_files, files, is_kit, text_of
from test_promises import PINNED
from unused import without_comments

# Each operator, in code, specs and proofs alike.
OF_THE_KIT = set(
    "◌+◌ ◌-◌ ◌*◌ ◌/◌ ◌%◌ ◌^◌ ◌≤◌ ◌<◌ ◌≡◌ ◌∙◌ ◌≢◌ ◌⊎◌ ◌↔◌ ◌&&◌ ◌||◌ ◌∷◌ ◌++◌ ◌+ℤ◌ ◌-ℤ◌ ◌*ℤ◌ ◌≤ℤ◌ ◌<ℤ◌ ◌$◌ ◌∵◌ ◌⊛◌".split()
)
OF_THE_CRATES = {
    "definitions/Refusals": "◌then◌",
    "laws/Numbers": "◌and_then◌",
    "holding/Decided": "◌and◌",
    "integers/Solver": "◌⊞◌ ◌⊟◌ ◌⊠◌ ◌≐◌ ⊖◌",
}

# Modules of the kit that hand on one another's names as they are, so that a name means the same from each of them.
HANDING_ON = re.compile(
    r"Rattle\.std\.(specs\.Prelude|proofs\.(Common|Math\.(Bool|Dec|IntN|ListN|Numerals|Path|Seq)|lemmas\.Bool))|Prim\.Native\.Nat"
    r"|mathlib\.Core\.(Bool|List|Logic|Path)|native\.Mathlib\.Omega|lib\.(IntN|Signed)|mir\.Val|borrow\.Author\.Tests"
)

# Fields and variables that have a name of the kit or of a definition, and pins.
LOCAL = {
    "chain/Arrays": "closeness own matrix right_hand_side figures_of mean_of",
    "definitions/Matrix": "closeness",
    "definitions/Page": "own weight",
    "definitions/Strikes": "paid incurred",
    "definitions/Text": "columns",
    "desk/Calls": "own",
    "desk/Pinned": "own",
    "desk/PinnedStrikes": "paid incurred",
    "holding/State": "closeness own",
    "laws/Pinned": "listed machine sweeps",
    "laws/PinnedPage": "weight",
    "showing/Shows": "shown own matrix",
    "telling/Pinned": "length closeness own matrix part",
    "telling/Told": "length closeness shown own matrix part",
}

# A constructor that has the name of a definition, and its file: a file's import says which of the two it has.
TWICE = {"step": "definitions/Strikes"}

# What the joint table speaks of: names that no other file has, and which elsewhere are variables.
EXAMPLES, TABLE = "definitions/Examples", "definitions/JointTable"

# Where `total` is that of the sweeps, and no sum.
OF_SWEEPS = set(
    "definitions/Machine definitions/Programs definitions/Sweep desk/Calls holding/Pinned holding/State judging/Judges laws/Number16 "
    "session/Pinned session/Value showing/Shows sweeping/Sweeps telling/Pinned telling/Told writing/Writes".split()
)

# Files that have strings.
OF_TEXTS = {"definitions/JointTable", "definitions/Programs", "definitions/Text", "laws/PinnedPage"}

# The kit's names for an option. Here `some` is a field, and `none` what C is told where nothing is refused. `Option` is that of its logic
# in what is believed, and of the code elsewhere, where no definition has it.
OF_AN_OPTION = {"some", "none", "Option"}

# Of the kit, which a clause may have in place of a variable.
CONSTRUCTORS = {"[]", "zero", "suc", "pos", "negsuc", "true", "false", "inl", "inr", "Ok", "Err"}

# What is believed of `integers`, and the file of laws that hands it on.
SUMS, HANDED_ON = "integers/Summation", "integers/Sum"

# Besides its own module: what arrays stand for, and a struct of the source, may have the name of a definition too.
ALSO_MEANT = r"Rattle\.(chain\.specs\.Arrays|\w+\.specs\.declared\..*)"


def local_to(name: str) -> set[str]:
    file = file_at(name)
    return {*LOCAL.get(file, "").split(), *(["total"] if file in OF_SWEEPS else [])}


def constructors_of(name: str) -> set[str]:
    """Those of TWICE that a file has, as it declares or imports them."""
    brought = dict(imported(name))
    return {word for word, file in TWICE.items() if file == file_at(name) or brought.get(word) == module_of(file)}


def module_of(file: str) -> str:
    """As imports write it: `Rattle.laws.specs.Pinned`."""
    return "Rattle." + antt_file(file).removeprefix("crates/").removesuffix(".antt").replace("/", ".")


def file_at(path: str) -> str:
    return re.sub(r"^crates/(\w+)/(?:specs|proofs)/(\w+)\.antt$", r"\1/\2", path)


def said() -> list[str]:
    """The files that are to be read: what the contracts rest on, the pins, and the joint table with its examples."""
    return sorted({*reached()[0], *(path for file in (*PINNED, EXAMPLES, TABLE) for path in antt_files(file))})


def sources(ending: str) -> list[str]:
    return [name for name in files() if name.startswith("crates/") and name.endswith(ending)]


def imported(name: str) -> Iterator[tuple[str, str]]:
    """Each name that a file imports, as it stands between the braces, and the module."""
    for module, names in re.findall(r"^ *(?:pub |ghost )*use (\S+?)\.\{([^}]*)\}", text_of(name), re.MULTILINE):
        yield from ((part.strip(), module) for part in names.split(","))


def is_operator(name: str) -> bool:
    return "◌" in name


def text_behind_imports(name: str) -> str:
    return re.sub(r"^ *use .*$", "", without_comments(ROOT / name), flags=re.MULTILINE)


def words_of(name: str) -> set[str]:
    """The words of a file of antt, without fields of a value and what is said to be of a module or a type."""
    text = re.sub(r"λ ([^.]*)\.", r"λ \1 ", text_behind_imports(name))
    for module in re.findall(r"^ *use \S+ as (\w+)$", text_of(name), re.MULTILINE):
        text = re.sub(rf"\b{module}\.[^\s(){{}},;.]+", " ", text)
    return set(re.split(r"[\s(){},;.«»]+", re.sub(r"(?<=[^\s(])\.[^\s(){},;.]+", " ", text)))


def bound_in(name: str) -> set[str]:
    """What is declared, fields and variables: the words in front of a colon, those behind `let` and λ, and those of a clause."""
    text, word = text_behind_imports(name), r"[^\s(){},;.:=«»]+"
    groups = re.findall(rf"((?:{word}[ \t»]+)*{word})»?\s*(?:\{{[^{{}}]*\}}\s*)*:(?=\s)", text)
    groups += re.findall(r"(?<![^\s(])(?:let|λ)\s([^.=:]*)", text)
    groups += re.findall(rf"^ *{word}([^=:{{\n]*) =(?=\s)", text, re.MULTILINE)
    return {bound for group in groups for bound in re.split(r"[\s(){},;«»]+", group)} - CONSTRUCTORS


def names_of_the_kit() -> dict[str, set[str]]:
    """Each name that the specs and the contracts import from the kit, with the modules that it comes from."""
    found: dict[str, set[str]] = {}
    for name in sources(".antt") + sources(".rt"):
        for word, module in imported(name):
            if "/proofs/" not in name and is_kit(module) and word not in OF_AN_OPTION:
                found.setdefault(word, set()).add(module)
    return found


def names_of_definitions() -> list[tuple[str, str]]:
    """Each name that `definitions` and the sums declare, but for the examples, and the file of its module."""
    declared = r"^ *(?:(?:abbrev|unfoldable) pub|pub (?:record|data)) ([^\s{]+)"
    paths = [path for path in sources(".antt") if path.startswith("crates/definitions/specs/") or path == antt_file(SUMS)]
    paths.remove(antt_file(EXAMPLES))
    return [(word, path) for path in paths for word in re.findall(declared, text_of(path), re.MULTILINE)]


class Symbols(unittest.TestCase):
    def test_no_blocks_of_comments(self) -> None:
        """What is compared to the letter could stand in one. Nor is a comment taken for one that is a part of a name."""
        for ending, begin in ((".antt", "{-"), (".rt", "/*")):
            self.assertEqual([name for name in sources(ending) if begin in text_of(name)], [])
        self.assertEqual([name for name in said() if re.search(r"(?<=[^\s-])--", text_of(name))], [])

    def test_no_strings(self) -> None:
        """But where a text is printed: what is compared to the letter could stand in one, and so could two dashes."""
        self.assertEqual({file_at(name) for name in said() if '"' in without_comments(ROOT / name)}, OF_TEXTS)

    def test_operators(self) -> None:
        own = {operator: file for file, operators in OF_THE_CRATES.items() for operator in operators.split()}
        for name in sources(".antt") + sources(".rt"):
            for operator, module in filter(lambda pair: is_operator(pair[0]), imported(name)):
                if operator in OF_THE_KIT:
                    self.assertTrue(HANDING_ON.fullmatch(module), f"{name}: {operator} of {module}")
                else:
                    self.assertIn(operator, own, name)
                    self.assertEqual(module, module_of(own[operator]), f"{name}: {operator}")
        for name in sources(".antt"):
            fixities = re.findall(r"^\s*infix[lr]? +\d+ (.*)", text_of(name), re.MULTILINE)
            operators = {operator for line in fixities for operator in line.split()}
            declared = {operator for operator in own if own[operator] == file_at(name) and name == antt_file(own[operator])}
            self.assertEqual(operators, declared, name)

    def test_every_name_is_brought_by_a_line_that_says_it(self) -> None:
        for name in said():
            text = without_comments(ROOT / name)
            self.assertNotRegex(text, r"(?<![^\s(])open\s|(?m:^ *(?:pub )?mod )|(?m:infix(?![lr]? +\d+ ))", name)
            for line in re.findall(r"^.*(?<![^\s])use\s.*$", text, re.MULTILINE):
                self.assertRegex(line, r"^use [^\s{}*]+(\.\{[^{}]*\}| as \w+)$", name)
                self.assertNotRegex(line, r"[{ ]\*[,}]", name)

    def test_names_of_the_kit(self) -> None:
        modules = names_of_the_kit()
        several = {word: found for word, found in modules.items() if len(found) > 1}
        self.assertEqual({word: found for word, found in several.items() if not all(map(HANDING_ON.fullmatch, found))}, {})
        signs = {word.strip("◌"): word for word in modules}
        for name in said():
            brought = dict(imported(name))
            local = local_to(name)
            for word in words_of(name) & signs.keys() - local:
                module = brought.get(signs[word], "")
                handed_on = all(map(HANDING_ON.fullmatch, {module, *modules[signs[word]]}))
                self.assertTrue(handed_on or module in modules[signs[word]], f"{name}: {word} of {module}")
            self.assertLessEqual(bound_in(name) & modules.keys(), local, name)

    def test_names_of_the_definitions(self) -> None:
        definitions = dict(names_of_definitions())
        self.assertEqual(len(definitions), len(names_of_definitions()))
        for name in said():
            brought = dict(imported(name))
            local = local_to(name) | {word for word in definitions if definitions[word] == name} | constructors_of(name)
            self.assertLessEqual(bound_in(name) & definitions.keys(), local, name)
            for word in words_of(name) & definitions.keys() - local:
                files = {SUMS, HANDED_ON} if file_at(definitions[word]) == SUMS else {file_at(definitions[word])}
                modules = "|".join(re.escape(module_of(file)) for file in files)
                self.assertRegex(brought.get(word, ""), rf"^({modules}|{ALSO_MEANT})$", f"{name}: {word}")

    def test_examples_are_the_joint_table_s(self) -> None:
        module = re.compile(r"^ *(?:pub |ghost |unfoldable )*use Rattle\.definitions\.specs\.Examples\b", re.MULTILINE)
        users = [name for name in sources(".antt") + sources(".rt") if module.search(text_of(name))]
        self.assertEqual(users, [antt_file(TABLE)])

    def test_sums_are_handed_on_as_they_are(self) -> None:
        self.assertIn("unfoldable pub use Rattle.integers.specs.Summation.{sum, total}\n", text_of(antt_file(HANDED_ON)))


if __name__ == "__main__":
    unittest.main()

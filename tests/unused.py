"""What nothing uses: imports, and what the crates define, in Rattle and in antt.

Exempt is what is used from outside: an exported function, `main`, an answer to a goal of a function's proof (`goal.NAME`) or its theorem
where a proof has one (`NAME-spec`), whatever the documents name between backticks, each field of a record that a contract or the documents
name, being a promise, examples (under a heading `examples`, or of the name `example`), and what a file `Pinned` draws from statements that
could else be weakened.

Names are compared word by word and without types, so that a name may be missed which stands somewhere else for something else.
"""

import re
import sys
from dataclasses import dataclass, field
from functools import cached_property
from pathlib import Path

ROOT = Path(__file__).resolve().parent.parent
CRATES = ROOT / "crates"
DOCUMENTS = [ROOT / "README.md", *sorted((ROOT / "docs").glob("*.md"))]
ANTT, RATTLE = re.compile(r"[\s(){},;.«»]+"), re.compile(r"[\s(){}\[\],;.:«»&!]+")
IMPORT = re.compile(r"^(?:ghost )?use ([^;{\n]+?)(?:\.?\{([^}]*)\})?(?: as (\S+?))?;?[ ]*$", re.MULTILINE)
NAME = r"([^\s(){},;.:=]+)"
SIGNATURE = re.compile(rf"( *)((?:abbrev |unfoldable |pub |ruleset )*)(?!let |use |mod |module |record |data ){NAME} (?::|=)(?=\s)")
TYPE = re.compile(r"( *)(?:pub )?(record|data) ([^\s{]+)")
MEMBER = re.compile(rf" +(?:pub )?{NAME} :(?=\s)")
ITEM = re.compile(r" *(?:pub )?(?:fn|const|struct|enum) (\w+)")
TRAIT = re.compile(r"impl.* for .*\{$")  # its methods are called by what takes the trait, as `from` by `?`
GOAL = re.compile(r" *(?:abbrev |pub )*\S+ : goal\.")
VARIANT = re.compile(r"    ([A-Z]\w*)(?:\(.*\))?,$")


def depth(line: str) -> int:
    return len(line) - len(line.lstrip())


@dataclass
class Defined:
    name: str
    own: range  # its own lines, where a mention is no use
    record: str = ""  # the record that it is a field of


@dataclass
class Source:
    path: Path
    text: str = field(repr=False)  # without comments

    @property
    def antt(self) -> bool:
        return self.path.suffix == ".antt"

    @cached_property
    def lines(self) -> list[str]:
        return self.text.split("\n")

    @cached_property
    def imports(self) -> list[tuple[str, str, str, int]]:
        """Module, name there, name here, line. A module that is imported itself has no name there."""
        found = []
        for match in IMPORT.finditer(self.text):
            line = self.text.count("\n", 0, match.start()) + 1
            if match[2] is None:
                found.append((match[1], "", match[3] or re.split(r"::|\.", match[1])[-1], line))
            else:
                for name in filter(None, (part.strip() for part in match[2].split(","))):
                    there, _, here = name.partition(" as ")
                    found.append((match[1], there, here or there, line))
        return found

    @cached_property
    def words(self) -> dict[str, list[int]]:
        """Every word with the lines that it stands in; imports, fixities and declared modules do not count."""
        found: dict[str, list[int]] = {}
        text = IMPORT.sub(lambda match: "\n" * match.group().count("\n"), self.text)
        for number, line in enumerate(text.split("\n")):
            if not re.match(r" *(?:infix|(?:pub )?mod )", line):
                for word in ANTT.split(line) if self.antt else [*RATTLE.split(line), *re.findall(r"\w+", line)]:
                    found.setdefault(word, []).append(number)
        return found

    @cached_property
    def behind_paths(self) -> set[str]:
        """In Rattle, what is named by its path, in imports too, and the methods that are called."""
        called = re.findall(r"(?:::|\.)(\w+)", self.text)
        return set() if self.antt else {*called, *(there for _, there, _, _ in self.imports)}

    @cached_property
    def projected(self) -> set[str]:
        return set(re.findall(r"(?<=[^\s(])\.«?([^\s(){},;.»]+)", self.text))

    def mentions(self, name: str, own: range = range(0)) -> bool:
        """Whether a name is used outside its own lines. Of an operator `◌+◌` its sign counts too."""
        signs = [sign for sign in name.split("◌") if sign] if "◌" in name else []
        used = {word for word in (name, *signs) if any(line not in own for line in self.words.get(word, []))}
        return name in used or bool(signs) and used.issuperset(signs)

    def calls_by_trait(self, name: str) -> bool:
        """Whether a method is called that begins as the trait is named, as `read_exact` of `Read`: the import makes it known."""
        called = re.search(rf"\.{name.lower()}(?:_\w+)?\(", self.text)
        return not self.antt and name[:1].isupper() and called is not None


def without_comments(path: Path) -> str:
    mark = "//" if path.suffix == ".rt" else "--"
    return re.sub(rf"(?m)(?:(?<=\s)|^){mark}.*$", "", path.read_text())


def behind(lines: list[str], start: int) -> int:
    """The first line behind a definition: it starts something else, no deeper than this one."""
    for number in range(start + 1, len(lines)):
        line = lines[number]
        starts = SIGNATURE.match(line) or TYPE.match(line) or line.lstrip().startswith("module ")
        if starts and depth(line) <= depth(lines[start]) and not same_name(lines[start], line):
            return number
    return len(lines)


def same_name(signature: str, clause: str) -> bool:
    """Whether a line `f = ..` defines what the signature `f : ..` announced."""
    first, second = SIGNATURE.match(signature), SIGNATURE.match(clause)
    return bool(first and second and first[3] == second[3])


def examples(path: Path) -> set[int]:
    """The lines under a heading `-- ---- examples`."""
    found, inside = set(), False
    for number, line in enumerate(path.read_text().split("\n")):
        inside = "examples" in line if line.startswith("-- ----") else inside
        found |= {number} if inside else set()
    return found


def defined_in_antt(source: Source) -> list[Defined]:
    found, lines, owner = [], source.lines, None
    for number, line in enumerate(lines):
        if owner and line.strip() and depth(line) <= depth(lines[owner[0]]):
            owner = None
        if match := TYPE.match(line):
            owner = (number, match[3] if match[2] == "record" else "")
            found.append(Defined(match[3], range(number, behind(lines, number))))
        elif owner and (match := MEMBER.match(line)):
            found.append(Defined(match[1], range(number, number + 1), owner[1]))
        elif not owner and (match := SIGNATURE.match(line)) and (" :" in line or "ruleset" in match[2]):
            found.append(Defined(match[3], range(number, behind(lines, number))))
    shown = examples(source.path)
    return [item for item in found if item.own.start not in shown and item.name != "example"]


def defined_in_rattle(source: Source) -> list[Defined]:
    found, exported, of_trait = [], False, False
    for number, line in enumerate(source.lines):
        of_trait = bool(TRAIT.match(line)) or of_trait and line != "}"
        if match := ITEM.match(line):
            if not exported and not of_trait and match[1] != "main":
                found.append(Defined(match[1], range(number, number + 1)))
        elif match := VARIANT.match(line):
            found.append(Defined(match[1], range(number, number + 1)))
        exported = "no_mangle" in line or exported and not line.strip()
    return found


def file_of(module: str) -> str:
    """The file of an antt module of this repository, below crates/; of another module nothing."""
    named = re.match(r"Rattle\.(\w+)\.((?:specs|proofs)\..+)$", module)
    return f"{named[1]}/{named[2].replace('.', '/')}.antt" if named else ""


class Repository:
    def __init__(self) -> None:
        found = (path for folder in ("src", "specs", "proofs") for path in CRATES.glob(f"*/{folder}/**/*"))
        paths = sorted(path for path in found if path.suffix in (".rt", ".antt"))
        self.sources = [Source(path, without_comments(path)) for path in paths]
        told = " ".join(" ".join(re.findall(r"`([^`\n]+)`", path.read_text())) for path in DOCUMENTS)
        self.named = {word for breaks in (ANTT, RATTLE) for part in told.split("/") for word in breaks.split(part)}
        self.promises = self.named | {word for source in self.sources if not source.antt for word in source.words}
        self.projected = set().union(*(source.projected for source in self.sources))
        self.importers: dict[tuple[str, str], list[Source]] = {}
        for source in self.sources:
            for module, there, here, _ in source.imports:
                if source.mentions(here):
                    self.importers.setdefault((file_of(module), there), []).append(source)

    def used(self, source: Source, item: Defined) -> bool:
        if item.name in self.named or source.path.name == "Pinned.antt" or source.antt and GOAL.match(source.lines[item.own.start]):
            return True
        if source.path.name == "Proof.antt" and item.name.endswith("-spec"):
            return True
        if item.record:  # an equation or a bound is read by `omega` and `cc` without its name
            read = re.search("[≡≤<]", source.lines[item.own.start])
            opened = source.mentions(item.name, item.own)
            return item.record in self.promises or item.name in self.projected or opened or bool(read)
        if source.mentions(item.name, item.own):
            return True
        if not source.antt:
            return any(item.name in other.behind_paths for other in self.sources if other is not source)
        home = str(source.path.relative_to(CRATES))
        whole = self.importers.get((home, ""), [])
        return bool(self.importers.get((home, item.name))) or any(other.mentions(item.name) for other in whole)

    def complaints(self) -> list[str]:
        told = []
        for source in self.sources:
            place = source.path.relative_to(ROOT)
            unused = [(here, line) for _, _, here, line in source.imports if not (source.mentions(here) or source.calls_by_trait(here))]
            told += [f"{place}:{line}: the import {here}" for here, line in unused]
            items = defined_in_antt(source) if source.antt else defined_in_rattle(source)
            told += [f"{place}:{item.own.start + 1}: {item.name}" for item in items if not self.used(source, item)]
        return told


def main() -> int:
    told = Repository().complaints()
    for line in told:
        print(f"nothing uses {line}")
    return 1 if told else 0


if __name__ == "__main__":
    sys.exit(main())

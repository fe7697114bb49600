"""What the documents name is there: every code span, command, link and path.

A span is a file or folder, a crate, a path of Rattle (`crate::module::item`, in that very file), a name of antt, an edit, a
command, a name of the header, of the package or of the kit, or a line that a program prints. Where its row or sentence has named
a file or a crate before, or says `name` of `file`, it must be there. What resolves as none of these is told, and so is an
exception that nothing uses. Besides: the README's map has every crate and folder, and its samples are the listing's and the page's.
"""

import re
import sys
from collections.abc import Iterator
from os.path import normpath

from commands import complaint_of_command, is_command
from declared import c_names, crates, files, folders, letters, made_by_build, text_of
from resolving import Named, Span, among, owner, resolved

DOCUMENTS = (
    "README.md", "CONTRIBUTING.md", "CHANGELOG.md", "python/README.md",
    *(f"docs/{name}.md" for name in ("SPECIFICATION", "CELLS", "CLAIMS", "DECISIONS", "CALLS", "PERFORMANCE")),
)

# What a document may show and the repository cannot have.
EXCEPTIONS = {
    "N passed, 0 failed": "the last line of the kit's gate",
    "requires": "a word of Rattle",
    "file:": "a line of an edit",
    "old:": "a line of an edit",
    "new:": "a line of an edit",
    "ValueError": "an exception of Python",
    "wheel": "a package of Python",
    "perf": "a tool of the machine",
    "rustc -O": "a tool of the machine",
    "python3-numpy": "a package of Debian",
    "numpy.linalg.solve": "a function of numpy",
    "rep stos": "an instruction of the processor",
}


# Reading a document.


def blocks(text: str) -> Iterator[tuple[int, str, bool]]:
    """Paragraphs, items of lists, rows of tables and blocks of code: first line, text, and whether it is code."""
    gathered: list[str] = []
    first, is_code, after_blank = 1, False, True
    for number, line in enumerate([*text.splitlines(), "#"], start=1):
        is_blank = not line.strip()
        code = line.startswith("    ") and (is_code or after_blank) or is_blank and is_code
        begins = code != is_code or not code and re.match(r"\s*(?:$|\||[-*] |\d+\. |#)", line)
        if begins and gathered:
            yield first, "\n".join(gathered).rstrip(), is_code
            gathered = []
        if gathered or not is_blank:
            first = first if gathered else number
            gathered.append(line)
        is_code, after_blank = code, is_blank


def sentences(first: int, block: str) -> Iterator[list[Span]]:
    """The spans of a block: those of a table's row together, of a text sentence by sentence."""
    is_row = block.lstrip().startswith("|")
    ends = [] if is_row else [found.end() for found in re.finditer(r"[.!?](?=\s+[A-Z*`(])", block)]
    for start, end in zip([0, *ends], [*ends, len(block)]):
        yield spans(first + block[:start].count("\n"), block[start:end])


def spans(first: int, text: str) -> list[Span]:
    found = list(re.finditer(r"`([^`]+)`", text))
    ends = [match.start() for match in found[1:]] + [len(text)]
    lines = [first + text[:match.start()].count("\n") for match in found]
    return [Span(line, " ".join(match[1].split()), text[match.end():end]) for line, match, end in zip(lines, found, ends)]


# What is not there.


def complaints_of(document: str) -> Iterator[str]:
    for first, block, is_code in blocks(text_of(document)):
        found = of_code(first, block) if is_code else of_text(document, first, block)
        yield from (f"{document}:{line}: {said}" for line, said in found)


def of_code(first: int, block: str) -> Iterator[tuple[int, str]]:
    """A block is of commands, or C with names of the header, or a listing or page of the sample or of file F, or an example of the package.

    tests/snippets.py runs those of the README, and the reference's tests compare the listing and the page of F.
    """
    lines = [(number, line.strip()) for number, line in enumerate(block.splitlines(), start=first)]
    if is_command(lines[0][1]):
        made = re.findall(r" -o (\S+)$", block, re.MULTILINE)  # by one command for the next
        asked = [(number, line) for number, line in lines if line.split(" ")[0] not in made]
        found = ((number, complaint_of_command(line) if is_command(line) else f"{line}: no command") for number, line in asked)
        yield from ((number, said) for number, said in found if said)
    elif lines[0][1].startswith("desk_"):
        names = [(number, name) for number, line in lines for name in re.findall(r"\b(?:desk|DESK)_\w+", line)]
        yield from ((number, f"the header has no {name}") for number, name in names if name not in c_names())
    elif not lines[0][1].startswith(("J 9", "J 1", "phi  0 ")) and not is_example(block):
        yield first, f"{lines[0][1]}: code that nothing tries"


def is_example(block: str) -> bool:
    """Of the package: python/tests runs it, and compares what it prints with its comments."""
    return bool(re.search(r"^ +from reserving_desk import", block, re.MULTILINE))


def of_text(document: str, first: int, block: str) -> Iterator[tuple[int, str]]:
    yield from of_paths(document, first, block)
    for sentence in sentences(first, block):
        named = Named()
        for place, span in enumerate(sentence):
            if span.text in EXCEPTIONS:
                continue
            if is_command(span.text):
                said = complaint_of_command(span.text)
                yield from [(span.line, said)] if said else []
                continue
            holder = owner(sentence[place:], named)
            after = among(span.text, holder) if holder else resolved(span.text, named)
            if after is None:
                yield span.line, f"`{span.text}` names nothing, or more than one thing, in {holder or named}"
            named = named if holder or after is None else after


def of_paths(document: str, first: int, block: str) -> Iterator[tuple[int, str]]:
    """Links, from the document's folder on, and paths outside of code spans, from the root on."""
    plain = re.sub(r"`[^`]+`", lambda found: " " * len(found[0]), block)
    folder = document.rpartition("/")[0]
    links = [(match, normpath(f"{folder}/{match[1]}".lstrip("/"))) for match in re.finditer(r"\]\(([^)#]+)\)", plain)]
    words = re.finditer(r"(?<![\w/(\[])(?:[\w-]+/)+[\w-]+\.(?:md|py|rt|antt|h|c|so|a|file)\b", plain)
    for match, name in [*links, *((match, match[0]) for match in words)]:
        if name not in files() and name not in made_by_build():
            yield first + plain[:match.start()].count("\n"), f"no file {name}"


def unused_exceptions() -> Iterator[str]:
    shown = {span.text for name in DOCUMENTS for first, block, _ in blocks(text_of(name)) for span in spans(first, block)}
    yield from (f"tests/documents.py: the exception `{text}` is used by no document" for text in EXCEPTIONS.keys() - shown)


# What the documents must have.


def of_the_map() -> Iterator[str]:
    """The README's map has every crate, each below those that it uses, and every folder."""
    listed = re.findall(r"`([^`]+)`", "".join(re.findall(r"^\| (`.*?) \|", text_of("README.md").split("## Map")[1], re.MULTILINE)))
    wanted = [f"crates/{crate}" for crate in crates()]
    wanted += sorted(name for name in folders() if "/" not in name and not name.startswith(".") and name != "crates")
    yield from (f"README.md: the map has no {name}" for name in wanted if name not in listed)
    for crate, needed in crates().items():
        above = listed[:listed.index(f"crates/{crate}")] if f"crates/{crate}" in listed else listed
        below = [name for name in needed if f"crates/{name}" not in above]
        yield from (f"README.md: the map has crates/{crate} above crates/{name}, which it uses" for name in below)


def of_the_sample() -> Iterator[str]:
    """What the README shows of the sample's listing and of its page is in them, line by line in that order."""
    shown = [block.strip() for _, block, is_code in blocks(text_of("README.md")) if is_code]
    for begins, text in (("J 9", "listing"), ("phi  0 ", "page")):
        rest = text_of(f"samples/tables-10-11.{text}").splitlines()
        lines = [line.strip() for block in shown if block.startswith(begins) for line in block.splitlines()]
        if not lines:
            yield f"README.md: nothing of the sample's {text} is shown"
        for line in lines:
            if line != "..." and line not in rest:
                yield f"README.md: the sample's {text} has no {line!r} there"
            rest = rest[rest.index(line) + 1:] if line in rest else rest


def of_the_letters() -> Iterator[str]:
    """docs/CALLS.md has every letter that the reference takes, and the program takes the same."""
    listed = set(re.findall(r"^\| `(\w)` \|", text_of("docs/CALLS.md"), re.MULTILINE))
    taken = set(re.findall(r"b'(\w)' (?:=>|\|)", text_of("crates/calls/src/call.rt")))
    for name, found in (("docs/CALLS.md", listed), ("crates/calls", taken)):
        if found != letters():
            yield f"{name}: the calls are {sorted(letters())}, and not {sorted(found)}"


def main() -> int:
    found = [said for name in DOCUMENTS for said in complaints_of(name)]
    found += [*unused_exceptions(), *of_the_map(), *of_the_sample(), *of_the_letters()]
    for said in found:
        print(said)
    count = sum(len(spans(first, block)) for name in DOCUMENTS for first, block, _ in blocks(text_of(name)))
    print(f"the documents: {count} names, {len(found)} that are not there")
    return 1 if found or not count else 0


if __name__ == "__main__":
    sys.exit(main())

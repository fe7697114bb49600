"""What must be believed to read the contracts at the border is what docs/CLAIMS.md lists, and no more.

The border is every function that can be called from outside: the calls of the specification's table, the public functions of the session
and of the crates whose calls it passes on, the methods of the types that it passes on, what C calls, and `list` and `board`, which make
what the programs print. From the names in their contracts the imports are followed, module by module. Every module of this
repository that is reached, and every source that such a contract stands in, must be in that list, whose folders stand for all that is in
them, and every entry of the list must be reached. Types that Rattle declares are in its sources, and the rest is the kit's.

    python3 tests/believed.py --print

shows each module that is reached, and how.
"""

import argparse
import re
import sys
from collections.abc import Iterator

from declared import crates, files, files_of, folders, is_kit, module_file, text_of
from documents import blocks, sentences
from resolving import Named, resolved

SESSION = "session"
PUBLIC_FUNCTION = r'^ *pub (?:extern "C" )?fn (\w+)'
PASSED_ON = r"^pub use ((?:\w+::)+)(\w+|\{[\w,\s]+\});$"
PROGRAMS = [("crates/listing/src/main.rt", "list"), ("crates/board_page/src/main.rt", "board")]
DOCUMENT = "docs/CLAIMS.md"
LIST = "## What must be believed besides"

WORDS_OF_CONTRACTS = {"requires", "ensures", "result", "record", "λ", "×", "→"}  # which no import gives

Function = tuple[str, str]  # the file and the name


# The contracts at the border.


def public_files(crate: str) -> list[str]:
    """The files of a crate's public modules, of those inside others too."""
    found, waiting = [], [f"crates/{crate}/src/lib.rt"]
    while waiting:
        path = waiting.pop(0)
        found.append(path)
        folder = path.removesuffix("/lib.rt").removesuffix("/mod.rt").removesuffix(".rt")
        for module in re.findall(r"^ *pub mod (\w+);", text_of(path), re.MULTILINE):
            waiting += [name for name in (f"{folder}/{module}.rt", f"{folder}/{module}/mod.rt") if name in files()]
    return found


def passed_on(path: str) -> list[tuple[list[str], str]]:
    """What a file passes on of other crates: the module and the name of each item."""
    found = re.findall(PASSED_ON, text_of(path), re.MULTILINE)
    return [(module.split("::")[:-1], name) for module, names in found for name in re.findall(r"\w+", names)]


def border_crates() -> list[str]:
    """The session, and every crate of which one of these passes on a function."""
    found = [SESSION]
    for crate in found:
        functions = (module[0] for path in public_files(crate) for module, name in passed_on(path) if name[0].islower())
        found += [other for other in dict.fromkeys(functions) if other in crates() and other not in found]
    return found


def methods_passed_on() -> Iterator[Function]:
    """The public methods of the types that are passed on."""
    for path in (path for crate in border_crates() for path in public_files(crate)):
        for module, name in passed_on(path):
            home = module_file(module) if module[0] in crates() and name[0].isupper() else None
            blocks_of = re.findall(rf"^impl {name} \{{\n(.*?)^\}}", text_of(home), re.MULTILINE | re.DOTALL) if home else []
            yield from ((home, method) for block in blocks_of for method in re.findall(PUBLIC_FUNCTION, block, re.MULTILINE))


def border() -> list[Function]:
    table = re.findall(r"^\| `(\w+)::(\w+)::(\w+)` \|", text_of("docs/SPECIFICATION.md"), re.MULTILINE)
    found = [(f"crates/{crate}/src/{module}.rt", name) for crate, module, name in table]
    for path in [path for crate in border_crates() for path in public_files(crate)] + files_of("desk", "src/", ".rt"):
        found += [(path, name) for name in re.findall(PUBLIC_FUNCTION, text_of(path), re.MULTILINE)]
    return list(dict.fromkeys([*found, *methods_passed_on(), *PROGRAMS]))


def contract(function: Function) -> tuple[str, str]:
    """What stands before a function's body: its parameters, and what it requires and ensures."""
    path, name = function
    head = re.search(rf"^[^/\n]*\bfn {name}\b.*?(?=^ +(?:requires|ensures)|\{{\n)", text_of(path), re.MULTILINE | re.DOTALL)
    behind = text_of(path)[head.end():]
    return head[0], "" if behind.startswith("{") else re.split(r"^ *\{$", behind, maxsplit=1, flags=re.MULTILINE)[0]


def imports(path: str) -> dict[str, str]:
    """Of a Rattle file: the module behind each name that its contracts can use, operators without their blanks."""
    found = {}
    for module, names, other in re.findall(r"^ghost use (\S+?)(?:\.\{([^}]*)\}| as (\S+));", text_of(path), re.MULTILINE):
        found |= {name.strip("◌"): module for name in re.findall(r"[^\s,]+", names)}
        found |= {other: module} if other else {}
    return found


def words_of_contract(function: Function) -> set[str]:
    """The names that a contract uses: no field of a record, no number, no parameter, no clause's name and nothing that it binds itself."""
    head, clauses = contract(function)
    without_names = re.sub(r"\b(requires|ensures) \w+ \{", r"\1 {", clauses)
    without_fields = re.sub(r"\.«?[\w-]+»?|«?[\w-]+»? = ", " ", without_names)
    bound = set(re.findall(r"λ (\w+)\.", clauses)) | set(re.findall(r"(\w+): ", head))
    words = set(re.findall(r"[^\s(){},;.«»]+", without_fields))
    return {word for word in words if not word.isdigit()} - bound - {"self"} - WORDS_OF_CONTRACTS


def modules_of_contract(function: Function) -> set[str]:
    known = imports(function[0])
    return {known[word] for word in words_of_contract(function) if word in known}


# Modules and their imports.


def file_of(module: str) -> str | None:
    """`Rattle.holding.specs.State`, or in a crate's proofs; None for the kit's and for types of Rattle."""
    found = re.fullmatch(r"Rattle\.(\w+)\.(specs|proofs)\.(\w+)", module)
    return f"crates/{found[1]}/{found[2]}/{found[3]}.antt" if found and not is_kit(module) else None


def is_left_to_others(module: str) -> bool:
    """The kit's, or generated from a struct or an enum of the sources."""
    return is_kit(module) or ".specs.declared." in module


def imported_by(path: str) -> list[str]:
    """The modules that a file of antt imports."""
    return [module.split(".{")[0] for module in re.findall(r"^ *(?:pub )?use (\S+)", text_of(path), re.MULTILINE)]


def reached() -> tuple[dict[str, str], list[str]]:
    """Every file that the contracts rest on, each with what it is reached through; and modules that no file is found for."""
    through: dict[str, str] = {}
    lost = []
    waiting = [(module, f"{path}: {name}") for path, name in border() for module in sorted(modules_of_contract((path, name)))]
    while waiting:
        module, by = waiting.pop(0)
        path = file_of(module)
        if path in files() and path not in through:
            through[path] = by
            waiting += [(other, path) for other in imported_by(path)]
        elif path not in files() and not is_left_to_others(module):
            lost.append(f"{by} uses {module}, and no file is found for it")
    return through, lost


# The list.


def listed() -> list[str]:
    """The files and folders of crates that the list names."""
    section = text_of(DOCUMENT).split(LIST)[1].split("\n## ")[0]
    found = []
    for first, block, is_code in blocks(section):
        if is_code or not block.lstrip().startswith("- "):
            continue
        for sentence in sentences(first, block):
            named = Named()
            for span in sentence:
                named = resolved(span.text, named) or named
                found += [named.path] if named.path and named.path.startswith("crates/") else []
    return list(dict.fromkeys(found))


def covers(entry: str, path: str) -> bool:
    return path == entry or entry in folders() and path.startswith(f"{entry}/")


def complaints() -> Iterator[str]:
    for path in (path for crate in border_crates() for path in public_files(crate)):
        unread = re.sub(PASSED_ON, lambda found: "" if found[1].split("::")[0] in crates() else found[0], text_of(path), flags=re.MULTILINE)
        lines = re.findall(r"^.*\bpub use\b.*", unread, re.MULTILINE)
        yield from (f"{path}: {line.strip()}: what it passes on is not followed" for line in lines)
    for path, name in border():
        yield from (f"{path}: {name}, which can be called from outside, {said}" for said in of_contract((path, name)))
    through, lost = reached()
    yield from lost
    through = {path: f"the contract of {name}" for path, name in border()} | through
    for path, by in through.items():
        if not any(covers(entry, path) for entry in listed()):
            yield f"{path} is reached through {by}, and {DOCUMENT} does not list it as what must be believed"
    for entry in listed():
        if not any(covers(entry, path) for path in through):
            yield f"{DOCUMENT}: {entry} is listed as what must be believed, and no contract reaches it"


def of_contract(function: Function) -> Iterator[str]:
    _, clauses = contract(function)
    if "requires" in clauses:
        yield "requires something of its caller"
    if "ensures" not in clauses:
        yield "ensures nothing"
    yield from (f"uses {word}, which no import of its file gives" for word in words_of_contract(function) - imports(function[0]).keys())


def way_to(path: str, through: dict[str, str]) -> str:
    return f"{way_to(through[path], through)} → {path}" if path in through else path


def main() -> int:
    top = argparse.ArgumentParser(description=__doc__, formatter_class=argparse.RawDescriptionHelpFormatter)
    top.add_argument("--print", action="store_true", help="show each module that is reached, and how")
    through, _ = reached()
    if top.parse_args().print:
        for path in sorted(through):
            mark = " " if any(covers(entry, path) for entry in listed()) else "!"
            print(f"{mark} {way_to(path, through)}")
        return 0
    found = list(complaints())
    for said in found:
        print(said)
    print(f"what must be believed: {len(border())} contracts reach {len(through)} modules, {len(found)} complaints")
    return 1 if found else 0


if __name__ == "__main__":
    sys.exit(main())

"""What the repository has, by name: files, crates, items of Rattle, names of antt, edits, and what the header, the package, the
reference and the kit give. For tests that hold texts against it."""

import ast
import re
import subprocess
import sys
from functools import lru_cache
from pathlib import Path

ROOT = Path(__file__).resolve().parent.parent
sys.path.insert(1, str(ROOT / "python"))

import reserving_desk
from reserving_desk.library import VARIABLE


@lru_cache(maxsize=None)
def files() -> dict[str, bool]:
    """Every file of the repository, and whether it can be executed."""
    # Whoever owns the checkout: a gate may run as another user.
    command = ["git", "-c", f"safe.directory={ROOT}", "ls-files", "--cached", "--others", "--exclude-standard"]
    said = subprocess.run(command, cwd=ROOT, check=True, capture_output=True, text=True).stdout
    return {name: bool((ROOT / name).stat().st_mode & 0o100) for name in said.splitlines() if (ROOT / name).is_file()}


@lru_cache(maxsize=None)
def folders() -> frozenset[str]:
    return frozenset(str(parent) for name in files() for parent in Path(name).parents)


@lru_cache(maxsize=None)
def made_by_build() -> frozenset[str]:
    return frozenset(re.findall(r"\$root/(target/\S+)", text_of("build")))


@lru_cache(maxsize=None)
def short_folders() -> dict[str, str]:
    """The letters that docs/CLAIMS.md has for folders."""
    return dict(re.findall(r"`([A-Z])` is `([\w/]+)`", text_of("docs/CLAIMS.md")))


@lru_cache(maxsize=None)
def text_of(name: str) -> str:
    return (ROOT / name).read_text()


@lru_cache(maxsize=None)
def dependencies() -> dict[str, list[str]]:
    """Every crate with what it depends on, as crates.txt has it."""
    lines = (line.partition("#")[0] for line in text_of("crates.txt").splitlines())
    pairs = (line.split(":") for line in lines if line.strip())
    return {head.split()[0]: needed.split() for head, needed in pairs}  # a static library says so behind its name


@lru_cache(maxsize=None)
def crates() -> dict[str, list[str]]:
    """Every crate with those of the repository that it depends on."""
    return {crate: [name for name in needed if name in dependencies()] for crate, needed in dependencies().items()}


@lru_cache(maxsize=None)
def files_of(crate: str | None, folder: str, suffix: str) -> list[str]:
    """The files in a folder of one crate, or of every crate: `files_of("desk", "src/", ".rt")`."""
    starts = tuple(f"crates/{name}/{folder}" for name in ([crate] if crate else crates()))
    return [name for name in files() if name.startswith(starts) and name.endswith(suffix)]


# Rattle.


@lru_cache(maxsize=None)
def rattle_items(name: str) -> frozenset[str]:
    """The functions, types and constants of a file."""
    return frozenset(re.findall(r"^[^/\n]*\b(?:fn|struct|enum|type|const) (\w+)", text_of(name), re.MULTILINE))


@lru_cache(maxsize=None)
def rattle_variables() -> frozenset[str]:
    """Every parameter and field of the sources."""
    texts = map(text_of, files_of(None, "src/", ".rt"))
    return frozenset(found for text in texts for found in re.findall(r"^[^/\n]*?\b(\w+): ", text, re.MULTILINE))


def module_file(path: list[str]) -> str | None:
    """The file of a module, `["layout", "checks", "file"]`; of a crate itself its root."""
    folder = f"crates/{path[0]}/src"
    names = [f"{folder}/{'/'.join(path[1:])}.rt"] if path[1:] else [f"{folder}/lib.rt", f"{folder}/main.rt"]
    return next((name for name in names if name in files()), None)


# antt.

NAME = r"[^\s(){}:;,.]+"


@lru_cache(maxsize=None)
def antt_files(module: str) -> list[str]:
    """The files of `laws/Pinned`: in the crate's specs, and where theorems of it stand apart in its proofs."""
    crate, name = module.split("/")
    names = [f"crates/{crate}/{folder}/{name}.antt" for folder in ("specs", "proofs")]
    return [path for path in names if path in files()] or names[:1]


def antt_file(module: str) -> str:
    """The one in the specs, or where all of it are theorems in the proofs."""
    return antt_files(module)[0]


def is_kit(module: str) -> bool:
    """Whether a module of antt is of no crate of the repository."""
    return not module.startswith("Rattle.") or module.split(".")[1] not in crates()


@lru_cache(maxsize=None)
def antt_names(name: str) -> frozenset[str]:
    """What a file declares: definitions, laws, records with their fields, data with their constructors."""
    words = r"(?:(?:pub|abbrev|unfoldable|data|record) )*"
    return frozenset(re.findall(rf"^ {{0,4}}{words}({NAME})(?: [({{].*[)}}])? :(?: |$)", text_of(name), re.MULTILINE))


@lru_cache(maxsize=None)
def kit_names() -> frozenset[str]:
    """The kit's modules that some crate imports, and the names that it imports from them."""
    found = set()
    for name in files_of(None, "", ".antt") + files_of(None, "src/", ".rt"):
        for module, names in re.findall(r"^(?:ghost )?use ([^\s{}]+?)\.\{(.*)\}", text_of(name), re.MULTILINE):
            found |= {module, *names.split(", ")} if is_kit(module) else set()
    return frozenset(found)


# Edits, the header, the package, what programs print.


def edits(crate: str | None) -> set[str]:
    """Of one crate, or all of them with those that are tried across crates."""
    names = files_of(crate, "must-fail/", ".edit")
    across = [] if crate else [name for name in files() if name.startswith("tests/edits/")]
    return {Path(name).stem for name in names + across}


@lru_cache(maxsize=None)
def c_names() -> frozenset[str]:
    return frozenset(re.findall(r"\b(?:desk|DESK)_\w+", text_of("include/desk.h")))


def package_names() -> set[str]:
    session = reserving_desk.Session
    methods = {f"{session.__name__}.{name}" for name in vars(session) if not name.startswith("_")}
    return {*reserving_desk.__all__, *methods, f"{session.__name__}()", VARIABLE, reserving_desk.__name__}


def is_printed(text: str) -> bool:
    """Whether the programs print such a line, by the reference: a word in capitals or a number stands for a value."""
    return any(re.fullmatch(pattern, text) or pattern.split(" ")[0] == text for pattern in printed_lines())


@lru_cache(maxsize=None)
def printed_lines() -> frozenset[str]:
    """A pattern for each text of the reference that becomes a line."""
    found = set()
    for name in ("reference/listing.py", "reference/page.py", "reference/script.py"):
        for node in ast.walk(ast.parse(text_of(name))):
            parts = node.values if isinstance(node, ast.JoinedStr) else [node]
            texts = [part.value if isinstance(part, ast.Constant) else None for part in parts]
            if isinstance(texts[0], str):
                found.add("".join("([A-Z]+|[0-9]+)" if text is None else re.escape(text).replace("\\ ", " ") for text in texts))
    return frozenset(found)


@lru_cache(maxsize=None)
def letters() -> frozenset[str]:
    """Of the calls of a script."""
    return frozenset(re.findall(r'case b"(\w)":', text_of("reference/script.py")))

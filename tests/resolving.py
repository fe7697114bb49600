"""Whether a name in a document is there: what a code span can stand for, and what it belongs to."""

import re
from dataclasses import dataclass

import declared
from declared import crates, files, files_of, folders, made_by_build, text_of


@dataclass(frozen=True)
class Span:
    """A code span, with the text behind it up to the next span of its row or sentence."""

    line: int
    text: str
    behind: str


@dataclass(frozen=True)
class Named:
    """What the row or sentence has named last: a crate, and a file or folder of it."""

    crate: str | None = None
    path: str | None = None

    def __str__(self) -> str:
        return self.path or self.crate or "any crate"


def resolved(text: str, named: Named) -> Named | None:
    """What is named after this text, where it names something that is there."""
    path = path_of(text, named)
    if "::" in text:
        return in_rattle(text)
    if text in crates():
        return Named(text)
    if path:
        return named_by_path(path)
    return among(text, named) or (named if is_known_by_itself(text) else None)


# Files and folders.


def path_of(text: str, named: Named) -> str | None:
    """The file or folder that a text names, from the root or from the crate that was named last."""
    letter, slash, rest = text.partition("/")
    text = declared.short_folders().get(letter, letter) + slash + rest
    inside = f"crates/{named.crate}/{text}"
    names = [text.rstrip("/"), f"{text}.antt", *([inside, f"{inside}.antt"] if named.crate and "/" in text else [])]
    # a theorem, of the crate that the letter has
    names += [f"{text}.antt".replace("/specs/", "/proofs/")] if slash and len(letter) == 1 else []
    known = files().keys() | folders() | made_by_build()
    pattern = re.escape(text).replace(r"\*", "[^/]*")
    is_pattern = "*" in text and any(re.fullmatch(pattern, name) for name in files())
    return next((name for name in names if name in known), text if is_pattern else None)


def named_by_path(path: str) -> Named:
    folder, *parts = path.split("/")
    return Named(parts[0] if folder == "crates" and parts else None, path)


# Names of Rattle, of antt and of edits.


def in_rattle(text: str) -> Named | None:
    """`crate::module::item`: a module, or an item that stands in that very file."""
    path = text.split("::")
    holder = declared.module_file(path[:-1])
    is_there = declared.module_file(path) or holder and path[-1] in declared.rattle_items(holder)
    return Named(path[0]) if is_there else None


def among(text: str, named: Named) -> Named | None:
    """A name in the file that was named last, or a module beside it; else in the crate; anywhere where none was named."""
    path = named.path or ""
    if path.endswith(".rt"):
        return named if text in declared.rattle_items(path) else None
    if path.endswith(".antt") and any(text in declared.antt_names(name) for name in (path, twin(path)) if name in files()):
        return named
    found = modules(text, named)
    if len(found) == 1:
        return named_by_path(found[0])
    return None if found or path.endswith(".antt") or not is_in_crate(text, named.crate) else named


def modules(text: str, named: Named) -> list[str]:
    """Files of antt by a module's bare name: beside the file that was named last, or in the folder, or in the crate."""
    folder = named.path.rpartition("/")[0] if named.path and named.path.endswith(".antt") else named.path
    near = f"{folder}/{text}.antt"
    if near in files():
        return [near]
    roots = [f"/{root}/{text}.antt" for root in ("specs", "proofs")]
    found = [name for name in files_of(named.crate, "", ".antt") if any(name.endswith(root) for root in roots)]
    return [name for name in found if "/specs/" in name or twin(name) not in found]


def twin(path: str) -> str:
    """Where the theorems of a module of specs stand, or what the theorems of a module of proofs are about."""
    return re.sub(r"/(specs|proofs)/(?=\w+\.antt$)", lambda found: "/proofs/" if found[1] == "specs" else "/specs/", path)


def is_in_crate(text: str, crate: str | None) -> bool:
    antt = files_of(crate, "specs/", ".antt") + files_of(crate, "proofs/", ".antt")
    return (
        any(text in declared.antt_names(name) for name in antt)
        or any(text in declared.rattle_items(name) for name in files_of(crate, "src/", ".rt"))
        or text in declared.edits(crate)
    )


def is_known_by_itself(text: str) -> bool:
    """Names that belong to no crate, an applied name such as `lossTimes m u`, and a type that a source writes."""
    head, *arguments = text.split(" ")
    is_applied = bool(arguments) and all(len(argument) == 1 for argument in arguments) and is_in_crate(head, None)
    is_type = not text[0].isalnum() and any(text in text_of(name) for name in files_of(None, "src/", ".rt"))
    names = (declared.c_names(), declared.package_names(), declared.kit_names(), declared.letters(), declared.rattle_variables())
    return any(text in known for known in names) or declared.is_printed(text) or is_applied or is_type


# `name` of `file`.


def owner(spans: list[Span], named: Named) -> Named | None:
    """What the first of the spans belongs to, in `name` of `file` and in `name`, `name` and `name` of `crate`'s `file`."""
    belongs = False
    for place, span in enumerate(spans[:-1]):
        if not re.fullmatch(r"(?:, and|,| and| in| of| of its)\s*", span.behind):
            return None
        belongs = belongs or span.behind.startswith(" of")
        holder = spans[place + 1]
        if belongs and holder.behind.startswith("'s") and holder.text in crates():
            return resolved(spans[place + 2].text, Named(holder.text))
        if belongs and holder.text in crates():
            return Named(holder.text)
        if belongs and path_of(holder.text, named):
            return named_by_path(path_of(holder.text, named))
    return None

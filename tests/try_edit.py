"""Tries one must-fail edit of a crate alone, in seconds, and shows the first error that refuses it.

    python3 tests/try_edit.py crates/sweeping/must-fail/spent_before_4096.edit

`rt must-fail` tries every edit of a crate. Here the edit is made in a copy, over what was proved before; the error must name the fact
that the edit is about.
"""

import re
import shutil
import subprocess
import sys
import tempfile
from pathlib import Path

from declared import ROOT

def changes(edit: Path) -> list[tuple[str, str, str]]:
    """File, old and new text: a file may have several, and an edit several files."""
    found, file, old = [], "", ""
    for line in edit.read_text().splitlines():
        key, _, value = line.partition(": ")
        if key == "file":
            file = value
        elif key == "old":
            old = value
        elif key == "new":
            found.append((file, old, value))
    return found


def make(edit: Path, crate: Path) -> str | None:
    """Makes the edit in a copy of its crate, or says what is in the way."""
    for file, old, new in changes(edit):
        text = (crate / file).read_text()
        if text.count(old) != 1:
            return f"its old text is {text.count(old)} times in {file}: {old}"
        (crate / file).write_text(text.replace(old, new))
    return None


def tried(edit: Path) -> str:
    """What the kit says of the crate with the edit made. It begins with what it kept of proofs on this machine."""
    crate = edit.parent.parent.name
    with tempfile.TemporaryDirectory() as name:
        shutil.copytree(ROOT / "crates", Path(name, "crates"), ignore=shutil.ignore_patterns("must-fail", "out"))
        shutil.copy(ROOT / "crates.txt", name)
        if said := make(edit, Path(name, "crates", crate)):
            sys.exit(f"{edit.name}: {said}")
        done = subprocess.run(["rt", "check"], cwd=Path(name, "crates", crate), capture_output=True, text=True, stdin=subprocess.DEVNULL)
    return (done.stdout + done.stderr).replace(f"{name}/", "")


def main() -> int:
    if len(sys.argv) != 2 or not Path(sys.argv[1]).is_file():
        print(__doc__, file=sys.stderr)
        return 2
    said = tried(Path(sys.argv[1]).resolve())
    # Where a goal has no answer of its own, the kit says what it did not find.
    first = re.search(r"^.*: (?:error|it is not proved).*(?:\n(?!.*: (?:error|note)).*){0,12}", said, re.MULTILINE)
    print(first[0] if first else "not refused")
    return 0 if first else 1


if __name__ == "__main__":
    sys.exit(main())

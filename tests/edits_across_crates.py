"""Edits of one crate that another crate's proofs must refuse.

The kit's must-fail edits are tried on one crate alone. An edit of `definitions` that no figure of the joint table shows is
refused by a law, so it is tried here: the edited crate must still be proved, and the crate named in `refused-by:` must not.
Each file of tests/edits/ has a comment, then the lines `crate:`, `file:`, `old:`, `new:`, of which there may be several as in the kit's
edits, `refused-by:` and `first-at:`, the file of the first error, so that an edit which comes to be refused for another reason shows.

The crates are first proved as they stand, in a copy that stays until the end: each edit begins with what the kit kept of that.
"""

import re
import shutil
import subprocess
import sys
import tempfile
from concurrent.futures import ThreadPoolExecutor
from pathlib import Path

from declared import ROOT, dependencies
from try_edit import make

EDITS = ROOT / "tests" / "edits"


def needed_by(crate: str, crates: dict[str, list[str]]) -> list[str]:
    """The crate behind everything of this repository that it depends on."""
    before = [other for name in crates[crate] if name in crates for other in needed_by(name, crates)]
    return list(dict.fromkeys(before)) + [crate]


def read_edit(path: Path) -> dict[str, str]:
    pairs = (line.partition(": ") for line in path.read_text().splitlines() if not line.startswith("#"))
    return {key: value for key, _, value in pairs}


def copy_to(folder: Path, names: list[str]) -> None:
    for name in names:
        shutil.copytree(ROOT / "crates" / name, folder / "crates" / name, ignore=shutil.ignore_patterns("must-fail", "out"))
    lines = [f"{name}: {' '.join(needed)}\n" for name, needed in dependencies().items() if name in names]
    Path(folder, "crates.txt").write_text("".join(lines))


def said_by_rt(word: str, crate: Path) -> tuple[bool, str]:
    """Whether rt proves a crate with all below it, and what it says."""
    done = subprocess.run(["rt", word, "--jobs", "1"], cwd=crate, capture_output=True, text=True, stdin=subprocess.DEVNULL)
    return done.returncode == 0, done.stdout + done.stderr


def complaint(path: Path) -> str | None:
    """What is wrong with an edit: it cannot be made, or the proofs do not refuse it where they must."""
    edit = read_edit(path)
    with tempfile.TemporaryDirectory() as folder:
        copy_to(Path(folder), needed_by(edit["refused-by"], dependencies()))
        if said := make(path, Path(folder) / "crates" / edit["crate"]):
            return said
        is_proved, said = said_by_rt("lib", Path(folder, "crates", edit["crate"]))
        if not is_proved:
            return f"{edit['crate']} itself is not proved: {first_error(said) or said[-300:]}"
        is_proved, said = said_by_rt("check", Path(folder, "crates", edit["refused-by"]))
    if is_proved:
        return f"{edit['refused-by']} is proved"
    place = re.match(r"[^:]*", first_error(said))[0]
    return None if place == edit["first-at"] else f"refused first at {place or said[-300:]}, and not at {edit['first-at']}"


def first_error(said: str) -> str:
    """Of a crate: `specs/Pinned.antt:12:3: error: ..`."""
    found = re.search(r"^(?:\./)?((?:src|specs|proofs)/\S+:\d+:\d+: error.*)$", said, re.MULTILINE)
    return found[1] if found else ""


def main() -> int:
    paths = sorted(EDITS.glob("*.edit"))
    failed = 0
    with tempfile.TemporaryDirectory() as folder, ThreadPoolExecutor(2) as pool:
        for name in sorted({read_edit(path)["refused-by"] for path in paths}):
            copy_to(Path(folder, name), needed_by(name, dependencies()))
            is_proved, said = said_by_rt("check", Path(folder, name, "crates", name))
            if not is_proved:
                print(f"{name} is not proved as it stands:\n{said}")
                return 1
        for path, said in zip(paths, pool.map(complaint, paths)):
            print(f"{path.stem}: {said or 'refused, as it must be'}", flush=True)
            failed += said is not None
    print(f"edits across crates: {len(paths) - failed} refused, {failed} wrong")
    return 1 if failed or not paths else 0


if __name__ == "__main__":
    sys.exit(main())

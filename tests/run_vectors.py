"""Every vector of the listing and of the page through ./run: what it prints, to the byte, and its exit status. Wants both programs
built."""

import subprocess
import sys
from collections.abc import Iterator
from pathlib import Path

ROOT = Path(__file__).resolve().parent.parent
sys.path.insert(1, str(ROOT / "reference"))

import vectors

SECONDS = 60  # after which a program counts as hanging
OPTIONS = {"listing": [], "board_page": ["--page"]}  # by the program: the words before the file


def status_of(printed: bytes) -> int:
    """A listing begins with its J, a page with phi 0; a refusal and a file whose sweeps are used up have one line."""
    return 0 if printed.startswith((b"J ", b"phi ")) else 1


def complaints() -> Iterator[str]:
    for name, vector in vectors.make(vectors.DEFAULT_SEED).items():
        program = name.partition("/")[0]
        if program not in OPTIONS:
            continue
        kept = ROOT / vectors.paths(name)[0]
        for word, given in ((str(kept), b""), ("-", vector.given)):
            words = [*OPTIONS[program], word]
            done = subprocess.run([ROOT / "run", *words], input=given, capture_output=True, timeout=SECONDS)
            wanted = (vector.printed, status_of(vector.printed), b"")
            if (done.stdout, done.returncode, done.stderr) != wanted:
                yield f"./run {' '.join(words)}, {name}: {done.stdout!r}, status {done.returncode}, {done.stderr!r}"


def main() -> int:
    for program in OPTIONS:
        if not (ROOT / "target" / "bin" / program).is_file():
            print(f"tests/run_vectors.py: no target/bin/{program}: run ./build and ./run first", file=sys.stderr)
            return 2
    found = list(complaints())
    for said in found:
        print(said)
    print(f"./run and the reference: {len(found)} differences")
    return 1 if found else 0


if __name__ == "__main__":
    sys.exit(main())

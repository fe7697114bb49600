"""The programs `listing`, `board_page` and `calls` against the reference, to the byte.

First every vector, a file of every length and each cell, step and part of every J, then files and sessions that the reference draws
from a seed, then scripts of very many calls. Then what a whole input at once does not show: that the listing and the page take their
input in pieces, and that `calls` answers each call before it reads the next.
"""

import argparse
import fcntl
import os
import select
import struct
import subprocess
import sys
import termios
import time
from collections.abc import Iterator
from contextlib import contextmanager
from pathlib import Path
from random import Random

ROOT = Path(__file__).resolve().parent.parent
sys.path.insert(0, str(ROOT / "reference"))

import call_bytes
import vectors
import vectors_calls
import vectors_drawn
from vectors import PRINTS, Vectors

SECONDS = 60  # after which a program counts as hanging
# By the first word of a vector's name.
PROGRAMS = {"listing": "listing", "board_page": "board_page", "script": "calls", "calls": "calls"}
MANY_CALLS = 1_100_000  # more than 2^20
MANY_OF_EACH = 70_000  # more than 2^16


def complaint(expected: bytes, printed: bytes) -> str | None:
    """The first line that differs."""
    if expected == printed:
        return None
    wanted, got = expected.split(b"\n"), printed.split(b"\n")
    line = next((k for k, pair in enumerate(zip(wanted, got)) if pair[0] != pair[1]), min(len(wanted), len(got)))
    shown = [repr(lines[line][:120]) if line < len(lines) else "nothing" for lines in (wanted, got)]
    return f"line {line + 1} should be {shown[0]} and is {shown[1]}"


def complaints_at_once(folder: Path, made: Vectors) -> Iterator[str]:
    for name, vector in made.items():
        program = folder / PROGRAMS[name.partition("/")[0]]
        done = subprocess.run([program], input=vector.given, capture_output=True, timeout=SECONDS)
        said = complaint(vector.printed, done.stdout)
        if said or done.returncode or done.stderr:
            yield f"{name}: {said or 'printed as it should be'}; exit status {done.returncode} {done.stderr!r}"


def complaints_of_many_calls(folder: Path) -> Iterator[str]:
    """`calls` goes on as long as it is asked: a million calls of one kind, then every kind again and again."""
    for script, times in ((call_bytes.CLOSE, MANY_CALLS), (b"".join(call_bytes.one_of_each()), MANY_OF_EACH)):
        done = subprocess.run([folder / "calls"], input=script * times, capture_output=True, timeout=SECONDS)
        said = complaint(vectors.answers(script) * times, done.stdout)
        if said or done.returncode or done.stderr:
            yield f"{times} times {script!r}: {said or 'printed as it should be'}; exit status {done.returncode} {done.stderr!r}"


@contextmanager
def started(program: Path) -> Iterator[subprocess.Popen[bytes]]:
    """A program with pipes to it and from it, which ends with the block at the latest."""
    with subprocess.Popen([program], stdin=subprocess.PIPE, stdout=subprocess.PIPE, bufsize=0) as process:
        try:
            yield process
        finally:
            process.kill()


def wait_until_read(pipe: int) -> None:
    """Returns once the other end has taken every byte: what is written next comes in a read of its own."""
    until = time.monotonic() + SECONDS
    while struct.unpack("i", fcntl.ioctl(pipe, termios.FIONREAD, bytes(4)))[0]:
        if time.monotonic() > until:
            raise TimeoutError("the program does not read on")
        time.sleep(0.0005)


def complaints_in_pieces(folder: Path, made: Vectors, name: str, size: int) -> Iterator[str]:
    """A listing or a page, whose input comes so many bytes at a time."""
    program, vector = PROGRAMS[name.partition("/")[0]], made[name]
    with started(folder / program) as process:
        for start in range(0, len(vector.given), size):
            process.stdin.write(vector.given[start:start + size])
            wait_until_read(process.stdin.fileno())
        printed, _ = process.communicate(timeout=SECONDS)
    said = complaint(vector.printed, printed)
    if said:
        yield f"{name}, {size} bytes at a time: {said}"


def answer(pipe: int, size: int) -> bytes:
    """So many bytes, or those that came before a long silence or the end."""
    got = b""
    while len(got) < size and select.select([pipe], [], [], SECONDS)[0]:
        more = os.read(pipe, size - len(got))
        if not more:
            break
        got += more
    return got


def complaints_of_a_session(folder: Path, calls: list[bytes]) -> Iterator[str]:
    """`calls` over a pipe: each call is sent when the one before is answered."""
    answered = b""
    with started(folder / "calls") as process:
        for k, call in enumerate(calls, start=1):
            whole = vectors.answers(b"".join(calls[:k]))
            process.stdin.write(call)
            printed = answer(process.stdout.fileno(), len(whole) - len(answered))
            said = complaint(whole[len(answered):], printed)
            if said:
                yield f"a session over a pipe, call {k}: {said}"
                return
            answered = whole
        rest, _ = process.communicate(timeout=SECONDS)
    if rest:
        yield f"a session over a pipe: {rest!r} after the last answer"


def all_complaints(folder: Path, seed: int, count: int) -> Iterator[str]:
    made = vectors.make(vectors.DEFAULT_SEED)
    yield from complaints_at_once(folder, made)
    yield from complaints_at_once(folder, vectors.make_long())
    yield from complaints_at_once(folder, vectors.make_random(seed, count))
    yield from complaints_of_many_calls(folder)
    for program in PRINTS:
        for name in ("f", "length-2806", "length-2807", "refused-09-highest"):
            for size in (1, 7, 2_806):
                yield from complaints_in_pieces(folder, made, f"{program}/{name}", size)
    rng = Random(f"pipe {seed}")
    for calls in (vectors_calls.figures_of_document(), *(vectors_drawn.drawn_session(rng, residues=True) for _ in range(3))):
        yield from complaints_of_a_session(folder, list(calls))


def main() -> int:
    top = argparse.ArgumentParser(description=__doc__, formatter_class=argparse.RawDescriptionHelpFormatter)
    top.add_argument("--seed", type=int, default=1, help="default %(default)s")
    top.add_argument("--count", type=int, default=50, help="of drawn files, and of drawn sessions; default %(default)s")
    top.add_argument("--programs", type=Path, default=ROOT / "target" / "bin", metavar="DIR", help="default: target/bin")
    arguments = top.parse_args()
    for name in sorted(set(PROGRAMS.values())):
        if not os.access(arguments.programs / name, os.X_OK):
            top.error(f"no program {arguments.programs / name}: run ./build and ./run first")
    found = 0
    try:
        for line in all_complaints(arguments.programs, arguments.seed, arguments.count):
            print(line)
            found += 1
    except (OSError, subprocess.TimeoutExpired) as error:
        print(f"a program hangs or went away: {error}")
        found += 1
    drawn = f"{arguments.count} files and {arguments.count} sessions drawn with seed {arguments.seed}"
    print(f"the programs and the reference: {found} differences, with {drawn}")
    return 1 if found else 0


if __name__ == "__main__":
    sys.exit(main())

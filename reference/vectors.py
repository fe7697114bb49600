"""The vectors: inputs and expected outputs of the programs `listing`, `board_page` and `calls`, made from a seed. By name:

    listing/NAME       a file, and what the listing prints for it
    board_page/NAME    a file, and the page that is printed for it
    script/NAME        a script of calls that ends early, asks for ultimates or residues or strikes out steps, and what is printed for it
    calls/scenes       a script of calls, and its answers

Each is kept as vectors/NAME.in and NAME.out, but for those of ELSEWHERE; an input that the listing has too is kept with the listing.
"""

from collections.abc import Callable
from dataclasses import dataclass
from io import BytesIO
from pathlib import Path
from random import Random

import samples
import script
import vectors_calls
import vectors_listing
import vectors_residues
import vectors_strikes
import vectors_ultimate
from board_page import board_page
from listing import listing
from vectors_board_page import OF_THE_LISTING, board_page_inputs
from vectors_drawn import drawn_session

DEFAULT_SEED = 1
ROOT = Path(__file__).resolve().parent.parent
# Those that `rt ci` runs are kept in the programs' crates, and the sample where a reader finds it.
ELSEWHERE = {
    "listing/f": ("crates/listing/stdin", "crates/listing/stdout"),
    "board_page/f": ("crates/board_page/stdin", "crates/board_page/stdout"),
    "calls/scenes": ("crates/calls/stdin", "crates/calls/stdout"),
    "listing/tables-256": ("samples/tables-10-11.file", "samples/tables-10-11.listing"),
    "board_page/tables-256": ("samples/tables-10-11.file", "samples/tables-10-11.page"),
    **{f"board_page/{name}": (f"vectors/listing/{name}.in", f"vectors/board_page/{name}.out") for name in OF_THE_LISTING},
}


@dataclass(frozen=True)
class Vector:
    given: bytes
    printed: bytes


Vectors = dict[str, Vector]  # by name
PRINTS: dict[str, Callable[[bytes], str]] = {"listing": listing, "board_page": board_page}  # by the program's name


def make(seed: int) -> Vectors:
    return {
        **_printed("listing", vectors_listing.listing_inputs(seed)),
        **_printed("board_page", board_page_inputs(seed)),
        **_scripts("script", vectors_calls.script_ends() | vectors_ultimate.scripts()),
        **_scripts("script", vectors_strikes.scripts() | vectors_residues.scripts()),
        **_scripts("calls", {"scenes": vectors_calls.script_of_scenes(seed)}),
    }


def make_long() -> Vectors:
    """Too long to be kept: a file of every length, and of every J each cell at its limits and past them, each step struck, each part."""
    scripts = {
        "lengths": vectors_calls.every_length(),
        "cells": vectors_calls.every_cell(),
        "strikes": vectors_strikes.every_strike(),
        "residues": vectors_residues.every_part(),
    }
    return _scripts("calls", {name: b"".join(calls) for name, calls in scripts.items()})


def make_random(seed: int, count: int) -> Vectors:
    """For long comparisons: so many files, listed and paged, and so many sessions, all drawn."""
    rng = Random(f"random {seed}")
    numbers = [f"{k:0{len(str(count))}}" for k in range(1, count + 1)]
    files = {number: vectors_listing.drawn_listing_input(rng) for number in numbers}
    return {
        **_printed("listing", files),
        **_printed("board_page", files),
        **_scripts("calls", {number: b"".join(drawn_session(rng, samples.drawn_any_file, residues=True)) for number in numbers}),
    }


def paths(name: str) -> tuple[str, str]:
    """Where a vector's input and output are kept, from the root of the repository."""
    return ELSEWHERE.get(name, (f"vectors/{name}.in", f"vectors/{name}.out"))


def write(root: Path, made: Vectors) -> None:
    for name, content in files_of(made).items():
        path = root / name
        path.parent.mkdir(parents=True, exist_ok=True)
        path.write_bytes(content)


def differences(root: Path, made: Vectors) -> list[str]:
    """One line for each file that is missing, differs, or is there and no longer made."""
    lines, files = [], files_of(made)
    for name, content in files.items():
        path = root / name
        if not path.is_file():
            lines.append(f"{path}: missing")
        elif path.read_bytes() != content:
            lines.append(f"{path}: differs")
    there = (path for end in ("in", "out") for path in root.glob(f"vectors/**/*.{end}"))
    strays = sorted(path for path in there if path.relative_to(root).as_posix() not in files)
    return lines + [f"{path}: no such vector is made" for path in strays]


def files_of(made: Vectors) -> dict[str, bytes]:
    files = {}
    for name, vector in made.items():
        given, printed = paths(name)
        files |= {given: vector.given, printed: vector.printed}
    return files


def _printed(program: str, inputs: dict[str, bytes]) -> Vectors:
    return {f"{program}/{name}": Vector(given, PRINTS[program](given).encode()) for name, given in inputs.items()}


def _scripts(folder: str, scripts: dict[str, bytes]) -> Vectors:
    return {f"{folder}/{name}": Vector(given, answers(given)) for name, given in scripts.items()}


def answers(given: bytes) -> bytes:
    return "".join(line + "\n" for line in script.answers(BytesIO(given))).encode()

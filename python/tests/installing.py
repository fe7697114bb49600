"""Builds the wheel of the package and runs what is installed, with the interpreters of this machine and without a network."""

from __future__ import annotations

import os
import shutil
import subprocess
import sys
from functools import lru_cache
from pathlib import Path

from paths import ROOT

PACKAGE = ROOT / "python"
OLDEST_MINOR, NEWEST_MINOR = 10, 20  # of Python 3, among which the machine's interpreters are looked for

# Prints what a wheel needs and the interpreter does not have; setuptools makes wheels itself from 70.1 on.
TO_BUILD = """
from importlib.metadata import PackageNotFoundError, version

def number(name):
    try:
        return tuple(map(int, version(name).split(".")[:2]))
    except PackageNotFoundError:
        return (0, 0)

wanted = {"pip": (21, 3), "setuptools": (61, 0)}
if number("setuptools") < (70, 1):
    wanted["wheel"] = (0, 30)
print(*(f"{name}>={first}.{second}" for name, (first, second) in wanted.items() if number(name) < (first, second)))
"""

# The same for an environment of its own.
TO_INSTALL = """
from importlib.util import find_spec
print(*(name for name in ("venv", "ensurepip") if not find_spec(name)))
"""


def environment() -> dict[str, str]:
    """Without what would have pip, Python or the package look elsewhere."""
    kept = {name: value for name, value in os.environ.items() if not name.startswith(("PIP_", "PYTHON", "RESERVING_DESK_", "VIRTUAL_ENV"))}
    return {**kept, "PIP_CONFIG_FILE": os.devnull, "PIP_DISABLE_PIP_VERSION_CHECK": "1", "PYTHONDONTWRITEBYTECODE": "1"}


def run(*command: object, **changed: str) -> subprocess.CompletedProcess[str]:
    """From the root of the file system, so that nothing is found in the folder at hand."""
    return subprocess.run([*map(str, command)], cwd="/", env={**environment(), **changed}, capture_output=True, text=True)


@lru_cache(maxsize=None)
def interpreter(probe: str) -> tuple[str, str]:
    """The first interpreter that lacks nothing, and what each one lacks, in words."""
    lacks = []
    for python in filter(os.path.exists, dict.fromkeys((sys.executable, "/usr/bin/python3"))):
        done = run(python, "-c", probe)
        if done.returncode == 0 and not done.stdout.strip():
            return python, ""
        lacks.append(f"{python} has no {done.stdout.strip() or 'answer: ' + done.stderr}")
    return "", "; ".join(lacks)


@lru_cache(maxsize=None)
def interpreters() -> list[str]:
    """Every python3.N of the path that runs."""
    named = (shutil.which(f"python3.{minor}") for minor in range(OLDEST_MINOR, NEWEST_MINOR))
    return [sys.executable, *(python for python in named if python and run(python, "-c", "").returncode == 0)]


def build_wheel(package: Path, folder: Path) -> subprocess.CompletedProcess[str]:
    python, _ = interpreter(TO_BUILD)
    options = ("--no-deps", "--no-index", "--no-build-isolation", "--wheel-dir", folder)
    return run(python, "-m", "pip", "wheel", *options, package)


def files_in(folder: Path) -> dict[str, int]:
    """Every file with its size, but for what interpreters and tools keep to themselves."""
    found = (path for path in folder.rglob("*") if path.is_file())
    own = ("__pycache__", ".mypy_cache")
    return {str(path.relative_to(folder)): path.stat().st_size for path in found if not set(own) & set(path.parts)}

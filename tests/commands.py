"""Commands that a document shows: the program is there and can be executed, and knows the words and options that are shown."""

import re
import shlex
import subprocess
import sys
from functools import lru_cache

from declared import ROOT, files, folders, made_by_build, text_of

TOOLS = ("cc", "pip")  # of the machine, of whose words the paths are looked at


def is_command(text: str) -> bool:
    """A command, and not the bare name of a tool, of a file or of a folder."""
    first, *words = text.split(" ")
    is_program = first in ("python3", "rt") or first.startswith("./") or files().get(first, False)
    return is_program or bool(words) and (first in TOOLS or "/" in first)


def complaint_of_command(text: str) -> str | None:
    """What of a command is not there."""
    program, *words = shlex.split(text)
    if program == "rt":
        missing = None if words[0] in kit_commands() else "the kit has no such command"
    elif program == "python3":
        missing = missing_of_python(*words)
    elif "/" in program and not files().get(program.removeprefix("./"), False):
        missing = f"no {program} that can be executed"
    else:
        missing = missing_option(words, text_of(program.removeprefix("./")) if "/" in program else text)
    missing = missing or missing_path(words)
    return f"{text}: {missing}" if missing else None


def missing_of_python(script: str, *words: str) -> str | None:
    name = script if script in files() else f"{script}/__main__.py"
    if name not in files():
        return f"no {script}"
    if "argparse" not in text_of(name):
        return missing_option(words, text_of(name))
    # Neither an option, nor its number, nor a name in capitals that stands for a file.
    subcommands = [word for word in words if not word.startswith("-") and not word.isdigit() and not word.isupper()]
    done = python_help(script, *subcommands)
    return missing_option(words, done.stdout) if done.returncode == 0 else done.stderr.strip().splitlines()[-1]


def missing_option(words: list[str] | tuple[str, ...], known: str) -> str | None:
    return next((f"no option {word}" for word in words if word.startswith("--") and word not in known), None)


def missing_path(words: list[str]) -> str | None:
    """Of the words that are paths, but for what the command itself makes."""
    made = {words[place + 1] for place, word in enumerate(words[:-1]) if word == "-o"}
    named = [word for word in words if ("/" in word or word.startswith("-I")) and word not in made]
    paths = [word.removeprefix("./").removeprefix("-I") for word in named]
    known = files().keys() | folders() | made_by_build()
    return next((f"no {path}" for path in paths if path not in known), None)


@lru_cache(maxsize=None)
def python_help(*words: str) -> subprocess.CompletedProcess[str]:
    return subprocess.run([sys.executable, "-B", *words, "--help"], cwd=ROOT, capture_output=True, text=True)


@lru_cache(maxsize=None)
def kit_commands() -> frozenset[str]:
    """As the kit's help lists them, `rt check|lib` as two."""
    said = subprocess.run(["rt", "help"], capture_output=True, text=True)
    lists = re.findall(r"^(?:usage:)? +rt ([\w|-]+)", said.stdout + said.stderr, re.MULTILINE)
    return frozenset(name for names in lists for name in names.split("|"))

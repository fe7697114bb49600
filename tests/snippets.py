"""Every command and every piece of C that the README prints runs as it is printed; its Python is run by python/tests.

Wants what `./build` and `./run` make. C is left out, with a line that says so, where there is no cc.
"""

import shutil
import subprocess
import sys
import tempfile
import textwrap
from pathlib import Path

from commands import is_command
from declared import ROOT, text_of
from documents import blocks, is_example

SAMPLE = "samples/tables-10-11"
PRINTED = {f"./run {SAMPLE}.file": f"{SAMPLE}.listing", f"./run --page {SAMPLE}.file": f"{SAMPLE}.page"}

# What the README shows and no test of it runs here.
ELSEWHERE = {
    "./test": "which runs this",
}

# Around a piece of C, which opens a file, settles its mean and reads it.
PROGRAM = """
#include <stdio.h>
#include "desk.h"
int main(int count, char **names) {{
    static uint8_t file[4096], buffer[DESK_LONGEST_RECORD];
    FILE *source = count == 2 ? fopen(names[1], "rb") : NULL;
    if (!source) return 2;
    size_t length = fread(file, 1, sizeof file, source);
    fclose(source);
{piece}
    return refusal.number == 0 && swept.settled == 1 && buffer[4] == 1 ? 0 : 1;
}}
"""


def complaint_of_commands(block: str) -> str | None:
    """Each command ends with status 0; one that lists the sample prints its listing, and one that pages it its page."""
    for command in map(str.strip, block.splitlines()):
        if command in ELSEWHERE:
            continue
        done = subprocess.run(["bash", "-c", command], cwd=ROOT, capture_output=True, text=True)
        if done.returncode:
            return f"`{command}` ends with status {done.returncode}:\n{done.stdout}{done.stderr}"
        if command in PRINTED and done.stdout != text_of(PRINTED[command]):
            return f"`{command}` prints something else than {PRINTED[command]}"
    return None


def complaint_of_c(block: str) -> str | None:
    """The piece compiles without a warning, and opens, settles and reads the sample."""
    with tempfile.TemporaryDirectory() as folder:
        source, program = Path(folder, "piece.c"), Path(folder, "piece")
        source.write_text(PROGRAM.format(piece=block))
        flags = ["-std=c11", "-Wall", "-Wextra", "-Wpedantic", "-Werror", "-Iinclude"]
        compiled = ["cc", *flags, str(source), "target/staticlib/libdesk.a", "-o", str(program)]
        for command in (compiled, [str(program), f"{SAMPLE}.file"], [str(program), "README.md"]):
            done = subprocess.run(command, cwd=ROOT, capture_output=True, text=True)
            # The README is no file of the desk: it is refused, and the piece says why.
            is_right = "shorter than a header" in done.stdout if command[-1] == "README.md" else done.returncode == 0
            if not is_right:
                return f"the piece of C fails in {command[0]}:\n{done.stdout}{done.stderr}"
    return None


def main() -> int:
    has_cc = shutil.which("cc") is not None
    run, found = 0, []
    for first, block, is_code in blocks(text_of("README.md")):
        text = textwrap.dedent(block)
        is_c = text.startswith(("cc ", "desk_"))
        if not is_code or is_example(block) or not (is_c or is_command(text.splitlines()[0])):
            continue
        if is_c and not has_cc:
            print(f"README.md:{first}: left out, as this machine has no cc")
            continue
        run += 1
        said = complaint_of_c(block) if text.startswith("desk_") else complaint_of_commands(block)
        found += [f"README.md:{first}: {said}"] if said else []
    print("\n".join([*found, f"the README: {run} pieces run as printed, {len(found)} fail"]))
    return 1 if found or not run else 0


if __name__ == "__main__":
    sys.exit(main())

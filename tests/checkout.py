"""A small checkout with the scripts of this one, and a machine that has only the tools which they may use. The kit is a fake: its
`rt` writes down where and how it is called, reads its standard input, says what the real one says, and builds programs that print their
own behind how a listing or a page begins."""

import os
import shutil
import subprocess
import tempfile
from collections.abc import Iterator
from contextlib import contextmanager
from pathlib import Path

ROOT = Path(__file__).resolve().parent.parent
SCRIPTS = ("run", "build", "test")
PINNED = (ROOT / "kit.txt").read_text().strip()
TOOLS = ("bash", "cat", "dirname", "find", "install", "ln", "mkdir", "mv", "readlink", "rm", "tac", "touch")
CRATES = """# NAME: DEPENDENCIES
fields:
chain: fields
desk staticlib: fields chain
listing: chain
board_page: chain
calls: fields chain
"""

RT = r"""#!{bash}
case $1 in
version) echo "${{KIT-{pinned}}}"; exit ;;
doc) echo "$PAGE"; exit ;;
esac
crate=${{PWD##*/}}
echo "$crate $*" >>"$CALLED"
cat >/dev/null
for below in fields chain; do
    echo "fn $below::one: proved"
    [ "${{REFUSED-}}" != $below ] || {{ echo "rt: the library $below did not build"; exit 1; }}
    echo "crate $below: modules loaded=0 checked=9"
    echo "logic=proved functions=1"
done
echo "crate $crate: modules loaded=0 checked=9"
echo "logic=proved functions=1 target=x86_64-unknown-linux-gnu"
mkdir -p out
case $1 in
lib) echo archive >out/lib$crate.a ;;
run)
    begins='J 1'
    [ $crate != board_page ] || begins='phi  0 '
    printf '%s\n' '#!{bash}' "echo '$begins'" cat >out/$crate
    chmod +x out/$crate
    echo "rt: running out/$crate; to give it other input, run that file yourself"
    exit "${{ENDS-0}}" ;;
esac
"""
LINKER = '#!{bash}\nwhile [ "$1" != -o ]; do said+="$1 "; shift; done\necho "$said" >"$2"\n'


class Checkout:
    def __init__(self, folder: Path) -> None:
        self.root = folder / "desk"
        self.tools = folder / "tools"
        self.kit = folder / "kit"
        self.called = folder / "called"
        shutil.copytree(ROOT / "scripts", self.root / "scripts")
        shutil.copytree(ROOT / "include", self.root / "include")
        for name in (*SCRIPTS, "kit.txt"):
            shutil.copy(ROOT / name, self.root / name)
        for folder_of_crate in ("src", "specs"):
            self.write(f"crates/fields/{folder_of_crate}/one", "")
        for crate in ("desk", "listing", "board_page", "calls"):
            self.write(f"crates/{crate}/src/one", "")
        self.write("crates.txt", CRATES)
        self.tools.mkdir()
        for tool in (*TOOLS, "chmod"):
            (self.tools / tool).symlink_to(shutil.which(tool))
        self.program(self.tools / "uname", "#!{bash}\necho x86_64\n")
        self.program(self.tools / "rt", RT)
        self.program(self.kit / "toolchain" / "bin" / "ld.lld", LINKER)

    def write(self, name: str, text: str) -> Path:
        path = self.root / name
        path.parent.mkdir(parents=True, exist_ok=True)
        path.write_text(text)
        return path

    def program(self, path: Path, text: str) -> None:
        bash = shutil.which("bash")
        path.parent.mkdir(parents=True, exist_ok=True)
        path.write_text(text.format(bash=bash, pinned=PINNED))
        path.chmod(0o755)

    def built(self, name: str, body: str) -> None:
        """A program of the desk that is newer than its sources."""
        self.program(self.root / "target" / "bin" / name, f"#!{{bash}}\n{body}\n")

    def without_kit(self) -> None:
        (self.tools / "rt").unlink()

    def environment(self, **variables: str) -> dict[str, str]:
        return {"PATH": str(self.tools), "PAGE": str(self.kit / "START-HERE.md"), "CALLED": str(self.called), **variables}

    def run(self, script: str, *words: str, given: str = "", **variables: str) -> subprocess.CompletedProcess[str]:
        command = [str(self.tools / "bash"), str(self.root / script), *words]
        environment = self.environment(**variables)
        return subprocess.run(command, env=environment, input=given, capture_output=True, text=True, timeout=60, cwd=self.root)

    def calls_of_rt(self) -> list[str]:
        return self.called.read_text().splitlines() if self.called.exists() else []

    def age(self, *names: str) -> None:
        """Makes files an hour older than they are."""
        for name in names:
            path = self.root / name
            os.utime(path, (path.stat().st_atime - 3600, path.stat().st_mtime - 3600))


@contextmanager
def checkout() -> Iterator[Checkout]:
    with tempfile.TemporaryDirectory() as folder:
        yield Checkout(Path(folder))

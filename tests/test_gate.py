"""The gate tests the C interface: where a tool for that is not there, it fails and names the tool. It says each step before
it runs it, and its last line is the verdict of the proofs."""

import re
import shutil
import subprocess
import tempfile
import unittest
from pathlib import Path

from checkout import Checkout, checkout

ROOT = Path(__file__).resolve().parent.parent
VERDICT = "151 passed, 0 failed"
RT = """#!{bash}
[ "$1" != version ] || {{ echo "{pinned}"; exit; }}
[ "$1" = ci ] || exit 0
echo "ran: rt ci"
echo "rt: ok; handles allowed: none; must-fail edits: 9 refused${{BAD-}}; every proof was done in this run"
echo "${{VERDICT}}"
exit "${{STATUS}}"
"""
TOOLS = ("cc", "c++", "valgrind")


def gate_with(*tools: str) -> subprocess.CompletedProcess[str]:
    """The gate on a machine that has these tools and a kit. They do nothing, and without python3 no test of it runs."""
    with tempfile.TemporaryDirectory() as folder:
        for name in ("bash", "dirname", "readlink"):
            Path(folder, name).symlink_to(shutil.which(name))
        for name in ("rt", *tools):
            Path(folder, name).symlink_to(shutil.which("true"))
        return subprocess.run([shutil.which("bash"), ROOT / ".ci" / "run"], env={"PATH": folder}, capture_output=True, text=True)


class Gate(unittest.TestCase):
    def test_names_the_tool_that_is_missing(self) -> None:
        for missing in TOOLS:
            done = gate_with(*(tool for tool in TOOLS if tool != missing))
            said = f"test: the C interface cannot be tested, as this machine has no {missing}\n"
            self.assertEqual((done.returncode, done.stderr), (1, said))

    def test_names_every_tool_that_is_missing(self) -> None:
        self.assertIn("as this machine has no cc c++ valgrind\n", gate_with().stderr)

    def test_goes_on_where_all_are_there(self) -> None:
        done = gate_with(*TOOLS)
        self.assertNotEqual(done.returncode, 0)
        self.assertNotIn("cannot be tested", done.stderr)
        self.assertIn("python3", done.stderr)


class Steps(unittest.TestCase):
    def done_with(self, desk: Checkout, **variables: str) -> subprocess.CompletedProcess[str]:
        """./test where every command that it runs prints that it ran."""
        for tool in ("mktemp", "sed", "tail", "tee"):
            (desk.tools / tool).symlink_to(shutil.which(tool))
        desk.program(desk.tools / "rt", RT)
        for path in (desk.tools / "python3", *(desk.root / name for name in ("build", "tests/c/run", "tests/c/install"))):
            desk.program(path, '#!{bash}\necho "ran: ${{0##*/}} $*"\n')
        for tool in TOOLS:
            desk.program(desk.tools / tool, "#!{bash}\n")
        for name in ("listing", "board_page", "calls"):
            desk.program(desk.root / "crates" / name / "out" / name, "#!{bash}\n")
        return desk.run("test", **variables)

    def lines_of(self, desk: Checkout, status: int, verdict: str = VERDICT) -> list[str]:
        done = self.done_with(desk, VERDICT=verdict, STATUS=str(status))
        self.assertEqual((done.returncode, done.stderr), (status, ""))
        return done.stdout.splitlines()

    def test_each_is_said_before_it_runs(self) -> None:
        with checkout() as desk:
            lines = self.lines_of(desk, 0)
            self.assertEqual(lines[-1], VERDICT)
            self.assertEqual(lines.count(VERDICT), 1)
            said = [line for line in lines if line.startswith("test: ")]
            self.assertEqual(len(set(said)), len(said))
            before = dict(zip(lines[1:], lines))
            ran = [line for line in lines if line.startswith("ran: ")]
            self.assertEqual(len(ran), len(re.findall(r"(?m)^ *(?:python3|rt ci|\./build|tests/c/)", (desk.root / "test").read_text())))
            self.assertEqual([line for line in ran if not before[line].startswith("test: ")], [])

    def test_nothing_runs_behind_proofs_that_fail(self) -> None:
        with checkout() as desk:
            lines = self.lines_of(desk, 1, "150 passed, 1 failed")
            self.assertEqual([lines[-3], lines[-1]], ["ran: rt ci", "150 passed, 1 failed"])

    def test_edits_that_cannot_be_tried_fail(self) -> None:
        for bad, status in ((", 2 of them only by a limit", 0), (", 1 bad", 1), (", 2 of them only by a limit, 12 bad", 1)):
            with checkout() as desk:
                done = self.done_with(desk, VERDICT=VERDICT, STATUS="0", BAD=bad)
                said = f"test: {bad.split()[-2]} of the edits that must be refused cannot be tried\n" if status else ""
                self.assertEqual((done.returncode, done.stderr), (status, said))
                self.assertEqual(done.stdout.endswith(f"{VERDICT}\n"), not status)


if __name__ == "__main__":
    unittest.main()

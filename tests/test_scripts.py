"""./run, ./build and ./test from outside: help, misuse, the kit that is pinned, and what is said while crates are proved."""

import re
import subprocess
import unittest

from checkout import PINNED, ROOT, SCRIPTS, Checkout, checkout
from declared import crates
from edits_across_crates import needed_by

MISUSE = {
    "run": (
        [], ["one", "two"], ["--file"], ["-x", "one"],
        ["--page"], ["--page", "one", "two"], ["--page", "--page", "one"], ["--page", "-x"], ["one", "--page"],
    ),
    "build": (["everything"], ["--install"], ["--install", ""], ["--install", "one", "two"], ["-x"]),
    "test": (["everything"], ["-x"], ["tests", "reference"]),
}
OTHER = "rattle-kit-9 logic 0123456789abcdef"


class Words(unittest.TestCase):
    def test_help(self) -> None:
        with checkout() as desk:
            desk.without_kit()
            for script in SCRIPTS:
                for word in ("-h", "--help"):
                    done = desk.run(script, word)
                    self.assertEqual((done.returncode, done.stderr), (0, ""))
                    self.assertRegex(done.stdout, rf"\Ausage: \./{script}\b")
                    self.assertRegex(done.stdout, r"(?s)minutes.*\nExit status:\n  0  .*\n  1  .*\n  2  misuse, ")

    def test_misuse(self) -> None:
        with checkout() as desk:
            for script in SCRIPTS:
                usage = desk.run(script, "--help").stdout
                for words in MISUSE[script]:
                    done = desk.run(script, *words)
                    self.assertEqual((done.returncode, done.stdout, done.stderr), (2, "", usage), words)
            self.assertEqual(desk.calls_of_rt(), [])


class Place(unittest.TestCase):
    """A script finds what stands beside it, wherever and however it is called."""

    def done_from(self, desk: Checkout, *words: str, **variables: str) -> tuple[int, str, str]:
        command = [str(desk.tools / "bash"), *words]
        done = subprocess.run(command, env=desk.environment(**variables), cwd=desk.root.parent, capture_output=True, text=True, timeout=60)
        return done.returncode, done.stdout, done.stderr

    def test_through_a_link_and_with_a_path_for_cd(self) -> None:
        with checkout() as desk:
            desk.built("listing", "echo 'J 1'")
            listed = desk.write("a.file", "")
            link = desk.root.parent / "a link"
            link.symlink_to(desk.root / "run")
            for script in ("desk/run", str(link)):
                for variables in ({}, {"CDPATH": "."}, {"CDPATH": str(desk.tools)}):
                    self.assertEqual(self.done_from(desk, script, str(listed), **variables), (0, "J 1\n", ""))
            self.assertEqual(self.done_from(desk, "desk/build", CDPATH=".")[0], 0)
            for script in SCRIPTS:
                self.assertEqual(self.done_from(desk, f"desk/{script}", "--help", CDPATH=".")[::2], (0, ""))


class Kit(unittest.TestCase):
    def test_is_pinned_in_one_line(self) -> None:
        self.assertRegex((ROOT / "kit.txt").read_text(), r"\Arattle-kit-\S+ logic [0-9a-f]{16}\n\Z")

    def test_is_missing(self) -> None:
        with checkout() as desk:
            desk.without_kit()
            for script, words in (("run", ["-"]), ("build", []), ("test", [])):
                done = desk.run(script, *words)
                said = f"{script}: there is no rt on the path: install the Rattle kit, {PINNED}\n"
                self.assertEqual((done.returncode, done.stdout, done.stderr), (2, "", said))

    def test_is_not_needed_where_nothing_is_built(self) -> None:
        with checkout() as desk:
            self.assertEqual(desk.run("build").returncode, 0)
            desk.built("listing", "echo 'J 1'")
            desk.without_kit()
            self.assertEqual(desk.run("build").returncode, 0)
            self.assertEqual(desk.run("run", "-").stdout, "J 1\n")

    def test_another_is_told_and_used(self) -> None:
        with checkout() as desk:
            for script, words in (("run", ["-"]), ("build", []), ("test", [])):
                done = desk.run(script, *words, KIT=OTHER)
                first, rest = done.stderr.split("\n", 1)
                self.assertRegex(first, rf"^{script}: the kit here is {OTHER}, while kit\.txt has {PINNED}: ")
                self.assertNotIn("kit.txt", rest)
                self.assertTrue(rest if script == "test" else desk.calls_of_rt())

    def test_one_that_tells_no_version_is_another(self) -> None:
        with checkout() as desk:
            self.assertIn("build: the kit here is of no version that it tells, while", desk.run("build", KIT="").stderr)

    def test_the_pinned_one_is_not_told(self) -> None:
        with checkout() as desk:
            for script, words in (("run", ["-"]), ("build", []), ("test", [])):
                self.assertNotIn("kit.txt", desk.run(script, *words).stderr)


def without_times(said: str) -> list[str]:
    return re.sub(r"\d+ s\b", "N s", said).splitlines()


class Progress(unittest.TestCase):
    def test_a_line_for_each_crate(self) -> None:
        with checkout() as desk:
            self.assertEqual(without_times(desk.run("run", "-").stderr), [
                "run: proving and building the listing program, 3 crates, which takes some minutes",
                "run: proved fields (N s), 1 of 3",
                "run: proved chain (N s), 2 of 3",
                "run: proved listing (N s), 3 of 3",
            ])
            self.assertEqual(desk.calls_of_rt(), ["listing run"])
            said = without_times(desk.run("run", "--page", "-").stderr)
            self.assertEqual(said[::3], [
                "run: proving and building the page program, 3 crates, which takes some minutes",
                "run: proved board_page (N s), 3 of 3",
            ])
            self.assertEqual(desk.calls_of_rt()[1:], ["board_page run"])

    def test_no_crate_is_said_twice(self) -> None:
        with checkout() as desk:
            self.assertEqual(without_times(desk.run("build").stderr), [
                "build: proving and building desk calls, 4 crates, which takes some minutes",
                "build: proved fields (N s), 1 of 4",
                "build: proved chain (N s), 2 of 4",
                "build: proved desk (N s), 3 of 4",
                "build: proved calls (N s), 4 of 4",
            ])

    def test_all_that_rt_said_where_it_fails(self) -> None:
        log = (
            "fn fields::one: proved\ncrate fields: modules loaded=0 checked=9\nlogic=proved functions=1\n"
            "fn chain::one: proved\nrt: the library chain did not build\n"
        )
        for script, words, status, what in (
            ("run", ["-"], 2, "the listing program"), ("run", ["--page", "-"], 2, "the page program"), ("build", [], 1, "the library"),
        ):
            with checkout() as desk:
                done = desk.run(script, *words, REFUSED="chain")
                self.assertEqual((done.returncode, done.stdout), (status, ""))
                self.assertTrue(done.stderr.endswith(f", 1 of {3 if script == 'run' else 4}\n{log}{script}: {what} is not proved\n"))

    def test_the_crates_of_this_repository_are_counted(self) -> None:
        for names in (["listing"], ["board_page"], ["desk"], ["calls"], ["desk", "calls"]):
            command = f'root={ROOT}; source "$root/scripts/common.sh"; count_crates {" ".join(names)}; echo "$crates"'
            counted = subprocess.run(["bash", "-euo", "pipefail", "-c", command], check=True, capture_output=True, text=True).stdout
            self.assertEqual(int(counted), len({needed for name in names for needed in needed_by(name, crates())}))


if __name__ == "__main__":
    unittest.main()

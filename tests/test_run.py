"""The exit status of ./run, which is told from what its program prints: here a program that prints what it is told to.
tests/run_vectors.py has the real ones."""

import os
import signal
import subprocess
import unittest
from socket import AF_UNIX, socket

from checkout import checkout
from declared import text_of

LISTING = "J 1\nsweeps 0\nphi 0 10485760\nphi 1 1048576\npsi 0 -1048576\n"
PAGE = "phi  0  10485760     131073\nphi  1   1048576      65537\npsi  0  -1048576      65537\n"

# What each program prints for F, by its name: the words before the file, what it is called, and what is none of it.
PROGRAMS = {
    "listing": ([], "listing", LISTING, (PAGE, "J", "J \n", " J 1\n")),
    "board_page": (["--page"], "page", PAGE, (LISTING, "phi", "phi\n", "phi 0 1\n", " phi  0  10485760     131073\n", "psi  0 1\n")),
}


class Status(unittest.TestCase):
    def test_of_what_is_printed(self) -> None:
        with checkout() as desk:
            for program, (words, text, shown, others) in PROGRAMS.items():
                for printed, status in (
                    (shown, 0), ("refused 9 at 86\n", 1), ("refused 1 at 0\n", 1), ("spent 4096\n", 1),
                    ("", 2), ("\n", 2), ("refused\n", 2), ("spent\n", 2), ("something else\n", 2), *((other, 2) for other in others),
                    (f"{shown}\n\n", 0), ("refused 9 at 86", 1),
                ):
                    desk.built(program, f"printf '{printed}'")
                    done = desk.run("run", *words, "-")
                    self.assertEqual((done.stdout, done.returncode), (printed, status))
                    self.assertEqual(done.stderr, f"run: the {text} program printed no {text}\n" if status == 2 else "")

    def test_is_what_the_readme_says(self) -> None:
        said = "A file that is refused prints `refused NUMBER at PLACE`; one whose sweeps are used up before its mean passes prints " \
               "`spent 4096`. The exit status is 0 for a listing or a page, 1 for these two, 2 for misuse."
        self.assertIn(said, " ".join(text_of("README.md").split()))

    def test_of_a_program_that_fails(self) -> None:
        with checkout() as desk:
            for program, (words, text, shown, _) in PROGRAMS.items():
                for body, status in ((f"printf '{shown}'; exit 3", 3), ("kill -9 $$", 128 + signal.SIGKILL)):
                    desk.built(program, body)
                    done = desk.run("run", *words, "-")
                    self.assertEqual((done.stdout, done.returncode), ("", 2))
                    self.assertIn(f"run: the {text} program ended with status {status}\n", done.stderr)

    def test_of_an_output_that_cannot_be_written(self) -> None:
        with checkout() as desk:
            desk.built("listing", f"printf '{LISTING}'")
            command = [str(desk.tools / "bash"), str(desk.root / "run"), "-"]
            reading, writing = os.pipe()
            os.close(reading)
            with open(writing, "wb") as closed, open("/dev/full", "wb") as full:
                for output, statuses in ((closed, (2, -signal.SIGPIPE)), (full, (2,))):
                    done = subprocess.run(
                        command, env=desk.environment(), stdin=subprocess.DEVNULL, stdout=output, stderr=subprocess.DEVNULL, timeout=60,
                    )
                    self.assertIn(done.returncode, statuses)

    def test_of_closed_streams(self) -> None:
        with checkout() as desk:
            desk.built("listing", f"cat; printf '{LISTING}'")
            for streams, said in (("<&-", "standard input is closed"), ("</dev/null >&-", "what it printed could not be written")):
                command = ["bash", "-c", f'exec "$@" {streams}', "bash", str(desk.tools / "bash"), str(desk.root / "run"), "-"]
                done = subprocess.run(command, env=desk.environment(), capture_output=True, text=True, timeout=60)
                self.assertEqual((done.returncode, done.stdout), (2, ""))
                self.assertIn(f"run: {said}\n", done.stderr)


class Input(unittest.TestCase):
    def test_is_handed_on(self) -> None:
        with checkout() as desk:
            named = desk.write("a file", "from a file\n")
            for program, (words, _, shown, _) in PROGRAMS.items():
                desk.built(program, f"printf '{shown}'; cat")
                self.assertEqual(desk.run("run", *words, "-", given="from a pipe\n").stdout, f"{shown}from a pipe\n")
                self.assertEqual(desk.run("run", *words, str(named), given="from a pipe\n").stdout, f"{shown}from a file\n")

    def test_that_is_no_file(self) -> None:
        with checkout() as desk:
            for name in ("nowhere", "crates", ""):
                for words in ([], ["--page"]):
                    done = desk.run("run", *words, name)
                    self.assertEqual((done.returncode, done.stdout), (2, ""))
                    self.assertEqual(done.stderr, f"run: {name} is no file that can be read\n")
            self.assertEqual(desk.calls_of_rt(), [])

    def test_that_cannot_be_opened(self) -> None:
        with checkout() as desk, socket(AF_UNIX) as bound:
            desk.built("listing", "echo 'J 1'")
            bound.bind(str(desk.root / "socket"))
            done = desk.run("run", "socket")
            self.assertEqual((done.returncode, done.stdout, done.stderr), (2, "", "run: socket cannot be read\n"))


class Building(unittest.TestCase):
    def test_where_the_program_is_missing_or_older_than_a_source(self) -> None:
        with checkout() as desk:
            for program, (words, *_) in PROGRAMS.items():
                before = desk.calls_of_rt()
                desk.run("run", *words, "-")
                desk.run("run", *words, "-")
                self.assertEqual(desk.calls_of_rt(), [*before, f"{program} run"])
                desk.age(f"target/bin/{program}", f"crates/{program}/out/{program}")
                desk.run("run", *words, "-")
                self.assertEqual(desk.calls_of_rt(), [*before, *[f"{program} run"] * 2])

    def test_leaves_standard_input_to_the_program(self) -> None:
        with checkout() as desk:
            for words, begins in (([], "J 1"), (["--page"], "phi  0 ")):
                done = desk.run("run", *words, "-", given="from a pipe\n")
                self.assertEqual((done.returncode, done.stdout), (0, f"{begins}\nfrom a pipe\n"))

    def test_a_program_that_is_gone_is_put_there_again(self) -> None:
        with checkout() as desk:
            for program, (words, *_) in PROGRAMS.items():
                desk.run("run", *words, "-")
                (desk.root / f"target/bin/{program}").unlink()
                before = desk.calls_of_rt()
                self.assertEqual(desk.run("run", *words, "-").returncode, 0)
                self.assertEqual(desk.calls_of_rt(), before)

    def test_a_program_may_end_as_it_likes_while_rt_runs_it(self) -> None:
        with checkout() as desk:
            for program, (words, *_) in PROGRAMS.items():
                self.assertEqual(desk.run("run", *words, "-", ENDS="1").returncode, 0)


if __name__ == "__main__":
    unittest.main()

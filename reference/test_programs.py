"""The listing, the script of calls, and the command line."""

import os
import struct
import subprocess
import sys
import tempfile
import unittest
from io import BytesIO
from pathlib import Path

import damage
import layout
import samples
import script
import session
from board_page import board_page
from layout import build_file, build_record
from listing import listing, mean_lines, text_of
from page import page_length
from test_page import PAGE_OF_F

REFERENCE = Path(__file__).resolve().parent
F = build_file(samples.file_f())


def answers(given: bytes) -> list[str]:
    return list(script.answers(BytesIO(given)))


def string(lent: bytes) -> bytes:
    return struct.pack(">I", len(lent)) + lent


class OneLine(unittest.TestCase):
    """What both programs print in place of a listing and of a page."""

    def assert_printed(self, given: bytes, line: str) -> None:
        self.assertEqual((listing(given), board_page(given)), (line + "\n",) * 2)

    def test_refusals(self) -> None:
        for given, line in (
            (b"", "refused 1 at 0"),
            (damage.put(F, 86, 0, 8), "refused 9 at 86"),
            (damage.put(F, 102, 1 << 12, 8), "refused 10 at 78"),
            (bytes(2_807), "refused 1 at 0"),
            (layout.with_length(build_file(samples.many_sweeps())[4:] + b"\0"), "refused 1 at 0"),
            (damage.put(build_file(samples.many_sweeps()), 2_798, 0, 8), "refused 9 at 2798"),
        ):
            self.assert_printed(given, line)

    def test_spent(self) -> None:
        for sign in (1, -1):
            self.assert_printed(build_file(samples.spent_at_a_limit(sign=sign)), "spent 4096")


class Listing(unittest.TestCase):
    def test_file_f(self) -> None:
        self.assertEqual(listing(F), "J 1\nsweeps 0\nphi 0 10485760\nphi 1 1048576\npsi 0 -1048576\n")

    def test_lines_of_the_longest_file(self) -> None:
        lines = listing(build_file(samples.many_sweeps())).splitlines()
        self.assertEqual(len(lines), 2 + 31)
        names = [f"phi {j}" for j in range(16)] + [f"psi {j}" for j in range(15)]
        self.assertEqual([line.rsplit(" ", 1)[0] for line in lines], ["J", "sweeps"] + names)


class BoardPage(unittest.TestCase):
    def test_file_f(self) -> None:
        self.assertEqual(board_page(F), PAGE_OF_F.decode())

    def test_has_the_parts_of_the_listing(self) -> None:
        for last in (1, 5, layout.LARGEST_YEAR):
            given = build_file(samples.many_sweeps(last))
            lines = board_page(given).splitlines()
            self.assertEqual([line.split()[:3] for line in lines], [line.split() for line in listing(given).splitlines()[2:]])
            self.assertEqual(len(board_page(given)), page_length(last))


class LongestListing(unittest.TestCase):
    """By the limits: the largest J, the most digits for the total, and for each part as many as one inside the limits can have."""

    def longest(self) -> str:
        part = max(layout.MEAN_LIMITS, key=lambda limit: len(str(limit)))
        last = layout.LARGEST_YEAR
        return text_of(mean_lines(last, session.MOST_SWEEPS, (part,) * layout.parts_count(last)))

    def test_is_said(self) -> None:
        lines, size = self.longest().count("\n"), len(self.longest())
        for name, said in (
            ("docs/CLAIMS.md", f"No listing has more than {size} bytes"),
            ("crates/listing/src/main.rt", f"The longest has {lines} lines and {size} bytes."),
        ):
            self.assertIn(said, " ".join((REFERENCE.parent / name).read_text().split()))

    def test_none_is_longer(self) -> None:
        """Each line grows with the size of its number; a refusal and a spent file print one line."""
        low, high = layout.MEAN_LIMITS
        self.assertGreaterEqual(len(str(low)), len(str(high)))
        self.assertGreater(len(self.longest()), len("refused 24 at 2806\n"))
        for last in range(1, layout.LARGEST_YEAR + 1):
            for part in (low, low + 1, -1, 0, high):
                mean = (part,) * layout.parts_count(last)
                for total in (0, 9, 999, session.MOST_SWEEPS):
                    self.assertLessEqual(len(text_of(mean_lines(last, total, mean))), len(self.longest()))
        for path in sorted((REFERENCE.parent / "vectors" / "listing").glob("*.out")):
            self.assertLessEqual(len(path.read_bytes()), len(self.longest()), path.name)


class Script(unittest.TestCase):
    def test_every_letter(self) -> None:
        t = 1 << 20
        given = (
            b"s" + struct.pack(">I", 1) + b"o" + string(F) + b"o" + string(F)
            + b"j" + string(build_record((10 * t + 1, t, -t)))
            + b"j" + string(build_record((10 * t, t + 1, -t)))
            + b"s" + struct.pack(">I", 1) + b"r" + struct.pack(">I", 18) + b"r" + struct.pack(">I", 2)
            + b"p" + struct.pack(">I", 85) + b"p" + struct.pack(">I", 3) + b"u" + struct.pack(">I", 1) + b"u" + struct.pack(">I", 2) + b"f"
            + b"w" + string(F) + struct.pack(">II", 1, 0) + b"w" + string(F) + struct.pack(">II", 0, 2)
            + b"c" + b"f" + b"r" + struct.pack(">I", 0) + b"p" + struct.pack(">I", 1) + b"o" + string(build_file(samples.many_sweeps(2)))
            + b"s" + struct.pack(">I", 1) + b"p" + struct.pack(">I", 0)
            + b"k" + struct.pack(">III", 1, 1, 0) + b"s" + struct.pack(">I", 1) + b"k" + struct.pack(">III", 1, 1, 0)
            + b"k" + struct.pack(">III", 2, 0, 0) + b"k" + struct.pack(">III", 0, 0, 2) + b"c" + b"k" + struct.pack(">III", 0, 0, 0)
            + b"d" + string(b"") + struct.pack(">I", 1) + b"o" + string(F)
            + b"d" + string(build_record((10 * t + 1, t, -t))) + struct.pack(">I", 25)
            + b"d" + string(build_record((10 * t, t + 1, -t))) + struct.pack(">I", 24)
            + b"d" + string(build_record((1 << 27, t, -t))) + struct.pack(">I", 0)
            + b"d" + string(build_record((10 * t, t, -t))) + struct.pack(">I", 2) + b"c"
        )
        self.assertEqual(answers(given), [
            "refused 21 at 0", "opened", "refused 22 at 0", "passed", "fails 1", "settled 0",
            "read", "buffer 000000110100a0000000100000fff00000a5", "refused 13 at 0", "buffer a5a5",
            "page", f"buffer {PAGE_OF_F.hex()}a5", "refused 13 at 0", "buffer a5a5a5", "ultimate 11534336 0", "refused 25 at 0",
            "figures 1 1", "own 131073 65537 65537", "row 131073 0 0", "row 0 98305 -32768", "row 0 -32768 98305",
            "right 1374400020480 137440002048 -137440002048",
            "row 00000000000010000000000000000800", "refused 15 at 0",
            "closed", "refused 21 at 0", "refused 21 at 0", "buffer ", "refused 21 at 0", "buffer a5", "opened",
            "going 1", "refused 24 at 0", "buffer ", "struck", "going 1", "refused 26 at 0", "refused 14 at 0", "refused 27 at 0",
            "closed", "refused 21 at 0", "refused 21 at 0", "buffer a5", "opened",
            "residues", f"buffer 0000000000020001{'00' * 16}a5", "residues", f"buffer {'00' * 8}0000000000018001ffffffffffff8000",
            "refused 11 at 5", "buffer ", "refused 13 at 0", "buffer a5a5", "closed",
        ])

    def test_pages_and_residues_leave_the_session_as_it_was(self) -> None:
        """Refused or not: the calls behind some of them answer as they do without them."""
        file, record = build_file(samples.many_sweeps(2)), string(build_record((1, 2, 3, 4, 5)))
        asked = [b"p" + struct.pack(">I", size) for size in (0, 139, 140, 141)]
        asked += [b"d" + record + struct.pack(">I", size) for size in (0, 39, 40, 41)]
        swept = b"o" + string(file) + b"s" + struct.pack(">I", 2)
        settled = swept + b"s" + struct.pack(">I", 4_096)
        behind = b"s" + struct.pack(">I", 1) + b"r" + struct.pack(">I", 25) + b"fco" + string(file)
        for before in (b"", b"o" + string(file), swept, settled):
            place, whole = len(answers(before)), answers(before + b"".join(asked) + behind)
            del whole[place:place + 2 * len(asked)]
            self.assertEqual(whole, answers(before + behind))

    def test_ends(self) -> None:
        self.assertEqual(answers(b""), [])
        for end in (
            b"x", b"C", b"\n",
            b"o", b"o\0\0\0", b"o" + string(F)[:-1], b"o" + string(bytes(4_097)),
            b"j" + struct.pack(">I", 0xFFFF_FFFF), b"s\0\0\0", b"r" + struct.pack(">I", 4_097),
            b"p", b"p\0\0\0", b"p" + struct.pack(">I", 4_097), b"u", b"u\0\0\0",
            b"k", b"k\0\0\0", b"k" + bytes(4), b"k" + bytes(8), b"k" + bytes(11),
            b"d", b"d\0\0\0", b"d" + string(bytes(17))[:-1], b"d" + string(bytes(17)), b"d" + string(bytes(17)) + bytes(3),
            b"d" + string(bytes(4_097)), b"d" + string(bytes(17)) + struct.pack(">I", 4_097),
            b"w" + string(F), b"w" + string(F) + bytes(7),
        ):
            self.assertEqual(answers(b"c" + end), ["closed", "script"], end[:9])
        self.assertEqual(answers(b"cx" + b"c"), ["closed", "script"])

    def test_longest_string(self) -> None:
        self.assertEqual(answers(b"o" + string(bytes(4_096)) + b"c"), ["refused 1 at 0", "closed"])


class CommandLine(unittest.TestCase):
    def run_command(self, *arguments: str, given: bytes = b"") -> subprocess.CompletedProcess[bytes]:
        environment = {**os.environ, "PYTHONDONTWRITEBYTECODE": "1"}
        return subprocess.run([sys.executable, str(REFERENCE), *arguments], input=given, capture_output=True,
                              env=environment, timeout=60)

    def test_list_page_and_sample(self) -> None:
        with tempfile.TemporaryDirectory() as folder:
            sample = str(Path(folder) / "sample")
            self.assertEqual(self.run_command("sample", sample, "--closeness", "65536").returncode, 0)
            self.assertEqual(len(Path(sample).read_bytes()), 1_270)
            done = self.run_command("list", sample)
            self.assertEqual(self.run_command("sample", sample).returncode, 0)
            self.assertEqual(Path(sample).read_bytes(), (REFERENCE.parent / "samples" / "tables-10-11.file").read_bytes())
        self.assertEqual((done.returncode, done.stdout.split(b"\n")[0]), (0, b"J 9"))
        self.assertEqual(self.run_command("list", "-", given=F).stdout, listing(F).encode())
        self.assertEqual(self.run_command("page", "-", given=F).stdout, PAGE_OF_F)

    def test_cells(self) -> None:
        self.assertEqual(self.run_command("cells").stdout, (REFERENCE.parent / "docs" / "CELLS.md").read_bytes())

    def test_rounding(self) -> None:
        """The figures of the specification."""
        lines = self.run_command("rounding").stdout.decode().splitlines()[1:]
        self.assertEqual([line.strip() for line in lines], ["cut off  -0.500", "to the nearest  -0.001"])

    def test_judge(self) -> None:
        with tempfile.TemporaryDirectory() as folder:
            file, spoilt, record = (Path(folder) / name for name in ("file", "spoilt", "record"))
            file.write_bytes(F)
            spoilt.write_bytes(damage.put(F, 86, 0, 8))
            for lent, parts, printed in (
                (file, (10 << 20, 1 << 20, -(1 << 20)), b"passed\n"),
                (file, (10 << 20, 1 << 21, -(1 << 20)), b"fails 1\n"),
                (file, (0, 0), b"refused 4 at 0\n"),
                (spoilt, (0, 0), b"refused 9 at 86\n"),
            ):
                record.write_bytes(build_record(parts))
                self.assertEqual(self.run_command("judge", str(lent), str(record)).stdout, printed)

    def test_calls_answer_before_the_next_is_read(self) -> None:
        command = [sys.executable, "-B", str(REFERENCE), "calls", "-"]
        calls = {b"o" + string(F): b"opened\n", b"s\0\0\0\1": b"settled 0\n", b"c": b"closed\n"}
        with subprocess.Popen(command, stdin=subprocess.PIPE, stdout=subprocess.PIPE) as process:
            for call, printed in calls.items():
                process.stdin.write(call)
                process.stdin.flush()
                self.assertEqual(process.stdout.readline(), printed)
            process.stdin.close()
            self.assertEqual(process.wait(timeout=60), 0)

    def test_errors(self) -> None:
        for arguments in (
            (), ("list",), ("page",), ("nothing",), ("list", "/no/such/file"), ("sample", "x", "--closeness", "0"),
            ("vectors", "--seed", "one"), ("random", "--seed", "1", "--count", "0", "--out", "x"),
        ):
            done = self.run_command(*arguments)
            self.assertEqual(done.returncode, 2, arguments)
            self.assertIn(b"reference", done.stderr)
            self.assertNotIn(b"Traceback", done.stderr)


if __name__ == "__main__":
    unittest.main()

"""The vectors hold what they are for, and the comparison notices what differs."""

import re
import tempfile
import unittest
from pathlib import Path

import paper
import vectors
from layout import build_file


class Made(unittest.TestCase):
    @classmethod
    def setUpClass(cls) -> None:
        cls.made = vectors.make(vectors.DEFAULT_SEED)

    def listing(self, name: str) -> list[str]:
        return self.made[f"listing/{name}"].printed.decode().splitlines()

    def pages(self) -> dict[str, list[str]]:
        """What the page's program prints, by name."""
        names = [name for name in self.made if name.startswith("board_page/")]
        return {name.partition("/")[2]: self.made[name].printed.decode().splitlines() for name in names}

    def test_every_refusal_number_is_in_the_script(self) -> None:
        lines = self.made["calls/scenes"].printed.decode().splitlines()
        numbers = {int(line.split()[1]) for line in lines if line.startswith("refused")}
        self.assertEqual(numbers, {*range(1, 16), *range(21, 28)})
        self.assertNotIn("script", lines)

    def test_some_hundred_sessions(self) -> None:
        self.assertGreater(self.made["calls/scenes"].printed.count(b"opened\n"), 100)

    def test_ultimates(self) -> None:
        """In the script of scenes those of F and of drawn sessions; besides, scripts of their own."""
        lines = [line for line in self.made["calls/scenes"].printed.decode().splitlines() if line.startswith("ultimate")]
        self.assertIn("ultimate 11534336 0", lines)
        self.assertGreater(len(set(lines)), 50)
        own = sum(vector.printed.count(b"ultimate ") for name, vector in self.made.items() if name.startswith("script/ultimate-"))
        self.assertGreater(own, 400)

    def test_strikes(self) -> None:
        """In the script of scenes F without a step, and drawn sessions; besides, scripts of their own."""
        printed = self.made["calls/scenes"].printed.decode()
        self.assertIn("own 65537 65537 65537\n", printed)
        self.assertGreater(printed.count("struck\n"), 50)
        self.assertGreater(len(re.findall(r"struck\nsettled", printed)), 10)
        own = sum(vector.printed.count(b"struck\n") for name, vector in self.made.items() if name.startswith("script/strike-"))
        self.assertGreater(own, 3_000)

    def test_residues(self) -> None:
        """Those of F and of drawn sessions in scripts of their own, and scripts that end in such a call."""
        printed = self.made["script/residues-of-document"].printed.decode()
        self.assertIn("residues\nbuffer 0000000000020001" + "0" * 32 + "\n", printed)
        self.assertEqual(printed.count("residues\n"), 8)
        scripts = {name: vector for name, vector in self.made.items() if name.startswith("script/residues-")}
        self.assertGreater(sum(vector.printed.count(b"residues\n") for vector in scripts.values()), 150)
        longest = scripts["script/residues-4096"].printed.split()[-1]
        self.assertEqual((len(longest), longest[48:]), (2 * 4_096, b"a5" * 4_072))
        self.assertEqual(scripts["script/residues-4097"].printed, b"opened\nscript\n")
        self.assertTrue(self.made["script/end-in-residues"].printed.endswith(b"\nscript\n"))

    def test_listings(self) -> None:
        self.assertEqual(self.listing("f")[1], "sweeps 0")
        self.assertEqual(self.listing("spent-at-a-limit"), ["spent 4096"])
        self.assertEqual(self.listing("tables-256")[0], "J 9")
        self.assertEqual(self.listing("tables-1")[0], "J 9")
        self.assertEqual(self.listing("tables-at-rest"), ["spent 4096"])
        for last in range(1, 16):
            self.assertIn(self.listing(f"years-{last:02}")[0], (f"J {last}", "spent 4096"))

    def test_pages(self) -> None:
        pages = [lines for lines in self.pages().values() if lines[0].startswith("phi ")]
        self.assertEqual(self.pages()["f"][0], "phi  0  10485760     131073")
        self.assertLessEqual({3, 19, 31}, set(map(len, pages)))
        means, own = zip(*((int(line[7:16]), int(line[17:27])) for lines in pages for line in lines))
        self.assertLessEqual({-(1 << 26), 1 << 26, 0, -1}, set(means))
        self.assertEqual((min(own), max(own)), (64, 17 << 28))
        self.assertEqual({len(str(abs(mean))) for mean in means}, {*range(1, 9)})
        self.assertEqual({len(str(weight)) for weight in own}, {*range(2, 11)})

    def test_lines_in_place_of_a_page(self) -> None:
        alone = {lines[0] for lines in self.pages().values() if len(lines) == 1}
        self.assertEqual({int(line.split()[1]) for line in alone if line.startswith("refused")}, {*range(1, 11)})
        self.assertIn("spent 4096", alone)

    def test_pages_of_the_script(self) -> None:
        """The shortest and the longest, in buffers that are empty, one byte short, just long enough and longer."""
        given, printed = self.made["calls/scenes"].given, self.made["calls/scenes"].printed.decode().splitlines()
        lent = {len(bytes.fromhex(after.removeprefix("buffer "))) for line, after in zip(printed, printed[1:]) if line == "page"}
        self.assertLessEqual({size + more for size in (84, 868) for more in (0, 1, 28)}, lent)
        for size in (0, 83, 867):
            self.assertIn(b"p" + size.to_bytes(4, "big"), given)

    def test_logarithms(self) -> None:
        """64 times that of an amount stands in a right-hand side twice, then that less 64 times the next one's."""
        printed = self.made["calls/scenes"].printed.decode().splitlines()
        # 1, 2, 3, 2^40 and 2^44; the next ones are 2, 3, 5, 2^41 - 1, which has the logarithm of 2^41, and 1.
        for ticks, next_ticks in (
            (0, 1_048_576), (1_048_576, 1_661_954), (1_661_954, 2_434_718), (41_943_040, 42_991_616), (46_137_344, 0),
        ):
            self.assertIn(f"right {64 * ticks} {64 * ticks} {64 * (ticks - next_ticks)}", printed)

    def test_no_file_is_kept_for_two_contents(self) -> None:
        """Programs share inputs, of which each is kept once."""
        kept = {}
        for name, vector in self.made.items():
            for path, content in zip(vectors.paths(name), (vector.given, vector.printed)):
                self.assertEqual(kept.setdefault(path, content), content, path)

    def test_lowest_and_highest_places(self) -> None:
        for number, lowest, highest in ((6, 10, 250), (7, 38, 622), (8, 34, 618), (9, 70, 2_798)):
            self.assertEqual(self.listing(f"refused-{number:02}-lowest"), [f"refused {number} at {lowest}"])
            self.assertEqual(self.listing(f"refused-{number:02}-highest"), [f"refused {number} at {highest}"])
        for number, place in ((1, 0), (2, 4), (3, 5), (4, 0), (5, 6)):
            for end in ("short", "long"):
                self.assertEqual(self.listing(f"refused-{number:02}-{end}"), [f"refused {number} at {place}"])
        self.assertEqual(self.listing("refused-10-short"), ["refused 10 at 78"])
        self.assertEqual(self.listing("refused-10-long"), ["refused 10 at 750"])

    def test_lengths(self) -> None:
        for name, length in (("0", 0), ("2806", 2_806), ("2807", 2_807), ("100000", 100_000)):
            self.assertEqual(len(self.made[f"listing/length-{name}"].given), length)
        self.assertEqual(self.listing("length-2806")[0], "J 15")
        for name in ("0", "2807", "2807-counted", "100000"):
            self.assertEqual(self.listing(f"length-{name}"), ["refused 1 at 0"])

    def test_sample(self) -> None:
        """The vector of Tables 10 and 11 is kept as the sample."""
        sample = self.made["listing/tables-256"]
        self.assertEqual(sample.given, build_file(paper.tables_file(256)))
        self.assertEqual(self.made["board_page/tables-256"].given, sample.given)
        for program, ending in (("listing", "listing"), ("board_page", "page")):
            kept = ("samples/tables-10-11.file", f"samples/tables-10-11.{ending}")
            self.assertEqual(vectors.paths(f"{program}/tables-256"), kept)

    def test_small_enough_to_keep(self) -> None:
        """Those of residues have room of their own."""
        of_residues = {name: vector for name, vector in self.made.items() if "residues" in name}
        others = {name: vector for name, vector in self.made.items() if name not in of_residues}
        self.assertLess(sum(map(len, vectors.files_of(others).values())), 2_000_000)
        self.assertLess(sum(map(len, vectors.files_of(of_residues).values())), 150_000)

    def test_made_again_they_are_the_same(self) -> None:
        self.assertEqual(vectors.make(vectors.DEFAULT_SEED), self.made)
        self.assertNotEqual(vectors.make(vectors.DEFAULT_SEED + 1), self.made)


class Comparison(unittest.TestCase):
    MADE = {
        "listing/f": vectors.Vector(b"1", b"2"), "script/a": vectors.Vector(b"3", b"4"), "board_page/length-0": vectors.Vector(b"", b"5"),
    }

    def test_where_each_is_kept(self) -> None:
        with tempfile.TemporaryDirectory() as name:
            root = Path(name)
            vectors.write(root, self.MADE)
            kept = {path.relative_to(root).as_posix(): path.read_bytes() for path in root.rglob("*") if path.is_file()}
        self.assertEqual(kept, {
            "crates/listing/stdin": b"1", "crates/listing/stdout": b"2",
            "vectors/script/a.in": b"3", "vectors/script/a.out": b"4",
            "vectors/listing/length-0.in": b"", "vectors/board_page/length-0.out": b"5",
        })

    def test_written_vectors_agree(self) -> None:
        with tempfile.TemporaryDirectory() as name:
            vectors.write(Path(name), self.MADE)
            self.assertEqual(vectors.differences(Path(name), self.MADE), [])

    def test_what_differs_is_named(self) -> None:
        with tempfile.TemporaryDirectory() as name:
            root = Path(name)
            vectors.write(root, self.MADE)
            (root / "crates" / "listing" / "stdout").write_bytes(b"5")
            (root / "vectors" / "script" / "a.in").unlink()
            (root / "vectors" / "script" / "b.in").write_bytes(b"")
            self.assertEqual(vectors.differences(root, self.MADE), [
                f"{root / 'crates' / 'listing' / 'stdout'}: differs",
                f"{root / 'vectors' / 'script' / 'a.in'}: missing",
                f"{root / 'vectors' / 'script' / 'b.in'}: no such vector is made",
            ])

    def test_random_vectors(self) -> None:
        made = vectors.make_random(3, 4)
        self.assertEqual(set(made), {f"{folder}/{k}" for folder in ("listing", "board_page", "calls") for k in range(1, 5)})
        self.assertEqual(made, vectors.make_random(3, 4))
        self.assertEqual(made["listing/1"].given, made["board_page/1"].given)
        self.assertFalse([name for name, vector in made.items() if b"script" in vector.printed])


if __name__ == "__main__":
    unittest.main()

"""Files with the largest amounts: which they are, what is listed for them, and that nothing made of them is larger than is promised."""

import unittest
from random import Random

import chain
import samples
import vectors_amounts
import vectors_calls
from layout import INCURRED, PAID, File, Refusal, amount_place, build_file, read_file, unsigned
from listing import listing
from samples import amounts_of
from scales import TICKS_PER_DOUBLING as T
from scales import logarithm
from strikes import NONE, Steps

LARGEST = 1 << 44
LOGARITHM = 46_137_344
LARGEST_MEAN = 1 << 26
ENDS = (1, 15)


def observations_of(file: File) -> list[int]:
    seen = chain.observations_of(file)
    return [*(step for table in (seen.x, seen.z) for year in table for step in year), *seen.y[1:]]


def sums_of(file: File) -> list[int]:
    """Of each column of paid and of incurred steps."""
    seen = chain.observations_of(file)
    return [sum(year[j] for year in table if j < len(year)) for table in (seen.x, seen.z) for j in range(file.last + 1)]


def sizes_of(file: File, struck: Steps = NONE) -> dict[str, int]:
    """The largest of each kind of number that the desk makes of a file; for each part a mean at the limits makes its residue large."""
    figures = chain.figures_of(file, struck)
    means = [[LARGEST_MEAN if entry < 0 else -LARGEST_MEAN for entry in row] for row in figures.matrix]
    residues = [chain.residues_of(figures, mean) for mean in means]
    return {
        "logarithm": max(map(logarithm, amounts_of(file))),
        "observation": max(map(abs, observations_of(file))),
        "sum": max(map(abs, sums_of(file))),
        "right-hand side": max(map(abs, figures.right_hand_side)),
        "residue": max(abs(residue) for each in residues for residue in each),
        "divided": max(abs(figures.matrix[k][k] - 2 * residue) for each in residues for k, residue in enumerate(each)),
    }


# Of any accepted file; each but the first three is what the limits of its fields leave, and may not be reached.
MOST = {
    "logarithm": LOGARITHM, "observation": LOGARITHM, "sum": 16 * LOGARITHM,
    "right-hand side": 2_196 << 47, "residue": 19_732 << 47, "divided": 39_465 << 47,
}


class Files(unittest.TestCase):
    @classmethod
    def setUpClass(cls) -> None:
        cls.accepted, cls.refused = vectors_amounts.accepted_files(), vectors_amounts.one_too_large()

    def test_the_largest_logarithm(self) -> None:
        self.assertEqual(logarithm(LARGEST), LOGARITHM)
        self.assertEqual(LOGARITHM, 44 * T)

    def test_which_amounts(self) -> None:
        for last in ENDS:
            self.assertEqual(set(amounts_of(self.accepted[f"amounts-largest-{last:02}"])), {LARGEST})
            beside = self.accepted[f"amounts-beside-1-{last:02}"]
            self.assertEqual(set(amounts_of(beside)), {1, LARGEST})
            every = observations_of(beside)
            self.assertEqual((len(every), set(map(abs, every))), ((last + 1) * (last + 1) + last, {LOGARITHM}))

    def test_portfolios_in_yen(self) -> None:
        """Each has amounts above 2^40, and none is refused."""
        rng = Random(61)
        drawn = [samples.drawn_yen_file(rng) for _ in range(40)] + [self.accepted["yen"]]
        for file in drawn:
            self.assertEqual(read_file(build_file(file)), file)
            self.assertGreater(max(amounts_of(file)), 1 << 40)
        self.assertGreater(max(max(amounts_of(file)) for file in drawn), 15 << 40)

    def test_drawn_files_have_amounts_up_to_the_limit(self) -> None:
        rng = Random(62)
        amounts = [amount for _ in range(200) for amount in amounts_of(samples.drawn_file(rng))]
        self.assertEqual((min(amounts), max(amounts)), (1, LARGEST))
        self.assertGreater(sum(1 << 40 < amount < LARGEST for amount in amounts), 500)

    def test_one_above_is_refused_where_it_stands(self) -> None:
        """The first and the last cell of each block; in the shortest file and in the longest."""
        wanted = {(last, amount_place(last, channel, year, 0)) for last in ENDS for channel in (PAID, INCURRED) for year in (0, last)}
        self.assertEqual({(lent[5], read_file(lent).place) for lent in self.refused.values()}, wanted)
        for lent in self.refused.values():
            refusal = read_file(lent)
            self.assertEqual((refusal.number, unsigned(lent, refusal.place, 8)), (9, LARGEST + 1))
            self.assertEqual(listing(lent), f"refused 9 at {refusal.place}\n")

    def test_every_cell_is_looked_at(self) -> None:
        """Four years: each cell of both blocks, one past either limit and at the most that 8 bytes hold."""
        file = build_file(samples.largest_figures(3))
        for channel in (PAID, INCURRED):
            for place in (amount_place(3, channel, i, j) for i in range(4) for j in range(4 - i)):
                for amount in (0, LARGEST + 1, (1 << 64) - 1):
                    lent = file[:place] + amount.to_bytes(8, "big") + file[place + 8:]
                    self.assertEqual(read_file(lent), Refusal(9, place))

    def test_every_cell_of_every_file_is_in_the_script(self) -> None:
        """The one that is too long to be kept: five amounts for each cell of each J, of which one leaves the file as it is."""
        calls = [*vectors_calls.every_cell()]
        cells, rows = (sum(counted(last) for last in range(1, 16)) for counted in (lambda j: (j + 1) * (j + 2), lambda j: 2 * (j + 1)))
        self.assertEqual((len(calls), len(set(calls))), (5 * cells, 4 * cells + rows))

    def test_all_of_them_settle(self) -> None:
        for name, file in self.accepted.items():
            self.assertEqual(listing(build_file(file)).splitlines()[0], f"J {file.last}", name)


class Sizes(unittest.TestCase):
    def test_what_the_largest_amounts_come_to(self) -> None:
        """Logarithm, observation and sum are as large as any can be; phi 0 has 16 of them and a prior, each of weight 2^28."""
        reached = [sizes_of(samples.largest_figures(15)), sizes_of(samples.largest_steps(15))]
        for sizes in reached:
            self.assertEqual((sizes["logarithm"], sizes["observation"], sizes["sum"]), (LOGARITHM, LOGARITHM, 16 * LOGARITHM))
        self.assertEqual(reached[0]["right-hand side"], (LARGEST_MEAN + 16 * LOGARITHM) << 28)

    def test_none_is_larger_than_promised(self) -> None:
        rng = Random(63)
        files = [samples.drawn_any_file(rng) for _ in range(40)] + [samples.file_at_limits(15, end) for end in (0, 1)]
        for file in (*files, samples.largest_figures(15), samples.largest_steps(15), samples.spent_at_a_limit()):
            sizes = sizes_of(file)
            self.assertTrue(all(sizes[name] <= most for name, most in MOST.items()), sizes)
        self.assertLess(MOST["divided"], 1 << 63)

    def test_nor_with_strikes(self) -> None:
        """Of some steps the sum can be larger than of all, which cancel; never than is promised of all."""
        rng = Random(64)
        grown = 0
        for file in [samples.drawn_any_file(rng) for _ in range(40)] + [samples.largest_figures(15), samples.largest_steps(15)]:
            whole, sizes = sizes_of(file), sizes_of(file, samples.drawn_strikes(rng, file.last))
            self.assertTrue(all(sizes[name] <= most for name, most in MOST.items()), sizes)
            grown += sizes["right-hand side"] > whole["right-hand side"]
        self.assertGreater(grown, 0)


if __name__ == "__main__":
    unittest.main()

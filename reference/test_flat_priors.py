"""Files without a prior: which parts lack one in the samples and the vectors, and what is listed for them."""

import unittest
from collections.abc import Callable
from random import Random

import samples
import vectors_flat_priors
from layout import FLAT, File, parts_count, prior_mean_place, prior_variance_place, read_file, signed, unsigned
from listing import listing

VARIANCES = {"1": 1, "below-the-least": (1 << 18) - 1, "least": 1 << 18, "most": 1 << 46, "above-the-most": (1 << 46) + 1}
MEANS = {"below-the-lowest": -(1 << 26) - 1, "lowest": -(1 << 26), "highest": 1 << 26, "above-the-highest": (1 << 26) + 1}
Field = tuple[Callable[[int, int], int], Callable[[bytes, int], int]]  # its place by J and part, and what is read there
ENDS = ((1, 0), (15, 30))  # J, and the part whose prior is the first in the shortest file or the last in the longest


def flat_parts(file: File) -> list[int]:
    return [part for part, variance in enumerate(file.prior_variances) if variance == FLAT]


class Samples(unittest.TestCase):
    def test_priors_taken_away(self) -> None:
        file = samples.many_sweeps(2)
        for parts, wanted in ((None, [0, 1, 2, 3, 4]), ([], []), ([1, 4], [1, 4])):
            flat = samples.without_priors(file, parts)
            self.assertEqual((flat_parts(flat), flat.prior_means), (wanted, file.prior_means))

    def test_drawn(self) -> None:
        """All parts, the first or the last alone, and others; drawn from any files, none too."""
        rng, every = Random(81), [*range(parts_count(3))]
        alone = [flat_parts(samples.drawn_flat_file(rng, 3)) for _ in range(60)]
        for wanted in (every, every[:1], every[-1:]):
            self.assertIn(wanted, alone)
        self.assertTrue(any(1 < len(parts) < len(every) for parts in alone))
        of_any = [bool(flat_parts(samples.drawn_any_file(rng, 3))) for _ in range(60)]
        self.assertEqual(set(of_any), {True, False})


class Vectors(unittest.TestCase):
    @classmethod
    def setUpClass(cls) -> None:
        cls.inputs = vectors_flat_priors.inputs()

    def listed(self, name: str) -> list[str]:
        return listing(self.inputs[name]).splitlines()

    def test_which_parts(self) -> None:
        for last, _ in ENDS:
            every = [*range(parts_count(last))]
            for where, wanted in (("all", every), ("first", every[:1]), ("last", every[-1:])):
                name = f"flat-{where}-{last:02}"
                self.assertEqual(flat_parts(read_file(self.inputs[name])), wanted)
                self.assertEqual(self.listed(name)[0], f"J {last}")

    def assert_taken_or_refused(self, kind: str, values: dict[str, int], taken: tuple[str, str], number: int, field: Field) -> None:
        """Each value stands in its vector, at both ends, beside flat priors; two are taken, and the others refused at their place."""
        place_of, read = field
        for last, part in ENDS:
            place = place_of(last, part)
            for name, value in values.items():
                lent = self.inputs[f"{kind}-{name}-{last:02}"]
                first = f"J {last}" if name in taken else f"refused {number} at {place}"
                self.assertEqual((read(lent, place), listing(lent).splitlines()[0]), (value, first))

    def test_prior_variances(self) -> None:
        field = (prior_variance_place, lambda lent, place: unsigned(lent, place, 8))
        self.assert_taken_or_refused("prior-variance", VARIANCES, ("least", "most"), 7, field)

    def test_prior_means(self) -> None:
        def read(lent: bytes, place: int) -> int:
            self.assertEqual(unsigned(lent, place + 4, 8), FLAT)
            return signed(lent, place, 4)

        self.assert_taken_or_refused("flat-mean", MEANS, ("lowest", "highest"), 8, (prior_mean_place, read))
        self.assertEqual(self.listed("flat-mean-and-variance-1"), ["refused 7 at 62"])

    def test_settled_and_spent(self) -> None:
        self.assertEqual(self.listed("flat-all-01"), ["J 1", "sweeps 0", "phi 0 10485760", "phi 1 1048576", "psi 0 -1048576"])
        for name in ("flat-spent", "flat-spent-65536"):
            self.assertEqual(self.listed(name), ["spent 4096"])


if __name__ == "__main__":
    unittest.main()

"""The page: its lines column by column, that every value fits, and that no two means share one."""

import unittest
from itertools import combinations
from random import Random

import chain
import samples
import session
from layout import LARGEST_YEAR, MEAN_LIMITS, PRIOR_VARIANCE_LIMITS, VARIANCE_LIMITS, File, build_file, parts_count
from page import build_page, page_length, part_names
from scales import weight

# First and last column of each, counted from 1, as the request has them.
NAME, INDEX, MEAN, OWN = (1, 3), (5, 6), (8, 16), (18, 27)
BLANKS = (4, 7, 17)

PAGE_OF_F = b"phi  0  10485760     131073\nphi  1   1048576      65537\npsi  0  -1048576      65537\n"

LEAST_OWN = weight(VARIANCE_LIMITS[1])  # no prior and one observation, which every part has
MOST_OWN = weight(PRIOR_VARIANCE_LIMITS[0]) + (LARGEST_YEAR + 1) * weight(VARIANCE_LIMITS[0])  # sixteen, as phi 0 can have


def columns(line: bytes, ends: tuple[int, int]) -> str:
    return line[ends[0] - 1:ends[1]].decode()


def read_back(page: bytes) -> list[tuple[str, int, int, int]]:
    """Name, index, mean and own weight of each line, by its columns alone."""
    lines = [page[start:start + 28] for start in range(0, len(page), 28)]
    return [(columns(line, NAME), *(int(columns(line, ends)) for ends in (INDEX, MEAN, OWN))) for line in lines]


def drawn_mean(rng: Random, last: int) -> tuple[int, ...]:
    """Of every number of digits."""
    parts = (rng.choice((-1, 1)) * rng.getrandbits(rng.randint(0, 26)) for _ in range(parts_count(last)))
    return tuple(rng.choice((part, part, *MEAN_LIMITS)) for part in parts)


def own_weights_of(file: File) -> tuple[int, ...]:
    return chain.figures_of(file).own


class Lines(unittest.TestCase):
    def test_of_f(self) -> None:
        file = samples.file_f()
        self.assertEqual(build_page(file.prior_means, own_weights_of(file)), PAGE_OF_F)

    def test_columns_of_drawn_files(self) -> None:
        rng = Random(71)
        for last in [*range(1, LARGEST_YEAR + 1)] * 4:
            page = build_page(drawn_mean(rng, last), own_weights_of(samples.drawn_any_file(rng, last)))
            lines = page.split(b"\n")
            self.assertEqual((lines.pop(), len(lines)), (b"", 2 * last + 1))
            for line in lines:
                self.assertEqual(len(line), 27)
                self.assertEqual({columns(line, (blank, blank)) for blank in BLANKS}, {" "})
                for ends, number in ((INDEX, r" ?\d{1,2}"), (MEAN, r" *-?\d+"), (OWN, r" *\d+")):
                    self.assertRegex(columns(line, ends), rf"\A{number}\Z")

    def test_what_is_read_back(self) -> None:
        rng = Random(72)
        for last in [*range(1, LARGEST_YEAR + 1)] * 4:
            mean, own = drawn_mean(rng, last), own_weights_of(samples.drawn_any_file(rng, last))
            names = [*(("phi", j) for j in range(last + 1)), *(("psi", j) for j in range(last))]
            wanted = [(name, index, part, weight) for (name, index), part, weight in zip(names, mean, own, strict=True)]
            self.assertEqual(read_back(build_page(mean, own)), wanted)

    def test_no_zero_leads_and_a_sign_touches_its_number(self) -> None:
        for part, shown in ((0, "        0"), (-1, "       -1"), (-10, "      -10"), (MEAN_LIMITS[0], "-67108864")):
            self.assertEqual(columns(build_page((part,) * 3, (LEAST_OWN,) * 3), MEAN), shown)


class Fit(unittest.TestCase):
    """The widest value of each column, by the limits of an accepted file."""

    def test_the_widest_fits(self) -> None:
        names = part_names(LARGEST_YEAR)
        for values, (first, last) in (
            ([name for name, _ in names], NAME), ([index for _, index in names], INDEX), (MEAN_LIMITS, MEAN), ((LEAST_OWN, MOST_OWN), OWN),
        ):
            self.assertEqual(max(len(str(value)) for value in values), last - first + 1)

    def test_own_weights_are_inside(self) -> None:
        self.assertEqual((LEAST_OWN, MOST_OWN), (64, 17 << 28))
        rng, lowest, highest = Random(73), *(samples.file_at_limits(LARGEST_YEAR, end) for end in (0, 1))
        least = min(own_weights_of(samples.without_priors(highest)))
        self.assertEqual((least, max(own_weights_of(lowest))), (LEAST_OWN, MOST_OWN))
        for _ in range(200):
            own = own_weights_of(samples.drawn_any_file(rng))
            self.assertLessEqual(LEAST_OWN, min(own))
            self.assertLessEqual(max(own), MOST_OWN)

    def test_lengths(self) -> None:
        for last in range(1, LARGEST_YEAR + 1):
            for part in MEAN_LIMITS:
                page = build_page((part,) * parts_count(last), (MOST_OWN,) * parts_count(last))
                self.assertEqual((page_length(last), len(page)), (28 * (2 * last + 1),) * 2)


class NeverShared(unittest.TestCase):
    """Whatever the own weights are."""

    def test_by_means_that_differ_a_little(self) -> None:
        for last in (1, 2, LARGEST_YEAR):
            base = (1_048_576,) * parts_count(last)
            changed = [base[:k] + (part,) + base[k + 1:] for k in range(len(base)) for part in (1_048_577, -1_048_576, 10_485_760, 0)]
            pages = {build_page(mean, (LEAST_OWN,) * len(base)) for mean in (base, *changed)}
            self.assertEqual(len(pages), 1 + len(changed))

    def test_by_drawn_means(self) -> None:
        rng = Random(74)
        means = {drawn_mean(rng, last) for last in (1, 2) for _ in range(60)} | {(a, b, 0) for a in (-1, 0, 1) for b in (-10, 10)}
        pages = {mean: build_page(mean, [rng.randint(LEAST_OWN, MOST_OWN) for _ in mean]) for mean in means}
        for one, other in combinations(means, 2):
            self.assertNotEqual(pages[one], pages[other])


class OfASession(unittest.TestCase):
    def test_is_the_settled_mean_s_with_the_figures_own_weights(self) -> None:
        rng, written = Random(75), 0
        for last in range(1, LARGEST_YEAR + 1):
            _, state = session.open_file(session.EMPTY, build_file(samples.drawn_any_file(rng, last)))
            _, state = session.sweep(state, 100)
            answer, buffer = session.page(state, bytes(page_length(last)))
            if answer == session.Paged():
                written += 1
                shown = [(part, own) for _, _, part, own in read_back(buffer)]
                self.assertEqual(shown, list(zip(state.mean, session.figures(state).own)))
        self.assertGreater(written, 10)


if __name__ == "__main__":
    unittest.main()

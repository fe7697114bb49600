"""The ultimate of a year: by the paper's theorem in fractions, by hand, by Table 3; refusals, traps, and what its vectors hold."""

import unittest
from collections.abc import Callable, Sequence
from dataclasses import replace
from fractions import Fraction
from io import BytesIO
from itertools import product
from math import exp
from random import Random
from unittest import mock

import layout
import paper
import samples
import script
import session
import vectors_ultimate
from call_bytes import CLOSE, FIGURES, call_open, call_page, call_read, call_sweep, call_ultimate
from layout import LARGEST_YEAR, MEAN_LIMITS, File, Refusal, build_file, parts_count, record_length
from page import page_length
from scales import TICKS_PER_DOUBLING as T
from scales import logarithm
from session import EMPTY, Held
from ultimate import Ultimate, ultimate_of

OUTSIDE = (0, 256, (1 << 16) + 1, (1 << 31) + 1, (1 << 32) - 1)  # and J + 1


def swept(file: File, sweeps: int = session.MOST_SWEEPS) -> Held:
    _, state = session.open_file(EMPTY, build_file(file))
    return session.sweep(state, sweeps)[1]


def answers(given: bytes) -> list[str]:
    return list(script.answers(BytesIO(given)))


def by_theorem(file: File, mean: Sequence[int], year: int) -> tuple[Fraction, int]:
    """The mean of Theorem 2.4 in the paper's letters, and what its credibility weight is divided by."""
    J, j = file.last, file.last - year
    phi, psi = mean[:J + 1], mean[J + 1:]

    def mu(l: int) -> int:
        return sum(phi) - sum(psi[l:])

    def v2(l: int) -> int:
        return sum(file.sigma2) + sum(file.tau2[l:])

    eta, w2 = sum(phi[:j + 1]), sum(file.sigma2[:j + 1])
    beta = Fraction(v2(J) - w2, v2(j) - w2)
    paid, incurred = logarithm(file.paid[year][j]), logarithm(file.incurred[year][j])
    return mu(J) + (1 - beta) * (paid - eta) + beta * (incurred - mu(j)), v2(j) - w2


def drawn_cases(rng: Random) -> list[tuple[File, tuple[int, ...], int]]:
    """File, mean and year: every year of every J, the mean drawn or at its limits."""
    cases = []
    for last in [*range(1, LARGEST_YEAR + 1)] * 3:
        file, part = samples.drawn_any_file(rng, last), rng.choice((lambda: rng.randint(*MEAN_LIMITS), lambda: rng.choice(MEAN_LIMITS)))
        mean = tuple(part() for _ in range(parts_count(last)))
        cases += [(file, mean, year) for year in range(1, last + 1)]
    return cases


class ByTheTheorem(unittest.TestCase):
    def assert_is(self, answer: Ultimate, exact: Fraction, divisor: int) -> None:
        """Floor and remainder are the only two numbers for which these hold."""
        self.assertEqual(answer.divisor, divisor)
        self.assertEqual(answer.floor * divisor + answer.remainder, exact * divisor)
        self.assertTrue(0 <= answer.remainder < divisor)

    def test_of_any_mean(self) -> None:
        signs = set()
        for case in drawn_cases(Random(91)):
            answer = ultimate_of(*case)
            self.assert_is(answer, *by_theorem(*case))
            signs.add((answer.floor < 0, answer.remainder > 0))
        self.assertLessEqual({(True, True), (False, True)}, signs)

    def test_of_a_session_by_the_mean_that_is_held(self) -> None:
        for last in range(1, LARGEST_YEAR + 1):
            state = swept(vectors_ultimate.settling(last))
            self.assertNotEqual(state.mean, state.file.prior_means)
            for year in range(1, last + 1):
                self.assert_is(session.ultimate(state, year), *by_theorem(state.file, state.mean, year))


# J = 2, with variances of a few times 2^18. Year 1 has (7(3T + 1) + 5(4T + 2)) / 12, year 2 has (9(T + 11) + 8(5T + 22)) / 17.
THREE_YEARS = File(
    last=2, closeness=1, prior_means=(0,) * 5, prior_variances=(0,) * 5, sigma2=(11 << 18, 3 << 18, 5 << 18), tau2=(2 << 18, 7 << 18),
    paid=((4, 4, 4), (4, 8), (2,)), incurred=((4, 4, 4), (4, 16), (32,)),
)
MEAN = (100, 10, 1, 20, 2)
OF_THREE_YEARS = {1: (41 * T + 17, 12), 2: (49 * T + 275, 17)}

# J = 1, all logarithms 0; N has three times 2^18 and M twice.
BELOW_ZERO = vectors_ultimate.one_year(3 << 18, 2 << 18, 0, 0)


def in_units(numerator: int, divisor: int) -> Ultimate:
    """By hand, both in 2^18."""
    return Ultimate(numerator // divisor, numerator % divisor << 18, divisor << 18)


class ByHand(unittest.TestCase):
    def test_file_f(self) -> None:
        """Half of 10T + T and of 12T - T."""
        self.assertEqual(session.ultimate(swept(samples.file_f()), 1), Ultimate(11 * T, 0, 1 << 31))

    def test_three_years(self) -> None:
        for year, (numerator, divisor) in OF_THREE_YEARS.items():
            self.assertEqual(ultimate_of(THREE_YEARS, MEAN, year), in_units(numerator, divisor))
        self.assertEqual([numerator % divisor for numerator, divisor in OF_THREE_YEARS.values()], [1, 5])

    def test_below_zero(self) -> None:
        """(2(-1) + 3(-2)) / 5 is -8/5: -2, and 2/5 more."""
        self.assertEqual(ultimate_of(BELOW_ZERO, (0, -1, -2), 1), Ultimate(-2, 2 << 18, 5 << 18))


class Sample(unittest.TestCase):
    def test_tables_10_and_11_give_table_3(self) -> None:
        """With its variance each answer gives the reserve that the paper prints, to 0.01 per cent."""
        state = swept(paper.tables_file(256))
        file, covariance = state.file, paper.inverse(state.figures.matrix)
        for year, printed in enumerate(paper.RESERVES, start=1):
            answer = session.ultimate(state, year)
            expected = paper.TICK * (answer.floor + answer.remainder / answer.divisor)
            reserve = exp(expected + paper.logarithm_variance(file, covariance, year) / 2) - file.paid[year][-1]
            self.assertLess(abs(reserve - printed), 0.0001 * printed)


class Refusals(unittest.TestCase):
    def test_nothing_open_comes_first(self) -> None:
        for state in (EMPTY, session.close(swept(samples.file_f()))):
            for year in (1, *OUTSIDE):
                self.assertEqual(session.ultimate(state, year), Refusal(21, 0))

    def test_a_mean_that_does_not_pass_comes_before_the_year(self) -> None:
        going, spent, rests = swept(samples.many_sweeps(2), 1), swept(samples.spent_at_a_limit()), swept(paper.resting_file())
        for state, year in product((going, spent, rests), (1, *OUTSIDE)):
            for asked in (year, state.file.last, state.file.last + 1):
                self.assertEqual(session.ultimate(state, asked), Refusal(24, 0))

    def test_year_outside(self) -> None:
        for last in range(1, LARGEST_YEAR + 1):
            state = swept(samples.at_the_prior((0,) * parts_count(last)))
            for year in (*OUTSIDE, last + 1):
                self.assertEqual(session.ultimate(state, year), Refusal(25, 0))
            for year in (1, last):
                self.assertIsInstance(session.ultimate(state, year), Ultimate)

    def test_the_session_is_as_it_was(self) -> None:
        """Refused or not: the calls behind some ultimates answer as they do without them."""
        opened = call_open(build_file(samples.many_sweeps(2)))
        years = [*map(call_ultimate, range(4)), *map(call_ultimate, OUTSIDE)]
        behind = call_sweep(1) + call_read(record_length(2)) + call_page(page_length(2)) + FIGURES + CLOSE + opened
        for before in (b"", opened, opened + call_sweep(2), opened + call_sweep(4_096)):
            place, whole = len(answers(before)), answers(before + b"".join(years) + behind)
            del whole[place:place + len(years)]
            self.assertEqual(whole, answers(before + behind))


Formula = Callable[[File, Sequence[int], int], Ultimate]


def otherwise(starts: tuple[int, ...] = (1, 0, 1, 0), exchanged: bool = False, by_accident_year: bool = False) -> Formula:
    """Left open: where the sums of sigma^2, tau^2, phi and psi start behind k, which of the sums is for which side, and what k is."""
    def formula(file: File, mean: Sequence[int], year: int) -> Ultimate:
        k = min(year, file.last - 1) if by_accident_year else file.last - year
        terms = (file.sigma2, file.tau2, mean[:file.last + 1], mean[file.last + 1:])
        n, m, phi, psi = (sum(values[k + start:]) for values, start in zip(terms, starts))
        sides = [logarithm(triangle[year][file.last - year]) + to_come for triangle, to_come in ((file.paid, phi), (file.incurred, psi))]
        by_paid, by_incurred = sides[::-1] if exchanged else sides
        return Ultimate(*divmod(m * by_paid + n * by_incurred, n + m), n + m)

    return formula


def toward_zero(file: File, mean: Sequence[int], year: int) -> Ultimate:
    right = ultimate_of(file, mean, year)
    up = right.floor < 0 < right.remainder
    return Ultimate(right.floor + up, right.remainder - up * right.divisor, right.divisor)


def to_the_nearest(file: File, mean: Sequence[int], year: int) -> Ultimate:
    right = ultimate_of(file, mean, year)
    return replace(right, floor=right.floor + (2 * right.remainder >= right.divisor))


def of_first_amounts(file: File, mean: Sequence[int], year: int) -> Ultimate:
    """By what an accident year began with, and not by its latest."""
    paid, incurred = (tuple((*row[:-1], row[0]) for row in triangle) for triangle in (file.paid, file.incurred))
    return ultimate_of(replace(file, paid=paid, incurred=incurred), mean, year)


def of_prior_means(file: File, _mean: Sequence[int], year: int) -> Ultimate:
    return ultimate_of(file, file.prior_means, year)


def in_64_bits(file: File, mean: Sequence[int], year: int) -> Ultimate:
    """The numerator wrapped."""
    right = ultimate_of(file, mean, year)
    numerator = right.floor * right.divisor + right.remainder
    return Ultimate(*divmod((numerator + (1 << 63)) % (1 << 64) - (1 << 63), right.divisor), right.divisor)


# Of the file of three years: the year, and by hand the numerator in 2^18 and the divisor that the wrong formula gives.
TRAPS: dict[str, tuple[Formula, int, int, int]] = {
    "N and M exchanged": (otherwise(exchanged=True), 1, 43 * T + 19, 12),
    "N from k": (otherwise((0, 0, 1, 0)), 1, 53 * T + 23, 15),
    "M from k + 1": (otherwise((1, 1, 1, 0)), 1, 20 * T + 10, 5),
    "phi from k": (otherwise((1, 0, 0, 0)), 1, 41 * T + 87, 12),
    "psi from k + 1": (otherwise((1, 0, 1, 1)), 1, 41 * T + 7, 12),
    "k by the accident year": (otherwise(by_accident_year=True), 2, 32 * T + 17, 12),
    "the first amounts": (of_first_amounts, 1, 24 * T + 17, 12),
    "the prior means": (of_prior_means, 1, 41 * T, 12),
}


class Traps(unittest.TestCase):
    def test_left_open_it_is_the_right_one(self) -> None:
        for case in drawn_cases(Random(92)):
            self.assertEqual(otherwise()(*case), ultimate_of(*case))

    def test_each_gives_something_else(self) -> None:
        for name, (wrong, year, numerator, divisor) in TRAPS.items():
            self.assertEqual(wrong(THREE_YEARS, MEAN, year), in_units(numerator, divisor), name)
            self.assertNotEqual((numerator, divisor), OF_THREE_YEARS[year])

    def test_rounded_otherwise(self) -> None:
        """-8/5 and -6/5."""
        for mean, down, cut, nearest in (((0, -1, -2), -2, -1, -2), ((0, 0, -2), -2, -1, -1)):
            found = [formula(BELOW_ZERO, mean, 1).floor for formula in (ultimate_of, toward_zero, to_the_nearest)]
            self.assertEqual(found, [down, cut, nearest])

    def test_wrapped(self) -> None:
        """Of the least numerator, a multiple of 2^64, nothing is left."""
        file = vectors_ultimate.at_the_limits(LARGEST_YEAR, -1, -1)
        self.assertEqual(in_64_bits(file, file.prior_means, LARGEST_YEAR).floor, 0)

    def test_file_f_does_not_tell_which_side_counts(self) -> None:
        f, mean = samples.file_f(), (10 * T, T + 4, -T)
        wider, (exchanged, *_) = replace(f, tau2=(3 << 30,)), TRAPS["N and M exchanged"]
        self.assertEqual([exchanged(file, mean, 1).floor - 11 * T for file in (f, wider)], [2, 1])
        self.assertEqual([ultimate_of(file, mean, 1).floor - 11 * T for file in (f, wider)], [2, 3])

    def test_the_vectors_tell_each(self) -> None:
        """A desk with a wrong formula answers some script otherwise."""
        scripts = vectors_ultimate.scripts()
        right = {name: answers(given) for name, given in scripts.items()}
        for wrong in (toward_zero, to_the_nearest, in_64_bits, *(formula for formula, *_ in TRAPS.values())):
            with mock.patch.object(session, "ultimate_of", wrong):
                self.assertTrue(any(answers(given) != right[name] for name, given in scripts.items()), wrong)


class Vectors(unittest.TestCase):
    @classmethod
    def setUpClass(cls) -> None:
        cls.lines = {name: answers(given) for name, given in vectors_ultimate.scripts().items()}

    def shown(self, *names: str) -> list[tuple[int, int]]:
        lines = [line for name in names or self.lines for line in self.lines[name]]
        return [(int(line.split()[1]), int(line.split()[2])) for line in lines if line.startswith("ultimate ")]

    def test_signs_and_remainders(self) -> None:
        """Below zero and above it, with a remainder and without; and 0."""
        shown = self.shown()
        self.assertIn((0, 0), shown)
        self.assertEqual(len({(floor < 0, remainder > 0) for floor, remainder in shown if (floor, remainder) != (0, 0)}), 4)

    def test_refusals(self) -> None:
        lines = {line for line in sum(self.lines.values(), []) if line.startswith("refused")}
        self.assertLessEqual({f"refused {number} at 0" for number in (21, 24, 25)}, lines)
        for name, found in self.lines.items():
            self.assertNotIn("script", found)
            self.assertEqual(name == "ultimate-refusals", "refused 21 at 0" in found)
        self.assertFalse([line for line in self.lines["ultimate-remainders"] if line.startswith("refused")])

    def test_every_year_of_every_j(self) -> None:
        lines = self.lines["ultimate-years"]
        kinds = "".join("u" if line.startswith("ultimate") else line[0] for line in lines)
        self.assertEqual(kinds, "".join(f"osr{'u' * last}rrc" for last in range(1, LARGEST_YEAR + 1)))
        self.assertEqual({line for line in lines if line[0] == "r"}, {"refused 25 at 0"})
        self.assertNotIn("settled 0", lines)

    def test_the_greatest_and_the_least_numerator(self) -> None:
        """Of all that an accepted file and a mean inside the limits can have, by the limits."""
        most = LARGEST_YEAR * layout.VARIANCE_LIMITS[1]
        high = logarithm(layout.AMOUNT_LIMITS[1]) + LARGEST_YEAR * MEAN_LIMITS[1]
        low = LARGEST_YEAR * MEAN_LIMITS[0]
        self.assertEqual((2 * most * high, 2 * most * low), (30_120 << 60, -28_800 << 60))
        for signs, side in (((1, 1), high), ((-1, -1), low)):
            state = swept(vectors_ultimate.at_the_limits(LARGEST_YEAR, *signs))
            self.assertEqual((state.total, session.ultimate(state, LARGEST_YEAR)), (0, Ultimate(side, 0, 2 * most)))
            self.assertIn((side, 0), self.shown("ultimate-limits"))

    def test_the_greatest_remainders(self) -> None:
        shown = self.shown("ultimate-remainders")
        for year in range(1, LARGEST_YEAR + 1):
            most = (2 * year << 40) - 2  # N + M is 1 more
            self.assertLessEqual({(44 * T + (year << 26) - 2, most), (-(year << 26), most)}, set(shown))

    def test_lopsided(self) -> None:
        """One sum is 2^22 times the other, and a sweep is run: the parts that vary little leave their limits, the others hardly."""
        self.assertEqual({line for line in self.lines["ultimate-lopsided"] if line.startswith("settled")}, {"settled 1"})
        for last in vectors_ultimate.ENDS:
            ratios = [Fraction(sum(file.sigma2[1:]), sum(file.tau2)) for file in vectors_ultimate.lopsided(last)]
            self.assertEqual(ratios, [Fraction(1, 1 << 22)] * 2 + [Fraction(1 << 22)] * 2)
        state = swept(next(vectors_ultimate.lopsided(LARGEST_YEAR)))
        self.assertEqual(sum(state.mean[1:LARGEST_YEAR + 1]) // T, 152)
        self.assertEqual(sum(state.mean[LARGEST_YEAR + 1:]) // T, 959)

    def test_around_powers_and_multiples(self) -> None:
        """Numerators of 2^32, 2^63 and 2^64 or 1 beside, of both signs; and remainders of 0, 1 and the most that there can be."""
        wanted = {sign * ((1 << power) + beside) for power in (32, 63, 64) for beside in (-1, 0, 1) for sign in (1, -1)}
        found = [ultimate_of(file, file.prior_means, 1) for file in vectors_ultimate.around_powers()]
        self.assertEqual({answer.floor * answer.divisor + answer.remainder for answer in found}, wanted)
        for file in vectors_ultimate.around_multiples():
            answer = ultimate_of(file, file.prior_means, 1)
            self.assertIn(answer.remainder, (0, 1, answer.divisor - 1))

    def test_sessions(self) -> None:
        """What is asked twice is answered twice alike, and swept in pieces as at one go."""
        scenes = "\n".join(self.lines["ultimate-sessions"]).split("closed")
        for scene in scenes[:5]:
            told = scene.strip().split("\n")[2:]
            self.assertEqual(told[:len(told) // 2], told[len(told) // 2:])
        for pieces, at_one_go in ((scenes[5], scenes[6]), (scenes[7], scenes[8])):
            self.assertIn("going", pieces)
            for line in at_one_go.strip().split("\n")[1:]:
                self.assertIn(line, pieces)


if __name__ == "__main__":
    unittest.main()

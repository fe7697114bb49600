"""docs/SPECIFICATION.md has the reference's figures: places and bytes of a file, F and its figures, closeness in money, limits."""

import re
import unittest
from fractions import Fraction
from math import ceil, log, log2, sqrt
from pathlib import Path

import cells
import chain
import damage
import exact
import layout
import paper
import samples
import session
from board_page import board_page
from listing import listing
from page import page_length, part_names
from rounding import DRAWN, mean_errors
from scales import TICKS_PER_DOUBLING as T
from scales import SQUARINGS, half_ticks, logarithm, weight
from vectors import DEFAULT_SEED

ROOT = Path(__file__).resolve().parent.parent
README = (ROOT / "README.md").read_text()
TEXT = (ROOT / "docs" / "SPECIFICATION.md").read_text()


def section(name: str) -> str:
    return re.search(rf"^## {name}\n(.*?)(?=^## |\Z)", TEXT, re.MULTILINE | re.DOTALL)[1]


def rows(text: str, columns: int) -> list[list[str]]:
    """The rows of the tables that have so many columns, without their heads."""
    found = [[cell.strip() for cell in line[1:-1].split("|")] for line in re.findall(r"^\|.*\|$", text, re.MULTILINE)]
    heads = {place - 1 for place, row in enumerate(found) if set(row[0]) == set("-")}
    return [row for place, row in enumerate(found) if len(row) == columns and not {place, place - 1} & heads]


def number(text: str) -> int:
    return int(text.replace(",", "").replace("−", "-"))


def numbers(text: str) -> list[int]:
    return [number(found) for found in re.findall(r"[−-]?\d[\d,]*\d|[−-]?\d", text)]


def computed(formula: str, **values: int) -> int:
    """A formula such as floor((a − 2r) / (2a)), in which a division is one that is rounded down."""
    product = re.sub(r"(?<=\d)(?=[a-z])", "*", formula.replace("−", "-").replace("·", "*").replace("^", "**").replace("/", "//"))
    return eval(product, {"__builtins__": {}}, {"floor": lambda quotient: quotient, **values})


def opened(closeness: int) -> session.State:
    return session.open_file(session.EMPTY, layout.build_file(samples.file_f(closeness)))[1]


def place_of(formula: str, last: int) -> int:
    """A formula of the table, such as 10 + 20N + 4(J+1)(J+2)."""
    product = re.sub(r"(?<=[\dN)])(?=[NJ(])", "*", formula)
    return eval(product, {"__builtins__": {}}, {"N": 2 * last + 1, "J": last})


class File(unittest.TestCase):
    def test_places_for_every_last_year(self) -> None:
        table = [row for row in rows(section("The file"), 4) if row[0] and "each" in row[1]]
        self.assertEqual(len(table), 4)
        for last in range(1, layout.LARGEST_YEAR + 1):
            paid, incurred = (layout.amount_place(last, channel, 0, 0) for channel in (layout.PAID, layout.INCURRED))
            wanted = [layout.variance_place(0), layout.prior_mean_place(last, 0), paid, incurred]
            self.assertEqual([place_of(row[0], last) for row in table], wanted)
            self.assertEqual(place_of("10 + 20N + 8(J+1)(J+2)", last), layout.file_length(last))
        self.assertIn("| 10 + 20N + 8(J+1)(J+2) |", section("The file"))

    def test_number_of_a_cell(self) -> None:
        self.assertIn("amount number i(J+1) − i(i−1)/2 + j", section("The file"))
        for last in range(1, layout.LARGEST_YEAR + 1):
            places = [(i, j) for i in range(last + 1) for j in range(last - i + 1)]
            self.assertEqual([i * (last + 1) - i * (i - 1) // 2 + j for i, j in places], list(range(len(places))))

    def test_table_of_row_starts(self) -> None:
        self.assertIn("Entry 16J + i is the number of the cell (i, 0)", " ".join(section("The table of row starts").split()))
        entries = cells.table()
        for last in range(1, layout.LARGEST_YEAR + 1):
            for i in range(last + 1):
                self.assertEqual(entries[16 * last + i], i * (last + 1) - i * (i - 1) // 2)

    def test_file_f_field_by_field(self) -> None:
        table = [row for row in rows(section("The file"), 4) if re.fullmatch(r"[0-9a-f]{2}( [0-9a-f]{2})*", row[1])]
        at = 0
        for place, written, name, value in table:
            given = bytes.fromhex(written)
            self.assertEqual((number(place), number(value)), (at, int.from_bytes(given, "big", signed="prior mean" in name)), name)
            at += len(given)
        self.assertEqual(bytes.fromhex(" ".join(row[1] for row in table)), layout.build_file(samples.file_f()))

    def test_record_of_f(self) -> None:
        written = re.search(r"is the record ([0-9a-f ]+)\.", section("The mean record"))[1]
        self.assertEqual(bytes.fromhex(written), layout.build_record((10 * T, T, -T)))

    def test_longest(self) -> None:
        self.assertIn(f"J = 15, has {layout.LONGEST_FILE:,} bytes", section("The file"))
        self.assertIn(f"The longest has {layout.record_length(layout.LARGEST_YEAR)} bytes", section("The mean record"))


class Figures(unittest.TestCase):
    def test_of_f_with_priors_and_without(self) -> None:
        text = " ".join(section("The figures").split())
        told = re.findall(r"D is ([^;]*); the rows of A are ([^;]*); b is T times ([^.]*)\.", text)
        for file, (own, entries, factors) in zip((samples.file_f(), samples.without_priors(samples.file_f())), told, strict=True):
            figures = chain.figures_of(file)
            self.assertEqual(numbers(re.sub(r"(?<=\d), ", "; ", own)), list(figures.own))
            self.assertEqual(numbers(re.sub(r", ", "; ", entries)), [entry for row in figures.matrix for entry in row])
            self.assertEqual([T * factor for factor in numbers(re.sub(r", ", "; ", factors))], list(figures.right_hand_side))
            self.assertEqual(chain.residues_of(figures, (10 * T, T, -T)), [0, 0, 0])


class Examples(unittest.TestCase):
    def assert_said(self, name: str, text: str) -> None:
        self.assertIn(text, " ".join(section(name).split()))

    def test_logarithms_and_weights(self) -> None:
        logs = {a: logarithm(a) for a in (1, 1 << 40, 1 << 44, 3, 5)}
        self.assertEqual((logs[1], logs[1 << 40], logs[1 << 44]), (0, 40 * T, 44 * T))
        self.assert_said("From amounts to the loss", f"1 has 0, 2^40 has 40T = {logs[1 << 40]:,}, 2^44, the largest amount, has 44T = "
                                                     f"{logs[1 << 44]:,}, 3 has {logs[3]:,} and 5 has {logs[5]:,}.")
        self.assertEqual((weight(1 << 18), weight(1 << 46), weight(0)), (1 << 28, 1, 0))
        said = "2^28 for 2^18, 1 for 2^46. The weight of 0, the variance of a part without a prior, is 0."
        self.assert_said("From amounts to the loss", said)

    def test_how_a_logarithm_is_found(self) -> None:
        self.assertEqual((SQUARINGS, half_ticks(1 << 40), half_ticks(1 << 44)), (21, 2 * 40 * T, 2 * 44 * T))
        for said in (
            f"Then {SQUARINGS} times: if u² ≥ 2^63, note the bit 1",
            f"Let L' be 2h·T plus the number that the {SQUARINGS} bits spell, first bit highest:", "Then log a is floor((L' + 1) / 2),",
        ):
            self.assert_said("From amounts to the loss", said)

    def test_how_near_a_logarithm_is(self) -> None:
        """In the text as the reference's tests of the logarithm have it, and the widest that the sharper bound leaves."""
        below = ceil(1_000 * (0.5 + log2(512 / 511) / 2)) / 1_000
        self.assert_said("From amounts to the loss", "for every amount of 64 bits: 2^(2·log a) ≤ 2·a^(2T) < 2^(2·log a + 3), so that")
        self.assert_said("From amounts to the loss", f"511·a^(2T) < 512·2^(2·log a + 1), so that it is less than {below} ticks below.")
        self.assertIn(f"the logarithms (rounded to ticks, less than {below} of one off)", README)

    def test_what_rounding_is_for(self) -> None:
        self.assertEqual(layout.AMOUNT_LIMITS, (1, 1 << 44))
        cut, nearest = (f"{float(error):.3f}".replace("-", "−") for error in mean_errors(DEFAULT_SEED))
        self.assert_said("From amounts to the loss", f"over {DRAWN:,} amounts drawn from 1 to 2^44 the mean of log a less the "
                                                     f"exact logarithm is {nearest} ticks, where cut off, as floor(L' / 2), it is {cut} ")

    def test_of_file_f(self) -> None:
        weights = chain.weights_of(samples.file_f())
        self.assertEqual({*weights.p, *weights.q}, {65_536})
        self.assert_said("The figures", f"p = q = {weights.p[0]:,}, g_0 = {weights.g[0]:,}, every prior has weight {weights.s[0]}")
        figures = chain.figures_of(samples.file_f())
        residue = chain.residues_of(figures, (10 * T + 1, T, -T))[0]
        self.assert_said("The test", f"so does (10T+1, T, −T), with residue {residue:,}")
        answers = [session.judge(opened(e), layout.build_record(mean)) for e, mean in (
            (1, (10 * T, T, -T)), (1, (10 * T + 1, T, -T)), (1, (10 * T + 2, T, -T)), (1, (10 * T, T + 1, -T)), (2, (10 * T, T + 1, -T)),
        )]
        self.assertEqual(answers, [session.Passed(), session.Passed(), session.Fails(0), session.Fails(1), session.Passed()])
        self.assert_said("The test", "(10T+2, T, −T) fails at part 0 and (10T, T+1, −T) at part 1, though the latter passes with e = 2")

    def test_refusals_of_file_f(self) -> None:
        f = layout.build_file(samples.file_f())
        for place, amount, said in ((86, 0, "is refused with {} at {};"), (102, 4_096, "at byte 102, with {} at {}.")):
            refusal = layout.read_file(damage.put(f, place, amount, 8))
            self.assert_said("Refusals", said.format(refusal.number, refusal.place))


class Formulas(unittest.TestCase):
    """Each is read from the text and computed beside the reference's."""

    def test_weight(self) -> None:
        formula = re.search(r"of a variance v \(`Weight`\): (floor\(.*?\)),", section("From amounts to the loss"))[1]
        for v in (1 << 18, (1 << 18) + 1, 3 << 30, (1 << 40) - 1, 1 << 46, 12_345_678_901):
            self.assertEqual(computed(formula, v=v), weight(v))

    def test_own_weights(self) -> None:
        of_phi, of_psi = next(row[1:] for row in rows(section("The figures"), 3) if row[0] == "own weight D")
        for file in (samples.file_f(), paper.tables_file(256)):
            weights, J = chain.weights_of(file), file.last
            phi = [computed(of_phi, J=J, j=j, s_j=weights.s[j], p_j=weights.p[j]) for j in range(J + 1)]
            psi = [computed(of_psi, J=J, j=j, t_j=weights.t[j], q_j=weights.q[j]) for j in range(J)]
            self.assertEqual((*phi, *psi), chain.figures_of(file).own)

    def test_step(self) -> None:
        formula = re.search(r"changes by (floor\(.*?\)), which", " ".join(section("The calls").split()))[1]
        for a, r in ((4, 2), (4, -2), (5, 7), (131_073, -65_537), (98_305, 1 << 58), (1, 0)):
            nearest = (2 * Fraction(-r, a) + 1) // 2  # a half goes up
            self.assertEqual(computed(formula, a=a, r=r), nearest)

    def test_entries_of_the_matrix(self) -> None:
        told = dict(rows(section("The figures"), 2))
        self.assertEqual(told["Φ_j and Φ_l"], "g_0 + … + g_(min(j,l)−1), which for Φ_0 is nothing")
        self.assertEqual(told["Ψ_j and Ψ_l"], "g_0 + … + g_min(j,l)")
        self.assertEqual(told["Φ_j and Ψ_l"], "−(g_0 + … + g_min(j−1,l)), which for Φ_0 is nothing")
        file = paper.tables_file(256)
        figures, g, J = chain.figures_of(file), chain.weights_of(file).g, file.last
        up_to = [sum(g[:count]) for count in range(J + 1)]  # g_0 to g_(count−1)
        for j in range(J + 1):
            phi = [up_to[min(j, l)] + figures.own[j] * (j == l) for l in range(J + 1)] + [-up_to[min(j - 1, l) + 1] for l in range(J)]
            self.assertEqual(figures.matrix[j], tuple(phi))
        for j in range(J):
            psi = [-up_to[min(l - 1, j) + 1] for l in range(J + 1)]
            psi += [up_to[min(j, l) + 1] + figures.own[J + 1 + j] * (j == l) for l in range(J)]
            self.assertEqual(figures.matrix[J + 1 + j], tuple(psi))

    def test_sums_of_the_right_hand_side(self) -> None:
        """Over i = J−j+1..J for phi and J−j..J for psi, as the reference adds them."""
        phi, psi = next(row[1:] for row in rows(section("The figures"), 3) if row[0] == "right-hand side b")
        self.assertTrue(phi.endswith("+ (sum of g_(J−i)·y_i over i = J−j+1..J)") and psi.endswith("− (sum of g_(J−i)·y_i over i = J−j..J)"))
        file = paper.tables_file(256)
        weights, seen, J = chain.weights_of(file), chain.observations_of(file), file.last
        share = {i: weights.g[J - i] * seen.y[i] for i in range(1, J + 1)}
        of_phi = [weights.s[j] * file.prior_means[j] + weights.p[j] * sum(seen.x[i][j] for i in range(J - j + 1))
                  + sum(share[i] for i in range(J - j + 1, J + 1)) for j in range(J + 1)]
        of_psi = [weights.t[j] * file.prior_means[J + 1 + j] + weights.q[j] * sum(seen.z[i][j] for i in range(J - j))
                  - sum(share[i] for i in range(J - j, J + 1)) for j in range(J)]
        self.assertEqual((*of_phi, *of_psi), chain.figures_of(file).right_hand_side)


class Programs(unittest.TestCase):
    def test_what_they_print_for_f(self) -> None:
        for name, printed in (("The calls", listing), ("The page", board_page)):
            shown = re.search(r"^((?:    .*\n)+)", section(name), re.MULTILINE)[1]
            self.assertEqual(re.sub(r"(?m)^    ", "", shown), printed(layout.build_file(samples.file_f())))


class Page(unittest.TestCase):
    def test_columns(self) -> None:
        """A line put together by the table is the reference's."""
        table = rows(section("The page"), 2)
        ends = [int(columns.split(" to ")[1]) for columns, _ in table]
        self.assertEqual([what.split(",")[0] for _, what in table], ["the part's name", "its index", "its mean", "its own weight D"])
        for file in (samples.file_f(), paper.tables_file(256)):
            lines = board_page(layout.build_file(file)).splitlines()
            parts = zip(part_names(file.last), paper.settled_mean(file), chain.figures_of(file).own, strict=True)
            for line, ((name, index), mean, own) in zip(lines, parts, strict=True):
                told = ""
                for end, value in zip(ends, (name, index, mean, own)):
                    told += str(value).rjust(end - len(told))
                self.assertEqual(line, told)

    def test_every_column_is_wide_enough(self) -> None:
        """Column by column: the widest value is as the text has it, and takes up all columns from the first to the last."""
        low, most = layout.MEAN_LIMITS[0], max(chain.figures_of(samples.file_at_limits(layout.LARGEST_YEAR, 0)).own)
        self.assertEqual(most, 17 << 28)
        said = f"the widest being {layout.LARGEST_YEAR}, −{-low:,} and 17·2^28 = {most:,}."
        self.assertIn(said, " ".join(section("The page").split()))
        widths = [int(last) - int(first) + 1 for first, last in (row[0].split(" to ") for row in rows(section("The page"), 2))]
        self.assertEqual(widths, [len(str(value)) for value in ("phi", layout.LARGEST_YEAR, low, most)])

    def test_lengths(self) -> None:
        text = " ".join(section("The page").split())
        longest = page_length(layout.LARGEST_YEAR)
        self.assertIn(f"A line has 28 bytes, a page has 28(2J+1) bytes, and the longest, J = 15, has {longest} ", text)
        for last in range(1, layout.LARGEST_YEAR + 1):
            self.assertEqual(place_of("28(2J+1)", last), page_length(last))


class Ultimate(unittest.TestCase):
    def test_of_f(self) -> None:
        answer = session.ultimate(opened(1), 1)
        self.assertEqual(answer.floor, 11 * T)
        said = f"For F, accident year 1 has the floor 11T = {answer.floor:,} and the remainder {answer.remainder}."
        self.assertIn(said, " ".join(TEXT.split()))

    def test_refusals(self) -> None:
        """In this order, and without a place."""
        self.assertEqual([row[4::2] for row in rows(section("The calls"), 7) if row[3] == "`u`"], [["year", "21, 24, 25"]])
        self.assertEqual([row[2] for row in rows(section("Refusals"), 3) if row[0] == "25"], ["0"])
        for state, year, number in ((session.EMPTY, 0, 21), (opened(1), 0, 25), (opened(1), 2, 25)):
            self.assertEqual(session.ultimate(state, year), layout.Refusal(number, 0))


class Closeness(unittest.TestCase):
    """In money: the reserves of the sample, at the settled mean and with every part of the exact mean moved by e."""

    def test_table(self) -> None:
        table = [list(map(number, row)) for row in rows(section("The test"), 5)]
        self.assertEqual([row[0] for row in table], [2, 256, 65_536])
        figures = chain.figures_of(paper.tables_file(2))
        u, m = exact.solve(figures.matrix, figures.right_hand_side)
        exactly = [float(Fraction(part, m)) for part in u]
        total = self.total(2, exactly)
        self.assertIn(f"come to {total:,.0f},", section("The test"))
        for e, settled, apart, high, low in table:
            found = self.total(e, paper.settled_mean(paper.tables_file(e)))
            moved = [self.total(e, [part + sign * e for part in exactly]) - total for sign in (1, -1)]
            self.assertEqual([settled, apart, high, low], [round(found), round(found) - round(total), *map(round, moved)])
        resting = paper.resting_file()
        with self.assertRaises(ValueError):
            paper.settled_mean(resting)
        said = f"as the sample's do at e = {resting.closeness} where its prior variances are 2^{log2(resting.prior_variances[0]):.0f}."
        self.assertIn(said, " ".join(section("The test").split()))
        two, advised, most = (row[1] for row in table)
        said = f"reserves come to {two:,} with closeness 2, {advised:,} with 256 and {most:,} with 65,536"
        self.assertIn(said, " ".join(README.split()))

    def test_every_part_moved_by_e_passes_just_so(self) -> None:
        for file in (samples.file_f(), paper.tables_file(256)):
            figures = chain.figures_of(file)
            self.assertEqual(tuple(map(sum, figures.matrix)), figures.own)

    def test_nothing_that_passes_is_further_apart(self) -> None:
        """Residues of at most e·D move year i's expected logarithm by at most i·e, and a part by the sum of its row of A⁻¹·D times e."""
        file = paper.tables_file(256)
        own = chain.figures_of(file).own
        covariance = paper.inverse(chain.figures_of(file).matrix)
        for year in range(1, file.last + 1):
            direction = paper.direction(file, year)
            reach = [abs(sum(share * row[k] for share, row in zip(direction, covariance))) * own[k] for k in range(len(own))]
            self.assertAlmostEqual(sum(reach), year, delta=1e-6)
        reaches = [sum(abs(entry) * weight for entry, weight in zip(row, own)) for row in covariance]
        farthest = max(range(len(own)), key=reaches.__getitem__)
        self.assertIn(f"in the sample Φ_{farthest} by {reaches[farthest]:.1f}·e", section("The test"))

    def total(self, e: int, mean: tuple[int, ...] | list[float]) -> float:
        return sum(paper.reserves(paper.tables_file(e), mean))


class Limits(unittest.TestCase):
    def test_in_other_words(self) -> None:
        told = {row[0]: row[2] for row in rows(section("Limits"), 3)}
        tick = log(2) / T
        for name, limits in (("σ², τ²", layout.VARIANCE_LIMITS), ("prior variance", layout.PRIOR_VARIANCE_LIMITS)):
            low, high = (sqrt(limit) * tick for limit in limits)
            self.assertIn(f"from {low:.2g} to {high:.2g} in natural", told[name])
        self.assertIn(f"{layout.AMOUNT_LIMITS[1]:,}", told["amount"])
        self.assertIn(f"{layout.MEAN_LIMITS[1] // T} doublings", told["prior mean, part of a mean"])
        low, high = (2 ** (e / T) for e in layout.CLOSENESS_LIMITS)
        self.assertIn(f"{low:.7f} to {high:.3f}", told["closeness"])
        self.assertIn(f"one tick is a factor of {2 ** (1 / T):.8f}", TEXT)


if __name__ == "__main__":
    unittest.main()

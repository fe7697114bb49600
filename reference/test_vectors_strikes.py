"""The scripts that strike out steps hold what they are for, and tell a desk that strikes wrongly."""

import unittest
from collections.abc import Callable
from dataclasses import replace
from functools import cache
from unittest import mock

import chain
import session
import vectors_strikes
from answered import Answered, answers
from call_bytes import CLOSE
from layout import INCURRED, LARGEST_YEAR, PAID, Refusal, parts_count
from scales import TICKS_PER_DOUBLING as T
from session import EMPTY, Held, Opened, State, Struck
from strikes import Step, Steps, left_of, refusal_of, steps_of


@cache
def answered() -> Answered:
    return Answered(vectors_strikes.scripts())


class Vectors(unittest.TestCase):
    @classmethod
    def setUpClass(cls) -> None:
        cls.lines, cls.scenes = answered().lines, answered().scenes

    def strikes_of(self, name: str) -> list[list[str]]:
        """What the strikes of each session answer: `struck`, or the number of the refusal."""
        words = {"struck": "struck"} | {f"refused {number} at 0": str(number) for number in (14, 26, 27)}
        return [[words[line] for line in scene if line in words] for scene in self.scenes(name)]

    def test_each_starts_and_ends_with_nothing_open(self) -> None:
        self.assertEqual(answered().left_open(), [])

    def test_refusals(self) -> None:
        lines = self.lines["strike-refusals"]
        self.assertLessEqual({f"refused {number} at 0" for number in (14, 21, 26, 27)}, set(lines))
        self.assertEqual({line for line in lines[:5] + lines[6:11]}, {"refused 21 at 0"})

    def test_of_document(self) -> None:
        found = answers(b"".join(vectors_strikes.of_document()))
        self.assertEqual(found[:6], ["refused 21 at 0", "opened", "refused 14 at 0", "refused 26 at 0", "refused 27 at 0", "struck"])
        self.assertEqual(found[6:9], ["figures 1 1", "own 65537 65537 65537", "row 65537 0 0"])
        self.assertIn(f"right {655_370 * T} {131_073 * T} {-131_073 * T}", found)
        self.assertEqual(found[12:16], ["passed", "passed", "fails 0", "settled 0"])

    def test_corners(self) -> None:
        """All are there; those that are alone in their columns are refused, and those that are struck refused behind it."""
        for last in (2, 3, LARGEST_YEAR):
            paid, incurred = {(0, 0), (0, last), (last, 0)}, {(0, 0), (0, last - 1), (last - 1, 0)}
            wanted = {(PAID, *corner) for corner in paid} | {(INCURRED, *corner) for corner in incurred}
            self.assertEqual(set(vectors_strikes.corners(last)), wanted)
        once, refused = ["struck", "26"], ["27", "27"]
        corner = [once, refused, once, once, refused, once]
        self.assertEqual(self.strikes_of("strike-corners"), [once, refused, once, refused] + corner * 3)

    def test_each_step_alone(self) -> None:
        """29 of three files; where it is struck an own weight is less."""
        scenes = self.scenes("strike-each")
        self.assertEqual(len(scenes), sum((last + 1) ** 2 for last in (1, 2, 3)))
        for last, first in ((1, 0), (2, 4), (3, 13)):
            whole = " ".join(map(str, chain.figures_of(vectors_strikes.settling(last)).own))
            for scene, step in zip(scenes[first:], steps_of(last)):
                self.assertEqual((scene[1] == "struck", scene[3] != f"own {whole}"), (step.column + step.channel < last,) * 2)

    def test_every_column_of_every_j(self) -> None:
        for last, found in enumerate(self.strikes_of("strike-columns"), start=1):
            parts = parts_count(last)
            struck = (last + 1) ** 2 - parts
            self.assertEqual(found, ["struck"] * struck + ["27"] * parts + ["26"] * 2)
        for last, scene in enumerate(self.scenes("strike-columns"), start=1):
            weights = chain.weights_of(vectors_strikes.settling(last))
            own = [prior + one for prior, one in zip(weights.s + weights.t, weights.p + weights.q)]
            self.assertIn(" ".join(["own", *map(str, own)]), scene)

    def test_borders(self) -> None:
        for last, found in enumerate(self.strikes_of("strike-borders"), start=1):
            paid = ["27"] + ["struck"] * last + ["26"] * (last + 2)
            incurred = ["27"] + ["struck"] * (last - 1) + ["26"] * (last + 1)
            self.assertEqual(found, paid + incurred)

    def test_limits(self) -> None:
        """The least own weight and the most of one step and one prior; right-hand sides of the largest amounts."""
        own = [int(number) for line in self.lines["strike-limits"] if line.startswith("own") for number in line.split()[1:]]
        self.assertEqual((min(own), max(own)), (64 + 1, 2 << 28))
        right = [int(line.split()[1]) for line in self.lines["strike-limits"] if line.startswith("right")]
        self.assertEqual(max(right), ((1 << 26) + 44 * T) << 28)

    def test_flat(self) -> None:
        """Of F without priors each own weight is that of one step; one file never settles."""
        self.assertIn("own 65536 65536 65536", self.lines["strike-flat"])
        self.assertIn("going 4096", self.lines["strike-flat"])
        self.assertEqual(set(self.lines["strike-flat"]) & {"refused 24 at 0", "refused 21 at 0"}, {"refused 24 at 0"})

    def test_judged(self) -> None:
        """Before a strike one mean passes, behind it and behind its sweeps the other, and opened again the first."""
        told = "".join(line[0] for line in self.lines["strike-judged"] if line == "passed" or line.startswith("fails"))
        judged, by_own_weight = ("pf" + "fp" + "fp" + "pf") * 6, ("ppppfpp" + "ppfffpf") * 2
        self.assertEqual(told, judged + by_own_weight)

    def test_sessions(self) -> None:
        """Opened again, the same file answers as if nothing had been struck; each strike is done once more and leaves the same."""
        scenes = self.scenes("strike-sessions")
        for first, again in zip(scenes[0:10:2], scenes[1:10:2]):
            self.assertEqual((again[0], again[1]), ("refused 21 at 0", "opened"))
            self.assertEqual(first[1:4], again[2:5])
            counts = [scene.count(line) for scene in (first, again) for line in ("struck", "refused 26 at 0")]
            self.assertEqual(counts, [counts[0], counts[0], counts[0], 0])
            ends = [[line for line in scene if line.startswith(("buffer", "ultimate"))][-3:] for scene in (first, again)]
            self.assertEqual(*ends)

    def test_sweeps_all_run(self) -> None:
        """23, and behind a strike counted anew: one file settles then, and two are refused again."""
        settles, spent = ["going 1", "settled 8", "settled 8"], ["going 1", "going 4096", "refused 23 at 0"]
        for scene, end in zip(self.scenes("strike-sessions")[10:], (settles, spent, spent), strict=True):
            self.assertEqual(scene[:6], ["opened", "going 4096", "refused 23 at 0", "refused 27 at 0", "refused 23 at 0", "struck"])
            self.assertEqual(scene[6:9], end)

    def test_every_strike(self) -> None:
        calls = b"".join(vectors_strikes.every_strike())
        self.assertEqual(calls.count(b"f" + CLOSE + b"o") + 1, sum((last + 1) ** 2 for last in range(1, LARGEST_YEAR + 1)))


# Wrong desks.

Refuses = Callable[[int, Steps, Step], Refusal | None]


def desk(
    refuses: Refuses = refusal_of,
    after: Callable[[Held, Held], Held] = lambda before, anew: anew,
    refused: Callable[[Held], Held] = lambda before: before,
    meant: Callable[[Step], Step] = lambda step: step,
) -> Callable[[State, int, int, int], tuple[Struck | Refusal, State]]:
    """Left open: what refuses, what is held behind a strike and behind a refused one, and which step is meant."""
    def strike(state: State, channel: int, year: int, column: int) -> tuple[Struck | Refusal, State]:
        if state is EMPTY:
            return Refusal(21), state
        step = meant(Step(channel, year, column))
        refusal = refuses(state.file.last, state.struck, step)
        if refusal is not None:
            return refusal, refused(state)
        struck = state.struck | {step}
        return Struck(), after(state, Held(state.file, chain.figures_of(state.file, struck), state.file.prior_means, 0, struck))

    return strike


def keeping(name: str) -> Callable[[Held, Held], Held]:
    """One of the figures stays as it was before the strike."""
    return lambda before, anew: replace(anew, figures=replace(anew.figures, **{name: getattr(before.figures, name)}))


def the_step_alone(before: Held, anew: Held) -> Held:
    return replace(anew, figures=chain.figures_of(anew.file, anew.struck - before.struck))


def column_of(last: int, struck: Steps, step: Step, channels: bool = False) -> list[Step]:
    return [other for other in left_of(last, struck) if other.column == step.column and (channels or other.channel == step.channel)]


def last_first(last: int, struck: Steps, step: Step) -> Refusal | None:
    if step.channel <= INCURRED and len(column_of(last, struck, step)) == 1:
        return Refusal(27)
    return refusal_of(last, struck, step)


def step_before_channel(last: int, struck: Steps, step: Step) -> Refusal | None:
    if step.channel > INCURRED and step._replace(channel=PAID) not in left_of(last, struck):
        return Refusal(26)
    return refusal_of(last, struck, step)


def without(number: int) -> Refuses:
    """The number is not given; of 26, not for a step that is struck already."""
    def refuses(last: int, struck: Steps, step: Step) -> Refusal | None:
        found = refusal_of(last, struck, step)
        return None if found == Refusal(number) and step in {*steps_of(last)} else found

    return refuses


def two_must_be_left(last: int, struck: Steps, step: Step) -> Refusal | None:
    return refusal_of(last, struck, step) or (Refusal(27) if len(column_of(last, struck, step)) == 2 else None)


def both_channels_count(last: int, struck: Steps, step: Step) -> Refusal | None:
    found = refusal_of(last, struck, step)
    return None if found == Refusal(27) and len(column_of(last, struck, step, channels=True)) > 1 else found


def one_year_less(last: int, struck: Steps, step: Step) -> Refusal | None:
    found = refusal_of(last, struck, step)
    return Refusal(26) if found is None and step.year + step.column + step.channel == last else found


def one_year_more(last: int, struck: Steps, step: Step) -> Refusal | None:
    found = refusal_of(last, struck, step)
    behind = step.channel <= INCURRED and step.year + step.column + step.channel == last + 1 and step not in struck
    return None if behind else found


def incurred_as_paid(last: int, struck: Steps, step: Step) -> Refusal | None:
    """The incurred triangle taken as large as the paid one."""
    found = refusal_of(last, struck, step)
    return None if step.channel == INCURRED and step.year + step.column == last and step not in struck else found


WRONG = {
    "the mean stays": desk(after=lambda before, anew: replace(anew, mean=before.mean)),
    "the total stays": desk(after=lambda before, anew: replace(anew, total=before.total)),
    "the own weights stay": desk(after=keeping("own")),
    "the matrix stays": desk(after=keeping("matrix")),
    "the right-hand side stays": desk(after=keeping("right_hand_side")),
    "all figures stay": desk(after=lambda before, anew: replace(anew, figures=before.figures)),
    "the strike before is forgotten": desk(after=the_step_alone),
    "a strike is not remembered": desk(after=lambda before, anew: replace(anew, struck=before.struck)),
    "a refusal begins anew": desk(refused=lambda before: replace(before, mean=before.file.prior_means, total=0)),
    "year and column exchanged": desk(meant=lambda step: Step(step.channel, step.column, step.year)),
    "channels exchanged": desk(meant=lambda step: step._replace(channel=1 - step.channel) if step.channel < 2 else step),
    "the low byte of the channel": desk(meant=lambda step: step._replace(channel=step.channel % 256)),
    "the low byte of the year": desk(meant=lambda step: step._replace(year=step.year % 256)),
    "the low byte of the column": desk(meant=lambda step: step._replace(column=step.column % 256)),
    "27 before 26": desk(last_first),
    "26 before 14": desk(step_before_channel),
    "struck twice": desk(without(26)),
    "the last step goes": desk(without(27)),
    "two must be left": desk(two_must_be_left),
    "a column counted over both channels": desk(both_channels_count),
    "a year less": desk(one_year_less),
    "a year more": desk(one_year_more),
    "an incurred step too many": desk(incurred_as_paid),
}


class Traps(unittest.TestCase):
    @classmethod
    def setUpClass(cls) -> None:
        cls.told = answered().told

    def test_left_open_it_is_the_right_one(self) -> None:
        with mock.patch.object(session, "strike", desk()):
            self.assertFalse(self.told())

    def test_the_scripts_tell_each(self) -> None:
        for name, wrong in WRONG.items():
            with mock.patch.object(session, "strike", wrong):
                self.assertTrue(self.told(), name)

    def test_the_scripts_tell_a_desk_that_forgets_nothing(self) -> None:
        """Behind a close the strikes of the session before count on."""
        strike, open_file, kept = session.strike, session.open_file, set()

        def remembers(state: State, *step: int) -> tuple[Struck | Refusal, State]:
            answer, after = strike(state, *step)
            kept.update([Step(*step)] if answer == Struck() else [])
            return answer, after

        def opens(state: State, lent: bytes) -> tuple[Opened | Refusal, State]:
            answer, after = open_file(state, lent)
            for step in sorted(kept) if answer == Opened() else ():
                _, after = strike(after, *step)
            return answer, after

        with mock.patch.object(session, "strike", remembers), mock.patch.object(session, "open_file", opens):
            self.assertTrue(self.told())


if __name__ == "__main__":
    unittest.main()

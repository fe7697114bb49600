"""The scripts that ask for residues hold what they are for, and tell a desk that works them out or writes them wrongly."""

import unittest
from collections.abc import Callable, Sequence
from dataclasses import replace
from functools import cache
from unittest import mock

import chain
import layout
import samples
import session
import vectors_residues
from answered import Answered, answers
from layout import LARGEST_YEAR, PRIOR_VARIANCE_LIMITS, File, Refusal, parts_count
from residues import build_residues, by_observations, residues_length
from scales import TICKS_PER_DOUBLING as T
from session import EMPTY, Held, Residues, State
from strikes import NONE, Steps


@cache
def answered() -> Answered:
    return Answered(vectors_residues.scripts())


def lent_after(lines: Sequence[str], line: str) -> list[bytes]:
    """The buffers shown right behind such a line."""
    pairs = [after for before, after in zip(lines, lines[1:]) if before == line and after.startswith("buffer")]
    return [bytes.fromhex(shown.removeprefix("buffer ")) for shown in pairs]


def numbers_of(buffer: bytes) -> list[int]:
    """As many whole ones as it has room for."""
    return [int.from_bytes(buffer[k:k + 8], "big", signed=True) for k in range(0, len(buffer) - 7, 8)]


class Vectors(unittest.TestCase):
    @classmethod
    def setUpClass(cls) -> None:
        cls.lines, cls.scenes = answered().lines, answered().scenes

    def found(self, name: str) -> list[list[int]]:
        return [numbers_of(buffer) for buffer in lent_after(self.lines[name], "residues")]

    def test_each_starts_and_ends_with_nothing_open(self) -> None:
        self.assertEqual(answered().left_open(), [])

    def test_of_document(self) -> None:
        found = answers(b"".join(vectors_residues.of_document()))
        refused = ["refused 21 at 0", "refused 1 at 0", "refused 2 at 4", "refused 4 at 0", "refused 11 at 13", "refused 13 at 0"]
        self.assertEqual([line for line in found[:13] if not line.startswith("buffer")], refused[:1] + ["opened"] + refused[1:])
        whole = [[0, 0, 0], [131_073, 0, 0], [0, 98_305, -32_768], [-1_310_730 * T, -131_073 * T, 131_073 * T]]
        left = [[0, 0, 0], [65_537, 0, 0], [0, 98_305, -32_768], [-655_370 * T, -131_073 * T, 131_073 * T]]
        self.assertEqual([numbers_of(buffer) for buffer in lent_after(found, "residues")], whole + left)
        self.assertEqual(found[-4:], ["settled 0", "closed", "refused 21 at 0", f"buffer {'a5' * 24}"])

    def test_sizes_of_every_j(self) -> None:
        """One byte short, one byte longer, and behind a strike just long enough, where another residue is found."""
        for last, scene in enumerate(self.scenes("residues-years"), start=1):
            size = residues_length(last)
            self.assertEqual(lent_after(scene, "refused 13 at 0"), [b"\xa5" * (size - 1)])
            longer, exact = lent_after(scene, "residues")
            self.assertEqual((len(longer), longer[size:], len(exact)), (size + 1, b"\xa5", size))
            apart = [part for part, pair in enumerate(zip(numbers_of(longer), numbers_of(exact))) if len(set(pair)) > 1]
            self.assertEqual(apart, [0] if last < 3 else [0, last + 2])

    def test_zero(self) -> None:
        """No residue at all, with the steps and without; beside it, columns of the matrix that is shown."""
        for last, scene in zip((1, 2, 3, LARGEST_YEAR), self.scenes("residues-zero"), strict=True):
            found = [numbers_of(buffer) for buffer in lent_after(scene, "residues")]
            moved = parts_count(last) if last <= 3 else 4
            self.assertEqual([k for k, residues in enumerate(found) if not any(residues)], [0, 1 + moved])
            rows = [list(map(int, line.split()[1:])) for line in scene if line.startswith("row")]
            if last <= 3:
                self.assertEqual((found[1:1 + moved], len(rows)), (rows[:moved], 2 * moved))
                self.assertEqual([[-entry for entry in residues] for residues in found[2 + moved:]], rows[moved:moved + 2])

    def test_greatest(self) -> None:
        """That of phi 0 below zero, and those of phi 1 and psi 0 on either side."""
        found = self.found("residues-greatest")
        most = (2 << 54) + 15 * ((1 << 26) + 44 * T << 28) + 8_947_849 * ((30 << 26) + 44 * T)
        self.assertEqual((min(map(min, found)), max(map(max, found))), (-29 << 54, most))
        long = [residues for residues in found if len(residues) == parts_count(LARGEST_YEAR)]
        self.assertLessEqual({(1, most), (1, -most), (16, most), (16, -most)}, {(k, residues[k]) for residues in long for k in (1, 16)})

    def test_struck(self) -> None:
        """Each strike leaves another residue at its part alone; the refused ones and a close put it back as it was."""
        for scene, again in zip(*(iter(self.scenes("residues-struck")),) * 2):
            found = [numbers_of(buffer) for buffer in lent_after(scene, "residues")]
            strikes = scene.count("struck")
            self.assertEqual([line.split()[1] for line in scene if line.startswith("refused")], ["26", "27", "14"])
            for before, after in zip(found[:strikes], found[1:1 + strikes]):
                self.assertEqual(sum(one != other for one, other in zip(before, after)), 1)
            self.assertEqual((found[strikes], len(found)), (found[strikes + 1], strikes + 2))
            self.assertEqual([numbers_of(buffer) for buffer in lent_after(again, "residues")], found[:1])

    def test_flat(self) -> None:
        """With other prior means of the parts that lack a prior the residues are the same."""
        scenes = self.scenes("residues-flat")
        for scene, opposite in zip(scenes[::2], scenes[1::2], strict=True):
            self.assertEqual(lent_after(scene, "residues")[:2], lent_after(opposite, "residues"))

    def test_refusals(self) -> None:
        """Each with the lowest and the highest place that it has, and the buffer as it was lent."""
        lines = self.lines["residues-refusals"]
        told = {line for line in lines if line.startswith("refused")} - {"refused 1 at 0"}  # that of the open too
        places = ((21, 0), (2, 4), (4, 0), (11, 5), (11, 9), (11, 13), (11, 125), (13, 0))
        self.assertEqual(told, {f"refused {number} at {place}" for number, place in places})
        for line in {*told, "refused 1 at 0"}:
            for lent in lent_after(lines, line):
                self.assertEqual(lent.strip(b"\xa5"), b"", line)

    def test_refusals_with_room_and_without(self) -> None:
        lines = self.lines["residues-refusals"]
        for line in ("refused 1 at 0", "refused 2 at 4", "refused 4 at 0", "refused 11 at 5", "refused 11 at 125", "refused 21 at 0"):
            sizes = {len(lent) for lent in lent_after(lines, line)}
            self.assertTrue(min(sizes) == 0 and max(sizes) >= 24, line)
        sizes = {len(lent) for lent in lent_after(lines, "refused 13 at 0")}
        self.assertLessEqual({0, 1, 7, 8, 16, 23, 240, 247}, sizes)

    def test_sessions(self) -> None:
        """What is asked before some residues is answered the same behind them, from a sweep to the next."""
        for scene in self.scenes("residues-sessions"):
            asked = scene[:scene.index("struck")]
            sweeps = [k for k, line in enumerate(asked) if line.startswith(("going", "settled", "refused 23"))]
            self.assertEqual(len(sweeps), 3)
            for start, end in zip(sweeps, sweeps[1:]):
                block = asked[start + 1:end]
                first = block.index("residues")
                self.assertGreaterEqual(first, 3)
                self.assertEqual(block[:first], block[-first:])

    def test_means_that_pass_and_means_that_fail(self) -> None:
        lines = self.lines["residues-sessions"]
        self.assertTrue({"passed", "fails 1", "refused 23 at 0"} < set(lines))
        self.assertEqual(numbers_of(lent_after(lines, "residues")[0]), [0, 0, 0])  # F, as it was opened

    def test_every_part(self) -> None:
        """Each once, and J·J strikes with three more answers beside them: before the first, behind refused ones, and opened again."""
        calls = [call for call in vectors_residues.every_part() if call.startswith(b"d")]
        self.assertEqual(len(calls), sum(parts_count(last) + last ** 2 + 3 for last in range(1, LARGEST_YEAR + 1)))

    def test_small_enough_to_keep(self) -> None:
        given = sum(map(len, answered().scripts.values()))
        self.assertLess(given + sum(len(line) + 1 for lines in self.lines.values() for line in lines), 120_000)


# Wrong desks.

Found = Callable[[Held, Sequence[int]], Sequence[int]]


def right(state: Held, parts: Sequence[int]) -> list[int]:
    return by_observations(state.file, state.struck, parts)


def read_then(state: State, lent: bytes, _size: int) -> Refusal | tuple[int, ...]:
    """21, then the record's."""
    return Refusal(21) if state is EMPTY else layout.read_record(lent, state.file.last)


def desk(
    found: Found = right,
    built: Callable[[Sequence[int]], bytes] = build_residues,
    read: Callable[[State, bytes, int], Refusal | tuple[int, ...]] = read_then,
    room: Callable[[int, int], bool] = lambda lent, wanted: lent >= wanted,
    behind: Callable[[bytes], bytes] = lambda rest: rest,
    left: Callable[[bytes], bytes] = lambda buffer: buffer,
    after: Callable[[Held, tuple[int, ...]], None] = lambda state, parts: None,
) -> Callable[[State, bytes, bytes], tuple[Residues | Refusal, bytes]]:
    """Left open: what is found, how it is written, what refuses, what is behind it and behind a refusal, and what becomes of the state."""
    def residues(state: State, lent: bytes, buffer: bytes) -> tuple[Residues | Refusal, bytes]:
        parts = read(state, lent, len(buffer))
        if isinstance(parts, Refusal):
            return parts, left(buffer)
        written = built(found(state, parts))
        if not room(len(buffer), len(written)):
            return Refusal(13), left(buffer)
        after(state, parts)
        return Residues(), (written + behind(buffer[len(written):]))[:len(buffer)]

    return residues


def of_file(change: Callable[[File], File]) -> Found:
    return lambda state, parts: by_observations(change(state.file), state.struck, parts)


def by_parts(
    phi_from: Callable[[int, int], int] = lambda last, j: last - j + 1,
    psi_from: Callable[[int, int], int] = lambda last, j: last - j,
    g_of: Callable[[int, int], int] = lambda last, i: last - i,
    phi_to_come: int = 1,
    psi_to_come: int = 0,
    sign: int = -1,
    of_y: int = 1,
) -> Found:
    """The specification's sums, part by part. Left open: where those over the ratios start, and what a ratio's term is."""
    def found(state: Held, parts: Sequence[int]) -> list[int]:
        file, last = state.file, state.file.last
        own = of_the_part_alone(file, state.struck, parts)
        g, y = chain.weights_of(file).g, chain.observations_of(file).y
        phi, psi = parts[:last + 1], parts[last + 1:]

        def terms(first: int) -> int:
            return sum(
                g[g_of(last, i)] * (sum(phi[last - i + phi_to_come:]) - sum(psi[last - i + psi_to_come:]) - of_y * y[i])
                for i in range(max(first, 1), last + 1)
            )

        shared = [terms(phi_from(last, j)) for j in range(last + 1)] + [sign * terms(psi_from(last, j)) for j in range(last)]
        return [alone + more for alone, more in zip(own, shared)]

    return found


def of_the_part_alone(file: File, struck: Steps, parts: Sequence[int]) -> list[int]:
    """All but the ratios: own weight times part, less weight times prior mean and weight times each observation."""
    weights = chain.weights_of(file)
    seen = chain.seen_of(file, weights, chain.observations_of(file), struck)
    right_alone = chain.right_hand_side_of(file, weights, seen, (0,) * (file.last + 1))
    return [own * part - alone for own, part, alone in zip(chain.own_weights_of(weights, seen), parts, right_alone)]


def weighing(variance: int) -> Callable[[File], File]:
    """The flat priors given this variance."""
    return lambda file: replace(file, prior_variances=tuple(found or variance for found in file.prior_variances))


def cut(bits: int) -> Found:
    """Each residue kept to so many bits with its sign, and what is beyond them lost."""
    return lambda state, parts: [(residue + (1 << bits - 1)) % (1 << bits) - (1 << bits - 1) for residue in right(state, parts)]


def size_first(state: State, lent: bytes, size: int) -> Refusal | tuple[int, ...]:
    if state is not EMPTY and size < residues_length(state.file.last):
        return Refusal(13)
    return read_then(state, lent, size)


def record_first(state: State, lent: bytes, size: int) -> Refusal | tuple[int, ...]:
    found = layout.read_record(lent, 1) if state is EMPTY else None
    return found if isinstance(found, Refusal) else read_then(state, lent, size)


def must_pass(state: State, lent: bytes, size: int) -> Refusal | tuple[int, ...]:
    found = read_then(state, lent, size)
    return Refusal(24) if not isinstance(found, Refusal) and not state.passes() else found


def without_place(state: State, lent: bytes, size: int) -> Refusal | tuple[int, ...]:
    found = read_then(state, lent, size)
    return Refusal(found.number) if isinstance(found, Refusal) else found


def any_part(state: State, lent: bytes, size: int) -> Refusal | tuple[int, ...]:
    """11 is not looked for: each part is brought inside."""
    found = read_then(state, lent, size)
    return (0,) * parts_count(state.file.last) if isinstance(found, Refusal) and found.number == 11 else found


def held(state: Held, parts: tuple[int, ...]) -> None:
    object.__setattr__(state, "mean", parts)


def counted(state: Held, _parts: tuple[int, ...]) -> None:
    object.__setattr__(state, "total", state.total + 1)


WRONG = {
    "of the mean that is held": desk(lambda state, parts: right(state, state.mean)),
    "struck steps count": desk(lambda state, parts: by_observations(state.file, NONE, parts)),
    "priors do not count": desk(of_file(samples.without_priors)),
    "a flat prior counts a little": desk(of_file(weighing(PRIOR_VARIANCE_LIMITS[1]))),
    "a flat prior counts in full": desk(of_file(weighing(PRIOR_VARIANCE_LIMITS[0]))),
    "priors at no ticks": desk(of_file(lambda file: replace(file, prior_means=(0,) * parts_count(file.last)))),
    "no ratios": desk(lambda state, parts: of_the_part_alone(state.file, state.struck, parts)),
    "a ratio more for phi": desk(by_parts(phi_from=lambda last, j: last - j)),
    "a ratio less for phi": desk(by_parts(phi_from=lambda last, j: last - j + 2)),
    "a ratio less for psi": desk(by_parts(psi_from=lambda last, j: last - j + 1)),
    "a ratio more for psi": desk(by_parts(psi_from=lambda last, j: last - j - 1)),
    "ratios of psi as the theorem reads": desk(by_parts(psi_from=lambda last, j: last - 1)),
    "ratios added to psi": desk(by_parts(sign=1)),
    "g by accident year": desk(by_parts(g_of=lambda last, i: i - 1)),
    "a phi more to come": desk(by_parts(phi_to_come=0)),
    "a psi less to come": desk(by_parts(psi_to_come=1)),
    "the ratio the other way round": desk(by_parts(of_y=-1)),
    "no y": desk(by_parts(of_y=0)),
    "with the other sign": desk(lambda state, parts: [-residue for residue in right(state, parts)]),
    "without a sign": desk(lambda state, parts: [*map(abs, right(state, parts))]),
    "32 bits": desk(cut(32)),
    "59 bits": desk(cut(59)),
    "psi first": desk(lambda state, parts: right(state, parts)[state.file.last + 1:] + right(state, parts)[:state.file.last + 1]),
    "the lowest byte first": desk(built=lambda found: b"".join(residue.to_bytes(8, "little", signed=True) for residue in found)),
    "one residue less": desk(built=lambda found: build_residues(found[:-1])),
    "a byte of room too much": desk(room=lambda lent, wanted: lent > wanted),
    "a byte of room too little": desk(room=lambda lent, wanted: lent + 1 >= wanted),
    "bytes behind emptied": desk(behind=lambda rest: bytes(len(rest))),
    "a refusal empties the buffer": desk(left=lambda buffer: bytes(len(buffer))),
    "13 before the record": desk(read=size_first),
    "the record before 21": desk(read=record_first),
    "a mean must pass": desk(read=must_pass),
    "no places": desk(read=without_place),
    "no limits of parts": desk(read=any_part),
    "the record's mean is held": desk(after=held),
    "it counts as a sweep": desk(after=counted),
}


class Traps(unittest.TestCase):
    @classmethod
    def setUpClass(cls) -> None:
        cls.told = answered().told

    def test_left_open_it_is_the_right_one(self) -> None:
        for found in (right, by_parts()):
            with mock.patch.object(session, "residues", desk(found)):
                self.assertFalse(self.told())

    def test_the_scripts_tell_each(self) -> None:
        for name, wrong in WRONG.items():
            with mock.patch.object(session, "residues", wrong):
                self.assertTrue(self.told(), name)


if __name__ == "__main__":
    unittest.main()

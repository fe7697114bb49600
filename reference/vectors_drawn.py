"""Sessions drawn at random, for the script of calls and for long comparisons; and means that a session comes to."""

from collections.abc import Callable, Iterable, Iterator
from dataclasses import dataclass
from random import Random

import samples
import session
import strikes
from call_bytes import (
    CLOSE, FIGURES, call_judge, call_open, call_page, call_read, call_residues, call_row, call_strike, call_sweep, call_ultimate,
)
from damage import drawn_damage, drawn_file_damage
from layout import LARGEST_YEAR, MEAN_LIMITS, File, build_file, build_record, record_length
from page import page_length
from residues import residues_length
from strikes import NONE, Step, Steps, steps_of


def drawn_session(rng: Random, draw: Callable[[Random, int], File] = samples.drawn_file, *, residues: bool = False) -> Iterator[bytes]:
    """Some dozens of calls, mostly on one file of few years, now and then on a longer one."""
    drawn = Drawn(rng, draw(rng, rng.choice((1, 1, 2, 2, 3, 4, 6, rng.randint(1, LARGEST_YEAR)))), residues=residues)
    drawn.hold(NONE)
    if rng.randrange(4):
        yield call_open(build_file(drawn.file))
    for _ in range(rng.randint(8, 30)):
        yield drawn.call()
    yield CLOSE


@dataclass
class Drawn:
    """The file of a session and what is struck if it is open, so that records can be drawn near the mean that it would settle on."""

    rng: Random
    file: File
    struck: Steps = NONE
    mean: tuple[int, ...] = ()
    residues: bool = False  # whether some of the calls ask for them

    def hold(self, struck: Steps) -> None:
        self.struck, self.mean = struck, swept(self.file, session.MOST_SWEEPS, struck)

    def call(self) -> bytes:
        rng, last, lent = self.rng, self.file.last, build_file(self.file)
        often = {"o": 2, "j": 12, "s": 12, "r": 8, "p": 4, "u": 5, "k": 6, "d": 6, "f": 1, "w": 2, "c": 6}
        letters = [letter for letter in often if letter != "d" or self.residues]
        match rng.choices(letters, [often[letter] for letter in letters])[0]:
            case "o":
                return call_open(lent)
            case "j":
                return call_judge(self.record())
            case "s":
                few, any_number = rng.randint(1, 50), rng.getrandbits(32)
                return call_sweep(rng.choice((1, 1, 1, 2, 3, few, 4_096, 0, 4_097, any_number)))
            case "r":
                return call_read(self.size(record_length(last), 150))
            case "p":
                return call_page(self.size(page_length(last), 900))
            case "u":
                year = rng.randint(1, last)
                before = rng.choice((b"", call_sweep(4_096)))  # without which few means pass
                return before + call_ultimate(rng.choice((year, year, year, 0, last + 1, rng.getrandbits(32))))
            case "k":
                return self.strike() + rng.choice((b"", call_sweep(1), call_sweep(4_096)))
            case "d":
                at_limits = build_record([rng.choice(MEAN_LIMITS) for _ in self.mean])
                return call_residues(rng.choice((self.record(), self.record(), at_limits)), self.size(residues_length(last), 260))
            case "f":
                return FIGURES
            case "w":
                channel = rng.choice((0, 0, 1, 1, 2, rng.getrandbits(32)))
                return call_row(lent, channel, rng.randint(0, last + 1))
            case _:
                self.hold(NONE)
                return self.new_start(lent)

    def size(self, enough: int, most: int) -> int:
        return self.rng.choice((enough - 1, enough, enough, enough + 1, self.rng.randint(0, most)))

    def strike(self) -> bytes:
        """Mostly a step of the file, which may be struck already or the last of its column."""
        rng, last = self.rng, self.file.last
        step = rng.choice([*steps_of(last)])
        if rng.randrange(5) == 0:
            channel, any_number = rng.choice((0, 0, 1, 1, 2, rng.getrandbits(32))), rng.getrandbits(32)
            step = Step(channel, *(rng.choice((rng.randint(0, last), rng.randint(0, last + 1), any_number)) for _ in range(2)))
        if strikes.refusal_of(last, self.struck, step) is None:
            self.hold(self.struck | {step})
        return call_strike(*step)

    def new_start(self, lent: bytes) -> bytes:
        """A close, or one and an open behind it; or a damaged file between, behind which the good one is refused if it did no harm."""
        damaged = call_open(drawn_file_damage(self.rng, lent))
        return CLOSE + self.rng.choices((b"", call_open(lent), damaged + call_open(lent)), (1, 2, 3))[0]

    def record(self) -> bytes:
        rng, mean, closeness = self.rng, self.mean, self.file.closeness
        match rng.randrange(6):
            case 0:
                return build_record(mean)
            case 1:
                return build_record(swept(self.file, rng.randint(1, 3), self.struck))
            case 2:
                return build_record([rng.randint(*MEAN_LIMITS) for _ in mean])
            case 3:
                return drawn_damage(rng, build_record(mean))
            case _:
                return rng.choice(records_near(mean, (rng.choice((1, -1, 2, closeness, -closeness)),)))


def opened(file: File, struck: Steps = NONE) -> session.Held:
    """An accepted file open, and steps of it struck."""
    _, state = session.open_file(session.EMPTY, build_file(file))
    for step in sorted(struck):
        _, state = session.strike(state, *step)
    return state


def swept(file: File, sweeps: int, struck: Steps = NONE) -> tuple[int, ...]:
    """The mean held after so many sweeps, or after fewer if it passes."""
    return session.sweep(opened(file, struck), sweeps)[1].mean


def records_near(mean: tuple[int, ...], offsets: Iterable[int]) -> list[bytes]:
    """Records with one part moved: for each offset the first, a middle and the last part."""
    records = []
    for offset in offsets:
        for part in (0, len(mean) // 2, len(mean) - 1):
            moved = list(mean)
            moved[part] += offset
            records.append(build_record(moved))
    return records

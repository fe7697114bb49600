"""The script of calls: scenes of one or more sessions each; a scene starts and ends with nothing open."""

from collections.abc import Iterable, Iterator
from dataclasses import replace
from itertools import pairwise
from random import Random

import layout
import paper
import samples
import session
import vectors_amounts
import vectors_flat_priors
import vectors_strikes
from call_bytes import (
    CLOSE, FIGURES, LARGEST_NUMBER, call_judge, call_open, call_page, call_read, call_residues, call_row, call_strike, call_sweep,
    call_ultimate, number, string,
)
from damage import SPOIL_FILE, SPOIL_RECORD, drawn_file_damage, fields_of, pairs_of_spoils, put
from layout import AMOUNT_LIMITS, LARGEST_YEAR, File, build_file, build_record, record_length
from page import LINE_LENGTH, page_length
from residues import residues_length
from scales import TICKS_PER_DOUBLING as T
from script import LONGEST_STRING
from vectors_board_page import page_files
from vectors_drawn import drawn_session, records_near, swept
from vectors_listing import TABLES_CLOSENESSES

# 3 is rounded up, 5 down; the exact logarithm of 2,411 is more than half a tick above the desk's. Where y is rounded otherwise than down,
# at the start, by a bit of 1 or by a bit of 0, the logarithm is another for one of 1,125, 2,411, 31,139, 49,083, 4,294,968,715 and
# 4,294,968,716. The others are powers of two and those beside them.
LOGARITHMS_OF = (
    1, 2, 3, 5, 1_125, 2_411, 31_139, 49_083, (1 << 32) - 1, (1 << 32) + 1, 4_294_968_715, 4_294_968_716, (1 << 33) - 1, (1 << 40) - 1,
    1 << 40, *((1 << h) + d for h in (41, 42, 43) for d in (-1, 0, 1)), (1 << 44) - 1, 1 << 44,
)


def script_of_scenes(seed: int, drawn_sessions: int = 60) -> bytes:
    rng, flat, yen = (Random(f"calls {seed}"), Random(f"calls without priors {seed}"), Random(f"calls in yen {seed}"))
    scenes: list[Iterable[bytes]] = [
        figures_of_document(),
        logarithms_shown(),
        state_refusals(),
        sweep_numbers(),
        judge_refusals(),
        open_refusals(),
        limits_and_one_past(1),
        limits_and_one_past(LARGEST_YEAR),
        *(tables(closeness) for closeness in TABLES_CLOSENESSES),
        spent(),
        added_up(samples.many_sweeps(), range(1, 20)),
        *(halves(offset) for offset in (1, -1)),
        *(figures_shown(samples.drawn_file(rng, last)) for last in range(1, LARGEST_YEAR + 1)),
        *(every_row(build_file(samples.drawn_file(rng, last))) for last in (1, 2, 3, 9, LARGEST_YEAR)),
        row_refusals(),
        *(settle_and_read(rng, samples.drawn_file(rng, last)) for last in range(1, LARGEST_YEAR + 1)),
        *(pages(file) for file in page_files().values()),
        *(pages(samples.file_at_limits(last, end)) for last in (1, LARGEST_YEAR) for end in (0, 1)),
        damaged_files(rng),
        *(drawn_session(rng) for _ in range(drawn_sessions)),
        flat_priors_beside_others(),
        *(from_the_prior(file) for file in vectors_flat_priors.accepted_files().values()),
        *(settle_and_read(flat, samples.drawn_flat_file(flat, last)) for last in (1, 2, 3, 5, 9, LARGEST_YEAR)),
        *(drawn_session(flat, samples.drawn_flat_file) for _ in range(drawn_sessions // 4)),
        *(from_the_prior(file) for file in vectors_amounts.accepted_files().values()),
        *(drawn_session(yen, samples.drawn_yen_file) for _ in range(drawn_sessions // 10)),
        vectors_strikes.of_document(),
    ]
    return b"".join(call for scene in scenes for call in scene)


def script_ends() -> dict[str, bytes]:
    """Scripts that end in the word `script`, or are empty; by name."""
    f, record = build_file(samples.file_f()), build_record((0, 0, 0))
    return {
        "empty": b"",
        "unknown-letter": call_open(f) + b"x" + CLOSE,
        "upper-case-letter": b"O" + string(f),
        "end-after-letter": call_open(f) + b"s",
        "end-in-number": call_open(f) + b"s\x00\x00\x00",
        "end-in-string": call_open(f) + call_judge(record)[:-1],
        "end-in-row": call_row(f, 0, 1)[:-4],
        "string-4096": call_open(bytes(LONGEST_STRING)) + call_judge(bytes(LONGEST_STRING)),
        "string-4097": CLOSE + call_open(bytes(LONGEST_STRING + 1)) + CLOSE,
        "string-largest": b"j" + number(LARGEST_NUMBER),
        "buffer-4096": call_open(f) + call_read(LONGEST_STRING),
        "buffer-4097": call_open(f) + call_read(LONGEST_STRING + 1) + CLOSE,
        "page-4096": call_open(f) + call_page(LONGEST_STRING),
        "page-4097": call_open(f) + call_page(LONGEST_STRING + 1) + CLOSE,
        "end-in-page": call_open(f) + call_page(page_length(1))[:-1],
        "end-in-ultimate": call_open(f) + call_ultimate(1) + call_ultimate(1)[:-1],
        "end-in-strike": call_open(f) + call_strike(0, 0, 0) + call_strike(0, 1, 0)[:-1],
        "residues-4096": call_open(f) + call_residues(record, LONGEST_STRING),
        "residues-4097": call_open(f) + call_residues(record, LONGEST_STRING + 1) + CLOSE,
        "end-in-residues": call_open(f) + call_residues(record, residues_length(1)) + call_residues(record, residues_length(1))[:-1],
    }


# Scenes.


def figures_of_document() -> Iterator[bytes]:
    """File F: the means that the specification judges, its two refusals, its reading, its page and its ultimate."""
    means = [(10 * T, T, -T), (10 * T + 1, T, -T), (10 * T + 2, T, -T), (10 * T, T + 1, -T)]
    for closeness in (1, 2):
        yield from (call_open(build_file(samples.file_f(closeness))), FIGURES)
        yield from (call_judge(build_record(mean)) for mean in means)
        yield from (call_sweep(1), call_read(record_length(1)), call_page(page_length(1)), call_ultimate(1), CLOSE)
    f = build_file(samples.file_f())
    yield call_open(put(f, 86, 0, 8))
    yield call_open(put(f, 102, 1 << 12, 8))


def logarithms_shown() -> Iterator[bytes]:
    for amount, other in zip(LOGARITHMS_OF, LOGARITHMS_OF[1:] + LOGARITHMS_OF[:1]):
        yield from (call_open(build_file(samples.logarithm_shown(amount, other))), FIGURES, CLOSE)


def state_refusals() -> Iterator[bytes]:
    """21, 22 and 24, alone and where an input check or 25 would refuse too."""
    f, going = build_file(samples.file_f()), build_file(samples.many_sweeps(2))
    record = build_record((0, 0, 0))
    for _ in range(2):  # again after a close: a closed session is as empty as a new one
        yield from (call_judge(record), call_judge(b""), call_sweep(1), call_sweep(0))
        yield from (call_read(17), call_read(0), call_page(84), call_page(0), call_ultimate(1), call_ultimate(0), FIGURES, CLOSE)
    yield from (call_open(f), call_open(f), call_open(b""), call_open(SPOIL_FILE[9](f)), call_open(going))
    yield from (call_sweep(4_096), call_read(17), call_page(84), call_ultimate(1), CLOSE)
    yield from (call_open(b""), call_judge(record), FIGURES)  # a refused open opens nothing
    record_size, page_size = record_length(2), page_length(2)
    reads = map(call_read, (0, record_size - 1, record_size))
    writes = (*reads, *map(call_page, (0, page_size - 1, page_size)))  # 24, and behind the sweeps 13 where it is too short
    asked = (*writes, *map(call_ultimate, range(4)))  # 24 too, and behind the sweeps 25 for years 0 and 3
    yield from (call_open(going), *asked, call_sweep(4_096), *asked, CLOSE, CLOSE)


def sweep_numbers() -> Iterator[bytes]:
    """12: before settled (F passes as opened) and before sweeping."""
    for file in (samples.file_f(), samples.many_sweeps(3)):
        yield call_open(build_file(file))
        yield from map(call_sweep, (0, 4_097, 1 << 16, (1 << 16) + 1, 1 << 31, LARGEST_NUMBER))
        yield from map(call_sweep, (1, 4_096, 0, 1))
        yield CLOSE


def judge_refusals() -> Iterator[bytes]:
    """1, 2, 4 and 11, alone, two at once, at the first and the last part, and records of other J."""
    last = 3
    yield call_open(build_file(samples.many_sweeps(last)))
    good = build_record((0,) * layout.parts_count(last))
    yield from (call_judge(spoil(good)) for spoil in SPOIL_RECORD.values())
    yield from (call_judge(record) for _, _, record in pairs_of_spoils(good, SPOIL_RECORD))
    yield from (call_judge(good[:cut]) for cut in (0, 1, 4, 5, len(good) - 1))
    yield from (call_judge(layout.with_length(good[4:cut])) for cut in (4, 5, 9, len(good) - 4))
    yield from (call_judge(build_record((0,) * layout.parts_count(other))) for other in range(1, 6))
    for part in (0, layout.parts_count(last) - 1):
        for value in (-(1 << 26) - 1, -(1 << 26), 1 << 26, (1 << 26) + 1, -(1 << 31), (1 << 31) - 1):
            yield call_judge(put(good, layout.part_place(part), value, 4))
    both = put(put(good, layout.part_place(5), 1 << 27, 4), layout.part_place(1), -(1 << 27), 4)
    yield from (call_judge(both), CLOSE)


def open_refusals() -> Iterator[bytes]:
    """1 to 10 alone and two at once; two fields of one number; 7 before 8 although its place is behind."""
    f = build_file(samples.many_sweeps(2))
    yield from (call_open(spoil(f)) for spoil in SPOIL_FILE.values())
    yield from (call_open(lent) for _, _, lent in pairs_of_spoils(f, SPOIL_FILE))
    for (_, number_first, first, width, limits), (_, number_last, last, _, _) in pairwise(fields_of(2)):
        if number_first == number_last:
            yield call_open(put(put(f, last, limits[1] + 1, width), first, limits[0] - 1, width))
    yield call_open(put(f, 5, 0, 1))
    yield from (call_open(put(f, 4, version, 1)) for version in (0, 255))
    yield from (call_open(put(f, 5, years, 1)) for years in (1, 3, 15, 128, 255))
    yield from (call_open(f[:cut]) for cut in (0, 4, 9, 10, len(f) - 1))
    yield from (call_open(layout.with_length(f[4:cut])) for cut in (9, 10, len(f) - 1))


def limits_and_one_past(last: int) -> Iterator[bytes]:
    f = build_file(samples.many_sweeps(last))
    for _, _, place, width, (low, high) in fields_of(last):
        for value in (low - 1, low, high, high + 1):
            yield from (call_open(put(f, place, value, width)), CLOSE)


def tables(closeness: int) -> Iterator[bytes]:
    """Tables 10 and 11 twice: sweep by sweep with judging in between, then at one go."""
    file = paper.tables_file(closeness)
    lent, size = build_file(file), record_length(file.last)
    mean = swept(file, session.MOST_SWEEPS)
    yield call_open(lent)
    for sweeps in (1, 1, 2, 3, 4):
        yield from (call_judge(build_record(file.prior_means)), call_judge(build_record(mean)))
        yield from (call_sweep(sweeps), call_read(size))
    yield from (call_judge(record) for record in records_near(mean, (1, -1, closeness, -closeness, 1 << 20)))
    yield from (CLOSE, call_open(lent), call_sweep(4_096))
    yield from (call_read(size - 1), call_read(size), call_read(size + 9), call_page(page_length(file.last)), CLOSE)


def spent() -> Iterator[bytes]:
    """23, reached in one call and in many; 12 before it; judge, read and page go on; reopening starts anew."""
    at_limits = (samples.spent_at_a_limit(closeness, sign) for closeness in (1, 65_536) for sign in (1, -1))
    for file in (*at_limits, paper.resting_file()):
        lent, record = build_file(file), build_record(file.prior_means)
        yield from (call_open(lent), *map(call_sweep, (1 << k for k in range(12))), call_read(0))
        yield from map(call_sweep, (1, 1, 0, 4_097, 4_096))  # to 4,096, then 23, 12, 12, 23
        yield from (call_judge(record), call_read(4_096), call_page(page_length(file.last)), call_open(lent), CLOSE)
        yield from (call_open(lent), call_sweep(4_095), call_sweep(4_096), call_sweep(4_096), CLOSE)
        yield from (call_open(lent), call_sweep(4_096), call_sweep(1), CLOSE, call_sweep(1))


def added_up(file: File, counts: Iterable[int]) -> Iterator[bytes]:
    lent, size = build_file(file), record_length(file.last)
    record = build_record(swept(file, session.MOST_SWEEPS))
    yield call_open(lent)
    for count in counts:
        yield from (call_sweep(count), call_judge(record))
    yield from (call_read(size), CLOSE, call_open(lent), call_sweep(4_096), call_read(size), CLOSE)


def halves(offset: int) -> Iterator[bytes]:
    yield from (call_open(build_file(samples.half_tick(offset))), call_sweep(1), call_sweep(4_096))
    yield from (call_read(record_length(1)), CLOSE)


def figures_shown(file: File) -> Iterator[bytes]:
    """One J: the same figures before and after a sweep, where the mean is another; none after a close."""
    yield from (call_open(build_file(file)), FIGURES)
    if file.last <= 3:
        yield from (call_sweep(1), FIGURES)
    yield from (CLOSE, FIGURES)


def every_row(lent: bytes) -> Iterator[bytes]:
    last = lent[5]
    yield from (call_row(lent, channel, year) for channel in (0, 1) for year in range(last + 2))


def row_refusals() -> Iterator[bytes]:
    """14 and 15 alone, both, far past with low bytes inside; 1 to 10 before them; a session beside."""
    f = build_file(samples.many_sweeps(2))
    yield call_open(f)
    past = (255, 256, 257, 1 << 16, 1 << 31, LARGEST_NUMBER)
    yield from (call_row(f, channel, 0) for channel in (2, *past))
    yield from (call_row(f, 0, year) for year in (3, *past))
    yield from (call_row(f, channel, 3) for channel in (2, *past))
    for spoil in SPOIL_FILE.values():
        yield from (call_row(spoil(f), 0, 0), call_row(spoil(f), 2, 0), call_row(spoil(f), 1, 3))
    yield from (call_row(b"", 0, 0), call_sweep(4_096), CLOSE, call_row(f, 1, 2))


def settle_and_read(rng: Random, file: File) -> Iterator[bytes]:
    """One J: some sweeps, judging near the mean, all sweeps, reading and paging into buffers of every kind, the ultimate of every year."""
    size, page_size = record_length(file.last), page_length(file.last)
    mean = swept(file, session.MOST_SWEEPS)
    yield from (call_open(build_file(file)), call_sweep(1), call_judge(build_record(swept(file, 1))))
    yield call_sweep(2)
    offsets = (0, 1, -1, file.closeness, -2 * file.closeness)
    yield from (call_judge(record) for record in records_near(mean, offsets))
    yield from (call_sweep(rng.randint(1, 4_096)), call_sweep(4_096))
    yield from map(call_read, (0, size - 1, size, size + 1, size + rng.randint(2, 40)))
    yield from map(call_page, (0, page_size - 1, page_size, page_size + rng.randint(2, 40)))
    yield from map(call_ultimate, range(file.last + 2))
    wider = replace(file, closeness=65_536)
    yield from (CLOSE, call_open(build_file(wider)), call_sweep(4_096), call_read(size), CLOSE)


def pages(file: File) -> Iterator[bytes]:
    """One file: its page in buffers of every size, behind which mean, total and page are what they were."""
    size = page_length(file.last)
    held = (call_sweep(4_096), call_judge(build_record(file.prior_means)), call_read(record_length(file.last)))
    yield from (call_open(build_file(file)), call_page(size), *held)
    yield from map(call_page, (0, 1, size - 1, size, size + 1, size + LINE_LENGTH))
    yield from (*held, call_page(size), CLOSE, call_page(size))


def flat_priors_beside_others() -> Iterator[bytes]:
    """Every prior variance and mean at a limit or one past it beside flat priors: open and row take or refuse them alike."""
    for lent in vectors_flat_priors.beside_flat_priors().values():
        yield from (call_row(lent, 1, lent[5]), call_open(lent), CLOSE)


def from_the_prior(file: File) -> Iterator[bytes]:
    """Figures, means near the settled one, and the session from its start, which is the prior means, to the end."""
    yield from (call_open(build_file(file)), FIGURES, call_judge(build_record(file.prior_means)))
    yield from (call_sweep(1), call_read(record_length(file.last)))
    mean = swept(file, session.MOST_SWEEPS)
    yield from (call_judge(record) for record in records_near(mean, (0, 1, -1, file.closeness, -2 * file.closeness)))
    yield from (call_sweep(4_096), call_read(record_length(file.last)), call_page(page_length(file.last)), CLOSE)


def damaged_files(rng: Random) -> Iterator[bytes]:
    for _ in range(60):
        lent = drawn_file_damage(rng, build_file(samples.drawn_file(rng, rng.randint(1, 3))))
        yield from (call_row(lent, 0, 0), call_open(lent), call_sweep(2), CLOSE)
    yield from (call_open(rng.randbytes(rng.randint(0, 300))) for _ in range(10))


# Too long to be kept.


def every_length() -> Iterator[bytes]:
    """The longest file and one byte more, cut to every length: as it is, and with a length word that counts it right."""
    longest = build_file(samples.many_sweeps(LARGEST_YEAR)) + b"\x00"
    for length in range(len(longest) + 1):
        lent = longest[:length]
        yield call_open(lent) + CLOSE
        if length >= 4:
            yield call_open(layout.with_length(lent[4:])) + CLOSE


def every_cell() -> Iterator[bytes]:
    """Each amount of each J at a limit, one past it, or at the most that 8 bytes hold, among the largest ones: its row, or the refusal."""
    for last in range(1, LARGEST_YEAR + 1):
        largest = build_file(samples.largest_figures(last))
        for channel in (layout.PAID, layout.INCURRED):
            for year, column in ((i, j) for i in range(last + 1) for j in range(last - i + 1)):
                for amount in (AMOUNT_LIMITS[0] - 1, *AMOUNT_LIMITS, AMOUNT_LIMITS[1] + 1, (1 << 64) - 1):
                    yield call_row(put(largest, layout.amount_place(last, channel, year, column), amount, 8), channel, year)

"""Inputs of the listing program, by name. What it prints for each comes from `listing`."""

from random import Random

import layout
import paper
import samples
import vectors_amounts
import vectors_flat_priors
from damage import SPOIL_FILE, drawn_file_damage, fields_of, put
from layout import LARGEST_YEAR, LONGEST_FILE, build_file

TABLES_CLOSENESSES = (1, 64, 256, 65_536)


def listing_inputs(seed: int) -> dict[str, bytes]:
    rng = Random(f"listing {seed}")
    years = {f"years-{last:02}": samples.drawn_file(rng, last) for last in range(1, LARGEST_YEAR + 1)}
    return {
        **_figures(),
        **_tables(),
        **_refusals_at_their_places(),
        **_limits(),
        **_lengths(rng),
        **_hard_to_settle(),
        **{name: build_file(file) for name, file in years.items()},
        **{f"damaged-{k}": drawn_file_damage(rng, build_file(samples.drawn_file(rng, 2))) for k in range(8)},
        **vectors_flat_priors.inputs(),
        **vectors_amounts.inputs(),
    }


def drawn_listing_input(rng: Random) -> bytes:
    """For long comparisons: mostly accepted files."""
    lent = build_file(samples.drawn_any_file(rng))
    return drawn_file_damage(rng, lent) if rng.randrange(4) == 0 else lent


def _figures() -> dict[str, bytes]:
    """File F and the two refusals that the specification gives."""
    f = build_file(samples.file_f())
    return {
        "f": f,
        "f-closeness-2": build_file(samples.file_f(closeness=2)),
        "f-year-1-paid-0": put(f, 86, 0, 8),
        "f-other-last-incurred": put(f, 102, 1 << 12, 8),
    }


def _tables() -> dict[str, bytes]:
    """The paper's example, the same with priors of weight 1, and with those that bring it to rest before its mean passes."""
    inputs = {"tables-at-rest": build_file(paper.resting_file())}
    for closeness in TABLES_CLOSENESSES:
        inputs[f"tables-{closeness}"] = build_file(paper.tables_file(closeness))
        inputs[f"tables-priors-{closeness}"] = build_file(paper.tables_file(closeness, prior_variance=1 << 46))
    return inputs


def _refusals_at_their_places() -> dict[str, bytes]:
    """The shortest file spoilt at each number's first place, the longest at its last."""
    shortest = build_file(samples.file_f())
    longest = build_file(samples.many_sweeps(LARGEST_YEAR))
    inputs = {f"refused-{number:02}-short": SPOIL_FILE[number](shortest) for number in (1, 2, 3, 4, 5, 10)}
    inputs |= {f"refused-{number:02}-long": SPOIL_FILE[number](longest) for number in (1, 2, 3, 5, 10)}
    # One amount too short: one too long would be beyond the 2,806 bytes that the program takes.
    inputs["refused-04-long"] = layout.with_length(longest[4:-8])
    for name, number, place, width, limits in fields_of(1):
        if number > 5 and name.endswith("first"):
            inputs[f"refused-{number:02}-lowest"] = put(shortest, place, limits[0] - 1, width)
    for name, number, place, width, limits in fields_of(LARGEST_YEAR):
        if number > 5 and name.endswith("last"):
            inputs[f"refused-{number:02}-highest"] = put(longest, place, limits[1] + 1, width)
    return inputs


def _limits() -> dict[str, bytes]:
    """Every field at its lowest or highest value, and J and the version one past theirs."""
    inputs = {
        f"limits-{name}-{last:02}": build_file(samples.file_at_limits(last, end))
        for last in (1, LARGEST_YEAR)
        for end, name in enumerate(("low", "high"))
    }
    f = build_file(samples.file_f())
    inputs["limits-years-0"] = put(f, 5, 0, 1)
    inputs["limits-version-0"] = put(f, 4, 0, 1)
    inputs["limits-closeness-65537"] = put(f, 6, 65_537, 4)
    # A mean of 2^26 is inside; the same bits with the sign bit set are far below.
    inputs["limits-mean-sign"] = put(f, layout.prior_mean_place(1, 0), -(1 << 31), 4)
    return inputs


def _lengths(rng: Random) -> dict[str, bytes]:
    longest = build_file(samples.drawn_file(rng, LARGEST_YEAR))
    assert len(longest) == LONGEST_FILE
    return {
        "length-0": b"",
        "length-9": build_file(samples.file_f())[:9],
        "length-10": layout.with_length(bytes([1, 1, 0, 0, 0, 1])),
        "length-117": build_file(samples.file_f())[:-1],
        "length-2806": longest,
        "length-2806-zeros": bytes(LONGEST_FILE),
        "length-2807": longest + b"\x00",
        # Its own length word counts it, and still it is one byte beyond.
        "length-2807-counted": layout.with_length(longest[4:] + b"\x00"),
        "length-100000": longest + bytes(100_000 - LONGEST_FILE),
    }


def _hard_to_settle() -> dict[str, bytes]:
    return {
        "spent-at-a-limit": build_file(samples.spent_at_a_limit()),
        "spent-at-a-limit-65536": build_file(samples.spent_at_a_limit(closeness=65_536)),
        "spent-at-the-lower-limit": build_file(samples.spent_at_a_limit(sign=-1)),
        "many-sweeps": build_file(samples.many_sweeps()),
        "many-sweeps-256": build_file(samples.many_sweeps(closeness=256)),
        "half-above": build_file(samples.half_tick(1)),
        "half-below": build_file(samples.half_tick(-1)),
    }

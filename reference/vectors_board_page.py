"""Inputs of the program that prints the page, by name. What it prints for each comes from `board_page`."""

from dataclasses import replace
from itertools import cycle, islice

import chain
import samples
import vectors_listing
from layout import LARGEST_YEAR, MEAN_LIMITS, File, build_file, parts_count

# Inputs of the listing's vectors, by name, which are kept once. Those of the limits have the most own weight, and without priors the least.
OF_THE_LISTING = (
    "f-closeness-2", "f-year-1-paid-0", "f-other-last-incurred",
    "refused-01-short", "refused-02-long", "refused-03-short", "refused-04-long", "refused-05-short",
    "refused-06-lowest", "refused-07-highest", "refused-08-lowest", "refused-09-highest", "refused-10-long",
    "limits-low-01", "limits-low-15", "limits-high-01", "limits-high-15",
    "length-0", "length-2806", "length-2807", "length-2807-counted",
    "spent-at-a-limit", "many-sweeps", "years-01", "years-14",
    "flat-all-01", "flat-all-15", "flat-limits-high-01", "flat-limits-high-15", "flat-spent", "prior-variance-1-01",
)


def board_page_inputs(seed: int) -> dict[str, bytes]:
    listed = vectors_listing.listing_inputs(seed)
    files = {name: build_file(file) for name, file in page_files().items()}
    return {name: listed[name] for name in ("f", "tables-256", *OF_THE_LISTING)} | files


def page_files() -> dict[str, File]:
    """A mean's limits, 0 and -1 at each name and index, and numbers of every width."""
    limits = (*MEAN_LIMITS, 0, -1)
    return {
        "means-01": samples.at_the_prior(limits[:3]),
        "means-01-turned": samples.at_the_prior(limits[:0:-1]),
        "means-15": samples.at_the_prior(tuple(islice(cycle(limits), parts_count(LARGEST_YEAR)))),
        "means-of-every-width": samples.at_the_prior(_means_of_every_width()),
        "own-weights-of-every-width": _own_weights_of_every_width(),
    }


def _means_of_every_width() -> tuple[int, ...]:
    """Each number of digits at its least and its most, with both signs: as many as the longest mean has parts."""
    tens = [10 ** digits for digits in range(1, 8)]
    return (0, 1, -1, *(sign * (ten - less) for ten in tens for sign in (1, -1) for less in (1, 0)))


def _own_weights_of_every_width() -> File:
    """The same of own weights that a prior can bring about: it weighs what the observations leave over."""
    wide = (9_999, 10_000, 99_999, 100_000, 999_999, 1_000_000)
    phi = (*islice(cycle(wide), LARGEST_YEAR - 1), 999, 99)
    psi = (*islice(cycle(wide), LARGEST_YEAR - 2), 1_000, 100)
    file = samples.at_the_prior((0,) * parts_count(LARGEST_YEAR))
    weights = chain.weights_of(file)
    observed = (own - prior for own, prior in zip(chain.figures_of(file).own, weights.s + weights.t))
    return replace(file, prior_variances=tuple((1 << 46) // (own - rest) for own, rest in zip(phi + psi, observed)))

"""Files with the largest amounts, for the listing, the page and the calls, and such as have one that is too large."""

from random import Random

import samples
from damage import fields_of, put
from layout import LARGEST_YEAR, File, build_file


def accepted_files() -> dict[str, File]:
    """By name: the highest amount in every cell, and beside the lowest; and a portfolio in yen."""
    files = {"yen": samples.drawn_yen_file(Random("yen"), 9)}
    for last in (1, LARGEST_YEAR):
        files[f"amounts-largest-{last:02}"] = samples.largest_figures(last)
        files[f"amounts-beside-1-{last:02}"] = samples.largest_steps(last)
    return files


def inputs() -> dict[str, bytes]:
    return {name: build_file(file) for name, file in accepted_files().items()} | one_too_large()


def one_too_large() -> dict[str, bytes]:
    """One above the limit, in the first and the last cell of each block, the highest amount standing in all others."""
    files = {}
    for last in (1, LARGEST_YEAR):
        largest = build_file(samples.largest_figures(last))
        for name, number, place, width, (_, high) in fields_of(last):
            if number == 9:
                files[f"{name}-above-{last:02}"] = put(largest, place, high + 1, width)
    return files

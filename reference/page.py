"""Specification, "The page": a mean with its own weights, one line of a fixed width a part."""

from collections.abc import Sequence

from layout import parts_count

LINE_LENGTH = 28  # its line feed counted


def page_length(last: int) -> int:
    return LINE_LENGTH * parts_count(last)


def part_names(last: int) -> list[tuple[str, int]]:
    """Name and index of each part, in the order of a mean."""
    return [("phi", j) for j in range(last + 1)] + [("psi", j) for j in range(last)]


def build_page(mean: Sequence[int], own: Sequence[int]) -> bytes:
    """Columns 1 to 3, 5 to 6, 8 to 16 and 18 to 27; a number ends in the last of its columns."""
    names = part_names(len(mean) // 2)
    lines = (f"{name} {index:>2} {part:>9} {weight:>10}\n" for (name, index), part, weight in zip(names, mean, own))
    return "".join(lines).encode()

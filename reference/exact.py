"""The vector with zero residue, exactly: the solution of matrix times vector = right-hand side as u/m.

The tests hold the desk's means against it. The elimination stays in whole numbers, as no division leaves
anything over, and m is the matrix's determinant, which is positive.
"""

from collections.abc import Sequence


def solve(matrix: Sequence[Sequence[int]], right_hand_side: Sequence[int]) -> tuple[list[int], int]:
    size = len(matrix)
    rows = [list(row) + [right] for row, right in zip(matrix, right_hand_side)]
    previous = 1
    for k in range(size):
        pivot = rows[k][k]
        for other in range(size):
            if other != k:
                factor = rows[other][k]
                rows[other] = [(pivot * a - factor * b) // previous for a, b in zip(rows[other], rows[k])]
        previous = pivot
    return [row[size] for row in rows], previous


def rounded(u: Sequence[int], m: int) -> list[int]:
    """Whole numbers within half a tick of u/m."""
    return [(2 * part + m) // (2 * m) for part in u]

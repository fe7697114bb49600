"""The listing program of the specification: opens what it is given, sweeps with n = 4,096, reads and prints."""

from collections.abc import Callable, Sequence

import layout
import session
from layout import Refusal
from page import part_names


def refused_line(refusal: Refusal) -> str:
    return f"refused {refusal.number} at {refusal.place}"


def text_of(lines: Sequence[str]) -> str:
    return "".join(line + "\n" for line in lines)


def printed(given: bytes, text: Callable[[session.Held], str]) -> str:
    """What a program prints: the text of the session in which the mean settled, or the one line of why it did not."""
    if len(given) > layout.LONGEST_FILE:
        return text_of([refused_line(Refusal(1))])
    answer, state = session.open_file(session.EMPTY, given)
    if isinstance(answer, Refusal):
        return text_of([refused_line(answer)])
    answer, state = session.sweep(state, session.MOST_SWEEPS)
    if not isinstance(answer, session.Settled):
        return text_of([f"spent {session.MOST_SWEEPS}"])
    return text(state)


def listing(given: bytes) -> str:
    """What the program prints for the bytes on its standard input."""
    return printed(given, _listing_text)


def _listing_text(state: session.Held) -> str:
    last = state.file.last
    _, buffer = session.read(state, bytes(layout.record_length(last)))
    return text_of(mean_lines(last, state.total, layout.read_record(buffer, last)))


def mean_lines(last: int, total: int, mean: Sequence[int]) -> list[str]:
    parts = [f"{name} {index} {part}" for (name, index), part in zip(part_names(last), mean)]
    return [f"J {last}", f"sweeps {total}", *parts]

"""The program of the specification that prints the page: opens what it is given, sweeps with n = 4,096, prints the page."""

import session
from listing import printed
from page import page_length


def board_page(given: bytes) -> str:
    """What the program prints for the bytes on its standard input."""
    return printed(given, _page_text)


def _page_text(state: session.Held) -> str:
    _, buffer = session.page(state, bytes(page_length(state.file.last)))
    return buffer.decode()

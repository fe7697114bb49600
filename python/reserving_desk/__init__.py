"""The verified reserving desk: its calls for Python, over the proved library.

    from reserving_desk import PAID, Session

    with Session() as desk:
        desk.open(file)
        if desk.sweep().settled:
            mean = desk.read()
            print(desk.page(), end="")
            print(desk.ultimate(1).ticks)
        desk.strike(PAID, 1, 0)  # out of the averages; the sweeps begin anew

A file is bytes; `file_of` makes one from plain numbers, and `cell_place` tells where an amount stands in it. A call that is refused
raises `Refused`, which tells the desk's number and place, what the number means, the field, the number that stood there and what is
allowed. Parts of a mean are ticks: a doubling has 1,048,576. docs/SPECIFICATION.md says what each call answers.
"""

from .answers import Figures, Judgement, Step, Sweeping, Ultimate
from .builders import Prior, file_of, flat_prior, record_of
from .layout import INCURRED, MOST_SWEEPS, PAID, Mean, cell_place
from .library import LibraryMissing, SizesDiffer
from .refusals import Refused
from .scales import TICKS_PER_DOUBLING, natural_log, squared_ticks, ticks
from .session import Session

__version__ = "3.1.0"

__all__ = [
    "INCURRED", "MOST_SWEEPS", "PAID", "TICKS_PER_DOUBLING",
    "Figures", "Judgement", "LibraryMissing", "Mean", "Prior", "Refused", "Session", "SizesDiffer", "Step", "Sweeping", "Ultimate",
    "cell_place", "file_of", "flat_prior", "natural_log", "record_of", "squared_ticks", "ticks",
]

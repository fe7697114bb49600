"""Why a call is refused: the numbers and words of section "Refusals" in docs/SPECIFICATION.md."""

from __future__ import annotations

from typing import Optional

WORDS = {
    1: "shorter than a header (10 bytes of a file, 5 of a mean record), or not as long as its length field says",
    2: "the version of the format must be 1",
    3: "the last development year J must be from 1 to 15",
    4: "the length does not suit the number of development years",
    5: "the closeness must be from 1 to 65,536 ticks",
    6: "a variance of sigma or tau must be from 2^18 to 2^40 squared ticks",
    7: "the variance of a prior must be 0 (no prior) or from 2^18 to 2^46 squared ticks",
    8: "the mean of a prior must be from -2^26 to 2^26 ticks",
    9: "an amount must be from 1 to 2^44",
    10: "the oldest accident year must end with the same amount paid as incurred",
    11: "each part of a mean must be from -2^26 to 2^26 ticks",
    12: "the number of sweeps must be from 1 to 4,096",
    13: "the buffer is too short for what is to be written",
    14: "the channel must be 0 (paid) or 1 (incurred)",
    15: "the file has no such accident year",
    21: "no file is open in this session",
    22: "this session has a file open already",
    23: "all 4,096 sweeps are run and the mean still does not pass",
    24: "the mean that is held does not pass",
    25: "the accident year must be from 1 to J",
    26: "there is no such step, or it is struck already",
    27: "it is the last step left in its column",
}


class Refused(Exception):
    """A call was refused, and changed nothing.

    `number` and `place` are the desk's, and `words` say what the number means. `field` names the field or the argument that was
    refused, as "paid amount of accident year 1, development year 0"; `value` is the number that stood there (of bytes and of a
    buffer, how many they are), and `limits` say what is allowed. These three are None where a call was refused for the session's
    state. `details` tell all three in a sentence, or which step is struck already, or the last one left.
    """

    def __init__(
        self, number: int, place: int = 0, field: Optional[str] = None, value: Optional[int] = None, limits: Optional[str] = None,
        details: Optional[str] = None,
    ) -> None:
        super().__init__(number, place, field, value, limits, details)  # by which a copy is made, in another process too
        self.number = number
        self.place = place
        self.field = field
        self.value = value
        self.limits = limits
        self.details = details
        self.words = WORDS.get(number, "no such refusal")  # of a library that is newer than this package

    def __str__(self) -> str:
        said = f"refused {self.number} at {self.place}: {self.words}"
        return f"{said} ({self.details})" if self.details else said

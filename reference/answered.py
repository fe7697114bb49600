"""Scripts with the reference's answers, for the tests of what they hold and of which desks they tell."""

from collections.abc import Mapping
from io import BytesIO

import script


def answers(given: bytes) -> list[str]:
    return list(script.answers(BytesIO(given)))


class Answered:
    """Scripts by name, and the right answers to each."""

    def __init__(self, scripts: Mapping[str, bytes]) -> None:
        self.scripts = scripts
        self.lines = {name: answers(given) for name, given in scripts.items()}

    def scenes(self, name: str) -> list[list[str]]:
        """The lines of each session, from its opening to its close."""
        return [scene.strip().split("\n") for scene in "\n".join(self.lines[name]).split("closed")[:-1]]

    def left_open(self) -> list[str]:
        """The scripts that do not start and end with nothing open."""
        sessions = {name: [line for line in lines if line in ("opened", "closed", "script")] for name, lines in self.lines.items()}
        return [name for name, found in sessions.items() if found != ["opened", "closed"] * (len(found) // 2)]

    def told(self) -> bool:
        """Whether the desk as it is now has another answer to some script, the short ones tried first."""
        short_first = sorted(self.scripts.items(), key=lambda named: len(named[1]))
        return any(answers(given) != self.lines[name] for name, given in short_first)

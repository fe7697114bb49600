"""Threads may share a session: whatever call hands the library the session's fields holds the session's lock meanwhile.

Every public method is tried, and every function that the package declares has to be seen: a call that is added later is tried too,
or has no example here and fails.
"""

import inspect
import threading
import unittest
from collections.abc import Callable
from typing import Any

import paths  # noqa: F401

import samples
from layout import build_file, build_record
from reserving_desk import Session
from reserving_desk.library import FUNCTIONS, SESSION

FILE = build_file(samples.file_f())
RECORD = build_record(samples.file_f().prior_means)
SECONDS = 0.05  # in which a call that does not wait for the lock would be seen

# A call of each public method on a session that is open, but for `open`.
EXAMPLES: dict[str, Callable[[Session], object]] = {
    "open": lambda desk: desk.open(FILE),
    "judge": lambda desk: desk.judge(RECORD),
    "residues": lambda desk: desk.residues(RECORD),
    "residues_into": lambda desk: desk.residues_into(RECORD, bytearray(24)),
    "sweep": lambda desk: desk.sweep(1),
    "read": lambda desk: desk.read(),
    "read_into": lambda desk: desk.read_into(bytearray(40)),
    "page": lambda desk: desk.page(),
    "page_into": lambda desk: desk.page_into(bytearray(100)),
    "ultimate": lambda desk: desk.ultimate(1),
    "strike": lambda desk: desk.strike(0, 0, 0),
    "figures": lambda desk: desk.figures(),
    "row": lambda desk: desk.row(FILE, 0, 0),
    "close": lambda desk: desk.close(),
    "__enter__": lambda desk: desk.__enter__(),
    "__exit__": lambda desk: desk.__exit__(None, None, None),
}
WITHOUT_THE_SESSION = {"row", "__enter__"}  # which hand the library no field of it


class Watched:
    """The library, and for each of its functions that was handed a field of the session whether the lock was held."""

    def __init__(self, desk: Session) -> None:
        self._behind, self._desk = desk._library, desk
        self.seen: list[str] = []
        self.unlocked: list[str] = []

    def __getattr__(self, name: str) -> Callable[..., object]:
        def call(*arguments: object) -> object:
            if any(argument is field for argument in arguments for field in self._desk._fields):
                self.seen.append(name)
                self.unlocked += [] if self._desk._one_at_a_time.locked() else [name]
            return getattr(self._behind, name)(*arguments)

        return call


def watched_session(method: str) -> tuple[Session, Watched]:
    desk = Session()
    if method != "open":
        desk.open(FILE)
    watched: Any = Watched(desk)
    desk._library = watched
    return desk, watched


class OneAtATime(unittest.TestCase):
    def test_every_method_has_an_example(self) -> None:
        methods = {name for name, _ in inspect.getmembers(Session, inspect.isfunction) if not name.startswith("_")}
        self.assertEqual(methods | {"__enter__", "__exit__"}, set(EXAMPLES))

    def test_the_lock_is_held_and_given_back(self) -> None:
        for method, example in EXAMPLES.items():
            desk, library = watched_session(method)
            example(desk)
            self.assertEqual((method, library.unlocked), (method, []))
            self.assertEqual((method, bool(library.seen)), (method, method not in WITHOUT_THE_SESSION))
            self.assertFalse(desk._one_at_a_time.locked(), method)

    def test_every_function_of_a_session_is_seen(self) -> None:
        seen = set()
        for method, example in EXAMPLES.items():
            desk, library = watched_session(method)
            example(desk)
            seen.update(library.seen)
        lent_a_session = {name for name, (_, parameters) in FUNCTIONS.items() if parameters[:1] == SESSION[:1]}
        self.assertEqual(seen, lent_a_session)

    def test_a_call_waits_for_the_lock(self) -> None:
        for method in set(EXAMPLES) - WITHOUT_THE_SESSION:
            desk, library = watched_session(method)
            with desk._one_at_a_time:
                caller = threading.Thread(target=EXAMPLES[method], args=(desk,), daemon=True)
                caller.start()
                caller.join(SECONDS)
                self.assertEqual((method, library.seen), (method, []))
            caller.join(60)
            self.assertEqual((method, len(library.seen)), (method, 1))

    def test_each_session_has_its_own(self) -> None:
        self.assertIsNot(Session()._one_at_a_time, Session()._one_at_a_time)


if __name__ == "__main__":
    unittest.main()

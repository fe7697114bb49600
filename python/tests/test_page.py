"""The page of a mean that passes: File F's and the sample's to the byte, others as the reference writes them."""

import unittest
from collections.abc import Callable
from dataclasses import replace
from random import Random

import scripts
from paths import ROOT
from refusing import PAGE_OF_F, opened, refusal_of

import layout
import samples
from layout import build_file
from page import build_page, page_length
from reserving_desk import Session
from vectors_board_page import page_files

SAMPLE = ROOT / "samples" / "tables-10-11.file"


class ToTheByte(unittest.TestCase):
    def test_of_f(self) -> None:
        page = opened().page()
        self.assertIs(type(page), str)
        self.assertEqual(page.encode("ascii"), PAGE_OF_F)

    def test_of_the_sample(self) -> None:
        desk = opened(SAMPLE.read_bytes())
        self.assertEqual(refusal_of(desk.page).number, 24)  # the prior means do not pass
        self.assertTrue(desk.sweep())
        self.assertEqual(desk.page().encode(), SAMPLE.with_suffix(".page").read_bytes())

    def test_leaves_the_session_as_it_was(self) -> None:
        desk = opened()
        before = scripts.contents(desk)
        calls: tuple[Callable[[], object], ...] = (
            desk.page, lambda: desk.page_into(bytearray(100)), lambda: refusal_of(lambda: desk.page_into(bytearray(83))),
        )
        for call in calls:
            call()
            self.assertEqual(scripts.contents(desk), before)


class AgainstTheReference(unittest.TestCase):
    def assert_as_the_reference(self, desk: Session) -> None:
        """By the mean and the own weights that the same session tells, in buffers of every kind."""
        figures = desk.figures()
        expected = build_page(desk.read().parts, figures.own_weights)
        self.assertEqual(desk.page().encode(), expected)
        for behind in (b"", scripts.LENT_BYTE, scripts.LENT_BYTE * 99):
            buffer = bytearray(scripts.LENT_BYTE * len(expected) + behind)
            desk.page_into(buffer)
            self.assertEqual(buffer, expected + behind)
        short = bytearray(scripts.LENT_BYTE * (page_length(figures.last) - 1))
        self.assertEqual(refusal_of(lambda: desk.page_into(short)).number, 13)
        self.assertEqual(short, scripts.LENT_BYTE * len(short))

    def test_numbers_of_every_width(self) -> None:
        """Their prior means pass as they are."""
        for file in page_files().values():
            self.assert_as_the_reference(opened(build_file(file)))

    def test_every_j(self) -> None:
        rng = Random("package 3")
        for last in range(1, layout.LARGEST_YEAR + 1):
            file = replace(samples.with_same_end(samples.mild_file(rng, last)), closeness=256)
            desk = opened(build_file(file))
            self.assertTrue(desk.sweep())
            self.assert_as_the_reference(desk)


if __name__ == "__main__":
    unittest.main()

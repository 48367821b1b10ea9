"""Boards, scripts and firmware as Hypothesis strategies, for your own tests.

    from hypothesis import given, strategies as st
    from pciguest import Board, Machine
    from pciguest.strategies import boards, firmware, scripts

    @given(st.data())
    def test_my_board(data):
        board = data.draw(boards())
        mine = MyBoard(board)
        theirs = Board(board)
        for line in data.draw(firmware(board)):
            assert mine.answer(line) == theirs.run_line(line)

This requires Hypothesis (Debian's python3-hypothesis) and Python 3.11. If a test fails, Hypothesis looks for
the smallest board and the fewest lines with which it fails.
"""

from __future__ import annotations

from typing import Callable, List, Sequence

from hypothesis import strategies as st

from ._board_file import text_of
from ._drawing import PARTED, PLAIN, WIDE, Apertures, Item, draw_board
from ._line_drawing import draw_firmware, draw_script
from ._toml import document_of

__all__ = ["Apertures", "PARTED", "PLAIN", "WIDE", "boards", "firmware", "scripts"]


class DrawnChoices:
    """Choices that Hypothesis makes."""

    def __init__(self, draw: Callable) -> None:  # type: ignore[type-arg]
        self.draw = draw

    def number(self, least: int, greatest: int) -> int:
        return self.draw(st.integers(least, greatest))  # type: ignore[no-any-return]

    def one_of(self, items: Sequence[Item]) -> Item:
        return self.draw(st.sampled_from(items))  # type: ignore[no-any-return]

    def some(self, items: Sequence[int], least: int, most: int) -> List[int]:
        most = min(most, len(items))
        if most == 0:
            return []
        return sorted(self.draw(st.lists(st.sampled_from(items), min_size=min(least, most), max_size=most, unique=True)))


@st.composite
def boards(
    draw: Callable,  # type: ignore[type-arg]
    bridges: int = 6,
    apertures: Sequence[Apertures] = (PLAIN, WIDE, PARTED),
    guests: bool = True,
    last_device: int = 31,
) -> str:
    """Board files with at most so many bridges and no device above `last_device`. Each board can be set up, with room to
    spare."""
    return text_of(draw_board(DrawnChoices(draw), bridges, apertures, guests, last_device))


@st.composite
def scripts(draw: Callable, board: str, most: int = 40) -> List[str]:  # type: ignore[type-arg]
    """At most so many lines for the guests of a board file, for `pciguest run`."""
    return draw_script(DrawnChoices(draw), document_of(board), most)


@st.composite
def firmware(draw: Callable, board: str, most: int = 40) -> List[str]:  # type: ignore[type-arg]
    """Firmware lines for a board file, for `pciguest firmware`: first those that number its buses, and then at
    most so many others."""
    return draw_firmware(DrawnChoices(draw), document_of(board), most)

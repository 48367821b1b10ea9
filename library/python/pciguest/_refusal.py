"""Refusals: an error number and its message."""

from __future__ import annotations

from typing import Callable, NamedTuple, Optional, Tuple, cast

from ._library import CALLS, number


class Refusal(Exception):
    """Why a call was refused. A refused call changes nothing.

    `number` is the error number, which docs/errors.md explains, and `words` is its message.
    """

    number: int
    words: str

    def __init__(self, number: int) -> None:
        super().__init__(number)
        self.number = number
        self.words = strerror(number)

    def __str__(self) -> str:
        return f"{self.words} ({self.number})"


class Problem(NamedTuple):
    """One problem that a check reports in a board file."""

    #: the line of the file, or None if it isn't known
    line: Optional[int]
    #: `error` or `warning`, the entry, what is wrong, and for an error its number
    text: str
    #: the column in that line, counted in bytes from 1, or None if it isn't known
    column: Optional[int] = None
    #: what to write instead, or None
    help: Optional[str] = None


class BoardRefusal(Refusal):
    """Why a board file, or its board, was refused: the number of the first check that fails, and every problem that
    `check` reports.

    `text` is all of that, as `pciguest check board.toml` writes it, and `problems` are its messages.
    """

    text: str
    problems: Tuple[Problem, ...]

    def __init__(self, number: int, text: str, problems: Tuple[Problem, ...]) -> None:
        super().__init__(number)
        self.text = text
        self.problems = problems

    def __str__(self) -> str:
        return f"{super().__str__()}\n{self.text.rstrip()}"


def strerror(refusal: int) -> str:
    """Returns the message that says what an error number means. It is empty for a number without a meaning.

    >>> strerror(602)
    'slot already contains a function'
    """
    call = cast(Callable[..., bytes], CALLS["strerror"])
    return call(number("number", refusal, 32)).decode("ascii", "replace")


def answered(answer: int) -> None:
    """Raises the refusal that a call returns, if it isn't 0."""
    if answer != 0:
        raise Refusal(answer)

"""Reports on board files. No machine is needed."""

from __future__ import annotations

import re
from contextlib import contextmanager
from typing import Callable, Iterator, NamedTuple, Optional, Tuple, Union

from ._held import as_bytes
from ._library import CALLS, told
from ._refusal import BoardRefusal, Problem, Refusal, answered

# the name of the file in the library's messages
NAME = "board.toml"


class Check(NamedTuple):
    """The result of checking a board file."""

    #: what is wrong with the file, or that its board fits, as `pciguest check --plain board.toml` writes it, so without
    #: the warnings that `--all` adds
    text: str
    #: why the file or its board is refused, or None
    refusal: Optional[Refusal]
    #: the messages: errors and warnings
    problems: Tuple[Problem, ...] = ()


def report(board: Union[str, bytes], name: str = NAME) -> str:
    """Returns the report of a board file, like `pciguest list`. Refused as `Machine` is."""
    return _reported("report", board, name)


def report_json(board: Union[str, bytes], name: str = NAME) -> str:
    """Returns the report of a board file as a JSON object on one line, like `pciguest list --json`. Refused as
    `Machine` is.

    >>> report_json("[host]\\nio = [0x1000, 0xffff]\\nmem = [0xc0000000, 0xdfffffff]\\n")
    '{"bridges":0,"endpoints":0,"functions":[],"guests":[]}\\n'
    """
    return _reported("report_json", board, name)


def _reported(call: str, board: Union[str, bytes], name: str) -> str:
    text = as_bytes(board)
    with explained(text, name):
        answer, lines = told(4096, lambda *rest: CALLS[call](text, len(text), *rest))
        answered(answer)
    return lines


def check(board: Union[str, bytes], name: str = NAME) -> Check:
    """Checks a board file, and returns everything that is wrong with it, or that its board fits. A refusal is
    part of the result; only 199 and 299, out of memory, are raised. Each line begins with the name.

    >>> told = check("[host]\\nio = [0x1000, 0xffff]\\nmem = 7\\n")
    >>> print(told.refusal.words)
    required key is missing, or value has the wrong form
    >>> print(told.text.splitlines()[0])
    board.toml:3:7: error: host: mem = 7 must be an array of two integers such as [0x1000, 0xffff] (102)
    >>> told.problems[0].line
    3
    """
    text = as_bytes(board)
    call: Callable[..., int] = CALLS["check"]
    answer, lines = told(4096, lambda *rest: call(text, len(text), *rest))
    if answer in (199, 299):
        raise Refusal(answer)
    problems = tuple(_problems(lines))
    lines = re.sub(rf"^{re.escape(NAME)}(?=:)", lambda _: name, lines, flags=re.MULTILINE)
    return Check(lines, BoardRefusal(answer, lines, problems) if answer else None, problems)


@contextmanager
def explained(board: bytes, name: str) -> Iterator[None]:
    """Adds to the refusal of a board file, or of its board, everything that a check reports about it. These
    refusals have numbers below 300, except those for memory."""
    try:
        yield
    except Refusal as refusal:
        if refusal.number in (199, 299) or refusal.number >= 300:
            raise
        raise check(board, name).refusal or refusal from None


def _problems(text: str) -> Iterator[Problem]:
    message = rf"^{re.escape(NAME)}(?::([0-9]+):([0-9]+))?: (.*)(?:\n  help: (.*))?$"
    for found in re.finditer(message, text, re.MULTILINE):
        line, column = (int(it) if it else None for it in found.group(1, 2))
        yield Problem(line, found[3], column, found[4])

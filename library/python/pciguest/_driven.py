"""Boards that firmware drives by lines: in the library, or through a pipe to `pciguest firmware`."""

from __future__ import annotations

import math
import re
import subprocess
import sys
import tempfile
from pathlib import Path
from typing import List, Optional, Protocol

from . import _board, _texts
from ._child import Child, Limits, Misbehaviour
from ._lines import is_question

class DrivenBoard(Protocol):
    """A board that firmware drives by lines, from reset."""

    def run_line(self, line: str) -> Optional[str]: ...
    def ready_text(self) -> str: ...
    def close(self) -> None: ...


class Maker(Protocol):
    """Makes such boards from board files. `refusal` returns the number with which the built-in set-up refuses a
    board: None if there is room for everything, 203 to 205 if a pool doesn't fit its aperture."""

    def board(self, text: str) -> DrivenBoard: ...
    def refusal(self, text: str) -> Optional[int]: ...


class LibraryBoard:
    """The board of a file in its reset state, in the library."""

    def __init__(self, text: str) -> None:
        self.board = _board.Board(text)

    def run_line(self, line: str) -> Optional[str]:
        return self.board.run_line(line)

    def ready_text(self) -> str:
        return f"{self.board.run_line('host ready')}\n"

    def close(self) -> None:
        self.board.close()


class Library:
    """Boards in the library."""

    def board(self, text: str) -> DrivenBoard:
        return LibraryBoard(text)

    def refusal(self, text: str) -> Optional[int]:
        refused = _texts.check(text).refusal
        return refused.number if refused else None


class ProgramFailed(Exception):
    """The program pciguest ended before it replied to a line."""


class ProgramBoard:
    """The board of a file in its reset state, in the program. Each line gets its reply before the next is
    written, except for the line after a query."""

    LIMITS = Limits(60, math.inf, sys.maxsize)

    def __init__(self, program: str, text: str) -> None:
        self.room = tempfile.TemporaryDirectory()
        file = Path(self.room.name) / "board.toml"
        file.write_text(text)
        self.child = Child([program, "firmware", str(file)], self.LIMITS)
        self.replies = self.child.lines()

    def ask(self, line: str) -> str:
        self.child.answer(line)
        return self.reply()

    def reply(self) -> str:
        try:
            return next(self.replies).decode()
        except (Misbehaviour, StopIteration) as error:
            raise ProgramFailed(f"the program pciguest ended: {error}; {self.child.last_words()}") from None

    def run_line(self, line: str) -> Optional[str]:
        words = line.split()
        if not words or words[0].startswith("#"):
            return None
        return "\n".join(self.told(line)) if is_question(line) else self.ask(line)

    def told(self, question: str) -> List[str]:
        """The reply to a query: all lines before the reply to the next line, which reads CONFIG_ADDRESS."""
        self.child.answer(question)
        lines = [self.ask("host ir 0xcf8 4")]
        while not lines[-1].startswith("host: 0x"):
            lines.append(self.reply())
        return lines[:-1]

    def ready_text(self) -> str:
        return "".join(f"{line}\n" for line in self.told("host ready"))

    def close(self) -> None:
        self.child.close()
        self.room.cleanup()


class Program:
    """Boards in the program, which is a file."""

    def __init__(self, program: str) -> None:
        self.program = program

    def board(self, text: str) -> DrivenBoard:
        return ProgramBoard(self.program, text)

    def refusal(self, text: str) -> Optional[int]:
        with tempfile.TemporaryDirectory() as room:
            file = Path(room) / "board.toml"
            file.write_text(text)
            asked = subprocess.run([self.program, "check", "--plain", str(file)], stdout=subprocess.DEVNULL,
                                   stderr=subprocess.PIPE)
        found = re.search(rb"fault (\d+)", asked.stderr)
        return int(found[1]) if found else None

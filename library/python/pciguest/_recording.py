"""Machines and boards that record everything as rows of a transcript: lines with their replies."""

from __future__ import annotations

from typing import Any, List, Optional, Tuple, Union

from ._board import Board
from ._calls import CONFIG, IO, MEMORY, PART_CONFIG
from ._held import Held
from ._lines import is_question
from ._machine import Machine
from ._refusal import Refusal
from ._texts import NAME

LETTERS = {CONFIG: "c", IO: "i", MEMORY: "m"}


class Recorded(Held):
    """Records each access, raise and move that is made by a call as the equivalent line, and each line as it
    is, except queries. Calls without an equivalent line, such as those of a device, aren't recorded. Neither
    are calls that are refused in a way in which no line is."""

    rows: List[Tuple[str, Optional[str]]]
    #: the call that runs a line
    RUN: str

    def _line(self, name: str, arguments: Tuple[Any, ...]) -> Optional[str]:
        """The line that is equivalent to a call, if there is one."""
        raise NotImplementedError

    def _call(self, name: str, *arguments: Any) -> None:
        line = self._line(name, arguments)
        try:
            super()._call(name, *arguments)
        except Refusal as refusal:
            if line and refusal.number < 900:
                self._reply(self.RUN, line)
            raise
        if line:
            who, verb, *words = line.split()
            is_read = verb in ("cr", "ir", "mr")
            reply = f"0x{arguments[-1]._obj.value:0{2 * int(words[-1])}x}" if is_read else "ok"
            self.rows.append((line, f"{who}: {reply}"))

    def _reply(self, name: str, line: Union[str, bytes]) -> Optional[str]:
        reply = super()._reply(name, line)
        text = (line if isinstance(line, str) else line.decode("utf-8", "backslashreplace")).rstrip("\n")
        if reply is not None and "\n" not in reply and not is_question(text):
            self.rows.append((text, reply))
        return reply


def access(who: str, space: int, function: str, place: int, width: int, value: Optional[int] = None) -> str:
    """The line of an access: a write if there is a value."""
    at = f"{function} {place:#x}" if space == CONFIG else f"{place:#x}"
    if value is None:
        return f"{who} {LETTERS[space]}r {at} {width}"
    return f"{who} {LETTERS[space]}w {at} {width} {value:#x}"


def by_host(space: int, bus: int, device: int, function: int, place: int, width: int, value: Optional[int] = None) -> str:
    """The line of an access by the host or by firmware."""
    return access("host", space, f"{bus:02x}:{device:02x}.{function}", place, width, value)


class RecordedMachine(Recorded, Machine):
    """A machine that records everything in `rows`.

    >>> machine = RecordedMachine(BOARD)
    >>> machine.guest("a").config[0][0x14:4] = 0x80000000
    >>> machine.run_line("a cr 0 0x14 4")
    'a: 0x80000000'
    >>> machine.rows
    [('a cw 0 0x14 4 0x80000000', 'a: ok'), ('a cr 0 0x14 4', 'a: 0x80000000')]
    """

    RUN = "run_line"

    def __init__(self, board: Union[str, bytes], name: str = NAME) -> None:
        self.rows = []
        super().__init__(board, name)

    def _line(self, name: str, arguments: Tuple[Any, ...]) -> Optional[str]:
        if name == "host_read":
            return by_host(*arguments[:-1])
        if name == "move":
            source, slot, target, target_slot = arguments
            return f"host move {self._name(source)} {slot} {self._name(target)} {target_slot}"
        if name == "raise":
            guest, slot, part, offset, mask = arguments
            where = "cfg" if part == PART_CONFIG else f"bar{part}"
            return f"{self._name(guest)} raise {slot} {where} {offset:#x} {mask:#x}"
        if name not in ("read", "write"):
            return None
        guest, space, slot, place, width, value = arguments
        return access(self._name(guest), space, str(slot), place, width, value if name == "write" else None)


class RecordedBoard(Recorded, Board):
    """A board that firmware drives, and that records everything in `rows`."""

    RUN = "board_run_line"

    def __init__(self, file: Union[str, bytes], name: str = NAME) -> None:
        self.rows = []
        super().__init__(file, name)

    def _line(self, name: str, arguments: Tuple[Any, ...]) -> Optional[str]:
        if name == "board_write":
            return by_host(*arguments)
        return by_host(*arguments[:-1]) if name == "board_read" else None

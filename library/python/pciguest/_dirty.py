"""Boards as if other firmware had run before: the registers that firmware writes contain random values, which
depend on a seed and on the path of the function."""

from __future__ import annotations

from typing import Dict, List, Optional, Tuple

from ._board_file import Document, Function, Path, functions
from ._drawing import RandomChoices
from ._driven import DrivenBoard, Maker
from ._toml import document_of

COMMAND, NUMBERS = 0x04, 0x18
#: the bits of Command that are random: none that a driver doesn't expect, such as Interrupt Disable
COMMAND_BITS = 0x0147
#: the other registers, each with its width; Status and Secondary Status aren't written
OF_BOTH = [(0x0C, 2), (0x3C, 1)]
OF_ENDPOINTS = [*((offset, 4) for offset in range(0x10, 0x28, 4))]
OF_BRIDGES = [(0x1B, 1), (0x1C, 2), *((offset, 2) for offset in range(0x20, 0x28, 2)), *((offset, 4) for offset in range(0x28, 0x34, 4))]
#: the values of a function's registers, by offset
Registers = Dict[int, int]


def numbers(board: DrivenBoard, every: List[Function]) -> Dict[str, str]:
    """Numbers the buses of a board in its reset state. Returns the number of each function, by path."""
    buses: Dict[Path, int] = {(): 0}
    found: Dict[str, str] = {}
    bridges = [one.path for one in every if one.is_bridge]
    for one in every:
        bus, (device, function) = buses[one.path[:-1]], one.path[-1]
        found[one.at] = f"{bus:02x}:{device:02x}.{function}"
        if one.is_bridge:
            secondary = buses[one.path] = len(buses)
            last = secondary + sum(path[: len(one.path)] == one.path for path in bridges) - 1
            board.run_line(f"host cw {found[one.at]} {NUMBERS:#x} 4 {last << 16 | secondary << 8 | bus:#x}")
    return found


class DirtyBoard:
    """A board with random registers. `left` contains their values, by the paths of the functions."""

    def __init__(self, board: DrivenBoard, document: Document, seed: int) -> None:
        self.board, self.left = board, {}  # type: DrivenBoard, Dict[str, Registers]
        every = functions(document)
        by_path = numbers(board, every)
        # in reverse order, because functions behind a bridge can only be reached until its bus numbers are random
        for one in reversed(every):
            self.left[one.at] = self.soil(one, by_path[one.at], document["host"], RandomChoices(f"{seed} {one.at}"))

    def soil(self, one: Function, number: str, host: Document, choices: RandomChoices) -> Registers:
        """Writes a function's registers, and returns what they then read. Addresses are often in the apertures."""
        places: List[Tuple[int, int]] = [*OF_BOTH, *(OF_BRIDGES if one.is_bridge else OF_ENDPOINTS)]
        drawn = {}
        for offset, width in places:
            ones = (1 << 8 * width) - 1
            ends = [host[key] for key in ("io", "mem") if key in host and width == 4]
            ends += [[end >> 16 for end in host["mem"]]] if 0x20 <= offset < 0x28 and "mem" in host else []
            first, last = choices.one_of([(0, ones), *ends])
            drawn[offset, width] = choices.number(first, last) & ones
        drawn[COMMAND, 2] = choices.number(0, COMMAND_BITS) & COMMAND_BITS
        for (offset, width), value in drawn.items():
            self.board.run_line(f"host cw {number} {offset:#x} {width} {value:#x}")
        read = {offset: self.read(number, offset) for offset in [COMMAND, *range(0x10, 0x34, 4)]}
        if one.is_bridge:
            first, last = sorted(choices.number(0, 0xFF) for _ in range(2))
            self.board.run_line(f"host cw {number} {NUMBERS:#x} 2 {first << 8 | choices.number(0, 0xFF):#x}")
            self.board.run_line(f"host cw {number} {NUMBERS + 2:#x} 1 {last:#x}")
        return read

    def read(self, number: str, offset: int) -> int:
        return int((self.board.run_line(f"host cr {number} {offset:#x} 4") or "").split()[-1], 16)

    def run_line(self, line: str) -> Optional[str]:
        return self.board.run_line(line)

    def ready_text(self) -> str:
        return self.board.ready_text()

    def close(self) -> None:
        self.board.close()


class Dirty:
    """Makes such boards from those of another maker."""

    def __init__(self, maker: Maker, seed: int) -> None:
        self.maker, self.seed = maker, seed

    def board(self, text: str) -> DrivenBoard:
        return DirtyBoard(self.maker.board(text), document_of(text), self.seed)

    def refusal(self, text: str) -> Optional[int]:
        return self.maker.refusal(text)

#!/usr/bin/python3 -B
"""Is firmware that is broken on purpose found out? SeaBIOS boots on a board, and what it writes to one register comes
changed, or what it reads there.

    broken.py PROGRAM

Each row of BREAKS says what is changed, and what the program's `ready` must then report: a problem, which its audit
reports too, or something that is left to do. Each report is compared with the registers (shown.py), and the library's
reports with the program's. The handover of a board with a problem is refused with 207, and one that gives a guest a
disabled region with 206. Status 1 means that a break wasn't reported, or that something was reported that isn't so."""
import sys
import tempfile
import tomllib
from contextlib import closing
from pathlib import Path
from typing import Callable, NamedTuple

from board import DATA, LATCH, LibraryBoard, options
from boot import SEABIOS
from guests import Given
from pciguest._board_file import text_of
from pciguest._pc import PC
from shown import Shown
from trees import HOST

SERVER = Path(__file__).resolve().parents[2] / "boards/server.toml"


class Break(NamedTuple):
    """Writes of a register, or reads of it, by number, offset and width, and what comes of their value; what `ready` has to
    tell; and by what the board is refused to its guests, where it is."""

    name: str
    at: tuple
    offset: int
    width: int
    change: Callable
    told: str
    refusal: int = 207
    is_read: bool = False


BREAKS = [
    Break("a limit one unit short", (0, 3, 0), 0x26, 2, lambda value: value - 0x10,
          "audit: 3.0/0.0/2.0 bar2 at 0xf8800000 size 0x800000: 0xf8f00000 is not forwarded by bridge 3.0"),
    Break("two siblings' windows that share a unit", (0, 3, 0), 0x20, 2, lambda value: value - 0x10,
          "audit: 2.0 and 3.0: address conflict at memory 0xfdb00000"),
    Break("a Subordinate left at FFh", (0, 2, 0), 0x1A, 1, lambda value: 0xFF,
          "audit: 3.0/0.0: a configuration cycle to 02:00.0 reaches nothing"),
    Break("a Subordinate too low", (0, 3, 0), 0x1A, 1, lambda value: 2 if value == 3 else value,
          "audit: 3.0/0.0/1.0: a configuration cycle to 03:01.0 reaches nothing"),
    Break("a bridge's Command closed", (0, 4, 0), 0x04, 2, lambda value: value & ~2,
          "audit: 4.0/0.0 bar0 at 0xfb000000 size 0x1000000: 0xfb000000 is not forwarded by bridge 4.0"),
    Break("a base moved out of its window", (4, 0, 1), 0x10, 4,
          lambda value: 0xEC000000 if value == 0xFC000000 else value,
          "audit: 4.0/0.1 bar0 at 0xec000000 size 0x100000: 0xec000000 is not forwarded by bridge 4.0"),
    Break("two bridges with one Secondary", (0, 4, 0), 0x19, 1, lambda value: 1,
          "audit: 4.0/0.0: a configuration cycle to 01:00.0 reaches 2.0/0.0"),
    Break("a 64-bit base whose high half stays all ones", (3, 1, 0), 0x14, 4, lambda value: 0xFFFFFFFF,
          "audit: 3.0/0.0/1.0 bar0 at 0xfffffffffdc00000 size 0x400000: 0xfffffffffdc00000 is not forwarded by bridge 3.0"),
    Break("a device left closed", (1, 0, 0), 0x04, 2, lambda value: value & ~3,
          "ready: 2.0/0.0 bar0 at 0xfd800000 size 0x20000: memory decode is disabled", 206),
    Break("a region past the aperture", (0, 5, 0), 0x10, 4,
          lambda value: 0xFEC00000 if 0xF < value < 0xFFFFFFFF else value,
          "ready: 5.0 bar0 at 0xfec00000 size 0x100000: 0xfec00000 is outside the apertures", 0),
    Break("a region that is taken for prefetchable", (3, 1, 0), 0x10, 4, lambda value: value | 8,
          "ready: 3.0/0.0/1.0 bar0 at 0xf9000000 size 0x400000: bridge 3.0 forwards 0xf9000000 as prefetchable", 0, is_read=True),
    Break("a wrong Primary", (2, 0, 0), 0x18, 1, lambda value: 0,
          "ready: 3.0/0.0: Primary Bus Number is 00, but the bridge is on bus 02", 0),
]


class Broken:
    """A board that gets what one register is to hold changed, or of which one register is read so."""

    def __init__(self, board, broken):
        self.board, self.broken, self.latch = board, broken, 0
        self.memory_read, self.memory_write = board.memory_read, board.memory_write

    def changed(self, is_read, port, width, value):
        """What comes of a value that is read or written at a port."""
        if not DATA <= port < DATA + 4 or not self.latch >> 31 or is_read != self.broken.is_read:
            return value
        at = self.latch >> 16 & 0xFF, self.latch >> 11 & 31, self.latch >> 8 & 7
        is_broken = (at, (self.latch & 0xFC) + port - DATA, width) == self.broken[1:4]
        return self.broken.change(value) if is_broken else value

    def port_read(self, port, width):
        return self.changed(True, port, width, self.board.port_read(port, width))

    def port_write(self, port, width, value):
        if (port, width) == (LATCH, 4):
            self.latch = value
        self.board.port_write(port, width, self.changed(False, port, width, value))


def examine(program, file, broken):
    """What is wrong with what is told after SeaBIOS, broken so: nothing, where it is right."""
    with closing(LibraryBoard(file)) as board:
        PC(Broken(board, broken), Path(SEABIOS.rom).read_bytes(), SEABIOS.plain).boot(SEABIOS.ending)
        audit, ready = (board.told(program, command) for command in ("audit", "ready"))
        print(f"{broken.name}: {audit[-1]}, {ready[-1]}", *ready[:-1], sep="\n  ", flush=True)
        wrong = Shown(board.board, tomllib.loads(file.read_text())).untrue(ready)
        given = Given(program, file, board.board, audit, ready)
        wrong += given.wrong + [f"it is refused to guests by {given.number}"] * (given.number != broken.refusal)
        return wrong + [f"isn't told: {broken.told}"] * (broken.told not in ready)


def main():
    program, failed = options(__doc__, "program").program, 0
    with tempfile.TemporaryDirectory() as room:
        file = Path(room) / "server.toml"
        file.write_text(text_of({**tomllib.loads(SERVER.read_text()), "host": HOST}))
        for broken in BREAKS:
            for line in examine(program, file, broken):
                print(f"FAILED: {broken.name}: {line}")
                failed += 1
    print(f"breaks {len(BREAKS)}, failures {failed}")
    sys.exit(failed > 0)


if __name__ == "__main__":
    main()

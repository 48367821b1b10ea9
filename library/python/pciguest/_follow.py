"""Follows firmware's lines, to find out which function and register each configuration access is for."""

from __future__ import annotations

from typing import Dict, NamedTuple, Optional

from ._driven import DrivenBoard

LATCH, DATA = 0xCF8, 0xCFC
BUS_NUMBERS = range(0x18, 0x1B)


class Access(NamedTuple):
    """A configuration access to a BDF. A read has no value."""

    number: str
    offset: int
    width: int
    value: Optional[int]

    def touches(self, bytes_of: range) -> bool:
        return self.offset < bytes_of.stop and bytes_of.start < self.offset + self.width

    @property
    def register(self) -> int:
        """The offset of the register that contains it, a multiple of 4."""
        return self.offset & ~3

    def byte(self, offset: int) -> int:
        """What a write writes to a byte."""
        return (self.value or 0) >> 8 * (offset - self.offset) & 0xFF


def value_of(word: str) -> int:
    """A number in a line, in any of its forms."""
    return int(word, 16 if word[:2] in ("0x", "0X") else 10)


class Follower:
    """Is given each line after the board has replied to it. Its own lines leave the board unchanged."""

    def __init__(self, board: DrivenBoard) -> None:
        self.board, self.latch = board, 0
        self.known: Dict[str, Optional[str]] = {}

    def access(self, line: str) -> Optional[Access]:
        """The configuration access that a line makes, if it makes one, by BDF or through the ports."""
        words = line.split()
        if not words or words[0] != "host" or words[1] not in ("cr", "cw", "ir", "iw"):
            return None
        place, width, *value_there = (value_of(word) for word in words[3 if words[1][0] == "c" else 2 :])
        value = value_there[0] if value_there else None
        if words[1][0] == "c":
            self.latch = 0
            found = Access(words[2].lower(), place, width, value)
        elif DATA <= place < DATA + 4 and self.latch >> 31:
            bus, device, function = self.latch >> 16 & 0xFF, self.latch >> 11 & 31, self.latch >> 8 & 7
            found = Access(f"{bus:02x}:{device:02x}.{function}", (self.latch & 0xFC) + place - DATA, width, value)
        else:
            if (place, width) == (LATCH, 4) and value is not None:
                self.latch = value & 0x80FFFFFC
            return None
        if value is not None and found.touches(BUS_NUMBERS):
            self.known = {}
        return found

    def asked(self, line: str) -> str:
        """The board's reply to a line that isn't the firmware's."""
        reply = self.board.run_line(line) or ""
        if self.latch:
            self.board.run_line(f"host iw {LATCH:#x} 4 {self.latch:#x}")
        return reply

    def read(self, number: str, offset: int) -> int:
        """4 bytes of configuration space."""
        return int(self.asked(f"host cr {number} {offset:#x} 4").split()[-1], 16)

    def reached(self, number: str) -> Optional[str]:
        """The path of the function that a BDF currently reaches, or None."""
        if number not in self.known:
            path = self.asked(f"host why cfg {number}").splitlines()[0].split()[-1]
            self.known[number] = None if path == "nothing" else path
        return self.known[number]

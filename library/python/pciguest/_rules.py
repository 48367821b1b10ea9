"""Which rule decides a reply: a row of docs/own.toml, found by the line, the two replies, and what the library
knows about the place."""

from __future__ import annotations

import tomllib
from typing import Any, Dict, List, Optional, Tuple

from ._board import Board
from ._files import find
from ._machine import Machine
from ._refusal import Refusal

Row = Dict[str, Any]
LATCH, DATA = 0xCF8, 0xCFC


def table() -> Tuple[List[Row], Dict[str, Row]]:
    """The rows for registers, and those for accesses by name."""
    document = tomllib.loads(find("docs/own.toml", "own.toml").read_text())
    return document["register"], {row["name"]: row for row in document["access"]}


REGISTERS, ACCESSES = table()


def told(row: Row) -> str:
    """A rule as a line."""
    section = f"PROFILE.md, section {row['section']}" if row["section"] else "script-language.md"
    asked = "the standards ask for it" if row["by"] == "standards" else "own: the standards leave it open"
    return f"{row['name']}: {row['says']} ({section}; {asked})"


def register(header: int, offset: int, bits: int) -> Row:
    """The rule of the lowest of some bits, which begin at an offset."""
    low = (bits & -bits).bit_length() - 1
    for row in REGISTERS:
        place = 8 * (offset - row["offset"]) + low
        mask = row.get("mask", (1 << 8 * row["width"]) - 1)
        if row["header"] == header and 0 <= place < 8 * row["width"] and mask >> place & 1:
            return row
    raise ValueError(f"no rule has bit {low} at offset {offset:#x}")


def number(reply: Optional[str]) -> Optional[int]:
    """What a reply reads."""
    word = (reply or "").split(" ")[-1]
    return int(word, 16) if word.startswith("0x") else None


def value(word: str) -> int:
    return int(word, 16 if word[:2] in ("0x", "0X") else 10)


class Asked:
    """A line whose reply differs, with both replies."""

    def __init__(self, line: str, ours: Optional[str], theirs: Optional[str]) -> None:
        self.words, self.ours, self.theirs = line.split(), ours, theirs
        self.values = number(ours), number(theirs)

    def by_words(self) -> Optional[Row]:
        """The rule, if the replies or the kind of line determine it."""
        for reply in (self.ours, self.theirs):
            words = (reply or "").split()
            if words[1:2] == ["refused"]:
                return ACCESSES["grammar" if words[2][0] == "4" else "checks" if words[2][0] == "3" else "move"]
        kind = self.words[1] if len(self.words) > 1 else ""
        if kind in ("raise", "move"):
            return ACCESSES[kind]
        return None if None not in self.values else ACCESSES["grammar"]

    def differing(self) -> int:
        return (self.values[0] or 0) ^ (self.values[1] or 0)

    def all_ones(self) -> int:
        return (1 << 8 * value(self.words[-1])) - 1

    def found_nothing(self, side: int) -> bool:
        return self.values[side] == self.all_ones()


class ByGuest:
    """Rules for guest accesses, for the machine before the line."""

    def __init__(self, machine: Machine) -> None:
        self.machine = machine

    def rule(self, asked: Asked) -> Row:
        words = asked.words
        if words[0] == "host":
            return ACCESSES["routing"] if words[1] == "cr" else ACCESSES["cells"]
        guest = self.machine.guest(words[0])
        if words[1] == "cr":
            return self.config(value(words[2]), value(words[3]), asked)
        place = value(words[2])
        latch = guest.io[LATCH:4]
        if words[1] == "ir" and LATCH <= place < DATA + 4:
            found = self.port(place, latch, asked)
            if found:
                return found
        return self.place(words[0], "io" if words[1] == "ir" else "memory", place, asked)

    def config(self, slot: int, offset: int, asked: Asked) -> Row:
        if asked.found_nothing(0):
            return ACCESSES["no function"]
        return register(0, offset, asked.differing())

    def port(self, place: int, latch: int, asked: Asked) -> Optional[Row]:
        if place < DATA:
            return ACCESSES["address latch" if value(asked.words[-1]) == 4 else "latch by bytes"]
        if not latch >> 31:
            return ACCESSES["data without enable"] if asked.found_nothing(0) else None
        if latch >> 16 & 0xFF or latch >> 8 & 7 or asked.found_nothing(0):
            return ACCESSES["slots by ports"]
        return register(0, (latch & 0xFC) + place % 4, asked.differing())

    def place(self, name: str, space: str, place: int, asked: Asked) -> Row:
        guest = self.machine.guest(name)
        hit = guest.locate(space, place)
        if hit is None or hit.region is None:
            return ACCESSES["unclaimed"]
        region = guest.region(hit.slot, hit.region)
        if not asked.found_nothing(1):
            return ACCESSES["cells"]
        if region.first == 0:
            return ACCESSES["base of 0"]
        ends = region.first + region.size
        return ACCESSES["last addresses" if ends in (1 << 32, 1 << 64) else "claimed"]


class ByFirmware:
    """Rules for firmware accesses, for the board before the line."""

    def __init__(self, board: Board) -> None:
        self.board = board

    def rule(self, asked: Asked) -> Row:
        words = asked.words
        if words[1] == "cr":
            at = int(words[2][:2], 16), int(words[2][3:5], 16), int(words[2][6])
            return self.config(at, value(words[3]), asked)
        place = value(words[2])
        if words[1] == "ir" and LATCH <= place < DATA + 4:
            latch = self.board.io[LATCH:4]
            if place < DATA:
                return ACCESSES["address latch" if value(words[-1]) == 4 else "latch by bytes"]
            if latch >> 31:
                at = latch >> 16 & 0xFF, latch >> 11 & 31, latch >> 8 & 7
                return self.config(at, (latch & 0xFC) + place % 4, asked)
            return ACCESSES["data without enable"]
        if asked.found_nothing(0):
            return ACCESSES["unclaimed"]
        return ACCESSES["claimed" if asked.found_nothing(1) else "cells"]

    def config(self, at: Tuple[int, int, int], offset: int, asked: Asked) -> Row:
        latch = self.board.io[LATCH:4]
        header = self.board.config[at][0x0E:1]
        self.board.io[LATCH:4] = latch
        if asked.found_nothing(0) and header == 0xFF:
            return ACCESSES["no function"]
        if asked.found_nothing(1):
            return ACCESSES["routing"]
        return register(header & 0x7F, offset, asked.differing())


def rule(over: Any, line: str, ours: Optional[str], theirs: Optional[str]) -> Row:
    """The rule that decides the reply to a line, for the machine or board before the line."""
    asked = Asked(line, ours, theirs)
    found = asked.by_words()
    if found:
        return found
    try:
        return ByGuest(over).rule(asked) if hasattr(over, "guest") else ByFirmware(over).rule(asked)
    except (Refusal, ValueError, IndexError):
        return ACCESSES["grammar"]

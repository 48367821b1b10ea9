"""Places such as `a.bar0[8:4]` or `2.0.command`, which the prompt accepts, and the script lines for them."""

from __future__ import annotations

import re
from typing import NamedTuple, Optional

from ._functions import Function
from ._lines import number_of
from ._machine import Machine
from ._names import BRIDGE, ENDPOINT
from ._refusal import Refusal

PATH = r"[0-9]+\.[0-7](?:/[0-9]+\.[0-7])*"
_PLACE = re.compile(
    rf"(?P<who>[a-z][a-z0-9]*|{PATH})(?:\.(?P<slot>[0-9]+))?\.(?P<part>[a-z][a-z0-9_]*)"
    r"(?:\[(?P<place>[^:\]]*):(?P<width>[^:\]]*)\])?(?:\s*=\s*(?P<value>\S+))?"
)


class WrongPlace(Exception):
    """Why a text isn't a place."""


class Line(NamedTuple):
    """A line of a script, and what is to be known about it."""

    text: str
    note: Optional[str] = None


def is_place(text: str) -> bool:
    """Whether a text has the form of a place."""
    return _PLACE.fullmatch(text.strip()) is not None


def line_of(text: str, machine: Machine) -> Line:
    """The line for a place: a write if a value follows, otherwise a read."""
    found = _PLACE.fullmatch(text.strip())
    if found is None:
        raise WrongPlace("write a guest or a path, and then a register or a part, as in a.command or a.bar0[8:4]")
    return _Place(found, machine).line()


def function_at(path: str, machine: Machine) -> Function:
    """The function at a path."""
    for each in machine.functions():
        if each.path == path:
            return each
    raise WrongPlace(f"no function at {path}: 'tree' lists the functions")


class _Place:
    """The parts of a place, for a machine."""

    def __init__(self, found: "re.Match[str]", machine: Machine) -> None:
        self.who, self.slot, self.part = found["who"], int(found["slot"] or 0), found["part"]
        self.place, self.width, self.value = found["place"], found["width"], found["value"]
        self.machine = machine

    def line(self) -> Line:
        if self.who[0].isdigit():
            return self._of_path()
        in_space = self._spaces()
        if in_space is not None:
            return in_space
        if self.who == "host":
            raise self._wrong("io and mem")
        return self._of_guest()

    def _wrong(self, parts: str) -> WrongPlace:
        return WrongPlace(f"{self.who} has {parts} here, and no {self.part}")

    def _bytes(self) -> str:
        if self.place is None:
            raise WrongPlace(f"write [place:width] after {self.part}")
        return f"{self.place.strip()} {self.width.strip()}"

    def _line(self, letter: str, where: str, note: Optional[str] = None) -> Line:
        if self.value is None:
            return Line(f"{self.who} {letter}r {where}", note)
        if self.who == "host":
            raise WrongPlace("the host only reads; write as a guest, as in a.command = 2")
        return Line(f"{self.who} {letter}w {where} {self.value}", note)

    def _spaces(self) -> Optional[Line]:
        letter = {"io": "i", "mem": "m"}.get(self.part)
        return None if letter is None else self._line(letter, self._bytes())

    def _inside(self, first: int) -> str:
        """The address of a place in a region."""
        self._bytes()
        offset = number_of(self.place.strip().encode())
        if offset is None:
            raise WrongPlace(f"'{self.place}' isn't a number")
        return f"{first + offset:#x} {self.width.strip()}"

    def _of_guest(self) -> Line:
        if self.part == "cfg":
            return self._line("c", f"{self.slot} {self._bytes()}")
        if self.part in ENDPOINT and self.place is None:
            offset, width = ENDPOINT[self.part]
            return self._line("c", f"{self.slot} {offset:#x} {width}")
        if not re.fullmatch("bar[0-5]", self.part):
            raise self._wrong("cfg, io, mem, bar0 to bar5 and the registers of an endpoint")
        try:
            region = self.machine.guest(self.who).region(self.slot, int(self.part[3]))
        except Refusal as refusal:
            raise WrongPlace(f"{self.who}'s slot {self.slot} has no {self.part}: {refusal}") from None
        letter, space = ("i", "I/O") if region.space == "io" else ("m", "memory")
        note = None if region.is_open else f"{space} decode is disabled in slot {self.slot}"
        return self._line(letter, self._inside(region.first), note)

    def _of_path(self) -> Line:
        one = function_at(self.who, self.machine)
        at = f"{one.bus:02x}:{one.device:02x}.{one.function}"
        names = BRIDGE if one.is_bridge else ENDPOINT
        self.who = "host"
        if self.part == "cfg":
            return self._line("c", f"{at} {self._bytes()}")
        if self.part in names and self.place is None:
            offset, width = names[self.part]
            return self._line("c", f"{at} {offset:#x} {width}")
        bar = one.regions[int(self.part[3])] if re.fullmatch("bar[0-5]", self.part) else None
        if bar is None:
            self.who = one.path
            raise self._wrong("cfg, its regions and " + ", ".join(names))
        return self._line("i" if bar.space == "io" else "m", self._inside(bar.first))

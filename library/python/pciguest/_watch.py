"""What goes wrong while firmware writes, no matter what it leaves at the end."""

from __future__ import annotations

import re
from itertools import combinations
from typing import Callable, Dict, FrozenSet, Iterator, List, NamedTuple, Set, Tuple

from ._board_file import Document, Function, Path, Region, functions
from ._driven import DrivenBoard
from ._follow import Access, Follower
from ._judge import findings

COMMAND, IO_BASE = 0x04, 0x1C
#: the bits of Status and of Secondary Status that are cleared by writing a one
STATUS_ONES = 0xF900
SPACES = {1: "I/O", 2: "memory"}
ONES = 0xFFFFFFFF


class Window(NamedTuple):
    """A window of a bridge: its name, the Command bit of its space, and the offsets and sizes of its base and
    limit."""

    name: str
    bit: int
    offset: int
    width: int
    upper: Tuple[int, ...]

    def is_at_reset(self, words: Dict[int, int]) -> bool:
        """Whether base and limit are 0, according to the registers, without their type bits."""
        low = words[self.offset] & (0xF0F0 if self.width == 1 else 0xFFF0FFF0)
        return low == 0 and not any(words[offset] for offset in self.upper)

    @property
    def last(self) -> int:
        """The last address that the window then forwards."""
        return 0xFFF if self.width == 1 else 0xFFFFF

    def ends(self, words: Dict[int, int]) -> Tuple[int, int]:
        """Its first and last address, by what the registers read."""
        low, up = words[self.offset], [words[offset] for offset in self.upper]
        if self.width == 1:
            high = up[0] if up else 0
            return (high & 0xFFFF) << 16 | (low & 0xF0) << 8, high >> 16 << 16 | low & 0xF000 | self.last
        base, limit = up or (0, 0)
        return base << 32 | (low & 0xFFF0) << 16, limit << 32 | low & 0xFFF00000 | self.last


def windows_of(bridge: Function) -> List[Window]:
    """The windows that a bridge has."""
    io, pref = bridge.table["io"], bridge.table["pref"]
    found = [Window("I/O", 1, 0x1C, 1, (0x30,) if io == "32" else ())] if io != "none" else []
    found.append(Window("memory", 2, 0x20, 2, ()))
    if pref != "none":
        found.append(Window("prefetchable", 2, 0x24, 2, (0x28, 0x2C) if pref == "64" else ()))
    return found


class Claim(NamedTuple):
    """Addresses that a function claims on its bus."""

    is_io: bool
    first: int
    last: int

    def meets(self, other: Claim) -> bool:
        return self.is_io == other.is_io and self.first <= other.last and other.first <= self.last


class Kept:
    """What a function's registers contained when they were last read; at first, their reset values, or what other firmware
    left there. `ends` contains the windows of a bridge, by name, as they were when one was last written while it was enabled."""

    def __init__(self, function: Function, left: Dict[int, int]) -> None:
        self.function = function
        self.command = left.get(COMMAND, 0) & 0xFFFF
        at_reset = function.table.get("status", 0) | function.table.get("fixed_status", 0)
        self.status = left[COMMAND] >> 16 if left else at_reset
        self.bases = {region.index: base_of(region, lambda offset: left.get(offset, 0)) for region in function.regions()}
        windows = windows_of(function) if function.is_bridge and left else []
        self.ends: Dict[str, Tuple[int, int]] = {window.name: window.ends(left) for window in windows}

    def claims(self) -> List[Claim]:
        if self.function.is_bridge:
            return [Claim(each.bit == 1, *self.ends[each.name]) for each in windows_of(self.function)
                    if self.command & each.bit and each.name in self.ends]
        return [Claim(region.is_io, base, base + region.size - 1) for region in self.function.regions()
                for base in [self.bases[region.index]] if opens(self.command, region)]


def base_of(region: Region, read: Callable[[int], int]) -> int:
    """The base of a region, by what the registers of its function read."""
    offset = 0x10 + 4 * region.index
    high = read(offset + 4) if region.is_64_bit else 0
    return high << 32 | read(offset) & (~3 if region.is_io else ~15)


def enabled(space: str, command: int) -> str:
    return f"{space} decode is enabled (Command {command:#06x})"


def opens(command: int, region: Region) -> bool:
    return command & (1 if region.is_io else 2) != 0


def has_ones(region: Region, base: int) -> bool:
    """Whether a base contains the all-ones value of sizing, in either of its registers."""
    ones = -region.size & (1 << 64) - 1
    low, high = ones & ONES, ones >> 32
    return low != 0 and base & ONES == low or region.is_64_bit and base >> 32 == high


class Watch:
    """Is given each firmware line to which the board replied `ok`, and yields what is wrong with it."""

    def __init__(self, board: DrivenBoard, document: Document) -> None:
        self.board, self.host, self.follower = board, document["host"], Follower(board)
        self.functions = {one.at: one for one in functions(document)}
        left: Dict[str, Dict[int, int]] = getattr(board, "left", {})
        self.kept = {at: Kept(one, left.get(at, {})) for at, one in self.functions.items()}
        self.on_bus: Dict[Path, List[Kept]] = {}
        for kept in self.kept.values():
            self.on_bus.setdefault(kept.function.path[:-1], []).append(kept)
        self.met = {pair for kept in self.kept.values() for pair in self.meeting(kept)}

    def seen(self, line: str) -> List[str]:
        access = self.follower.access(line)
        if access is None or access.value is None or not 4 <= access.offset < 0x34:
            return []
        at = self.follower.reached(access.number)
        if at is None:
            return []
        one = self.functions[at]
        if access.register == COMMAND:
            return list(self.commanded(one, access))
        if one.is_bridge:
            bits = self.kept[at].command & 3 if access.offset >= IO_BASE else 0
            opened = [*self.opened_bridge(one, access, bits), *self.overlaps(one)] if bits else []
            return [*self.wiped(one, access), *opened]
        return list(self.placed(one, access)) if access.register <= 0x24 else []

    # ---- Command

    def commanded(self, one: Function, access: Access) -> Iterator[str]:
        """After a write of Command or Status."""
        kept, word = self.kept[one.at], self.follower.read(access.number, COMMAND)
        command, status = word & 0xFFFF, word >> 16
        if access.width == 4 and kept.status & ~status:
            yield f"status: {one.at}: a 4-byte write to Command changes Status from {kept.status:#06x} to {status:#06x}"
        else:
            yield from self.wiped(one, access)
        opened, kept.command, kept.status = command & ~kept.command & 3, command, status
        if opened:
            yield from self.opened_bridge(one, access, opened) if one.is_bridge else self.opened(one, opened)
            yield from self.overlaps(one)

    def wiped(self, one: Function, access: Access) -> Iterator[str]:
        """Called after a write to another register whose upper half is Status or Secondary Status. A write to Status alone
        may be meant to clear it."""
        names = {COMMAND: ("Command", "Status"), IO_BASE: ("I/O Base", "Secondary Status")}.get(access.offset)
        ones = (access.value or 0) >> 16 & STATUS_ONES
        if names and access.width == 4 and ones:
            yield f"status: {one.at}: a 4-byte write to {names[0]} writes ones to {names[1]} ({ones:#06x})"

    def opened(self, one: Function, bits: int) -> Iterator[str]:
        """After an endpoint's Command enables one space or both."""
        kept = self.kept[one.at]
        for region in one.regions():
            base = kept.bases[region.index]
            if opens(bits, region) and has_ones(region, base) and not self.is_given_out(region.is_io, base):
                space = SPACES[1 if region.is_io else 2]
                yield (f"ones: {one.at} bar{region.index} at {base:#x} size {region.size:#x}: {enabled(space, kept.command)} "
                       "while the base still has the ones written for sizing")

    def is_given_out(self, is_io: bool, address: int) -> bool:
        """Whether an address is in an aperture in which all ones, or zeros, can be a valid base."""
        keys = ["io"] if is_io else ["mem", "pref"]
        return any(key in self.host and self.host[key][0] <= address <= self.host[key][1] for key in keys)

    def opened_bridge(self, one: Function, access: Access, bits: int) -> Iterator[str]:
        kept = self.kept[one.at]
        command = kept.command
        for window in windows_of(one):
            words = {offset: self.follower.read(access.number, offset) for offset in (window.offset, *window.upper)}
            kept.ends[window.name] = window.ends(words)
            if bits & window.bit and window.is_at_reset(words) and not self.is_given_out(window.bit == 1, 0):
                yield (f"reset: {one.at}: {enabled(SPACES[window.bit], command)} while the {window.name} window is "
                       f"0x0-{window.last:#x}, as at reset")

    # ---- base address registers

    def placed(self, one: Function, access: Access) -> Iterator[str]:
        """After a write of a base address register."""
        register = (access.register - 0x10) // 4
        region = next((each for each in one.regions() if each.index <= register <= each.index + each.is_64_bit), None)
        if region is None:
            return
        kept = self.kept[one.at]
        before, base = kept.bases[region.index], base_of(region, lambda offset: self.follower.read(access.number, offset))
        kept.bases[region.index] = base
        if not opens(kept.command, region):
            return
        space = SPACES[1 if region.is_io else 2]
        if access.width == 4 and (access.value or 0) | 0xF == ONES:
            yield f"sizing: {access.number} bar{region.index}: all ones are written while {enabled(space, kept.command)}"
        elif base != before and not has_ones(region, before):
            yield (f"moved: {one.at} bar{region.index} at {base:#x} size {region.size:#x}: moves from {before:#x} while "
                   f"{enabled(space, kept.command)}")
            yield from self.overlaps(one)

    def meeting(self, kept: Kept) -> Set[FrozenSet[str]]:
        """The pairs of a function and another one on its bus, or itself, that claim an address twice."""
        mine, found = kept.claims(), set()
        for other in self.on_bus[kept.function.path[:-1]] if mine else []:
            pairs = combinations(mine, 2) if other is kept else ((a, b) for a in mine for b in other.claims())
            if any(a.meets(b) for a, b in pairs):
                found.add(frozenset((kept.function.at, other.function.at)))
        return found

    def overlaps(self, one: Function) -> Iterator[str]:
        """Which functions respond to an address of this function since this line. The board is asked only if another
        function could respond that couldn't before."""
        found = self.meeting(self.kept[one.at])
        is_new = not found <= self.met
        self.met = {pair for pair in self.met if one.at not in pair} | found
        if is_new:
            named = re.compile(rf"audit: (.* and )?{re.escape(one.at)}( bar\d+)?( and .*)?: address conflict")
            yield from sorted(line.replace("audit", "overlap", 1) for line in findings(self.board) if named.match(line))

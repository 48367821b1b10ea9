"""What firmware leaves in registers that don't route accesses, so `host ready` doesn't look at them: bridges that
forward no DMA, and bits that the driver of a function doesn't expect."""

from __future__ import annotations

from typing import Dict, Iterator, List, NamedTuple, Tuple

from ._board_file import Document, Function, Path, functions
from ._follow import Follower

#: the kinds of findings here; each line begins with its kind
ENDINGS = ["master", "left"]
MASTER = 4


class Bit(NamedTuple):
    """Bits of a 2-byte register that must be 0 at the end, and what it means if they aren't."""

    register: str
    offset: int
    mask: int
    words: str


OF_ENDPOINTS = [Bit("Command", 0x04, 0x0400, "Interrupt Disable is set")]
OF_BRIDGES = [
    Bit("Bridge Control", 0x3E, 0x0040, "Secondary Bus Reset is set"), Bit("Bridge Control", 0x3E, 0x0008, "VGA Enable is set")]
#: by Capability ID; the offset is relative to the structure
OF_CAPABILITIES: Dict[int, Bit] = {
    0x01: Bit("Power Management Control/Status", 4, 0x0003, "the function isn't in D0"),
    0x05: Bit("Message Control", 2, 0x0001, "MSI is enabled"),
    0x11: Bit("Message Control", 2, 0x8000, "MSI-X is enabled"),
}


def bits_of(one: Function) -> Iterator[Bit]:
    """The bits that a function has, except those that are set at reset."""
    yield from OF_BRIDGES if one.is_bridge else OF_ENDPOINTS
    for table in one.table.get("capability", []):
        bit = OF_CAPABILITIES.get(table["id"])
        if bit:
            reset = int.from_bytes(bytes.fromhex(table.get("reset", ""))[bit.offset - 2 : bit.offset], "little")
            yield bit._replace(offset=table["off"] + bit.offset, mask=bit.mask & ~reset)


def reached(follower: Follower, every: List[Function]) -> Iterator[Tuple[Function, str]]:
    """Each function that can be reached with the bus numbers of the bridges, with its own number."""
    buses: Dict[Path, int] = {(): 0}
    for one in every:
        if one.path[:-1] not in buses:
            continue
        device, function = one.path[-1]
        number = f"{buses[one.path[:-1]]:02x}:{device:02x}.{function}"
        if follower.reached(number) == one.at:
            if one.is_bridge:
                buses[one.path] = follower.read(number, 0x18) >> 8 & 0xFF
            yield one, number


def endings(follower: Follower, document: Document) -> List[str]:
    """All findings in the registers as they are now. The board isn't changed."""
    every, found = functions(document), []
    masters = {one.path[:length] for one in every if not one.is_bridge for length in range(1, len(one.path))}
    for one, number in reached(follower, every):
        command = follower.read(number, 0x04) & 0xFFFF
        if one.path in masters and not command & MASTER:
            found.append(f"master: {one.at}: Bus Master is clear (Command at 0x4: {command:#06x}), so the bridge forwards no DMA")
        for bit in bits_of(one):
            value = follower.read(number, bit.offset & ~3) >> 8 * (bit.offset & 3) & 0xFFFF
            if value & bit.mask:
                found.append(f"left: {one.at}: {bit.words} ({bit.register} at {bit.offset:#x}: {value:#06x})")
    return found

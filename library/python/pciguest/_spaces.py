"""Address spaces, whose accesses are written as [address:width]."""

from __future__ import annotations

from typing import Callable, Generic, List, Tuple, TypeVar

from ._calls import CONFIG, IO, MEMORY
from ._library import number
from ._refusal import Refusal

# the offset of each bus cycle of one access, and its width
Cycles = List[Tuple[int, int]]
# the last address of each space that an access of several pieces may reach
LAST = {CONFIG: 0xFF, IO: 0xFFFFFFFF, MEMORY: (1 << 64) - 1}


def number_of_space(name: str) -> int:
    """The number of a space with this name."""
    spaces = {"config": CONFIG, "io": IO, "memory": MEMORY}
    if name not in spaces:
        raise ValueError(f"space: {name!r} isn't 'config', 'io' or 'memory'")
    return spaces[name]


def place_and_width(key: slice) -> Tuple[int, int]:
    """The address and the width between the brackets of an access."""
    if not isinstance(key, slice) or key.start is None or key.stop is None or key.step is not None:
        raise TypeError("an access is written [place:width], as [0x10:4]")
    return number("place", key.start, 64), number("width", key.stop, 32)


def cycles(place: int, width: int, last: int) -> Cycles:
    """The bus cycles into which an access of 1 to 8 bytes is split, as a bridge does: the offset at which each
    begins, and its width. The width is the largest of 4, 2 or 1 bytes for which the cycle is aligned."""
    if not 1 <= width <= 8:
        raise Refusal(302)
    if place > last or width - 1 > last - place:
        raise Refusal(303)
    split, done = [], 0
    while done < width:
        size = next(size for size in (4, 2, 1) if (place + done) % size == 0 and width - done >= size)
        split.append((done, size))
        done += size
    return split


class ReadableSpace:
    """A space that can be read: the configuration space of a function by byte offset, I/O space by port, or
    memory by address.

    `space[address:width]` reads 1, 2 or 4 bytes. 302: the width isn't 1, 2 or 4. 301: the address isn't a
    multiple of the width. 303: a slot, an offset or a port is out of range. `space.wide[address:width]` reads 1
    to 8 bytes at any address, as a processor does.
    """

    def __init__(self, space: int, read: Callable[[int, int], int]) -> None:
        self._space = space
        self._read = read

    def __getitem__(self, key: slice) -> int:
        place, width = place_and_width(key)
        return self._reads(place, [(0, width)])

    def _reads(self, place: int, cycles: Cycles) -> int:
        """The values that the bus cycles of an access read."""
        return sum(self._read(place + done, size) << 8 * done for done, size in cycles)

    @property
    def wide(self) -> ReadableWide:
        """The same space, for processor accesses of 1 to 8 bytes at any address."""
        return ReadableWide(self)


class Space(ReadableSpace):
    """A space that can also be written: `space[address:width] = value` writes the low bytes of a 32-bit value.
    Refused as a read is."""

    def __init__(self, space: int, read: Callable[[int, int], int], write: Callable[[int, int, int], None]) -> None:
        super().__init__(space, read)
        self._write = write

    def __setitem__(self, key: slice, value: int) -> None:
        place, width = place_and_width(key)
        self._writes(place, [(0, width)], number("value", value, 32))

    def _writes(self, place: int, cycles: Cycles, value: int) -> None:
        """Makes the bus cycles of a write."""
        for done, size in cycles:
            self._write(place + done, size, value >> 8 * done & (1 << 8 * min(size, 4)) - 1)

    @property
    def wide(self) -> Wide:
        """The same space, for processor accesses of 1 to 8 bytes at any address."""
        return Wide(self)


class ReadableWide:
    """Reads 1 to 8 bytes at any address, as a processor does: `memory.wide[0x80000006:8]`. The access is split
    as a bridge does it, into aligned accesses in ascending order of addresses. The byte at the lowest
    address is the lowest byte of the value. 302: the width isn't 1 to 8. 303: the access ends past the end
    of its space, or the slot is out of range."""

    def __init__(self, space: ReadableSpace) -> None:
        self._of = space

    def __getitem__(self, key: slice) -> int:
        place, width = place_and_width(key)
        return self._of._reads(place, cycles(place, width, LAST[self._of._space]))


class Wide(ReadableWide):
    """Also writes in this way: the low bytes of a 64-bit value, as many as the width says."""

    _of: Space

    def __setitem__(self, key: slice, value: int) -> None:
        place, width = place_and_width(key)
        bits = number("value", value, 64)
        self._of._writes(place, cycles(place, width, LAST[self._of._space]), bits)


AnySpace = TypeVar("AnySpace", bound=ReadableSpace)


class Functions(Generic[AnySpace]):
    """Configuration space by BDF: functions[bus, device, function]."""

    def __init__(self, space: Callable[[int, int, int], AnySpace]) -> None:
        self._space = space

    def __getitem__(self, key: Tuple[int, int, int]) -> AnySpace:
        if not isinstance(key, tuple) or len(key) != 3:
            raise TypeError("a function is written [bus, device, function]")
        bus, device, function = key
        return self._space(number("bus", bus, 8), number("device", device, 8), number("function", function, 8))

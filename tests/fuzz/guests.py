"""Guests as lone register files, by a second hand."""
from board import masks
from keys import NUMBERS, PLACES, bits

ONES = {1: 0xFF, 2: 0xFFFF, 4: 0xFFFFFFFF}
OWN_COPIES = set(range(0x04, 0x06)) | {0x0E} | set(range(0x10, 0x28))


class Refusal(Exception):
    """The number of a refused line."""


class Cell:
    """One byte: its value, what it is at reset, the bits that a write sets and those that a one clears."""

    def __init__(self, value, writable=0, clearing=0):
        self.value = self.reset = value
        self.writable, self.clearing = writable, clearing

    def write(self, byte):
        kept = self.value & ~self.writable & ~(self.clearing & byte)
        self.value = kept | byte & self.writable

    def rise(self, mask):
        self.value |= mask & self.clearing


def put(cells, at, width, value, writable=0, clearing=0):
    """Cells of a number."""
    for n in range(width):
        cells[at + n] = Cell(value >> 8 * n & 0xFF, writable >> 8 * n & 0xFF, clearing >> 8 * n & 0xFF)


def block_cells(cells, at, count, patterns):
    """Cells of a block, each pattern repeated."""
    for n in range(count):
        cells[at + n] = Cell(*masks(patterns, n))


def endpoint_cells(endpoint):
    """The configuration cells of an endpoint as a guest sees it."""
    values, cells = endpoint.values, {}
    for key in NUMBERS:
        put(cells, *PLACES[key], values.get(key, 0))
    put(cells, 0x04, 2, 0, bits("writable", 0, 0x04))
    put(cells, 0x06, 2, values.get("status", 0), 0, bits("clears", 0, 0x06))
    put(cells, 0x0C, 2, 0, 0xFFFF)
    for bar in endpoint.bars:
        put(cells, bar.offset, bar.width, bar.type_bits, (1 << 8 * bar.width) - bar.size)
    put(cells, 0x3C, 1, 0, 0xFF)
    for off, count, patterns in endpoint.config:
        block_cells(cells, off, count, patterns)
    return cells


def number_at(cells, at, width):
    return sum((cells[at + n].value if at + n in cells else 0) << 8 * n for n in range(width))


def write_at(cells, at, width, value):
    for n in range(width):
        if at + n in cells:
            cells[at + n].write(value >> 8 * n & 0xFF)


class Function:
    """An endpoint's registers and the blocks of its regions."""

    def __init__(self, endpoint):
        self.endpoint = endpoint
        self.config = endpoint_cells(endpoint)
        self.blocks = {bar.index: {} for bar in endpoint.bars}
        for bar in endpoint.bars:
            block_cells(self.blocks[bar.index], 0, bar.block, bar.patterns)
        self.decoding = None

    def restart(self):
        self.decoding = None
        for cells in [self.config, *self.blocks.values()]:
            for cell in cells.values():
                cell.value = cell.reset

    def write(self, off, width, value):
        """A configuration write."""
        if off < 0x28:
            self.decoding = None
        write_at(self.config, off, width, value)

    def decoders(self):
        """The regions that decode as Command and bases are now: space, base, end and cells."""
        command = number_at(self.config, 4, 1)
        for bar in self.endpoint.bars:
            if command & (1 if bar.space == "I/O" else 2):
                base = bar.base(number_at(self.config, bar.offset, bar.width))
                yield bar.space, base, base + bar.size, self.blocks[bar.index]

    def decoded(self, space, addr):
        """The region that decodes an address, and the offset in it."""
        if self.decoding is None:
            self.decoding = list(self.decoders())
        for own, base, end, cells in self.decoding:
            if own == space and base <= addr < end:
                return cells, addr - base
        return None


class Guest:
    """A guest with its slots and its address latch."""

    def __init__(self, name, functions):
        self.name = name
        self.slots = functions + [None] * (32 - len(functions))
        self.latch = 0

    def decoded(self, space, addr):
        for function in filter(None, self.slots):
            found = function.decoded(space, addr)
            if found:
                return found
        return None

    def config(self, slot, off, width, value=None):
        """A configuration access; a write where a value is given."""
        function = self.slots[slot]
        if function is None:
            return ONES[width]
        if value is None:
            return number_at(function.config, off, width)
        return function.write(off, width, value)

    def access(self, space, addr, width, value=None):
        """An I/O or memory access."""
        found = self.decoded(space, addr)
        if found is None:
            return ONES[width]
        return number_at(*found, width) if value is None else write_at(*found, width, value)

    def port(self, port, width, value=None):
        """An access to a port, the latch and its data among them."""
        if port == 0xCF8 and width == 4:
            if value is None:
                return self.latch
            self.latch = value & 0x80FFFFFC
            return None
        if 0xCFC <= port <= 0xCFF and self.latch >> 31:
            if self.latch >> 16 & 0xFF or self.latch >> 8 & 7:
                return ONES[width]
            return self.config(self.latch >> 11 & 31, (self.latch & 0xFC) + (port & 3), width, value)
        return self.access("I/O", port, width, value)

    def rise(self, slot, place, off, mask):
        """A raise of bits by a device."""
        if slot > 31:
            raise Refusal(303)
        function = self.slots[slot]
        if function is None:
            raise Refusal(601)
        if place == "cfg":
            cells, size = function.config, 256
        else:
            sizes = {bar.index: bar.size for bar in function.endpoint.bars}
            cells, size = function.blocks.get(int(place[3:])), sizes.get(int(place[3:]), 0)
        if off >= size:
            raise Refusal(303)
        if off in cells:
            cells[off].rise(mask)

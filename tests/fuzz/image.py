"""Images of guests as docs/image-format.md has them, by a second hand: written, judged and read, over the second hand's
own guests."""
from functools import lru_cache

from board import Endpoint
from guests import endpoint_cells
from keys import WIDTHS
from lone import KINDS

MAGIC, VERSION, LATCH = 0x47494350, 1, 0x80FFFFFC
IMAGE, OTHERS, OTHER_VERSION = 905, 906, 908
# where the header has cells, and the header type, which a guest reads as 0
HEADER = sorted({0x0E, *endpoint_cells(Endpoint((), {}, [], []))})
STATUS = (0x06, 0x07)


def le(value, count):
    return value.to_bytes(count, "little")


def declared(cells):
    """The cells of a block, as their declaration has them."""
    return b"".join(bytes([cell.reset, cell.writable, cell.clearing]) for _, cell in sorted(cells.items()))


@lru_cache(maxsize=128)
def declaration(function):
    """The bytes of what a function declares."""
    endpoint = function.endpoint
    numbers = {key: endpoint.values.get(key, 0) for key in WIDTHS}
    numbers["pin"] |= 0 if endpoint.table.get("multifunction", True) else 0x80
    told = b"".join(le(numbers[key], count) for key, count in WIDTHS.items())
    told += le(len(endpoint.bars), 1)
    for bar in sorted(endpoint.bars, key=lambda bar: bar.index):
        told += le(bar.index, 1) + le(KINDS.index(bar.kind), 1) + le(bar.size, 8) + le(bar.block, 2)
        told += declared(function.blocks[bar.index])
    told += le(len(endpoint.config), 1)
    for off, count, _ in endpoint.config:
        told += le(off, 1) + le(count, 1)
        told += declared({at: function.config[at] for at in range(off, off + count)})
    return told


@lru_cache(maxsize=128)
def held(function):
    """The cells whose values stand in an image, in this order, each with whether its device writes it; None stands for a
    byte that has no cell and reads 0."""
    found = [(function.config.get(off), off in STATUS) for off in HEADER]
    for off, count, _ in function.endpoint.config:
        found += [(function.config[at], True) for at in range(off, off + count)]
    for bar in sorted(function.endpoint.bars, key=lambda bar: bar.index):
        found += [(function.config[at], False) for at in range(bar.offset, bar.offset + bar.width)]
        found += [(cell, True) for _, cell in sorted(function.blocks[bar.index].items())]
    return found


def image_of(guest):
    """The bytes of a guest's image."""
    told = le(MAGIC, 4) + le(VERSION, 4) + le(guest.latch, 4)
    for function in guest.slots:
        if function is None:
            told += b"\0"
            continue
        told += b"\1" + declaration(function)
        told += bytes(0 if cell is None else cell.value for cell, _ in held(function))
    return told


class Part:
    """Bytes of an image that stand one after the other: the number by which others are refused, the bits that have to be as
    they are here, and the slot that they are of."""

    def __init__(self, number, wanted, fixed=None, slot=None):
        self.number, self.size, self.slot = number, len(wanted), slot
        fixed = b"\xff" * len(wanted) if fixed is None else fixed
        self.fixed = int.from_bytes(fixed, "little")
        self.wanted = int.from_bytes(wanted, "little") & self.fixed

    def differing(self, image):
        """The bits of these bytes that are others than here."""
        low = (1 << 8 * min(len(image), self.size)) - 1
        return (int.from_bytes(image, "little") & self.fixed ^ self.wanted) & low

    def refuses(self, image):
        """The number by which these bytes are refused, or 0."""
        if self.differing(image):
            return self.number
        return IMAGE if len(image) < self.size else 0


@lru_cache(maxsize=128)
def values_of(function):
    """The values of a function: a device may write any byte of its own, and elsewhere the bits that no access changes are
    those at reset."""
    def fixed(cell, is_device):
        return 0 if is_device else 0xFF if cell is None else 0xFF & ~(cell.writable | cell.clearing)
    wanted = bytes(0 if cell is None else cell.reset for cell, _ in held(function))
    return Part(IMAGE, wanted, bytes(fixed(*each) for each in held(function)))


def parts(guest):
    """The parts of an image of this guest."""
    yield Part(IMAGE, le(MAGIC, 4))
    yield Part(OTHER_VERSION, le(VERSION, 4))
    yield Part(IMAGE, bytes(4), le(~LATCH & 0xFFFFFFFF, 4))
    for slot, function in enumerate(guest.slots):
        if function is None:
            yield Part(OTHERS, b"\0", slot=slot)
        else:
            yield Part(OTHERS, b"\1" + declaration(function), slot=slot)
            yield values_of(function)


def fault(guest, image):
    """The number by which a guest refuses bytes, or 0. The first byte that fails decides, and else their number."""
    at = 0
    for part in parts(guest):
        number = part.refuses(image[at:at + part.size])
        if number:
            return number
        at += part.size
    return 0 if at == len(image) else IMAGE


def stop(guest, image):
    """Where bytes stop fitting that a guest refuses as those of another guest or version: the slot, or None before the slots,
    and the offset. None of other bytes."""
    if fault(guest, image) not in (OTHERS, OTHER_VERSION):
        return None
    at = 0
    for part in parts(guest):
        bits = part.differing(image[at:at + part.size])
        if bits:
            return part.slot, at + ((bits & -bits).bit_length() - 1) // 8
        at += part.size


def load(guest, image):
    """Loads bytes that are not refused."""
    guest.latch, at = int.from_bytes(image[8:12], "little"), 12
    for function in guest.slots:
        at += 1
        if function is None:
            continue
        at += len(declaration(function))
        function.decoding = None
        for cell, _ in held(function):
            if cell is not None:
                cell.value = image[at]
            at += 1

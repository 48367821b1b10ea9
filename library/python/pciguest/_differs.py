"""The first difference between a function and what a device declares, found in the image of the guest that has
the function."""

from __future__ import annotations

from typing import TYPE_CHECKING, Dict, Iterator, List, NamedTuple, Optional, Tuple, Type

from ._declared import KINDS, PATTERNS, Register
from ._names import DECLARED, HEADER

if TYPE_CHECKING:
    from ._devices import Device

# the fields that a device declares, by their keys in a board file
IDENTITY = {"vendor": "vendor_id", "device": "device_id", "revision": "revision_id", "class": "class_code",
            "subvendor": "subsystem_vendor_id", "subsystem": "subsystem_id", "pin": "interrupt_pin"}
# of a register byte: its reset value, its writable bits, and its write-1-to-clear bits
Cell = Tuple[int, int, int]


class Difference(NamedTuple):
    """A field in which a function differs from what a device declares."""

    field: str
    declared: str
    found: str


class DeclaredOtherwise(ValueError):
    """A function isn't as a device declares it. `field` is the first field that differs, `declared` is its
    value in the device, and `found` is its value in the function."""

    def __init__(self, path: str, difference: Difference) -> None:
        self.field, self.declared, self.found = difference
        super().__init__(f"{path}: {self.field}: the device declares {self.declared}, and the function has {self.found}")


class Found(NamedTuple):
    """The declaration of a function."""

    identity: Dict[str, int]
    #: by base address register
    bars: Dict[int, Tuple[str, int]]
    #: by region, or None for configuration space, and by offset
    cells: Dict[Tuple[Optional[int], int], Cell]

    def capabilities(self) -> List[Tuple[int, int]]:
        """The Capability IDs and offsets of the declared list."""
        found: List[Tuple[int, int]] = []
        at = self.cells.get((None, 0x34), (0, 0, 0))[0]
        while at >= 0x40 and len(found) < 48:
            found.append((self.cells.get((None, at), (0, 0, 0))[0], at))
            at = self.cells.get((None, at + 1), (0, 0, 0))[0]
        return found


def first_difference(cls: Type[Device], image: bytes, slot: int) -> Optional[Difference]:
    """Returns the first field in which the function in a slot differs, according to its guest's image."""
    found = _Bytes(image).function(slot)
    return next((each for each in _fields(cls, found) if each.declared != each.found), None)


def _fields(cls: Type[Device], found: Found) -> Iterator[Difference]:
    for name, value in found.identity.items():
        yield Difference(name, f"{getattr(cls, name):#x}", f"{value:#x}")
    for bar in range(6):
        yield Difference(f"bars[{bar}]", _bar(cls.bars.get(bar)), _bar(found.bars.get(bar)))
    if cls._structures:
        declared = [(each.structure.id, each.offset) for each in cls._structures]
        yield Difference("capabilities", _list(declared), _list(found.capabilities()))
    for register in cls.registers:
        yield from _patterns(register, found)


def _list(structures: List[Tuple[int, int]]) -> str:
    return ", ".join(f"{id:02X}h at {offset:02X}h" for id, offset in structures) or "none"


def _bar(bar: Optional[Tuple[str, int]]) -> str:
    return "none" if bar is None else f"{bar[0]} of {bar[1]:#x} bytes"


def _patterns(register: Register, found: Found) -> Iterator[Difference]:
    """The fields of a register: how many of its bytes are declared, and its patterns."""
    places = range(register.offset, register.offset + register.width)
    cells = [found.cells[register.bar, place] for place in places if (register.bar, place) in found.cells]
    yield Difference(f"{register.name}.width", f"{register.width} bytes", f"{len(cells)} bytes")
    for at, name in enumerate(PATTERNS):
        bits = int.from_bytes(bytes(cell[at] for cell in cells), "little")
        yield Difference(f"{register.name}.{name}", f"{getattr(register, name):#x}", f"{bits:#x}")


class _Bytes:
    """An image, which is read from front to back (docs/image-format.md)."""

    def __init__(self, image: bytes) -> None:
        self.image, self.at = image, 0

    def function(self, slot: int) -> Found:
        self.number(12)  # the format, its version, CONFIG_ADDRESS
        for _ in range(slot):
            if self.number(1):
                _, values = self.declared()
                self.at += values
        self.number(1)
        return self.declared()[0]

    def number(self, width: int) -> int:
        self.at += width
        return int.from_bytes(self.image[self.at - width : self.at], "little")

    def cells(self, count: int) -> List[Cell]:
        return [(self.number(1), self.number(1), self.number(1)) for _ in range(count)]

    def declared(self) -> Tuple[Found, int]:
        """The declaration of a function, and how many bytes of values follow it."""
        numbers = {key: self.number(width) for key, (_, width) in DECLARED.items()}
        numbers["pin"] &= 0x7F  # bit 7 says whether bit 7 of Header Type is clear
        found = Found({name: numbers[key] for key, name in IDENTITY.items()}, {}, {})
        values = len(HEADER)
        for _ in range(self.number(1)):
            bar, kind = self.number(1), list(KINDS)[self.number(1)]
            found.bars[bar] = kind, self.number(8)
            cells = self.cells(self.number(2))
            found.cells.update({(bar, at): cell for at, cell in enumerate(cells)})
            values += len(cells) + (8 if KINDS[kind][2] else 4)
        for _ in range(self.number(1)):
            first = self.number(1)
            cells = self.cells(self.number(1))
            found.cells.update({(None, first + at): cell for at, cell in enumerate(cells)})
            values += len(cells)
        return found, values

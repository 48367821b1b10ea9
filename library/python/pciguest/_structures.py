"""The capability lists that classes of devices declare."""

from __future__ import annotations

from typing import TYPE_CHECKING, Dict, Iterator, List, Optional, Tuple, Type

from ._declared import FIRST, LAST, Register, block
from ._library import number

if TYPE_CHECKING:
    from ._devices import Device


class Structure:
    """A structure of a device's capability list (PCI Local Bus 3.0, 6.7): its Capability ID, the number of its bytes with the
    two of its header, and its registers by name, at offsets from its beginning. A class of devices has them in
    `capabilities`, in the order of the list. Each is put at a free place from 40h on, unless `at` says where. A register
    `control` of a structure that is named `msix` is `msix_control` in the class and in each of its devices.

    >>> class Card(Device):
    ...     vendor_id, device_id, class_code = 0x1234, 0x0002, 0xFF0000
    ...     bars = {1: ("mem32", 0x1000)}
    ...     vectors = Register(0, 16, bar=1, reset=1 << 96, rw=0x1FFFFFFFFFFFFFFFFFFFFFFFC)
    ...     capabilities = [Msix(vectors=1, table=(1, 0), pending=(1, 0x800)), Power()]
    >>> Card.msix_control.offset, Card.power_control.offset
    (66, 80)
    >>> board = "host = { io = [0x1000, 0xffff], mem = [0xc0000000, 0xdfffffff] }\\n" + Card.endpoint("1.0")
    >>> with Machine(board + '[[guest]]\\nname = "a"\\nslots = ["1.0"]\\n') as machine:
    ...     a = machine.guest("a")
    ...     machine.attach(a, 0, card := Card())
    ...     a.config[0][0x42:2] = 0x8000  # MSI-X Enable
    ...     [each.id for each in a.capabilities(0)], hex(card.msix_control), card.msix_message(0).is_enabled
    ([17, 1], '0x8000', True)
    """

    def __init__(self, id: int, length: int, registers: Dict[str, Register], *, name: str, at: Optional[int] = None) -> None:
        self.id, self.length, self.name = number("id", id, 8), number("length", length, 8), name
        self.registers, self.at = registers, at
        if at is not None and (at % 4 or at < FIRST):
            raise ValueError(f"{name}: {at:#x} is no multiple of 4 from 40h on")
        if any(each.offset < 2 or each.offset + each.width > length for each in registers.values()):
            raise ValueError(f"{name} has a register outside of its {length} bytes, or in its header")


class Vendor(Structure):
    """A structure of the vendor's own (Capability ID 09h): `length` bytes, with the registers that are named, as
    `Vendor(16, name="common", bar=Register(4, 1, reset=1))`. The byte at offset 2 has the length."""

    def __init__(self, length: int, *, name: str = "vendor", at: Optional[int] = None, **registers: Register) -> None:
        super().__init__(0x09, length, {"length": Register(2, 1, bar=None, reset=length), **registers}, name=name, at=at)


class Power(Structure):
    """Power Management (Capability ID 01h) of version 1.1: its driver chooses a state by bits 0 and 1 of `power_control`, and
    clears bit 15 by writing a one."""

    def __init__(self, *, name: str = "power", at: Optional[int] = None) -> None:
        registers = {
            "capabilities": Register(2, 2, bar=None, reset=0x0002),
            "control": Register(4, 2, bar=None, rw=0x0103, w1c=0x8000),
        }
        super().__init__(0x01, 8, registers, name=name, at=at)


class Msi(Structure):
    """MSI (Capability ID 05h) with 1, 2, 4, 8, 16 or 32 vectors: with an address of 64 bits, or of 32, and with mask and
    pending bits for each vector, or without."""

    def __init__(self, vectors: int = 1, *, is_64_bit: bool = True, has_masks: bool = False, name: str = "msi",
                 at: Optional[int] = None) -> None:
        if vectors not in (1, 2, 4, 8, 16, 32):
            raise ValueError("MSI has 1, 2, 4, 8, 16 or 32 vectors")
        half, bits = 4 * is_64_bit, (1 << vectors) - 1
        control = (vectors.bit_length() - 1) << 1 | is_64_bit << 7 | has_masks << 8
        registers = {
            "control": Register(2, 2, bar=None, reset=control, rw=0x0071),
            "address": Register(4, 4 + half, bar=None, rw=(1 << 8 * (4 + half)) - 4),
            "data": Register(8 + half, 2, bar=None, rw=0xFFFF),
        }
        if has_masks:
            registers["mask"] = Register(12 + half, 4, bar=None, rw=bits)
            registers["pending"] = Register(16 + half, 4, bar=None)
        super().__init__(0x05, (20 if has_masks else 10) + half, registers, name=name, at=at)


class Msix(Structure):
    """MSI-X (Capability ID 11h) with 1 to 2048 vectors. `table` and `pending` are the base address register and the offset
    of the table and of the pending bits; the class declares their registers."""

    def __init__(self, vectors: int, table: Tuple[int, int], pending: Tuple[int, int], *, name: str = "msix",
                 at: Optional[int] = None) -> None:
        if not 1 <= vectors <= 2048 or any(bar not in range(6) or offset % 8 for bar, offset in (table, pending)):
            raise ValueError("MSI-X has 1 to 2048 vectors, with a table and pending bits at multiples of 8 of a region")
        registers = {
            "control": Register(2, 2, bar=None, reset=vectors - 1, rw=0xC000),
            "table": Register(4, 4, bar=None, reset=table[1] | table[0]),
            "pending": Register(8, 4, bar=None, reset=pending[1] | pending[0]),
        }
        super().__init__(0x11, 12, registers, name=name, at=at)


class Placed:
    """A structure at its offset in configuration space, and its registers there."""

    def __init__(self, structure: Structure, offset: int) -> None:
        self.structure, self.offset = structure, offset
        self.registers = [each.moved(offset, f"{structure.name}_{name}") for name, each in structure.registers.items()]


def placed(cls: Type[Device], own: List[Register]) -> Tuple[Placed, ...]:
    """The structures of a class, each at a place where there is no other structure and no register of the class.
    ValueError: one has no place, or two have the same name."""
    taken = [(each.offset, each.offset + each.width) for each in own if each.bar is None]

    def is_free(at: int, length: int) -> bool:
        return at + length <= LAST and all(at + length <= first or end <= at for first, end in taken)

    for each in cls.capabilities:
        if each.at is None:
            continue
        if not is_free(each.at, each.length):
            raise ValueError(f"{each.name} has no place at {each.at:#x}")
        taken.append((each.at, each.at + each.length))
    found: List[Placed] = []
    for each in cls.capabilities:
        at = each.at
        if at is None:
            at = next((at for at in range(FIRST, LAST, 4) if is_free(at, each.length)), None)
            if at is None:
                raise ValueError(f"{each.name} has no place in 40h to FFh")
            taken.append((at, at + each.length))
        if any(each.name == other.structure.name for other in found):
            raise ValueError(f"two structures are named {each.name}")
        found.append(Placed(each, at))
    return tuple(found)


def tables(structures: Tuple[Placed, ...]) -> Iterator[str]:
    """The tables of a board file that say the same."""
    for each in structures:
        length = each.structure.length - 2
        yield ", ".join([f"id = {each.structure.id:#04x}", f"off = {each.offset:#x}", *block(each.registers, each.offset + 2, length)])

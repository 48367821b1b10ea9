"""What a device's class declares, and the table of a board file with the same declaration."""

from __future__ import annotations

from typing import TYPE_CHECKING, Any, Dict, Iterator, List, Optional, Tuple, Type, Union, overload

from ._library import number

if TYPE_CHECKING:
    from ._devices import Device

#: for each kind of region: its space, whether it is prefetchable, and whether it is 64-bit
KINDS: Dict[str, Tuple[str, bool, bool]] = {
    "io": ("io", False, False),
    "mem32": ("memory", False, False),
    "mem32p": ("memory", True, False),
    "mem64": ("memory", False, True),
    "mem64p": ("memory", True, True),
}

# the patterns of a block in a board file
PATTERNS = ("reset", "rw", "w1c")
# where a function's own registers of configuration space begin and end, and those of a region end
FIRST, LAST, REGION_END = 0x40, 0x100, 0x1000


class Register:
    """A register of a device: bytes at an offset in the region of a base address register or, if `bar` is None,
    in configuration space at 40h or above. `reset` is its reset value, `rw` are the bits that the driver can
    write, and `w1c` are the bits that the driver clears by writing ones."""

    def __init__(self, offset: int, width: int, *, bar: Optional[int] = 0, reset: int = 0, rw: int = 0,
                 w1c: int = 0) -> None:
        self.name = ""
        self.bar = bar
        self.offset, self.width = number("offset", offset, 16), number("width", width, 8)
        patterns = zip(PATTERNS, (reset, rw, w1c))
        self.reset, self.rw, self.w1c = (number(name, value, 8 * width) for name, value in patterns)
        if not width or rw & w1c:
            raise ValueError("a register needs at least one byte, and no bit may be in both rw and w1c")

    def moved(self, by: int, name: str) -> Register:
        """The same register in configuration space, so many bytes further on, with a name."""
        words = {"reset": self.reset, "rw": self.rw, "w1c": self.w1c}
        moved = Register(self.offset + by, self.width, bar=None, **words)
        moved.name = name
        return moved

    def __set_name__(self, owner: Type[Device], name: str) -> None:
        self.name = name

    def __repr__(self) -> str:
        return f"<register {self.name}>"

    @overload
    def __get__(self, device: None, owner: Type[Device]) -> Register: ...

    @overload
    def __get__(self, device: Device, owner: Type[Device]) -> int: ...

    def __get__(self, device: Optional[Device], owner: Type[Device]) -> Union[Register, int]:
        return self if device is None else device._read(self)

    def __set__(self, device: Device, value: int) -> None:
        device._write(self, value)


def own_registers(cls: Type[Device]) -> List[Register]:
    """The registers that a class and its base classes declare, except those of structures."""
    named: Dict[str, Any] = {}
    for each in reversed(cls.__mro__):
        named.update(vars(each))
    structures = [each for above in cls.__mro__ for each in vars(above).get("_structures", ())]
    of_structures = {id(register) for each in structures for register in each.registers}
    return [each for each in _registers(named) if id(each) not in of_structures]


def declared(cls: Type[Device], all_registers: List[Register]) -> Tuple[Register, ...]:
    """The registers that a class and its base classes declare, sorted by part and offset. ValueError: a
    register is outside its region, or two overlap."""
    found = sorted(all_registers, key=lambda one: (-1 if one.bar is None else one.bar, one.offset))
    for one in found:
        size = 0 if one.bar is None else cls.bars.get(one.bar, ("", 0))[1]
        first, last = (FIRST, LAST) if one.bar is None else (0, min(size, REGION_END))
        if one.offset < first or one.offset + one.width > last:
            where = "40h to FFh" if one.bar is None else f"region {one.bar}"
            if REGION_END < one.offset + one.width <= size:
                where = f"the first {REGION_END:#x} bytes of {where}, and registers can only be in these"
            raise ValueError(f"{one.name} is outside {where}")
    for one, other in zip(found, found[1:]):
        if one.bar == other.bar and one.offset + one.width > other.offset:
            raise ValueError(f"{one.name} and {other.name} overlap")
    return tuple(found)


def _registers(named: Dict[str, Any]) -> List[Register]:
    return [value for value in named.values() if isinstance(value, Register)]


def endpoint(cls: Type[Device], at: str) -> str:
    """The `[[endpoint]]` table of a board file, at a path."""
    lines = [
        "[[endpoint]]",
        f'at = "{at}"',
        f"vendor = {cls.vendor_id:#06x}",
        f"device = {cls.device_id:#06x}",
        f"class = {cls.class_code:#08x}",
        f"revision = {cls.revision_id:#04x}",
        f"subvendor = {cls.subsystem_vendor_id:#06x}",
        f"subsystem = {cls.subsystem_id:#06x}",
        f"pin = {cls.interrupt_pin}",
        "bar = [",
        *(f"  {{ {_bar(cls, index)} }}," for index in sorted(cls.bars)),
        "]",
        f"config = [{', '.join(_config(cls))}]",
    ]
    return "\n".join(lines) + "\n"


def _bar(cls: Type[Device], index: int) -> str:
    kind, size = cls.bars[index]
    here = [each for each in cls.registers if each.bar == index]
    return ", ".join([f'index = {index}, kind = "{kind}", size = {size:#x}', *block(here, 0)])


def _config(cls: Type[Device]) -> Iterator[str]:
    """The blocks of configuration space: one for all registers, or more where structures of the list are between them."""
    runs: List[List[Register]] = []
    own = (each for each in own_registers(cls) if each.bar is None)
    for each in sorted(own, key=lambda one: one.offset):
        last = runs[-1][-1].offset if runs else 0
        is_cut = any(last < structure.offset < each.offset for structure in cls._structures)
        if runs and not is_cut:
            runs[-1].append(each)
        else:
            runs.append([each])
    for run in runs:
        yield f" {{ {', '.join([f'off = {run[0].offset:#x}', *block(run, run[0].offset)])} }} "


def block(registers: List[Register], first: int, length: int = 0) -> Iterator[str]:
    """The length of a block from an offset on, which is at least `length`, and its patterns that aren't all zeros."""
    length = max([length, *(each.offset + each.width - first for each in registers)])
    if not length:
        return
    yield f"block = {length}"
    for name in PATTERNS:
        cells = bytearray(length)
        for each in registers:
            at = each.offset - first
            cells[at : at + each.width] = getattr(each, name).to_bytes(each.width, "little")
        if any(cells):
            yield f'{name} = "{_period(bytes(cells)).hex()}"'


def _period(cells: bytes) -> bytes:
    """The shortest prefix that, repeated, yields the bytes."""
    return next(
        cells[:length]
        for length in range(1, len(cells) + 1)
        if (cells[:length] * (len(cells) // length + 1))[: len(cells)] == cells
    )

"""Random lines for a board: scripts of its guests, and firmware lines. Like boards, they are drawn from
choices. Addresses and values are often those at which something begins or ends, so that accesses reach
something."""

from __future__ import annotations

from typing import Callable, List, Optional, Sequence, Tuple, cast

from ._board_file import Document, Function, Region, apertures, bridges_above, functions
from ._drawing import Choices

VALUES = [0, 1, 2, 3, 7, 0x80, 0xFF, 0x547, 0xFFFF, 0xF900F900, 0x80000000, 0xFFFFFFFF]
REGISTERS = [*range(0, 0x40, 4)]
PLAIN = [0x0C, 0x0D, 0x3C]  # Cache Line Size, Latency Timer, Interrupt Line: each bit can be written
INNER = [0, 1, 2, 4, 0xC, 0x3C, 0x40, 0xFC, 0x1000]
BASES = [0x80000000, 0xC0000000, 0x1000, 0, 0x100, 0xCF8, 0xFFFFFFF0, 0xFFFFF000, 0x10000]
#: lines that are refused or have no reply, with a guest's name or `host` as their first word
ODD = ["", "# cr 0 0 4", "cr", "cr 0 0", "cr 0 0 4 5", "cr +0 0 4", "mr 0x10000000000000000 4", "ir 0x100000000 4",
       "cw 0 4 2 0x100000000", "raise 0 cfg 7 0x100", "raise 0 bar6 0 1", "cr 0:1.0 0 4", "cr 00:20.0 0 4",
       "cr 00:1f.8 0 4", "mw 0 4", "move a 0 nobody 0", f"cr 0 0 {4:0200}"]


class Lines:
    """What both kinds of lines draw."""

    def __init__(self, choices: Choices, document: Document) -> None:
        self.choices, self.document, self.functions = choices, document, functions(document)
        self.name = "host"  # who makes the access of a line
        self.recent = {True: [0x1000], False: [0x80000000]}  # bases that were written, of ports and of memory
        self.written: List[Tuple[str, str, str]] = []  # who wrote configuration space, in which function, offset and width

    def percent(self, chance: int) -> bool:
        return self.choices.number(0, 99) >= 100 - chance

    def pick(self, *weighed: object) -> Callable[[], str]:
        """One of some functions, each with its weight."""
        pairs = zip(weighed[::2], weighed[1::2])
        calls = [cast(Callable[[], str], call) for call, weight in pairs for _ in range(cast(int, weight))]
        return self.choices.one_of(calls)

    def width(self) -> int:
        return self.choices.one_of([4, 4, 4, 4, 2, 1, 2, 1]) if not self.percent(2) else self.choices.one_of([0, 3, 8])

    def offset(self, width: int) -> int:
        """An offset, mostly of a register, and mostly a multiple of the width."""
        some = [self.choices.one_of(REGISTERS) + self.choices.number(0, 3), self.choices.number(0, 0x107)]
        return self.aligned(self.choices.one_of([some[0], some[0], some[1]]), width)

    def aligned(self, place: int, width: int) -> int:
        return place - place % width if width and not self.percent(3) else place

    def value(self) -> int:
        return self.choices.one_of([self.choices.one_of(VALUES), self.choices.number(0, 0xFFFFFFFF)])

    def base(self, is_io: bool) -> int:
        """A value for a base address register: an address at which something begins, or the base of another region."""
        starts = (first for first, _ in apertures(self.document).values())
        known = [*BASES, *self.recent[is_io], *starts]
        base: int = self.choices.one_of(known) + self.choices.one_of([0, 0, 0x1000, 0x100000, 0x20])
        self.recent[is_io] = [*self.recent[is_io][-5:], base]
        return base

    def place(self, is_io: bool, width: int) -> int:
        """A port or an address, mostly near a base that was written recently."""
        near = self.choices.one_of(self.recent[is_io]) + self.choices.one_of(INNER)
        place = near if self.percent(85) else self.choices.one_of(BASES) + self.choices.one_of(INNER)
        return self.aligned(max(0, place - 4) if self.percent(5) else place, width)

    def config_access(self, where: str) -> str:
        """A read or write of configuration space, in a slot or at a BDF; often a read of something that was
        written before."""
        if self.written and self.percent(45):
            return self.read_back()
        width = self.width()
        if self.percent(50):
            offset = self.choices.one_of([self.offset(width), self.aligned(self.choices.one_of(PLAIN), width)])
            return self.write(where, f"{offset:#x} {width}", self.value())
        return f"{self.name} cr {where} {self.offset(width):#x} {width}"

    def write(self, where: str, place: str, value: int) -> str:
        """A write of configuration space, which is remembered."""
        self.written = [*self.written[-7:], (self.name, where, place)]
        return f"{self.name} cw {where} {place} {value:#x}"

    def read_back(self) -> str:
        """A read of something that was written recently: the same bytes, or the register that contains them."""
        name, where, place = self.choices.one_of(self.written)
        offset = int(place.split()[0], 0) // 4 * 4
        return f"{name} cr {where} {self.choices.one_of([place, place, f'{offset:#x} 4'])}"

    def access(self, is_io: bool) -> str:
        """A read or write of a port or of memory."""
        width, letter = self.width(), "i" if is_io else "m"
        place = self.place(is_io, width)
        if self.percent(55):
            return f"{self.name} {letter}r {place:#x} {width}"
        return f"{self.name} {letter}w {place:#x} {width} {self.value():#x}"

    def memory(self) -> str:
        return self.access(is_io=False)

    def ports(self) -> str:
        return self.access(is_io=True)

    def latch(self, places: Sequence[int]) -> str:
        """A read of CONFIG_ADDRESS; or a write of it and, in a second line, an access to what it selects. A
        place is a number, from bit 8 on."""
        kind, width = self.choices.number(0, 5), self.choices.one_of([4, 2, 1])
        if kind == 0:
            return f"{self.name} ir 0xcf8 {width}"
        latch = self.choices.one_of([1, 1, 1, 1, 0]) << 31 | self.choices.one_of(places) << 8
        port = 0xCFC + self.choices.one_of(range(0, 4, width))
        access = f"{self.name} ir {port:#x} {width}" if kind < 5 else f"{self.name} iw {port:#x} {width} {self.value():#x}"
        return f"{self.name} iw 0xcf8 4 {latch | self.choices.one_of(REGISTERS):#x}\n{access}"


class ScriptLines(Lines):
    """Lines of guests and of the host for a board that is set up."""

    def __init__(self, choices: Choices, document: Document) -> None:
        super().__init__(choices, document)
        self.slots = {guest["name"]: guest["slots"] for guest in document.get("guest", [])}
        self.names, self.by_path = list(self.slots), {one.at: one for one in self.functions}
        self.numbers = ["00:00.0", "01:00.0", "02:00.0", *(f"00:{one.path[0][0]:02x}.{one.path[0][1]}"
                                                          for one in self.functions if len(one.path) == 1)]

    def line(self) -> str:
        if not self.names:
            return self.host()
        self.name = self.choices.one_of(self.names)
        return self.pick(self.config, 25, self.write_base, 14, self.write_command, 10, self.memory, 18, self.ports, 8,
                         self.use_latch, 12, self.rise, 6, self.host, 4, self.move, 2, self.odd, 1)()

    def slot(self) -> int:
        """A slot, mostly one with a function."""
        filled = list(range(len(self.slots[self.name])))
        return self.choices.one_of(filled * 8 + [len(filled), 1, 31, 32])

    def region(self, slot: int) -> Optional[Region]:
        """A region of the function that the board file assigns to a slot."""
        slots = self.slots[self.name]
        regions = self.by_path[slots[slot]].regions() if slot < len(slots) else []
        return self.choices.one_of(regions) if regions else None

    def config(self) -> str:
        return self.config_access(f"{self.slot()}")

    def write_base(self) -> str:
        slot = self.slot()
        region = self.region(slot)
        base = self.base(region is not None and region.is_io) & 0xFFFFFFFF
        offset = 0x10 + 4 * (region.index if region else self.choices.number(0, 5))
        offset += 4 * (region is not None and region.is_64_bit and self.percent(10))
        value = self.choices.one_of([base, base, base, 0xFFFFFFFF])
        return self.write(f"{slot}", f"{offset:#x} 4", value)

    def write_command(self) -> str:
        place = f"4 {self.choices.one_of([2, 1, 4])}"
        return self.write(f"{self.slot()}", place, self.choices.one_of([3, 3, 2, 1, 0, 7]))

    def use_latch(self) -> str:
        return self.latch([self.slot() % 32 << 3, self.slot() % 32 << 3, self.slot() % 32 << 3 | 1, 0x100])

    def rise(self) -> str:
        slot = self.slot()
        region = self.region(slot)
        part = self.choices.one_of(["cfg", f"bar{region.index if region else self.choices.number(0, 5)}"])
        offset = self.choices.one_of([7, 6, 0x40, 0xFF, 0x100, *INNER])
        return f"{self.name} raise {slot} {part} {offset:#x} {self.choices.one_of([0xFF, 0x80, 1, 0x55]):#x}"

    def move(self) -> str:
        return f"host move {self.name} {self.slot()} {self.choices.one_of(self.names)} {self.slot()}"

    def host(self) -> str:
        width, kind = self.width(), self.choices.number(0, 2)
        if kind == 0:
            return f"host cr {self.choices.one_of(self.numbers)} {self.offset(width):#x} {width}"
        return f"host {'i' if kind == 1 else 'm'}r {self.place(kind == 1, width):#x} {width}"

    def odd(self) -> str:
        name = self.choices.one_of([*self.names, "host", "nobody"])
        return f"{name} {self.choices.one_of(ODD)}"


class FirmwareLines(Lines):
    """Firmware lines for a board in its reset state. They number the buses in path order, and then write
    anything."""

    def __init__(self, choices: Choices, document: Document) -> None:
        super().__init__(choices, document)
        above, self.bus = bridges_above(self.functions), {"": 0}
        bridges = [one for one in self.functions if one.is_bridge]
        for bridge in bridges:
            self.bus[bridge.at] = len(self.bus)
        self.above = {one.at: above[one.at][-1].at if above[one.at] else "" for one in self.functions}

    def number(self, function: Function) -> str:
        device, part = function.path[-1]
        return f"{self.bus[self.above[function.at]]:02x}:{device:02x}.{part}"

    def numbering(self) -> List[str]:
        """The lines that assign each bridge its bus numbers."""
        found = []
        for bridge in (one for one in self.functions if one.is_bridge):
            last = max(number for at, number in self.bus.items() if f"{at}/".startswith(f"{bridge.at}/"))
            numbers = last << 16 | self.bus[bridge.at] << 8 | self.bus[self.above[bridge.at]]
            found.append(f"host cw {self.number(bridge)} 0x18 4 {numbers:#x}")
        return found

    def line(self) -> str:
        if not self.functions:
            return self.latch([0, 8])
        self.function = self.choices.one_of(self.functions)
        return self.pick(self.config, 25, self.write_command, 12, self.write_base, 20, self.memory, 18, self.ports, 10,
                         self.use_latch, 8, self.write_numbers, 1, self.odd, 1)()

    def config(self) -> str:
        number = self.number(self.function) if self.percent(90) else self.choices.one_of(["00:1f.0", "05:00.0", "00:00.7"])
        return self.config_access(number)

    def write_command(self) -> str:
        return self.write_here("4 2", self.choices.one_of([3, 3, 3, 2, 1, 0, 0x547]))

    def write_here(self, place: str, value: int) -> str:
        """A write to the function of this line."""
        return self.write(self.number(self.function), place, value)

    def write_base(self) -> str:
        """A base address register, or the base and limit of a window, which is one or more units long."""
        if not self.function.is_bridge:
            bars = self.function.regions()
            region = self.choices.one_of(bars) if bars else None
            offset = 0x10 + 4 * (region.index if region else self.choices.number(0, 5))
            offset += 4 * (region is not None and region.is_64_bit and self.percent(15))
            base = self.choices.one_of([self.base(region is not None and region.is_io), 0xFFFFFFFF])
            return self.write_here(f"{offset:#x} 4", base & 0xFFFFFFFF)
        window = self.choices.one_of([0x20, 0x20, 0x24, 0x1C, 0x28, 0x2C, 0x30])
        base, units = self.base(window == 0x1C), self.choices.one_of([0, 1, 3, 15, -1])
        if window == 0x1C:
            limit = (base >> 8) + 0x10 * units & 0xFF
            return self.write_here("0x1c 2", base >> 8 & 0xF0 | limit << 8)
        if window > 0x24:
            return self.write_here(f"{window:#x} 4", self.choices.one_of([0, 0, 4, 0xFFFFFFFF]))
        limit = (base >> 16) + 0x10 * units & 0xFFF0
        return self.write_here(f"{window:#x} 4", base >> 16 & 0xFFF0 | limit << 16)

    def write_numbers(self) -> str:
        return self.write_here(f"{self.choices.number(0x18, 0x1A):#x} 1", self.choices.number(0, 5))

    def use_latch(self) -> str:
        number = self.number(self.function)
        place = int(number[:2], 16) << 8 | int(number[3:5], 16) << 3 | int(number[6])
        return self.latch([place, place, 0x1F << 3, 0x500])

    def odd(self) -> str:
        return f"{self.choices.one_of(['host', 'a'])} {self.choices.one_of(ODD)}"


def draw_script(choices: Choices, document: Document, most: int) -> List[str]:
    """Script lines for a board."""
    lines = ScriptLines(choices, document)
    return [line for _ in range(choices.number(0, most)) for line in lines.line().split("\n")]


def draw_firmware(choices: Choices, document: Document, most: int) -> List[str]:
    """Firmware lines for a board."""
    lines = FirmwareLines(choices, document)
    return lines.numbering() + [line for _ in range(choices.number(0, most)) for line in lines.line().split("\n")]

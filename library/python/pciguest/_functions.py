"""Descriptions of the board's functions."""

from __future__ import annotations

from typing import NamedTuple, Optional, Tuple

from ._calls import IO, BarTold, BoardFunctionTold, FunctionTold, WindowTold


class Bar(NamedTuple):
    """A region, according to its base address register on the board. It occupies `size` addresses of its space,
    "io" or "memory", starting at `first`. If it is 64-bit, the next register contains the high half of its
    address."""

    space: str
    first: int
    size: int
    prefetchable: bool
    is_64_bit: bool


class Window(NamedTuple):
    """The addresses that a bridge's window forwards, from `first` to `last`, inclusive."""

    first: int
    last: int


class Windows(NamedTuple):
    """The windows of a bridge. A window is None if the bridge doesn't have it, or if its base is above its
    limit."""

    io: Optional[Window]
    memory: Optional[Window]
    prefetchable: Optional[Window]


class Interrupt(NamedTuple):
    """The interrupt pin of a function, from 1 for INTA# to 4 for INTD#, and the device and pin on the board's bus 0 to which it
    is routed: on each bus except bus 0, the pin advances by the device number. All of these are 0 if the function has no pin.
    Interrupt Disable is in the guest's copy of Command if a guest has the function. No interrupt is delivered."""

    pin: int
    root_device: int
    root_pin: int
    is_disabled: bool


class Function(NamedTuple):
    """The current state of a function of the board. Addresses of regions, windows and the BDF come from the
    board's own registers, which no guest writes."""

    #: the path, as in board files: "2.0/1.0"
    path: str
    #: 0 on bus 0, else the Secondary Bus Number of the bridge above
    bus: int
    device: int
    function: int
    vendor_id: int
    device_id: int
    revision_id: int
    #: base class, subclass and programming interface, 24 bits
    class_code: int
    #: 0 in a bridge, like the next field
    subsystem_vendor_id: int
    subsystem_id: int
    #: by base address register, 0 to 5; None if no region begins there; all None in a bridge
    regions: Tuple[Optional[Bar], ...]
    #: None in an endpoint
    windows: Optional[Windows]
    #: the index of the guest that has it, and the slot, or None if no guest has it
    seat: Optional[Tuple[int, int]]
    #: all 0 in a `BoardFunction`, because firmware reads the pin itself
    interrupt: Interrupt

    @property
    def is_bridge(self) -> bool:
        """Whether the function is a bridge."""
        return self.windows is not None


class BoardFunction(NamedTuple):
    """A function of a `Board`, according to its current registers."""

    #: what a `Function` describes. No guest has it, and its BDF is the one at which firmware looks for it
    function: Function
    #: whether a configuration access to this BDF reaches it
    is_found: bool
    #: whether its Command enables I/O space
    opens_io: bool
    #: whether its Command enables memory space
    opens_memory: bool


def _bar(told: BarTold) -> Optional[Bar]:
    if not told.size:
        return None
    space = "io" if told.space == IO else "memory"
    return Bar(space, told.first, told.size, bool(told.prefetchable), bool(told.is_64_bit))


def _window(told: WindowTold) -> Optional[Window]:
    return Window(told.first, told.last) if told.is_there else None


def function_of(told: FunctionTold) -> Function:
    """Converts the library's description of a function."""
    return Function(
        bytes(told.path[: told.path_length]).decode("ascii"),
        told.bus, told.device, told.function,
        told.vendor_id, told.device_id, told.revision_id, told.class_code, told.subsystem_vendor_id, told.subsystem_id,
        tuple(_bar(bar) for bar in told.regions),
        Windows(*(_window(window) for window in told.windows)) if told.is_bridge else None,
        (told.guest, told.slot) if told.is_given else None,
        Interrupt(told.interrupt.pin, told.interrupt.root_device, told.interrupt.root_pin, bool(told.interrupt.is_disabled)),
    )


def board_function_of(told: BoardFunctionTold) -> BoardFunction:
    """Converts the library's description of a board's function."""
    opened = bool(told.opens_io), bool(told.opens_memory)
    return BoardFunction(function_of(told.function), bool(told.is_found), *opened)

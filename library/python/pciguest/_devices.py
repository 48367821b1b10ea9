"""Device models: the devices behind a function's registers, which act when a driver reads or writes them."""

from __future__ import annotations

from ctypes import byref, c_uint64
from typing import TYPE_CHECKING, Any, ClassVar, Dict, Iterator, Optional, Sequence, Tuple

from ._calls import PART_CONFIG
from ._declared import Register, declared, endpoint, own_registers
from ._library import number
from ._structures import Placed, Structure, placed, tables

if TYPE_CHECKING:
    from ._attached import Attaching
    from ._device_side import Message
    from ._machine import Guest


class Device:
    """A device model. A subclass declares the function's identity, regions and registers, and defines what
    happens when the driver reads or writes a register. `endpoint` generates the matching table for a board
    file, and `Machine.attach` attaches an object of the class to a function.

    A register of an object, such as `self.rings`, is the register's current value. The device can read and set
    all bits, no matter which of them the driver can change. A guest's access causes one call for each register
    that it touches, with the whole value that it writes there, even if the access takes several bus cycles.
    When the device is notified of a reset, a move or a load, its registers already have their new values; other
    attributes are for the device itself to clear. A device may access its own machine, and is then notified of
    its own accesses.

    >>> class Doorbell(Device):
    ...     vendor_id, device_id, class_code = 0x1234, 0x0001, 0xFF0000
    ...     bars = {0: ("mem32", 0x1000)}
    ...     status = Register(0x00, width=1, w1c=0x01)  # the driver clears the bit by writing a one
    ...     rings = Register(0x04, width=4)  # the driver can only read it
    ...     bell = Register(0x08, width=4, rw=0xFFFFFFFF)
    ...
    ...     def on_write(self, register, value):
    ...         if register is Doorbell.bell:
    ...             self.rings += 1
    ...             self.status = 1
    >>> board = "host = { io = [0x1000, 0xffff], mem = [0xc0000000, 0xdfffffff] }\\n" + Doorbell.endpoint("1.0")
    >>> with Machine(board + '[[guest]]\\nname = "a"\\nslots = ["1.0"]\\n') as machine:
    ...     a = machine.guest("a")
    ...     machine.attach(a, 0, Doorbell())
    ...     a.config[0][0x10:4] = 0xE0000000
    ...     a.config[0][4:2] = 2
    ...     a.memory[0xE0000008:4] = 7
    ...     a.memory[0xE0000004:4], a.memory[0xE0000000:1]
    (1, 1)
    """

    vendor_id: ClassVar[int]
    device_id: ClassVar[int]
    class_code: ClassVar[int]
    revision_id: ClassVar[int] = 0
    subsystem_vendor_id: ClassVar[int] = 0
    subsystem_id: ClassVar[int] = 0
    #: 0 is none, 1 to 4 are INTA# to INTD#
    interrupt_pin: ClassVar[int] = 0
    #: by first base address register: the kind, as in a board file, and the size in bytes
    bars: ClassVar[Dict[int, Tuple[str, int]]] = {}
    #: in the order of the list: `Msix`, `Msi`, `Power`, `Vendor`, or any other `Structure`
    capabilities: ClassVar[Sequence[Structure]] = ()
    #: sorted by part and offset, with those of the capabilities
    registers: ClassVar[Tuple[Register, ...]] = ()
    _structures: ClassVar[Tuple[Placed, ...]] = ()

    _machine: Optional[Attaching] = None
    _index: int = 0
    _seat: Optional[Tuple[int, int]] = None

    def __init_subclass__(cls, **words: Any) -> None:
        super().__init_subclass__(**words)
        own = own_registers(cls)
        cls._structures = placed(cls, own)
        within = [register for each in cls._structures for register in each.registers]
        for register in within:
            setattr(cls, register.name, register)
        cls.registers = declared(cls, own + within)

    @classmethod
    def endpoint(cls, at: str) -> str:
        """Returns the `[[endpoint]]` table of a board file for a function with this declaration, at a path: its
        identity, its regions, its capability list, and the patterns of its registers."""
        text = endpoint(cls, at)
        if cls._structures:
            text += "capability = [\n" + "".join(f"  {{ {each} }},\n" for each in tables(cls._structures)) + "]\n"
        return text

    def on_write(self, register: Register, value: int) -> None:
        """Called after the driver wrote a register. `value` is what the driver wrote, even if the register
        can't store it. For bytes that the driver didn't write, `value` contains the register's own."""

    def before_read(self, register: Register) -> None:
        """Called when the driver is about to read a register. The driver reads what the register contains after
        this call."""

    def on_command(self, old: int, new: int) -> None:
        """Its guest changed Command by a write. Bit 0 enables I/O space, bit 1 memory space, bit 2 is Bus Master, and bit 10
        Interrupt Disable. A reset, a move and a load may change Command too; they have calls of their own."""

    def on_config_write(self, offset: int, width: int, value: int) -> None:
        """Its guest wrote bytes of its configuration space, whichever registers these are. Called after `on_command`, and
        before `on_write`."""

    def on_reset(self) -> None:
        """Called after the function was reset without a move, by `Guest.reset` or `reset_guest`."""

    def on_move(self, guest: Guest, slot: int) -> None:
        """Called after the function was moved to another slot, by a call or a line. The move has reset the
        function. Calls `on_reset` unless it is overridden."""
        self.on_reset()

    def on_give(self) -> None:
        """Called after the function, which no guest had, was assigned to a guest. The function is in its reset
        state. Calls `on_reset` unless it is overridden."""
        self.on_reset()

    def on_take(self) -> None:
        """Called after the function was taken from its guest. No guest has it now."""

    def on_load(self) -> None:
        """Called after an image was loaded. The registers have the values in the image; the guest and the slot
        may have changed."""

    def save_state(self) -> bytes:
        """Returns the state that the device keeps outside its registers, to be saved along with an image. Empty
        unless it is overridden."""
        return b""

    def load_state(self, state: bytes) -> None:
        """Restores a state that `save_state` returned, after the image was loaded. ValueError: the bytes aren't
        such a state; then nothing changes."""
        if state:
            raise ValueError("the device keeps no state outside its registers")

    @property
    def seat(self) -> Optional[Tuple[int, int]]:
        """The index of the guest that has the function, and its slot, or None if no guest has it."""
        return self._seat

    @property
    def bus_master(self) -> bool:
        """Whether the device may access the memory of the guest that has its function, like
        `Guest.bus_master`."""
        guest, slot = self._taken()
        return guest.bus_master(slot)

    def msix_message(self, vector: int) -> Message:
        """Returns the message for an MSI-X vector, and whether the device may send it now, like
        `Guest.msix_message`.

        303: the MSI-X table has no such vector, or isn't in a region of the function.
        """
        guest, slot = self._taken()
        return guest.msix_message(slot, vector)

    def msi_message(self, vector: int) -> Message:
        """Returns the message for an MSI vector, and whether the device may send it now, like
        `Guest.msi_message`.

        303: the driver hasn't allocated the vector.
        """
        guest, slot = self._taken()
        return guest.msi_message(slot, vector)

    def set_interrupt(self, is_requested: bool) -> bool:
        """Sets or clears Interrupt Status, and returns whether the device asserts its interrupt pin
        now, like `Guest.set_interrupt`."""
        guest, slot = self._taken()
        return guest.set_interrupt(slot, is_requested)

    def _attached(self) -> Tuple[Attaching, Tuple[int, int]]:
        """Returns the machine and the seat. ValueError: the device has no machine or no seat."""
        if self._machine is None:
            raise ValueError("the device isn't attached to a machine")
        if self._seat is None:
            raise ValueError("no guest has the device's function")
        return self._machine, self._seat

    def _taken(self) -> Tuple[Guest, int]:
        """Returns the guest that has the device's function, and the slot."""
        machine, (guest, slot) = self._attached()
        return machine._guest_at(guest), slot

    def _place(self, register: Register) -> Tuple[int, int, int]:
        """The guest, slot and part of a register, in the form that the library uses."""
        return (*self._attached()[1], PART_CONFIG if register.bar is None else register.bar)

    def _read(self, register: Register) -> int:
        value, read, place = 0, c_uint64(), self._place(register)
        for first, width in _pieces(register):
            at = register.offset + first, width
            self._machine._call("device_read_wide", *place, *at, byref(read))  # type: ignore[union-attr]
            value |= read.value << 8 * first
        return value

    def _write(self, register: Register, value: int) -> None:
        bits, place = number(register.name, value, 8 * register.width), self._place(register)
        for first, width in _pieces(register):
            at = register.offset + first, width
            piece = bits >> 8 * first & (1 << 8 * width) - 1
            self._machine._call("device_write_wide", *place, *at, piece)  # type: ignore[union-attr]


def _pieces(register: Register) -> Iterator[Tuple[int, int]]:
    """The offset in a register and the width of each access that reaches it: 8 bytes at most."""
    return ((first, min(8, register.width - first)) for first in range(0, register.width, 8))

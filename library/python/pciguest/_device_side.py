"""The function in a guest's slot as its device sees it: its registers, its capability list, and
whether it may access memory and send MSI-X messages."""

from __future__ import annotations

from ctypes import c_uint32, c_uint64
from typing import TYPE_CHECKING, List, NamedTuple, Optional, Tuple

from ._calls import BARS, CONFIG, EMPTY_SLOT, OUT_OF_RANGE, PART_CONFIG
from ._library import number
from ._refusal import Refusal

if TYPE_CHECKING:
    from ._machine import Machine


class Capability(NamedTuple):
    """A structure of a function's capability list, which `Guest.capabilities` returns: its
    Capability ID, and the offset in configuration space where its header begins."""

    id: int
    offset: int


class Message(NamedTuple):
    """The message (a 4-byte write to memory) that a function sends for an MSI-X or MSI vector, and
    whether the function may send it now. `Guest.msix_message` and `Guest.msi_message` return it. If
    `is_enabled` is True and `can_be_sent` is False, the function keeps the message pending. A
    function may use its interrupt pin only while both MSI Enable and MSI-X Enable are clear."""

    #: where the message is written
    address: int
    #: what is written
    data: int
    #: whether MSI-X Enable (or, for MSI, MSI Enable) is set
    is_enabled: bool
    #: whether Function Mask or the vector's own mask bit is set
    is_masked: bool
    #: whether the message is enabled and not masked, and the guest has set Bus Master
    can_be_sent: bool


class DeviceSide:
    """The calls of a guest that use its functions from the device's side."""

    machine: Machine
    index: int

    def raise_bits(self, slot: int, offset: int, mask: int, region: Optional[int] = None) -> None:
        """Sets bits of one byte of the function in a slot, as its device does: at an offset of
        configuration space, or of the region of a base address register, 0 to 5. Only bits that are
        cleared by writing a one can be set.

        303: the slot is above 31, or the function has no such byte. 601: the slot is empty. 902:
        the region is above 5.
        """
        place = self._byte(slot, offset, region)
        self.machine._call("raise", self.index, *place, number("mask", mask, 8))

    def _byte(self, slot: int, offset: int, region: Optional[int]) -> Tuple[int, int, int]:
        part = PART_CONFIG
        if region is not None:
            # the library's number of configuration space is no register; the next one is refused
            asked = number("region", region, 32)
            part = asked if asked < PART_CONFIG else PART_CONFIG + 1
        return number("slot", slot, 64), part, number("offset", offset, 64)

    def device_read(self, slot: int, offset: int, region: Optional[int] = None,
                    width: int = 1) -> int:
        """Returns 1 to 8 bytes of the function in a slot, as its device reads them: bytes in the
        region of a base address register, 0 to 5, or in configuration space. In configuration
        space, a device can read only the two bytes of Status (06h, 07h), the Capabilities Pointer
        (34h) and its own registers (40h to FFh). The byte at the lowest offset is the lowest byte
        of the number, and a byte without a register reads 0. Changes nothing.

        302: the width is not 1 to 8. 303: the slot is above 31, or the device has no such byte.
        601: the slot is empty. 902: the region is above 5.
        """
        place = *self._byte(slot, offset, region), number("width", width, 32)
        return self.machine._number(c_uint64, "device_read_wide", self.index, *place)

    def device_write(self, slot: int, offset: int, value: int, region: Optional[int] = None,
                     width: int = 1) -> None:
        """Writes 1 to 8 bytes of the function in a slot, as its device does, at the places that
        `device_read` reads. The device can change all bits of these bytes, even bits that the guest
        can't change; which bits the guest can change stays the same. A write to a byte without a
        register is dropped. Refused as `device_read` is; if any byte is refused, none is written.
        ValueError: the value doesn't fit into the bytes.
        """
        place = *self._byte(slot, offset, region), number("width", width, 32)
        bits = number("value", value, 8 * min(max(width, 1), 8))
        self.machine._call("device_write_wide", self.index, *place, bits)

    def capabilities(self, slot: int) -> List[Capability]:
        """Returns the capability list of the function in a slot (PCI Local Bus 3.0, 6.7), in the
        order of the list. Reads the registers as the device does. Bits 0 and 1 of a pointer are
        ignored, and a pointer below 40h ends the list. If the device has changed the pointers to a
        loop, the list ends where it would repeat. Changes nothing.

        303: the slot is above 31. 601: the slot is empty.
        """
        found: List[Capability] = []
        with self.machine._lock:
            has_list = self.device_read(slot, 0x06) & 0x10
            offset = self.device_read(slot, 0x34) & 0xFC if has_list else 0
            while offset >= 0x40 and all(before.offset != offset for before in found):
                header = self.device_read(slot, offset, width=2)
                found.append(Capability(header & 0xFF, offset))
                offset = header >> 8 & 0xFC
        return found

    def find_capability(self, slot: int, id: int) -> Optional[int]:
        """Returns the offset of the first structure with this Capability ID in the capability list
        of the function in a slot, or None if there is none. Refused as `capabilities` is.

        >>> msix = '''
        ... [[endpoint.capability]]
        ... id = 0x11
        ... off = 0x40
        ... block = 10
        ... reset = "030000080000000c0000"
        ... '''
        >>> a = Machine(BOARD + msix).guest("a")  # the last endpoint of the board is in slot 1
        >>> a.capabilities(1)
        [Capability(id=17, offset=64)]
        >>> table = a.device_read(1, a.find_capability(1, 0x11) + 4, width=4)
        >>> table & 7, hex(table & ~7)  # the MSI-X table is in BAR 0, at offset 800h
        (0, '0x800')
        """
        return next((it.offset for it in self.capabilities(slot) if it.id == id), None)

    def bus_master(self, slot: int) -> bool:
        """Returns whether the function in a slot may access memory by itself (DMA), that is,
        whether Bus Master, bit 2 of Command, is set in this guest's own Command (PCI Local Bus 3.0,
        6.2.2). A device may access only the memory of the guest that has its function, and only
        while the bit is set. The library has no access to memory and can't enforce this, so a
        device model must make this call before it reads or writes memory. A reset or a move clears
        the bit. Changes nothing.

        303: the slot is above 31. 601: the slot is empty.

        >>> a = Machine(BOARD).guest("a")
        >>> a.config[0][4:2] = 0x0006  # memory and Bus Master
        >>> a.bus_master(0), a.bus_master(1)
        (True, False)
        """
        return bool(self._command(slot) & 4)

    def _command(self, slot: int) -> int:
        """The guest's own Command of the function in a slot."""
        place = number("slot", slot, 64), 4, 2
        command = self.machine._number(c_uint32, "read", self.index, CONFIG, *place)
        if command == 0xFFFF:  # all ones: nothing responds, since Command has fewer bits
            raise Refusal(EMPTY_SLOT)
        return command

    def msix_message(self, slot: int, vector: int) -> Message:
        """Returns the message that the function in a slot sends for an MSI-X vector, and whether
        the function may send it now (PCI Local Bus 3.0, 6.8.2). Vectors are counted from 0. Finds
        the MSI-X structure in the capability list, and the table's region and offset in that
        structure. Reads these registers as the device does. If the function has no MSI-X structure,
        all fields are 0 or False. A message is a write to memory, so it can only be sent while Bus
        Master is set. The library doesn't set pending bits: a device model that can't send a
        message sets the vector's pending bit, and repeats the call when the guest has written
        Command, Message Control or the table. Changes nothing.

        303: the slot is above 31, the table has no such vector, or the table isn't in a region of
        the function. 601: the slot is empty.

        >>> board = '''
        ... host = { io = [0x1000, 0xffff], mem = [0xc0000000, 0xdfffffff] }
        ... guest = [ { name = "a", slots = ["1.0"] } ]
        ... [[endpoint]]
        ... at = "1.0"
        ... vendor = 0x1234
        ... device = 0x0001
        ... class = 0xff0000
        ... [[endpoint.bar]]
        ... index = 0
        ... kind = "mem32"
        ... size = 0x1000
        ... block = 64
        ... rw = "fcffffffffffffffffffffff01000000"
        ... [[endpoint.capability]]
        ... id = 0x11
        ... off = 0x40
        ... block = 10
        ... reset = "03000000000000080000"
        ... rw = "00c00000000000000000"
        ... '''
        >>> a = Machine(board).guest("a")
        >>> a.config[0][0x10:4] = 0x80000000
        >>> a.config[0][4:2] = 0x0006  # memory and Bus Master
        >>> a.memory[0x80000010:4] = 0xFEE00000  # vector 1: address and data
        >>> a.memory[0x80000018:4] = 0x41
        >>> a.config[0][0x42:2] = 0x8000  # MSI-X Enable
        >>> message = a.msix_message(0, 1)
        >>> hex(message.address), hex(message.data), message.can_be_sent
        ('0xfee00000', '0x41', True)
        """
        nth = number("vector", vector, 32)
        with self.machine._lock:
            is_master, at = self.bus_master(slot), self.find_capability(slot, 0x11)
            if at is None:
                return Message(0, 0, False, False, False)
            control = self.device_read(slot, at + 2, width=2)
            table = self.device_read(slot, at + 4, width=4)
            bar, first = table & 7, (table & ~7) + 16 * nth
            if nth > control & 0x7FF or bar >= BARS:
                raise Refusal(OUT_OF_RANGE)
            address = self.device_read(slot, first, region=bar, width=8)
            data = self.device_read(slot, first + 8, region=bar, width=8)
        is_enabled, is_masked = bool(control & 0x8000), bool(control & 0x4000 or data >> 32 & 1)
        can_be_sent = is_master and is_enabled and not is_masked
        return Message(address, data & 0xFFFFFFFF, is_enabled, is_masked, can_be_sent)

    def msi_message(self, slot: int, vector: int) -> Message:
        """Returns the message that the function in a slot sends for an MSI vector, and whether the
        function may send it now (PCI Local Bus 3.0, 6.8.1). Vectors are counted from 0. The low
        bits of the data are the vector, as many bits as Multiple Message Enable says. `is_masked`
        can be True only if the structure has mask bits. If the function has no MSI structure, all
        fields are 0 or False. A device model repeats the call when the guest has written Command or
        the structure. Changes nothing.

        303: the slot is above 31, the driver hasn't allocated the vector (vector 0 is always
        allocated), or the structure extends past FFh. 601: the slot is empty.
        """
        nth = number("vector", vector, 32)
        with self.machine._lock:
            is_master, at = self.bus_master(slot), self.find_capability(slot, 0x05)
            if at is None:
                return Message(0, 0, False, False, False)
            control = self.device_read(slot, at + 2, width=2)
            allocated = 1 << min(control >> 4 & 7, 5)  # Multiple Message Enable; 6 and 7 are reserved
            if nth >= allocated:
                raise Refusal(OUT_OF_RANGE)
            half = 4 if control & 0x80 else 0  # an address of 64 bits moves what follows it
            address = self.device_read(slot, at + 4, width=4 + half)
            data = self.device_read(slot, at + 8 + half, width=2)
            masks = self.device_read(slot, at + 12 + half, width=4) if control & 0x100 else 0
        is_enabled, is_masked = bool(control & 1), bool(masks >> nth & 1)
        can_be_sent = is_master and is_enabled and not is_masked
        return Message(address, data & ~(allocated - 1) | nth, is_enabled, is_masked, can_be_sent)

    def set_interrupt(self, slot: int, is_requested: bool) -> bool:
        """Sets or clears Interrupt Status, bit 3 of Status, of the function in a slot, and returns
        whether the function asserts its interrupt pin now (PCI Local Bus 3.0, 6.2.2, 6.2.3 and
        6.8.1.3): the bit is set, the function has a pin, the guest's own Command doesn't set
        Interrupt Disable, and both MSI Enable and MSI-X Enable are clear. A device model sets the
        bit while it requests an interrupt, and repeats the call with the same value after a guest
        write to Command or to the capability list, and after a load.

        303: the slot is above 31, or a structure of the capability list extends past FFh. 601: the
        slot is empty.

        >>> a = Machine(BOARD.replace("pin = 0", "pin = 1")).guest("a")
        >>> a.set_interrupt(0, True), hex(a.config[0][6:2] & 8)
        (True, '0x8')
        """
        with self.machine._lock:
            command = self._command(slot)
            status = self.device_read(slot, 0x06)
            enables = ((0x05, 2, 0x01), (0x11, 3, 0x80))  # the bytes of Message Control of MSI and MSI-X
            found = ((self.find_capability(slot, id), at, bit) for id, at, bit in enables)
            is_enabled = any([self.device_read(slot, first + at) & bit for first, at, bit in found if first])
            pin = self.machine._number(c_uint32, "read", self.index, CONFIG, number("slot", slot, 64), 0x3D, 1)
            self.device_write(slot, 0x06, status & ~8 | (8 if is_requested else 0))
        return bool(is_requested and pin and not command & 0x400 and not is_enabled)

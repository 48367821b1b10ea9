"""Saving guests and whole machines as bytes, which can be loaded into other machines."""

from __future__ import annotations

from ctypes import byref, c_size_t, c_uint64, create_string_buffer
from typing import TYPE_CHECKING, Optional, Union

from ._held import Held
from ._image_fault import ImageFault, fault_at
from ._library import CALLS
from ._refusal import answered

if TYPE_CHECKING:
    from ._machine import Machine


class Saved:
    """A guest that can be saved, loaded and reset as a whole."""

    machine: Machine
    index: int

    def image_size(self) -> int:
        """Returns the size of the guest's image, which `save` returns, in bytes. The size stays the same as
        long as the guest has the same functions in the same slots. Changes nothing.

        >>> with Machine(BOARD) as machine:
        ...     a = machine.guest("a")
        ...     size = a.image_size()
        ...     a.config[0][4:2] = 2
        ...     a.image_size() == size
        ...     for slot in 0, 1:
        ...         machine.take(a, slot)
        ...     a.image_size() == 12 + 32  # a byte for each empty slot
        True
        True
        """
        size, call = c_size_t(0), CALLS["save"]
        with self.machine._lock:
            answer = call(byref(self.machine._handle), self.index, None, 0, byref(size))
        if not size.value:  # the library stores the size, because there is no room
            answered(answer)
        return size.value

    def save(self) -> bytes:
        """Returns the guest's image, which contains everything that belongs to the guest: its CONFIG_ADDRESS
        and, for each of its 32 slots, the declaration of the function and the contents of the guest's
        registers. It contains nothing about the board, about other guests, or about where the functions are.
        docs/image-format.md describes the bytes. The state that a `Device` keeps outside its registers isn't
        included; `save_state` returns it. Changes nothing.

        >>> with Machine(BOARD) as machine:
        ...     a = machine.guest("a")
        ...     a.io[0xCF8:4] = 0x80000804
        ...     a.save()[:12]  # the format, its version, and the latch
        b'PCIG\\x01\\x00\\x00\\x00\\x04\\x08\\x00\\x80'
        """
        with self.machine._lock:
            room, needed = self.image_size(), c_size_t(0)
            image = create_string_buffer(room)
            self.machine._call("save", self.index, image, room, byref(needed))
        return image.raw[: needed.value]

    def load(self, image: Union[bytes, bytearray]) -> None:
        """Loads an image into the guest, which then has the same state as the guest that was saved. The same
        slots must contain functions, and these must have equal declarations. They may be elsewhere or on
        another board, and the machine of the image isn't needed any more. Other guests don't notice
        anything. The guest's devices are notified (`Device.on_load`).

        905: the bytes aren't an image. 908: the image has another version of the format. 906: other slots
        contain functions, or a declaration differs. The first byte that fails decides between these.

        >>> with Machine(BOARD) as machine:
        ...     a = machine.guest("a")
        ...     a.config[0][4:2] = 2
        ...     image = a.save()
        >>> with Machine(BOARD) as other:  # the guest goes on there
        ...     a = other.guest("a")
        ...     a.load(image)
        ...     a.config[0][4:2]
        ...     try:
        ...         a.load(image[1:])
        ...     except Refusal as refusal:
        ...         print(refusal)
        2
        not a valid image (905)
        """
        told = bytes(image)
        with self.machine._lock:
            self.machine._call("load", self.index, told, len(told))
            self.machine._tell(lambda seat: seat[0] == self.index, lambda device: device.on_load())

    def image_fault(self, image: Union[bytes, bytearray]) -> Optional[ImageFault]:
        """Returns where an image that `load` refuses with 906 or 908 stops fitting the guest: the slot, the
        byte, and the field that contains the byte. Returns None for any other image. Changes nothing.

        >>> with Machine(BOARD) as machine:
        ...     image = machine.guest("a").save()
        >>> with Machine(BOARD.replace("size = 4096", "size = 8192")) as other:
        ...     print(other.guest("a").image_fault(image))
        slot 0: the size of bar1
        """
        told, slot, offset = bytes(image), c_uint64(0), c_size_t(0)
        self.machine._call("image_fault", self.index, told, len(told), byref(slot), byref(offset))
        return fault_at(told, slot.value, offset.value)

    def reset_guest(self) -> None:
        """Resets all functions of the guest, without moving them, and the guest's CONFIG_ADDRESS. Nothing
        carries over.

        >>> with Machine(BOARD) as machine:
        ...     a = machine.guest("a")
        ...     at_reset = a.save()
        ...     a.config[0][4:2] = 2
        ...     a.reset_guest()
        ...     a.save() == at_reset
        True
        """
        with self.machine._lock:
            self.machine._call("reset_guest", self.index)
            self.machine._tell(lambda seat: seat[0] == self.index, lambda device: device.on_reset())


class SavedMachine(Held):
    """A machine that can be saved and loaded as a whole."""

    def _tell_loaded(self) -> None:
        """Notifies the devices of a load."""

    def image_size_all(self) -> int:
        """Returns the size of the whole machine's image, which `save_all` returns, in bytes. The size stays the
        same as long as the guests have the same functions in the same slots. Changes nothing.

        >>> with Machine(BOARD) as machine:
        ...     size = machine.image_size_all()
        ...     machine.guest("a").config[0][4:2] = 2
        ...     machine.image_size_all() == size
        True
        """
        return self._number(c_size_t, "image_size_all")

    def save_all(self) -> bytes:
        """Returns the whole machine's image: which guest has which function in which slot, each guest's state,
        and a description of the board, of how it was set up, and of its guests. docs/image-format.md
        describes the bytes. The state that a `Device` keeps outside its registers isn't included;
        `Guest.save_state` returns it. Changes nothing.

        >>> with Machine(BOARD) as machine:
        ...     machine.save_all()[:8]  # the format, and its version
        b'PCIM\\x01\\x00\\x00\\x00'
        """
        with self._lock:
            room, needed = self.image_size_all(), c_size_t(0)
            image = create_string_buffer(room)
            self._call("save_all", image, room, byref(needed))
        return image.raw[: needed.value]

    def load_all(self, image: Union[bytes, bytearray]) -> None:
        """Loads an image into the whole machine. Afterwards, each slot contains the same function as in the
        machine that was saved, and each guest has the same state. The board must be equal and set up in the
        same way, and its guests must have the same names in the same order; their state, and where their
        functions are now, doesn't matter. The machine of the image isn't needed any more. Devices are
        notified (`Device.on_load`).

        905: the bytes aren't an image of a machine. 906: a slot can't have the function that the image says, or
        a declaration differs. 907: the board, its guests or the way in which it was set up differ. 908: the
        image, or a guest's image in it, has another version of the format. 299: memory runs out.
        docs/image-format.md says what is checked first.

        >>> with Machine(BOARD) as machine:
        ...     a = machine.guest("a")
        ...     machine.move(a, 0, a, 5)
        ...     a.config[5][4:2] = 2
        ...     image = machine.save_all()
        >>> with Machine(BOARD) as other:  # all guests go on there
        ...     other.load_all(image)
        ...     other.guest("a").config[5][4:2]
        2
        >>> with Machine(BOARD.replace('"a"', '"z"')) as other:
        ...     try:
        ...         other.load_all(image)
        ...     except Refusal as refusal:
        ...         print(refusal)
        image is for another board (907)
        """
        told = bytes(image)
        with self._lock:
            self._call("load_all", told, len(told))
            self._tell_loaded()

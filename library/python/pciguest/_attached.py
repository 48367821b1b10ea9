"""Devices that are attached to functions of a machine, and what they are notified of."""

from __future__ import annotations

from ctypes import byref
from typing import TYPE_CHECKING, Callable, Iterator, List, NamedTuple, Optional, Tuple

from ._calls import ARGUMENT, CONFIG, IO, PART_CONFIG, HitTold
from ._devices import Device
from ._differs import DeclaredOtherwise, first_difference
from ._functions import Function
from ._images import SavedMachine
from ._lines import Access
from ._refusal import Refusal
from ._regions import Hit

if TYPE_CHECKING:
    from ._declared import Register
    from ._machine import Guest

# the index of a guest, and a slot
Seat = Tuple[int, int]


class Touch(NamedTuple):
    """The part of a device that a bus cycle accesses: bytes of a region or of configuration space, and the
    bytes that are written."""

    device: Device
    bar: Optional[int]
    offset: int
    width: int
    value: int
    #: Command before a write that touches it
    command: Optional[int] = None

    def within(self, register: Register) -> Tuple[int, int]:
        """The bits of a register that are accessed, and the value that is written to them."""
        if register.bar != self.bar:
            return 0, 0
        up, ones = 8 * (self.offset - register.offset), (1 << 8 * self.width) - 1
        mask, bits = (each << up if up >= 0 else each >> -up for each in (ones, self.value & ones))
        mask &= (1 << 8 * register.width) - 1
        return mask, bits & mask


def told_by(touched: List[Touch]) -> List[Tuple[Device, Register, int]]:
    """The registers that an access touches, each with its device and the value after the write: the bytes that
    the access writes, and the register's own bytes everywhere else."""
    told = []
    for device in {id(touch.device): touch.device for touch in touched}.values():
        here = [touch for touch in touched if touch.device is device]
        for register in device.registers:
            parts = [touch.within(register) for touch in here]
            mask, bits = sum(mask for mask, _ in parts), sum(bits for _, bits in parts)
            if mask:
                told.append((device, register, device._read(register) & ~mask | bits))
    return told


def config_writes(touched: List[Touch]) -> List[Tuple[Device, int, int, int]]:
    """The bytes of configuration space that an access writes, each run with its device, its first offset, its width and what
    was written."""
    runs: List[Tuple[Device, int, int, int]] = []
    for touch in (each for each in touched if each.bar is None):
        bits = touch.value & (1 << 8 * touch.width) - 1
        device, first, width, value = runs[-1] if runs else (None, 0, 0, 0)
        if device is touch.device and first + width == touch.offset:
            runs[-1] = touch.device, first, width + touch.width, value | bits << 8 * width
        else:
            runs.append((touch.device, touch.offset, touch.width, bits))
    return runs


class Attaching(SavedMachine):
    """A machine to whose functions devices can be attached."""

    # in the order in which they were attached
    _devices: List[Device]

    def functions(self) -> Iterator[Function]:
        raise NotImplementedError

    def function(self, index: int) -> Function:
        raise NotImplementedError

    def _guest_at(self, index: int) -> Guest:
        raise NotImplementedError

    def _check(self, *guests: Guest) -> None:
        """Raises an error unless these are guests of this machine."""
        if any(guest.machine is not self for guest in guests):
            raise ValueError("the guest belongs to another machine")

    def attach(self, guest: Guest, slot: int, device: Device) -> None:
        """Attaches a device to the function in a guest's slot. From now on, the device is notified of the
        registers that each guest access touches, no matter whether the access is made through the guest's
        spaces or by a line. The device follows its function to other slots and guests.

        The function must have everything that the device's class declares: its identity, its regions, and the
        patterns of each register. Register bytes that the class doesn't declare aren't compared.

        DeclaredOtherwise (a ValueError): the function differs; the error names the first field that differs.
        ValueError: the function already has a device, or the device is already attached. 303: the slot is above
        31. 601: the slot is empty.
        """
        self._check(guest)
        with self._lock:
            path = guest.function(slot).path
            if self._device_at((guest.index, slot)) is not None:
                raise ValueError(f"{path} already has a device")
            if device._machine is not None:
                raise ValueError("the device is already attached")
            difference = first_difference(type(device), guest.save(), slot)
            if difference is not None:
                raise DeclaredOtherwise(path, difference)
            device._index = next(at for at, each in enumerate(self.functions()) if each.path == path)
            device._machine, device._seat = self, (guest.index, slot)
            self._devices.append(device)

    def detach(self, guest: Guest, slot: int) -> Device:
        """Detaches the device from the function in a guest's slot, so it isn't notified any more. The registers
        keep their contents.

        902: the function has no device. 303: the slot is above 31. 601: the slot is empty.
        """
        with self._lock:
            device = self._device_behind(guest, slot)
            self._devices.remove(device)
            device._machine = device._seat = None
        return device

    def _device_at(self, seat: Seat) -> Optional[Device]:
        return next((each for each in self._devices if each._seat == seat), None)

    def _device_behind(self, guest: Guest, slot: int) -> Device:
        """The device at a seat. Raises an error if there is none."""
        self._check(guest)
        guest.function(slot)
        device = self._device_at((guest.index, slot))
        if device is None:
            raise Refusal(ARGUMENT)
        return device

    def _locate(self, guest: int, space: int, place: int) -> Optional[Hit]:
        """What a guest's access to a port or an address reaches."""
        told = HitTold()
        self._call("locate", guest, space, 0, place, byref(told))
        return Hit(told.slot, None if told.part == PART_CONFIG else told.part, told.offset) if told.found else None

    def _touch(self, access: Access, value: Optional[int] = None) -> List[Touch]:
        """The part of a device that a bus cycle accesses, if it reaches a device. To be called before a write,
        because the write may move the function."""
        if not self._devices or (access.space, access.place, access.width) == (IO, 0xCF8, 4):
            return []
        try:
            if access.space == CONFIG:
                hit: Optional[Hit] = Hit(access.slot, None, access.place)
            else:
                hit = self._locate(access.guest, access.space, access.place)
        except Refusal:
            return []
        device = None if hit is None else self._device_at((access.guest, hit.slot))
        if hit is None or device is None:
            return []
        is_command = value is not None and hit.region is None and hit.offset < 6 and hit.offset + access.width > 4
        command = self._command_of(device) if is_command else None
        return [Touch(device, hit.region, hit.offset, access.width, value or 0, command)]

    def _command_of(self, device: Device) -> int:
        """Command as the guest of a device has it."""
        guest, slot = device._taken()
        return guest._command(slot)

    def _tell_read(self, touched: List[Touch]) -> bool:
        """Notifies devices of a read that isn't refused, once for each register that it touches. Returns
        whether there was any."""
        told = told_by(touched)
        for device, register, _ in told:
            device.before_read(register)
        return bool(told)

    def _tell_written(self, touched: List[Touch]) -> None:
        """Notifies devices of a completed write: first of a change of Command, then of each run of bytes in
        configuration space, then once for each register that it touched."""
        told, writes = told_by(touched), config_writes(touched)
        commands = {id(each.device): each for each in reversed(touched) if each.command is not None}
        changed = [(each.device, each.command, self._command_of(each.device)) for each in commands.values()]
        for device, old, new in changed:
            if old is not None and old != new:
                device.on_command(old, new)
        for device, offset, width, value in writes:
            device.on_config_write(offset, width, value)
        for device, register, value in told:
            device.on_write(register, value)

    def _tell(self, stands: Callable[[Seat], bool], acts: Callable[[Device], None]) -> None:
        """Calls the devices whose functions are at some seats."""
        for device in list(self._devices):
            if device._seat is not None and stands(device._seat):
                acts(device)

    def _reseat(self) -> List[Tuple[Device, Optional[Seat]]]:
        """Updates which guests and slots have the devices' functions. Returns each device whose seat changed,
        with the seat before."""
        changed = []
        for device in self._devices:
            before, device._seat = device._seat, self.function(device._index).seat
            if before != device._seat:
                changed.append((device, before))
        return changed

    def _tell_moved(self) -> None:
        """Notifies the devices whose functions were moved, given or taken."""
        for device, before in self._reseat():
            if before is None:
                device.on_give()
            elif device._seat is None:
                device.on_take()
            else:
                device.on_move(self._guest_at(before[0]), before[1])

    def _tell_loaded(self) -> None:
        """Notifies the machine's devices of a load."""
        for device, _ in self._reseat():
            if device._seat is None:
                device.on_take()
        self._tell(lambda seat: True, lambda device: device.on_load())

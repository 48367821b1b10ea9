"""A board that was set up, with its guests."""

from __future__ import annotations

import os
from ctypes import byref, c_size_t, c_uint32, c_uint64
from pathlib import Path
from typing import Any, Callable, Iterator, List, NamedTuple, Optional, Tuple, Union

from ._attached import Attaching, Touch
from ._calls import BARS, CONFIG, GUEST_NAME, IO, MEMORY, PLACES, PART_CONFIG, FunctionTold, Handle, PlaceTold, RegionTold
from ._device_side import DeviceSide
from ._functions import Function, function_of
from ._held import Held, as_bytes
from ._images import Saved
from ._library import CALLS, number, told
from ._lines import Access, access_of
from ._refusal import Refusal, answered
from ._regions import Hit, Moved, Region, region_of
from ._spaces import Cycles, Functions, ReadableSpace, Space, number_of_space
from ._texts import NAME, explained


class Machine(Attaching):
    """A board that was set up, with its guests.

    `Machine.load("board.toml")` sets up the board of a board file, and assigns its functions to the guests in
    the file. `Machine(text)` does so for the text of a file. If the file or its board is refused, this raises a
    `BoardRefusal` with the number of the first check that fails and everything that `check` reports, or a
    `Refusal` with 199 or 299 if memory runs out.

    The memory is freed by `close`, at the end of `with`, or when nothing refers to the machine any more. After
    that, each call is refused with 901. Several threads may use one machine: their calls run one after the
    other.
    """

    def __init__(self, board: Union[str, bytes], name: str = NAME) -> None:
        text, self._devices = as_bytes(board), []
        with explained(text, name):
            super().__init__(Handle(), "free", lambda handle: CALLS["new"](handle, text, len(text)))

    @classmethod
    def load(cls, path: Union[str, os.PathLike[str]]) -> Machine:
        """Returns the machine of the board file at a path. If the file is refused, the messages contain this
        path."""
        return cls(Path(path).read_bytes(), os.fspath(path))

    @classmethod
    def _made_by(cls, make: Callable[[Any], int]) -> Machine:
        """Returns the machine that a call stores in an empty struct."""
        machine = cls.__new__(cls)
        machine._devices = []
        Held.__init__(machine, Handle(), "free", make)
        return machine

    def guest(self, name: str) -> Guest:
        """Returns the guest with this name. 902: there is no such guest."""
        text = as_bytes(name)
        return Guest(self, name, self._number(c_size_t, "guest", text, len(text)))

    def guests(self) -> List[str]:
        """Returns the names of all guests, in the order of the board file. `Guest.index` is an index in this
        order.

        `[machine.guest(name) for name in machine.guests()]` is a list of the guests.
        """
        with self._lock:
            return [self._name(index) for index in range(self._number(c_size_t, "guest_count"))]

    def _guest_at(self, index: int) -> Guest:
        return Guest(self, self._name(index), index)

    def _name(self, guest: int) -> str:
        """The name of the guest at an index. There must be one."""
        answer, name = told(GUEST_NAME, lambda *room: CALLS["guest_name"](byref(self._handle), guest, *room))
        answered(answer)
        return name

    @property
    def host(self) -> Host:
        """The host, which reads the board at its physical BDFs, ports and addresses."""
        return Host(self)

    def move(self, source: Guest, slot: int, target: Guest, target_slot: int) -> None:
        """Moves the function in a guest's slot to another slot, of the same guest or another. Nothing carries
        over: the function is reset.

        303: a slot is above 31. 601: the slot that the function leaves is empty. 602: the other slot isn't
        empty.
        """
        self._check(source, target)
        slots = number("slot", slot, 64), number("target_slot", target_slot, 64)
        with self._lock:
            self._call("move", source.index, slots[0], target.index, slots[1])
            self._tell_moved()

    def give(self, path: str, guest: Guest, slot: int) -> None:
        """Assigns the function at a path, which no guest has, to an empty slot of a guest. The function is
        reset, except for those of the board's registers of which guests have copies. The path is a text, as
        in board files and in `Function.path`.

        303: the slot is above 31, or there is no endpoint at this path. 602: a guest has the function, or the
        slot isn't empty. 206: one of its regions is disabled.
        """
        self._check(guest)
        text = as_bytes(path)
        with self._lock:
            self._call("give", text, len(text), guest.index, number("slot", slot, 64))
            self._tell_moved()

    def take(self, guest: Guest, slot: int) -> None:
        """Takes the function in a guest's slot from the guest. The slot is then empty, and no guest has the
        function. The function is reset, except for those of the board's registers of which guests have
        copies.

        303: the slot is above 31. 601: the slot is empty.
        """
        self._check(guest)
        with self._lock:
            self._call("take", guest.index, number("slot", slot, 64))
            self._tell_moved()

    def count(self) -> int:
        """Returns how many functions the board has, endpoints and bridges."""
        return self._number(c_size_t, "count")

    def function(self, index: int) -> Function:
        """Returns the function at an index, in path order. Changes nothing. 902: there is no such function."""
        told = FunctionTold()
        self._call("function", number("index", index, 64), byref(told))
        return function_of(told)

    def functions(self) -> Iterator[Function]:
        """Yields all functions of the board, in path order. Each is described at the time when it is reached.

        `[function.path for function in machine.functions()]` is a list of their paths.
        """
        return (self.function(index) for index in range(self.count()))

    def run_line(self, line: Union[str, bytes]) -> Optional[str]:
        """Runs one line of a script, and returns the reply without its line feed; a blank line or a comment has
        no reply. The line may end with a line feed; a line feed anywhere else makes it a bad line. If a line
        is refused, the reply says so: 'a: refused 301 misaligned'."""
        with self._lock:
            found = access_of(as_bytes(line), self._index_of) if self._devices else None
            touched = self._touch(found.access, found.value) if found and found.value is not None else []
            reply = self._reply("run_line", line)
            if reply is None or " refused " in reply:
                return reply
            if found is None:
                self._tell_moved()
            elif found.value is not None:
                self._tell_written(touched)
            elif self._tell_read(self._touch(found.access)):
                return self._reply("run_line", line)
            return reply

    def explain_line(self, line: Union[str, bytes]) -> Optional[str]:
        """Explains why a line is refused with 401, 402 or 403. Returns None for any other line. The line isn't run.

        >>> Machine(BOARD).explain_line("a cr 0 0")
        "missing width (expected 'cr SLOT OFFSET WIDTH')"
        """
        text = as_bytes(line)
        return self._told("explain_line", 128, text, len(text), byref(c_size_t())) or None

    def _index_of(self, name: bytes) -> Optional[int]:
        """The index of the guest with this name, if there is one."""
        try:
            return self._number(c_size_t, "guest", name, len(name))
        except Refusal:
            return None


class _Slots:
    """Configuration space by slot: slots[0] is that of the function in slot 0. Iterates over all 32 slots."""

    def __init__(self, guest: Guest) -> None:
        self._guest = guest

    def __getitem__(self, slot: int) -> Space:
        return self._guest._space(CONFIG, number("slot", slot, 64))

    def __iter__(self) -> Iterator[Space]:
        return (self[slot] for slot in range(32))


class Guest(Saved, DeviceSide):
    """A guest of a machine. It reads what its own functions return, or all ones if none of them responds. No
    other guest can notice what it writes. A read changes nothing.

    `config[slot][offset:width]`, `io[port:width]` and `memory[address:width]` are its accesses.
    """

    def __init__(self, machine: Machine, name: str, index: int) -> None:
        self.machine = machine
        self.name = name
        #: the position of the guest in the board file, from 0
        self.index = index
        # where its regions stood when `moved` told of them last
        self._places = (PlaceTold * PLACES)()

    def __repr__(self) -> str:
        return f"<guest {self.name}>"

    @property
    def config(self) -> _Slots:
        """Configuration space by slot, 0 to 31: `config[0][0x10:4]` is 4 bytes at offset 10h of slot 0."""
        return _Slots(self)

    @property
    def io(self) -> Space:
        """I/O space: `io[0xcfc:4]` is 4 bytes at port CFCh."""
        return self._space(IO, 0)

    @property
    def memory(self) -> Space:
        """Memory: `memory[0x80000000:4]` is 4 bytes at address 80000000h."""
        return self._space(MEMORY, 0)

    def region_read(self, slot: int, register: int, offset: int, width: int = 1) -> int:
        """Reads 1 to 8 bytes of the region that begins at a base address register, 0 to 5, of the function in a
        slot. The access is one by this guest, but the bytes are identified by their offset in the region
        instead of an address. This suits a hypervisor that maps each region separately. While Command
        disables the region, the value is all ones. Even if two regions of the guest are at the same address,
        this call can read either of them.

        302: the width isn't 1 to 8. 303: the slot is above 31, no region begins at this register, or a byte is
        past the end of the region. 601: the slot is empty. 902: the register is above 5.
        """
        place = *self._byte(slot, offset, register), number("width", width, 32)
        with self.machine._lock:
            value = self.machine._number(c_uint64, "region_read", self.index, *place)
            if self.machine._tell_read(self._region_touch(*place)):
                value = self.machine._number(c_uint64, "region_read", self.index, *place)
        return value

    def region_write(self, slot: int, register: int, offset: int, value: int, width: int = 1) -> None:
        """Writes bytes that `region_read` reads. Only bits that the guest can write change, and a disabled
        region drops the write. Refused as a read is; then nothing is written. ValueError: the value doesn't
        fit into the bytes."""
        place = *self._byte(slot, offset, register), number("width", width, 32)
        bits = number("value", value, 8 * min(max(width, 1), 8))
        with self.machine._lock:
            self.machine._call("region_write", self.index, *place, bits)
            self.machine._tell_written(self._region_touch(*place, bits))

    def _region_touch(self, slot: int, register: int, offset: int, width: int, value: int = 0) -> List[Touch]:
        """The part of a device that an access to a region reaches, if the region is enabled and has a device.
        The access must not be one that is refused."""
        device = self.machine._device_at((self.index, slot))
        is_reached = device is not None and self.region(slot, register).is_open
        return [Touch(device, register, offset, width, value)] if device and is_reached else []

    def reset(self, slot: int) -> None:
        """Resets the function in a slot without moving it. As in a move, nothing carries over.

        303: the slot is above 31. 601: the slot is empty.
        """
        with self.machine._lock:
            self.machine._call("reset", self.index, number("slot", slot, 64))
            self.machine._tell(lambda seat: seat == (self.index, slot), lambda device: device.on_reset())

    def save_state(self, slot: int) -> bytes:
        """Returns the state that the `Device` behind the function in a slot keeps outside its registers. An
        image contains only the registers.

        902: the function has no device. 303: the slot is above 31. 601: the slot is empty.
        """
        with self.machine._lock:
            return self.machine._device_behind(self, slot).save_state()

    def load_state(self, slot: int, state: bytes) -> None:
        """Restores a state that `save_state` returned, after the image was loaded. Refused as `save_state` is.
        ValueError: the device doesn't accept the bytes as its state."""
        with self.machine._lock:
            self.machine._device_behind(self, slot).load_state(state)

    def region(self, slot: int, register: int) -> Region:
        """Returns where the region that begins at a base address register, 0 to 5, of the function in a slot is
        now, as the guest sees it. The result stays valid until the guest writes Command or a base address
        register of this function, or the function is moved, reset, loaded or taken. Changes nothing.

        303: the slot is above 31, or no region begins at this register. 601: the slot is empty.
        """
        told = RegionTold()
        place = number("slot", slot, 64), number("register", register, 32)
        self.machine._call("region", self.index, *place, byref(told))
        region = region_of(told)
        assert region is not None, "each region has a size"
        return region

    def changed(self) -> int:
        """Returns a count that increases when an access of this guest, a move, a reset, a give, a take or a
        load may have changed a result of `region`. As long as the count is the same, each of these results
        is valid; nothing else increases it. The count is 0 in a new machine, and continues with 0 after
        2**64 - 1. Changes nothing."""
        return self.machine._number(c_uint64, "changed", self.index)

    def moved(self) -> List[Moved]:
        """Returns the regions of this guest that moved, or were enabled or disabled, since the previous call on
        this `Guest`; the first call returns all regions. A region whose base was written but is the same
        again, as after sizing, hasn't moved. A hypervisor makes this call when the count of `changed` is a
        new one. Changes nothing in the machine."""
        count = c_size_t()
        self.machine._call("moved", self.index, self._places, PLACES, byref(count))
        rows = ((nth, row) for nth, row in enumerate(self._places) if row.has_moved) if count.value else ()
        return [Moved(nth // BARS, nth % BARS, region_of(row.before), region_of(row.now)) for nth, row in rows]

    def function(self, slot: int) -> Function:
        """Returns the function in a slot, according to the board's own registers. Changes nothing.

        303: the slot is above 31. 601: the slot is empty.
        """
        told = FunctionTold()
        self.machine._call("slot", self.index, number("slot", slot, 64), byref(told))
        return function_of(told)

    def locate(self, space: str, place: int) -> Optional[Hit]:
        """Returns what a guest's access to a port ("io") or an address ("memory") reaches: a byte of a function
        in one of its slots, or nothing. Every access to this address begins at this byte. The only exception
        are 4 bytes at port CF8h, which are the guest's CONFIG_ADDRESS. Changes nothing. 303: the port is out
        of range."""
        if space not in ("io", "memory"):
            raise ValueError(f"space: {space!r} isn't 'io' or 'memory'")
        return self.machine._locate(self.index, IO if space == "io" else MEMORY, number("place", place, 64))

    def why(self, space: str, place: int, slot: int = 0) -> str:
        """Explains what a guest's access to a port ("io"), to an address ("memory") or to an offset of a slot
        ("config") reaches, and why. For ports CF8h and CFCh to CFFh, the first line says what CONFIG_ADDRESS
        selects. The next line says what responds, or that nothing does, that the slot is empty, or that
        CONFIG_ADDRESS selects no slot. If nothing responds, there is a line for each region of the guest's
        functions that contains the address, but whose space Command doesn't enable. The answer depends only
        on the guest's own functions and CONFIG_ADDRESS. Changes nothing. 303: the slot, the offset or the
        port is out of range. 299: memory runs out."""
        return self._told_why("why", space, place, slot)

    def why_json(self, space: str, place: int, slot: int = 0) -> str:
        """Returns the same explanation as a JSON object on one line.

        >>> import json
        >>> json.loads(Machine(BOARD).guest("a").why_json("config", 0, 5))["found"]
        {'slot': 5, 'type': 'empty'}
        """
        return self._told_why("why_json", space, place, slot)

    def _told_why(self, call: str, space: str, place: int, slot: int) -> str:
        at = number_of_space(space), number("slot", slot, 64), number("place", place, 64)
        return self.machine._told(call, 512, self.index, *at)

    def _space(self, space: int, slot: int) -> Space:
        return _GuestSpace(self, space, slot)


class _GuestSpace(Space):
    """A space of a guest. Accesses to it notify the guest's devices."""

    def __init__(self, guest: Guest, space: int, slot: int) -> None:
        super().__init__(space, self._cycle_reads, self._cycle_writes)
        self._machine, self._guest, self._slot = guest.machine, guest.index, slot

    def _cycle_reads(self, place: int, width: int) -> int:
        return self._machine._number(c_uint32, "read", self._guest, self._space, self._slot, place, width)

    def _cycle_writes(self, place: int, width: int, value: int) -> None:
        self._machine._call("write", self._guest, self._space, self._slot, place, width, value)

    def _access(self, place: int, width: int) -> Access:
        return Access(self._guest, self._space, self._slot, place, width)

    def _reads(self, place: int, cycles: Cycles) -> int:
        if not self._machine._devices:
            return super()._reads(place, cycles)
        with self._machine._lock:
            value = super()._reads(place, cycles)
            accesses = [self._access(place + done, size) for done, size in cycles]
            is_told = self._machine._tell_read([each for it in accesses for each in self._machine._touch(it)])
            return super()._reads(place, cycles) if is_told else value

    def _writes(self, place: int, cycles: Cycles, value: int) -> None:
        with self._machine._lock:
            touched = []
            for done, size in cycles:
                touched += self._machine._touch(self._access(place + done, size), value >> 8 * done)
                super()._writes(place + done, [(0, size)], value >> 8 * done)
            self._machine._tell_written(touched)


class Host:
    """Reads the board at physical BDFs, ports and addresses. It changes nothing.

    `config[bus, device, function][offset:width]`, `io[port:width]` and `memory[address:width]` are its
    accesses. 902: the device is above 31, or the function is above 7.
    """

    def __init__(self, machine: Machine) -> None:
        self.machine = machine

    @property
    def config(self) -> Functions[ReadableSpace]:
        """Configuration space by BDF: `config[0, 2, 0][0:4]` is 4 bytes at offset 0 of 00:02.0."""
        return Functions(lambda *at: self._space(CONFIG, *at))

    @property
    def io(self) -> ReadableSpace:
        """I/O space: `io[0x1000:4]` is 4 bytes at port 1000h."""
        return self._space(IO, 0, 0, 0)

    @property
    def memory(self) -> ReadableSpace:
        """Memory: `memory[0xc0000000:4]` is 4 bytes at address C0000000h."""
        return self._space(MEMORY, 0, 0, 0)

    def _space(self, space: int, bus: int, device: int, function: int) -> ReadableSpace:
        def read(place: int, width: int) -> int:
            return self.machine._number(c_uint32, "host_read", space, bus, device, function, place, width)

        return ReadableSpace(space, read)

"""A PC on which firmware runs unmodified: a processor (the Unicorn engine), memory, the chipset, and a board.

Ports that the chipset doesn't have belong to the board, and so do addresses below 4 GB that aren't memory.
"""

from __future__ import annotations

import struct
import threading
import time
from typing import Any, Callable, Dict, List, Optional, Protocol, Tuple

import unicorn  # type: ignore
from unicorn import x86_const as x86

from ._chipset import BoardError, Chipset

RAM = 128 << 20
FOUR_GB = 1 << 32
# interrupt controllers and timer of later PCs: memory that does nothing
INERT = (0xFEC00000, 0xFED00000, 0xFEE00000)
PATIENCE = 120  # seconds of a boot
CONFIGURATION = range(0xCF8, 0xD00)
TEXT, ROWS, COLUMNS = 0xB8000, 25, 80  # text memory of a display
WIDE_PAGES = 0x20  # the bit of CR4


class BootError(Exception):
    """The firmware stopped before it was done."""


class TooWide(BootError):
    """The firmware needs something that the processor doesn't have."""


class NotDone(BootError):
    """The firmware's time is over."""


class Idle(BootError):
    """The firmware didn't access configuration space for some time."""


class Halted(BootError):
    """The processor halted with interrupts disabled."""


class Board(Protocol):
    """The calls of a board that a PC makes."""

    def port_read(self, port: int, width: int) -> int: ...
    def port_write(self, port: int, width: int, value: int) -> None: ...
    def memory_read(self, address: int, width: int) -> int: ...
    def memory_write(self, address: int, width: int, value: int) -> None: ...


def guarded(call: Callable[..., Any]) -> Callable[..., Any]:
    """Wraps a function that the engine calls, because the engine must not see exceptions: a BoardError is
    stored, and ends the run."""
    def guard(pc: PC, engine: Any, *words: Any) -> Any:
        try:
            return call(pc, *words)
        except BoardError as error:
            pc.error = error
            engine.emu_stop()
            return 0
    return guard


class PC:
    """`told` is what the firmware wrote to its console. `plain` selects a processor without a time stamp
    counter and without an APIC."""

    def __init__(self, board: Board, rom: bytes, plain: bool) -> None:
        self.board, self.told = board, ""
        self.endings: Tuple[str, ...] = ()
        self.prompts: Dict[str, str] = {}
        self.chipset = Chipset(RAM, self.tell)
        self.interrupt: Optional[int] = None
        self.is_done = self.is_idle = False
        self.accessed = 0.0  # when configuration space was accessed last
        self.error: Optional[BoardError] = None
        self.engine = unicorn.Uc(unicorn.UC_ARCH_X86, unicorn.UC_MODE_16)
        self.map_memory(rom)
        hook = self.engine.hook_add
        hook(unicorn.UC_HOOK_INSN, self.port_in, arg1=x86.UC_X86_INS_IN)
        hook(unicorn.UC_HOOK_INSN, self.port_out, arg1=x86.UC_X86_INS_OUT)
        if plain:
            hook(unicorn.UC_HOOK_INSN, self.identify, arg1=x86.UC_X86_INS_CPUID)
        hook(unicorn.UC_HOOK_INTR, self.interrupted)
        hook(unicorn.UC_HOOK_MEM_WRITE_PROT, lambda *_: True)  # writes to the ROM are dropped

    def map_memory(self, rom: bytes) -> None:
        """Maps memory, the ROM at the top of 4 GB with a copy of its end below 1 MB, and the board everywhere
        else."""
        engine, copy = self.engine, rom[-0x40000:]
        engine.mem_map(0, 0xA0000, unicorn.UC_PROT_ALL)
        engine.mem_map(TEXT, RAM - TEXT, unicorn.UC_PROT_ALL)
        for start in INERT:
            engine.mem_map(start, 0x1000, unicorn.UC_PROT_ALL)
        engine.mem_map(FOUR_GB - len(rom), len(rom), unicorn.UC_PROT_READ | unicorn.UC_PROT_EXEC)
        engine.mem_write(FOUR_GB - len(rom), rom)
        engine.mem_write(0x100000 - len(copy), copy)
        for start, end in ((0xA0000, TEXT), (RAM, INERT[0])):
            engine.mmio_map(start, end - start, self.memory_read, start, self.memory_write, start)

    def screen(self) -> str:
        """The text in the display's memory, without empty lines."""
        cells = bytes(self.engine.mem_read(TEXT, 2 * ROWS * COLUMNS))[::2].replace(b"\0", b" ").decode("cp437")
        rows = (cells[place : place + COLUMNS].rstrip() for place in range(0, ROWS * COLUMNS, COLUMNS))
        return "\n".join(row for row in rows if row)

    def tell(self, value: int) -> None:
        """Writes a byte to the console. The run ends if the console ends with one of the endings; each prompt
        is answered once."""
        self.told += chr(value)
        last = self.told[-80:]
        for prompt in [prompt for prompt in self.prompts if last.endswith(prompt)]:
            self.chipset.serial.type_text(self.prompts.pop(prompt))
        if any(last.endswith(ending) for ending in self.endings):
            self.is_done = True
            self.engine.emu_stop()

    @guarded
    def port_in(self, port: int, width: int, _data: Any) -> int:
        self.chipset.now += 1
        if port in CONFIGURATION:
            self.accessed = time.monotonic()
        reader = self.chipset.readers.get(port)
        if reader:
            return reader()
        return whole(lambda at, size: self.board.port_read(at, size), port, width)

    @guarded
    def port_out(self, port: int, width: int, value: int, _data: Any) -> None:
        self.chipset.now += 1
        if port in CONFIGURATION:
            self.accessed = time.monotonic()
        writer = self.chipset.writers.get(port)
        if writer:
            writer(value & 0xFF)
        else:
            parted(lambda at, size, part: self.board.port_write(at, size, part), port, width, value)

    @guarded
    def memory_read(self, offset: int, width: int, start: int) -> int:
        return whole(lambda at, size: self.board.memory_read(at, size), start + offset, width)

    @guarded
    def memory_write(self, offset: int, width: int, value: int, start: int) -> None:
        parted(lambda at, size, part: self.board.memory_write(at, size, part), start + offset, width, value)

    def identify(self, engine: Any, _data: Any) -> int:
        """CPUID of a processor that has only a floating-point unit and conditional moves."""
        leaf = engine.reg_read(x86.UC_X86_REG_EAX)
        words = {0: (1, 0x756E6547, 0x6C65746E, 0x49656E69), 1: (0x633, 0, 0, 0x8001)}.get(leaf, (0, 0, 0, 0))
        for register, word in zip((x86.UC_X86_REG_EAX, x86.UC_X86_REG_EBX, x86.UC_X86_REG_ECX, x86.UC_X86_REG_EDX),
                                  words):
            engine.reg_write(register, word)
        return 1

    def interrupted(self, engine: Any, vector: int, _data: Any) -> None:
        self.interrupt = vector
        engine.emu_stop()

    def enter_interrupt(self, vector: int) -> None:
        """Enters the handler of a vector, as a processor in real mode does."""
        engine, read, write = self.engine, self.engine.reg_read, self.engine.reg_write
        flags, stack = read(x86.UC_X86_REG_EFLAGS), read(x86.UC_X86_REG_SP) - 6 & 0xFFFF
        frame = struct.pack("<3H", read(x86.UC_X86_REG_EIP) & 0xFFFF, read(x86.UC_X86_REG_CS), flags & 0xFFFF)
        engine.mem_write((read(x86.UC_X86_REG_SS) << 4) + stack, frame)
        offset, segment = struct.unpack("<2H", engine.mem_read(4 * vector, 4))
        write(x86.UC_X86_REG_SP, stack)
        write(x86.UC_X86_REG_EFLAGS, flags & ~0x300)
        write(x86.UC_X86_REG_CS, segment)
        write(x86.UC_X86_REG_EIP, offset)

    def place(self) -> str:
        return f"{self.engine.reg_read(x86.UC_X86_REG_CS):x}:{self.engine.reg_read(x86.UC_X86_REG_EIP):x}"

    def check_mode(self) -> None:
        """Raises an error if the firmware turns on 64-bit mode, because the processor is 32-bit: its page
        tables would have physical addresses of more than 32 bits."""
        if self.engine.reg_read(x86.UC_X86_REG_CR4) & WIDE_PAGES:
            raise TooWide("asks for 64-bit mode, which this PC doesn't have")

    def resume(self) -> None:
        """Continues after a stop: with an interrupt that was requested, or with time that passes while the
        processor is halted."""
        if self.interrupt is not None:
            self.check_mode()
        if self.engine.reg_read(x86.UC_X86_REG_CR0) & 1:
            if self.interrupt is None:
                raise Halted(f"halted in protected mode at {self.place()}")
            raise BootError(f"exception {self.interrupt} in protected mode at {self.place()}")
        if self.interrupt is not None:
            self.enter_interrupt(self.interrupt)
        elif not self.engine.reg_read(x86.UC_X86_REG_EFLAGS) & 0x200:
            raise Halted(f"halted with interrupts off at {self.place()}")
        else:
            vector = self.chipset.next_tick()
            if vector is not None:
                self.enter_interrupt(vector)

    def watch(self, idle: float, ended: threading.Event) -> None:
        """Stops the run when configuration space wasn't accessed for so many seconds."""
        while not ended.wait(idle / 10):
            if time.monotonic() - self.accessed > idle:
                self.is_idle = True
                self.engine.emu_stop()

    def boot(self, *endings: str, patience: float = PATIENCE, idle: Optional[float] = None) -> None:
        """Runs from reset until the console has printed one of the endings, or until the firmware is idle."""
        ended, self.accessed = threading.Event(), time.monotonic()
        if idle is not None:
            threading.Thread(target=self.watch, args=(idle, ended), daemon=True).start()
        try:
            self.run(*endings, patience=patience, idle=idle)
        finally:
            ended.set()

    def run(self, *endings: str, patience: float, idle: Optional[float]) -> None:
        self.endings = endings
        engine, deadline = self.engine, time.monotonic() + patience
        engine.reg_write(x86.UC_X86_REG_CS, 0xF000)
        engine.reg_write(x86.UC_X86_REG_EFLAGS, 2)
        start = 0xFFFF0
        while True:
            self.interrupt, left = None, deadline - time.monotonic()
            if left <= 0:
                raise NotDone(f"not done after {patience:g} seconds, at {self.place()}")
            try:
                engine.emu_start(start, (1 << 64) - 1, timeout=int(left * 1e6))
            except unicorn.UcError as error:
                self.check_mode()
                raise BootError(f"{error} at {self.place()}") from error
            if self.error:
                raise self.error
            if self.is_done:
                return
            if self.is_idle:
                raise Idle(f"no access of configuration space for {idle:g} seconds, at {self.place()}")
            if time.monotonic() < deadline:
                self.resume()
            start = (engine.reg_read(x86.UC_X86_REG_CS) << 4) + (engine.reg_read(x86.UC_X86_REG_EIP) & 0xFFFF)


def pieces(place: int, width: int) -> List[Tuple[int, int, int]]:
    """The accesses of at most 4 bytes into which an access is split: aligned ones, or else single bytes."""
    size = 1 if place % min(width, 4) else min(width, 4)
    return [(place + done, size, 8 * done) for done in range(0, width, size)]


def whole(read: Callable[[int, int], int], place: int, width: int) -> int:
    return sum(read(at, size) << shift for at, size, shift in pieces(place, width))


def parted(write: Callable[[int, int, int], None], place: int, width: int, value: int) -> None:
    for at, size, shift in pieces(place, width):
        write(at, size, value >> shift & (1 << 8 * size) - 1)

"""A board as firmware reaches it: four calls by port and by address. Behind them stands the library, by library/python.

A width is 1, 2 or 4 bytes, and a port or address is a multiple of it. A read that nothing answers gives all ones of
the width; a write that nothing takes is dropped."""
import subprocess
import sys
from pathlib import Path

TESTS = Path(__file__).resolve().parents[1]
sys.path += map(str, (TESTS.parent / "library/python", TESTS, TESTS / "kit"))
import pciguest
from options import options
from pciguest._chipset import BoardError
from pciguest._recording import RecordedBoard

LATCH, DATA = 0xCF8, 0xCFC
NOT_READY = "pciguest: fault 208 not ready\n"


class LibraryBoard:
    """The board of a file at reset, by calls of the library, which keeps each as a line of firmware with its answer."""

    def __init__(self, file):
        self.file, self.board = file, RecordedBoard(Path(file).read_bytes())

    def asked(self, what, access, *words):
        """The value of an access."""
        try:
            return access(*words)
        except pciguest.Refusal as refusal:
            raise BoardError(f"{what} is refused by {refusal}") from None

    def port_read(self, port, width):
        return self.asked(f"a read at port {port:#x}", self.board.io.__getitem__, slice(port, width))

    def port_write(self, port, width, value):
        self.asked(f"a write at port {port:#x}", self.board.io.__setitem__, slice(port, width), value)

    def memory_read(self, address, width):
        return self.asked(f"a read at {address:#x}", self.board.memory.__getitem__, slice(address, width))

    def memory_write(self, address, width, value):
        self.asked(f"a write at {address:#x}", self.board.memory.__setitem__, slice(address, width), value)

    def told(self, program, command):
        """The lines that the program's `audit` or `ready` tells after all accesses, each of which it has to answer as
        the board did. `ready` ends with a fault where the board isn't ready."""
        script = "".join(f"{line}\n" for line, _ in self.board.rows)
        answers = [reply for _, reply in self.board.rows]
        ran = subprocess.run([program, command, self.file], input=script, capture_output=True, text=True)
        lines, count = ran.stdout.splitlines(), len(answers)
        is_lacking = command == "ready" and lines[-1:] != ["ready: ok"]
        if (ran.returncode, ran.stderr) != ((1, NOT_READY) if is_lacking else (0, "")) or lines[:count] != answers:
            return [f"{command} answers otherwise, or ends with status {ran.returncode}: {ran.stderr.strip()}"]
        return lines[count:]

    def close(self):
        self.board.close()


def configuration(board, bus, device, function, offset):
    """Reads 4 bytes of a function's configuration space by CF8h and CFCh."""
    board.port_write(LATCH, 4, 1 << 31 | bus << 16 | device << 11 | function << 8 | offset)
    return board.port_read(DATA, 4)


def functions_of(board, bus, device):
    """The numbers of a device's functions, none where function 0 is absent."""
    if configuration(board, bus, device, 0, 0) & 0xFFFF == 0xFFFF:
        return []
    if not configuration(board, bus, device, 0, 0xC) >> 16 & 0x80:
        return [0]
    return [f for f in range(8) if configuration(board, bus, device, f, 0) & 0xFFFF != 0xFFFF]


def registers(board):
    """The 256 configuration bytes of each function that the bus numbers lead to, by (bus, device, function)."""
    found, buses = {}, [0]
    for bus in buses:
        for device in range(32):
            for function in functions_of(board, bus, device):
                words = (configuration(board, bus, device, function, offset) for offset in range(0, 256, 4))
                cells = b"".join(word.to_bytes(4, "little") for word in words)
                found[bus, device, function] = cells
                if is_bridge(cells) and cells[0x19] not in buses:
                    buses.append(cells[0x19])
    return found


def is_bridge(cells):
    return cells[0x0E] & 0x7F == 1


def paths(cells):
    """The path of each function, as a board file writes it."""
    above, found = {0: ""}, {}
    for at, bytes_of in cells.items():
        found[at] = f"{above[at[0]]}{at[1]}.{at[2]}"
        if is_bridge(bytes_of):
            above[bytes_of[0x19]] = found[at] + "/"
    return found


def number(at):
    """A function's number as BB:DD.F."""
    return f"{at[0]:02x}:{at[1]:02x}.{at[2]}"

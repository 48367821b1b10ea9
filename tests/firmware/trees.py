"""Random trees of QEMU's devices, and board files with the same functions.

A board file is written from what QEMU's functions answer at reset: identities, decodes of windows, regions by sizing,
and in endpoints the capability list and each byte from 40h on, with the bits that can be written there."""
import random
import sys
from pathlib import Path

from board import DATA, LATCH, configuration, functions_of, number
from machine import PC
from pciguest._drawing import PLAIN

sys.path.append(str(Path(__file__).resolve().parents[2] / "tools"))
import from_lspci  # the tool stands there

# QEMU's devices without a driver in either firmware, whose regions a board file can have
ENDPOINTS = ["edu", "pci-testdev", "pci-testdev,membar={size}M", "pci-serial,chardev=null{n}", "ES1370,audiodev=none",
             "ne2k_pci,romfile=", "bochs-display,romfile=,vgamem={size}M", "i6300esb", "kvaser_pci,canbus=can",
             "pcm3680_pci,canbus0=can,canbus1=can", "ivshmem-plain,memdev=memory{n}", "intel-hda"]
BRIDGE = "pci-bridge,chassis_nr={n},msi=off,shpc=off"
DEEPEST, MOST_BRIDGES = 4, 8
# the addresses that SeaBIOS and U-Boot give out
HOST = PLAIN.table()


class Tree:
    """The devices of a random tree as words for QEMU, beside a chipset."""

    def __init__(self, seed, endpoints=ENDPOINTS, chipset=PC):
        self.random, self.words, self.count, self.bridges = random.Random(seed), [], 0, 0
        self.endpoints, self.chipset = endpoints, chipset
        self.words += ["-audiodev", "none,id=none", "-object", "can-bus,id=can"]
        self.fill(chipset.bus, chipset.free, 0)

    def fill(self, bus, free, depth):
        for device in self.random.sample(free, self.random.randint(1, 6)):
            if depth < DEEPEST and self.bridges < MOST_BRIDGES and self.random.random() < 0.35:
                self.bridges += 1
                below = self.add(BRIDGE, bus, f"{device:x}.0")
                self.fill(below, range(32), depth + 1)
            else:
                functions = self.random.choice([1, 1, 1, 1, 2, 3])
                for function in range(functions):
                    many = ",multifunction=on" if functions > 1 else ""
                    self.add(self.random.choice(self.endpoints) + many, bus, f"{device:x}.{function}")

    def add(self, kind, bus, place):
        """Adds a device; its name, which is also that of the bus behind it."""
        self.count += 1
        name, size = f"d{self.count}", 1 << self.random.randint(2, 7)
        if "null" in kind:
            self.words += ["-chardev", f"null,id=null{self.count}"]
        if "memory" in kind:
            self.words += ["-object", f"memory-backend-ram,id=memory{self.count},size={size}M,share=on"]
        self.words += ["-device", f"{kind.format(n=self.count, size=size)},id={name},bus={bus},addr={place}"]
        return name


def put(board, at, offset, value):
    board.port_write(LATCH, 4, 1 << 31 | at[0] << 16 | at[1] << 11 | at[2] << 8 | offset)
    board.port_write(DATA, 4, value)


def writable(board, at, offset):
    """What stands in 4 bytes, and the bits that can be written there; they are left as they were."""
    kept = configuration(board, *at, offset)
    put(board, at, offset, 0xFFFFFFFF)
    ones = configuration(board, *at, offset)
    put(board, at, offset, 0)
    zeros = configuration(board, *at, offset)
    put(board, at, offset, kept)
    return kept, ones & ~zeros


def regions(board, at):
    """The regions of an endpoint, as board files have them. Each has 4 bytes at its beginning that can be written."""
    found, index = [], 0
    while index < 6:
        value, bits = writable(board, at, 0x10 + 4 * index)
        kind, is_64 = from_lspci.kind_of(value)
        if is_64:
            bits |= writable(board, at, 0x14 + 4 * index)[1] << 32
        if bits:
            found.append(f'  {{ index = {index}, kind = "{kind}", size = {bits & -bits:#x}, block = 4, rw = "ff" }},\n')
        index += 2 if is_64 else 1
    return "".join(found)


def header(board, at):
    return b"".join(configuration(board, *at, offset).to_bytes(4, "little") for offset in range(0, 0x40, 4))


def endpoint_text(board, at, path):
    front, own = header(board, at), [writable(board, at, offset) for offset in range(0x40, 0x100, 4)]
    reset, rw = (b"".join(pair[side].to_bytes(4, "little") for pair in own) for side in (0, 1))
    return from_lspci.endpoint_text(path, front + reset, regions(board, at), bytes(0x40) + rw)


def bridge_text(board, at, path):
    cells = header(board, at)
    io, pref = (writable(board, at, offset)[1] for offset in (0x1C, 0x24))
    decodes = (("32" if cells[0x1C] & 0xF else "16") if io & 0xF0F0 else "none",
               ("64" if cells[0x24] & 0xF else "32") if pref else "none")
    return from_lspci.bridge_text(path, cells, *decodes)


class Reading:
    """A tree as a machine at reset shows it: `text` is the board file, `reset` has the bytes of each path."""

    def __init__(self, machine):
        self.machine, self.last, self.reset, self.text = machine, 0, {}, ""
        self.text = "".join(["[host]\n", *(f"{key} = [{first:#x}, {last:#x}]\n" for key, (first, last) in HOST.items()), "devices = 32\n"])
        self.walk(0, "")

    def walk(self, bus, above):
        """Reads a bus and all behind it. Bridges are numbered on the way, so that cycles get there."""
        for device in range(32):
            for function in functions_of(self.machine, bus, device):
                at, path = (bus, device, function), f"{above}{device}.{function}"
                cells = b"".join(configuration(self.machine, *at, offset).to_bytes(4, "little")
                                 for offset in range(0, 256, 4))
                self.reset[path] = cells
                if cells[0x0E] & 0x7F == 0:
                    self.text += endpoint_text(self.machine, at, path)
                    continue
                if cells[9:12] != b"\0\4\6":
                    raise ValueError(f"{number(at)} is no bridge that a board file can have")
                self.text += bridge_text(self.machine, at, path)
                self.last += 1
                behind = self.last
                put(self.machine, at, 0x18, 0xFF << 16 | behind << 8 | bus)
                self.walk(behind, path + "/")
                put(self.machine, at, 0x18, self.last << 16 | behind << 8 | bus)

#!/usr/bin/env python3
"""Writes a board file with the functions of a machine, from what lspci prints on that machine if root runs it.

    lspci -vvxxx | tools/from_lspci.py > board.toml
    lspci -D -vvxxx | tools/from_lspci.py --out FOLDER

A machine with several root buses or segments gives a board for each: with --out, the folder gets SEGMENT_BUS.toml for each
root bus; without it, only the first board is written. The board has the place and the identity of each function, its BARs with
the sizes that lspci shows, the decodes of bridge windows, the read-only bits of Status, bit 7 of Header Type, and in endpoints
the bytes from 40h on, with the capability list. A dump doesn't say which of these bytes are writable. Here, the control bits,
the address and the data of MSI are, and the control bits of MSI-X and Power Management; all other bytes are read-only. Bits
of Status that a one clears are 0, as at reset.

What a board can't have is listed on standard error, function by function. The status is 1 if a function was left out, and 2 if
there is no function, or the arguments can't be used."""
import argparse
import re
import runpy
import sys
from pathlib import Path

HOST = "[host]\nio = [0x1000, 0xffff]\nmem = [0x80000000, 0xfebfffff]\npref = [0x1000000000, 0x1fffffffff]\n"
FUNCTION = re.compile(r"(?:([0-9a-f]{4,}):)?([0-9a-f]{2}):([0-9a-f]{2})\.([0-7]) ")
REGION = re.compile(r"\tRegion (\d): (?!\[virtual\]).*\[size=(\d+)([KMGT]?)\]")
ROW = re.compile(r"([0-9a-f]{2,3}):((?: [0-9a-f]{2}){16})$")
UNITS = {unit: 1 << 10 * power for power, unit in enumerate(["", "K", "M", "G", "T"])}
POWER_MANAGEMENT, MSI, MSI_X = 0x01, 0x05, 0x11
# the registers that an endpoint declares, by their keys, and those of them that a bridge declares too
DECLARED = runpy.run_path(str(Path(__file__).resolve().parent.parent / "library/python/pciguest/_names.py"))["DECLARED"]
IDENTITY = ("vendor", "device", "revision")
# the bits of Status that an endpoint may have at reset, and those that a function may have read-only
STATUS, FIXED_STATUS = 0xF900, 0x06E0
# the sizes that a region may have, by the beginning of its kind
SIZES = {"io": (4, 1 << 8), "mem32": (16, 1 << 31), "mem64": (16, 1 << 40)}
# how many parts a path may have
DEEPEST = 16


# ---- the text of a function, by its 256 bytes of configuration space

def structures(cells):
    """The capability list: the Capability ID at the offset of each structure, in the order of the list."""
    found, at = {}, cells[0x34] & 0xFC if cells[0x06] & 0x10 else 0
    while at >= 0x40 and cells[at] and at not in found:
        found[at] = cells[at]
        at = cells[at + 1] & 0xFC
    return found


def extents(cells):
    """The structures of the list as Capability ID, offset and end. Each ends where the next one in this space begins."""
    found = structures(cells)
    ends = sorted([*found, 0x100])
    return [(name, off, ends[ends.index(off) + 1]) for off, name in found.items()]


def own_text(cells, rw, w1c):
    """The bytes from 40h on: a block that ends where the first structure begins, and the structures."""
    def block(begin, end):
        parts = ((key, of[begin:end]) for key, of in (("reset", cells), ("rw", rw), ("w1c", w1c)))
        return ", ".join([f"block = {end - begin}", *(f'{key} = "{part.hex()}"' for key, part in parts if any(part))])

    tables = [f"  {{ id = {name:#x}, off = {off:#x}, {block(off + 2, end)} }},\n" for name, off, end in extents(cells)]
    front = min([0x100, *structures(cells)])
    text = f"config = [ {{ off = 0x40, {block(0x40, front)} }} ]\n" if any([*cells[0x40:front], *rw[0x40:front]]) else ""
    return text + f"capability = [\n{''.join(tables)}]\n" * bool(tables)


def number(cells, at, width):
    return int.from_bytes(cells[at:at + width], "little")


def declared_text(kind, path, cells, keys):
    """A table with the values of these keys, the read-only bits of Status and, in functions 1 to 7, a clear bit 7."""
    found = {key: number(cells, *DECLARED[key]) & (STATUS if key == "status" else -1) for key in keys}
    found |= {key: value for key, at in (("fixed_status", 0x06), ("fixed_secondary_status", 0x1E))
              for value in [number(cells, at, 2) & FIXED_STATUS] if value and (at == 0x06 or kind == "bridge")}
    text = f'\n[[{kind}]]\nat = "{path}"\n' + "".join(f"{key} = {value:#x}\n" for key, value in found.items())
    return text + "multifunction = false\n" * (not path.endswith(".0") and not cells[0x0E] & 0x80)


def endpoint_text(path, cells, bars, rw, w1c=bytes(256)):
    """An endpoint with these bytes at reset; `bars` has a line for each region."""
    return declared_text("endpoint", path, cells, DECLARED) + f"bar = [\n{bars}]\n" * bool(bars) + own_text(cells, rw, w1c)


def bridge_text(path, cells, io, pref):
    return f'{declared_text("bridge", path, cells, IDENTITY)}io = "{io}"\npref = "{pref}"\n'


def kind_of(value):
    """The kind of a region by its base address register, and whether the region has a second one."""
    is_64 = value & 7 == 4
    return "io" if value & 1 else ("mem64" if is_64 else "mem32") + ("p" if value & 8 else ""), is_64


# ---- a dump

class Function:
    """A function of a dump: its configuration space, how many bytes of it there are, and the sizes of its regions."""

    def __init__(self):
        self.cells, self.count, self.sizes, self.is_extended = bytearray(256), 0, {}, False

    def add(self, offset, row):
        """Takes a row of bytes."""
        if offset < 256:
            self.cells[offset:offset + 16] = row
            self.count += 16
        else:
            self.is_extended |= any(row)

    @property
    def header(self):
        return self.cells[0x0E] & 0x7F

    def buses(self):
        """The buses behind a bridge, of any kind; none where it has no numbers."""
        secondary, subordinate = self.cells[0x19:0x1B] if self.header in (1, 2) else (0, 0)
        return range(secondary, subordinate + 1) if 0 < secondary <= subordinate else range(0)


def masks(name, control):
    """The writable bits of a structure, and those that are cleared by writing a one, from the byte after its header on, which
    is `control`."""
    if name == POWER_MANAGEMENT:  # PowerState and PME_En; PME_Status
        return "0000" "0301", "0000" "0080"
    if name == MSI:  # Multiple Message Enable and MSI Enable; an address of 64 or 32 bits; data
        return "7100" "fcffffff" + "ffffffff" * (control >> 7) + "ffff", ""
    return "00c0" * (name == MSI_X), ""  # MSI-X Enable and Function Mask


def written(cells):
    """The writable bits of 256 bytes, and those that are cleared by writing a one."""
    both = bytearray(256), bytearray(256)
    for name, off, end in extents(cells):
        for found, text in zip(both, masks(name, cells[off + 2])):
            found[off + 2:end] = bytes.fromhex(text).ljust(end - off - 2, b"\0")[:end - off - 2]
    return both


def read(lines):
    """The functions of a dump by segment, bus, device and function."""
    functions, last = {}, Function()
    for line in lines:
        if found := ROW.match(line):
            last.add(int(found[1], 16), bytes.fromhex(found[2]))
        elif found := REGION.match(line):
            last.sizes[int(found[1])] = int(found[2]) * UNITS[found[3]]
        elif found := FUNCTION.match(line):
            last = functions[tuple(int(part or "0", 16) for part in found.groups())] = Function()
    return functions


def roots(functions):
    """The root buses by segment and bus: those that are behind no bridge."""
    behind = {(segment, bus) for (segment, *_), one in functions.items() for bus in one.buses()}
    return sorted({at[:2] for at in functions} - behind)


def name_of(at):
    """A function as lspci names it."""
    segment, bus, device, function = at
    return f"{segment:04x}:" * (segment > 0) + f"{bus:02x}:{device:02x}.{function}"


# ---- what a board can't have

def registers_of(cells):
    """The base address registers of an endpoint: the index of each region, and its kind."""
    index = 0
    while index < 6:
        kind, is_64 = kind_of(number(cells, 0x10 + 4 * index, 4))
        yield index, kind
        index += 2 if is_64 else 1


def is_lawful(kind, size):
    least, greatest = SIZES[kind.removesuffix("p")]
    return least <= size <= greatest and not size & size - 1


def lost_regions(one, has_sizes):
    """The regions of an endpoint that a board can't have, or of which the dump has no size though it has others."""
    for index, kind in registers_of(one.cells):
        size = one.sizes.get(index)
        if size and not is_lawful(kind, size):
            yield f"bar{index}, {kind} of {size} byte{'s' * (size != 1)}"
        elif has_sizes and size is None and number(one.cells, 0x10 + 4 * index, 4) & ~15:
            yield f"bar{index}, whose size isn't in the dump"


def lost(at, one, is_alone, has_sizes):
    """What isn't kept of a function that is written."""
    cells, is_bridge = one.cells, one.header == 1
    if at[3] == 0 and bool(cells[0x0E] & 0x80) == is_alone:
        yield "bit 7 of Header Type, " + ("set in a device with one function" if is_alone else "clear in a device with others")
    yield from lost_regions(one, has_sizes) if not is_bridge else ()
    if number(cells, 0x38 if is_bridge else 0x30, 4):
        yield "expansion ROM"
    if is_bridge:
        yield from (words for words, is_there in (
            ("class code", cells[0x09:0x0C] != b"\0\4\6"), ("base address registers", any(cells[0x10:0x18])),
            ("Interrupt Pin", cells[0x3D]), ("registers from 40h on", any(cells[0x40:]))) if is_there)
    elif cells[0x3D] > 4:
        yield "Interrupt Pin"
    if one.count < 256:
        yield f"registers from {one.count:02x}h on, which aren't in the dump"
    if one.is_extended:
        yield "registers from 100h on"


def why_left_out(one, path):
    """Why a function can't be written, if it can't."""
    if one.count < 64:
        return "its configuration space isn't in the dump, which -xxx prints"
    if number(one.cells, 0, 2) == 0xFFFF:
        return "its Vendor ID reads ffffh"
    if one.header == 2:
        return "it is a CardBus bridge"
    if one.header > 2:
        return f"its header type is {one.header:02x}h"
    return f"its path has more than {DEEPEST} parts" if path.count("/") >= DEEPEST else None


# ---- boards

class Dump:
    """The text of each board of a dump by its root bus, and what is said of each function. Only the first board is made
    unless all are asked for."""

    def __init__(self, lines, is_all=True):
        self.functions, self.said, self.left_out, self.seen = read(lines), {}, {}, set()
        endpoints = [one for one in self.functions.values() if one.header == 0]
        self.has_sizes = any(one.sizes for one in endpoints) or not any(any(one.cells[0x10:0x28]) for one in endpoints)
        self.boards = {root: board for root in roots(self.functions)[:None if is_all else 1]
                       for board in ["".join(self.bus(root, ""))] if board}
        for at in sorted(self.functions.keys() - self.said.keys()):
            self.leave_out(at, self.why_unreached(at))

    def leave_out(self, at, why):
        self.left_out[at], self.said[at] = why, [f"left out: {why}"]

    def why_unreached(self, at):
        """Why a function isn't below a root bus of a board that is made."""
        above = [other for other, one in self.functions.items() if other[0] == at[0] and at[1] in one.buses()]
        if not above:
            return "its root bus has a board of its own, which --out writes"
        nearest = max(above, key=lambda other: self.functions[other].buses().start)
        is_lost = nearest in self.left_out
        return f"it is behind {name_of(nearest)}, which is left out" if is_lost else f"no bridge leads to bus {at[1]:02x}"

    def bus(self, bus, above):
        """The text of the functions on a bus and behind it. No bus is gone through twice."""
        self.seen.add(bus)
        places = sorted(at for at in self.functions if at[:2] == bus)
        for at in places:
            zero, path = (*at[:3], 0), f"{above}{at[2]}.{at[3]}"
            why = why_left_out(self.functions[at], path)
            if zero not in self.functions or zero in self.left_out:
                why = f"function 0 of its device {'is left out' if zero in self.functions else 'is not in the dump'}"
            if why:
                self.leave_out(at, why)
            else:
                others = [other for other in places if other[:3] == at[:3] and not why_left_out(self.functions[other], path)]
                yield from self.function(at, path, len(others) == 1)

    def function(self, at, path, is_alone):
        """The text of a function, and of all behind it."""
        one = self.functions[at]
        self.said[at] = [f"not kept: {words}" for words in lost(at, one, is_alone, self.has_sizes)]
        if one.header == 0:
            yield endpoint_of(one, path)
            return
        yield bridge_text(path, one.cells, "32" if one.cells[0x1C] & 1 else "16", "64" if one.cells[0x24] & 1 else "32")
        behind = (at[0], one.buses().start)
        if behind[1] > at[1] and behind not in self.seen:
            yield from self.bus(behind, path + "/")


def endpoint_of(one, path):
    """The text of an endpoint of a dump. Bits of Status that a one clears are 0."""
    cells, (rw, w1c) = bytearray(one.cells), written(one.cells)
    cells[0x06:0x08] = (number(cells, 0x06, 2) & (0x10 | FIXED_STATUS)).to_bytes(2, "little")
    cells[0x3D] *= cells[0x3D] <= 4
    kept = [(index, kind) for index, kind in registers_of(cells) if is_lawful(kind, one.sizes.get(index, 0))]
    bars = "".join(f'  {{ index = {index}, kind = "{kind}", size = {one.sizes[index]:#x} }},\n' for index, kind in kept)
    return endpoint_text(path, cells, bars, rw, w1c)


def with_host(board):
    """The text of a board file, which says where devices are above 15."""
    devices = re.findall(r"(\d+)\.\d", "".join(re.findall(r'^at = ".*"$', board, re.M)))
    return HOST + "devices = 32\n" * any(int(device) > 15 for device in devices) + board


def main(words=None):
    parser = argparse.ArgumentParser(description=__doc__.split("\n\n")[0])
    parser.add_argument("--out", type=Path, metavar="FOLDER", help="write a board for each root bus, as SEGMENT_BUS.toml")
    options = parser.parse_args(words)
    dump = Dump(sys.stdin.read().splitlines(), options.out is not None)
    if not dump.functions:
        print("there is no function in this dump: `lspci -vvxxx` prints one", file=sys.stderr)
        return 2
    if not dump.has_sizes:
        print("the dump has no sizes of regions, so no region is kept: `lspci -vvxxx` prints them", file=sys.stderr)
    for at, said in sorted(dump.said.items()):
        print(*(f"{name_of(at)}: {line}\n" for line in said), sep="", end="", file=sys.stderr)
    if options.out:
        options.out.mkdir(parents=True, exist_ok=True)
    for (segment, bus), board in dump.boards.items():
        if options.out:
            (options.out / f"{segment:04x}_{bus:02x}.toml").write_text(with_host(board))
        else:
            print(with_host(board), end="")
    return int(bool(dump.left_out))


if __name__ == "__main__":
    sys.exit(main())

"""A board for each kind of mistake that firmware makes if a board is large or unusual, or has addresses or
numbers at the end of their range."""

from __future__ import annotations

from typing import Any, Callable, Dict, List

from ._board_file import Document

KB, MB, GB, TB = 1 << 10, 1 << 20, 1 << 30, 1 << 40
IO, MEM, HIGH = [0x1000, 0xFFFF], [0x80000000, 0xFEBFFFFF], [0x100000000, 0xFFFFFFFFFF]
LAST_GB = [0xC0000000, 0xFFFFFFFF]


def endpoint(at: str, *regions: str, **keys: Any) -> Document:
    """An endpoint with regions such as `mem32 0x1000`, or `5 io 4` for a region at register 5."""
    bars: List[Document] = []
    index = 0
    for region in regions:
        *named, kind, size = region.split()
        index = int(named[0]) if named else index
        bars.append({"index": index, "kind": kind, "size": int(size, 0)})
        index += 2 if "64" in kind else 1
    table = {"at": at, "vendor": 0x1234, "device": 1, "class": 0xFF0000, **keys}
    return {**table, "bar": bars} if bars else table


def bridge(at: str, io: str = "16", pref: str = "64", **keys: Any) -> Document:
    return {"at": at, "vendor": 0x1234, "device": 2, "io": io, "pref": pref, **keys}


def board(*tables: Document, io: List[int] = IO, mem: List[int] = MEM, pref: List[int] = [], **keys: int) -> Document:
    host: Document = {"io": io, "mem": mem, **({"pref": pref} if pref else {}), **keys}
    kinds = {"endpoint": [each for each in tables if "class" in each], "bridge": [each for each in tables if "io" in each]}
    return {"host": host, **{kind: found for kind, found in kinds.items() if found}}


def large_regions() -> Document:
    """Regions of 4 GB and more next to small ones, on bus 0 and behind a bridge."""
    return board(
        endpoint("1.0", "mem32 16", f"mem64p {4 * GB}"), endpoint("2.0", f"mem64p {16 * GB}", f"mem64p {GB}"), bridge("3.0"),
        endpoint("3.0/0.0", f"mem64p {MB}", f"mem64p {8 * GB}"), endpoint("3.0/1.0", "mem64 0x1000"),
        endpoint("4.0", f"mem64p {64 * GB}"), pref=HIGH)


def half_of_memory() -> Document:
    """A region of 2 GB, the largest 32-bit region, behind a bridge."""
    return board(bridge("1.0"), endpoint("1.0/0.0", f"mem32 {2 * GB}", "io 32"), mem=[0x80000000, 0xFFFFFFFF])


def from_zero() -> Document:
    """Memory that begins at address 0 and has no gap: the region at 0 is behind the bridge."""
    return board(endpoint("1.0", f"mem32 {MB}", "io 16"), bridge("2.0"), endpoint("2.0/0.0", f"mem32 {2 * MB}"), mem=[0, 0x7FFFFFFF])


def top_of_memory() -> Document:
    """Memory that ends at FFFFFFFFh and has no gap, with a window at the end."""
    sizes = [4, 8, 16, 32, 64, 128]
    return board(
        *(endpoint(f"{place}.0", f"mem32 {size * MB}") for place, size in enumerate(sizes, 1)),
        endpoint("7.0", f"mem32 {2 * MB}", f"mem32 {MB}"), bridge("8.0"), endpoint("8.0/0.0", "mem32 4096"),
        mem=[0xF0000000, 0xFFFFFFFF])


def last_region() -> Document:
    """The last region below 4 GB ends at FFFFFFFFh, on bus 0 and behind a bridge with the highest limit."""
    return board(
        endpoint("1.0", f"mem32 {512 * KB}", f"mem32 {256 * KB}"), endpoint("2.0", f"mem32 {256 * KB}"),
        bridge("3.0"), endpoint("3.0/0.0", f"mem32 {MB}"), mem=[0xFFE00000, 0xFFFFFFFF])


def top_of_prefetchable() -> Document:
    """Prefetchable memory that ends at the last address below 2^63."""
    sizes = [GB, 2 * GB, 4 * GB, 8 * GB, 16 * GB, 32 * GB]
    return board(
        *(endpoint(f"{place}.0", f"mem64p {size}") for place, size in enumerate(sizes, 1)), bridge("7.0"),
        endpoint("7.0/0.0", f"mem64p {512 * MB}", f"mem64p {512 * MB}"), pref=[(1 << 63) - 64 * GB, (1 << 63) - 1])


def small_ports() -> List[Document]:
    """4 KB of ports without a gap, with regions of every size."""
    rest = [4, 128, 8, 64, 4, 32, 16]
    functions = [endpoint(f"{place}.0", *["io 256"] * 5) for place in range(2, 5)]
    return [endpoint("1.0", *(f"io {size}" for size in rest[:6])), *functions, endpoint("5.0", f"5 io {rest[6]}")]


def top_of_ports() -> Document:
    """Ports that end at FFFFh, without a gap."""
    return board(*small_ports(), bridge("6.0"), endpoint("6.0/0.0", "io 4"), io=[0xE000, 0xFFFF])


def small_regions() -> Document:
    """1 MB of memory without a gap, with regions of every size from 16 bytes on, small ones before large ones."""
    regions = [16, *(1 << bit for low in range(4, 12) for bit in (low, 23 - low))]
    return board(*(endpoint(f"{place}.0", *(f"mem32 {size}" for size in regions[6 * place - 6 : 6 * place]))
                   for place in range(1, 4)))


def least_windows() -> Document:
    """Fifteen bridges on one bus, each with as little as possible behind it: each window is one unit, and they
    are adjacent."""
    return board(*(table for device in range(1, 16) for table in
                   (bridge(f"{device}.0"), endpoint(f"{device}.0/0.0", "io 4", "mem32 16", "mem64p 16"))), pref=HIGH)


def greatest_windows() -> Document:
    """A bridge whose windows are as large as possible: all ports, 2 GB, 1 TB."""
    ports = [table for device in range(1, 16) for table in
             (bridge(f"1.0/{device}.0", "32"), endpoint(f"1.0/{device}.0/0.0", "io 256"))]
    return board(bridge("1.0", "32"), endpoint("1.0/0.0", f"mem64p {TB}", f"mem32 {2 * GB}"), *ports,
                 mem=[0x80000000, 0xFFFFFFFF], pref=[TB, 2 * TB - 1])


def aligned_windows() -> Document:
    """At each level, regions behind bridges need more alignment than a window, next to regions of the same
    length."""
    return board(
        bridge("1.0"), bridge("1.0/0.0"), endpoint("1.0/0.0/0.0", f"mem32 {16 * MB}", f"mem64p {32 * MB}"),
        endpoint("1.0/1.0", "mem32 256", f"mem64p {MB}"), bridge("2.0"), bridge("2.0/3.0"),
        endpoint("2.0/3.0/0.0", "mem32 4096", f"mem32 {8 * MB}"), endpoint("2.0/4.0", f"mem32 {2 * MB}"),
        endpoint("3.0", f"mem32 {4 * MB}", f"mem64p {16 * MB}"), pref=HIGH)


def without_windows() -> Document:
    """Bridges without I/O windows or without prefetchable windows, next to and behind bridges that have them."""
    return board(
        bridge("1.0", "none", "64"), endpoint("1.0/0.0", "mem32 4096", f"mem64p {MB}"),
        bridge("2.0", "16", "none"), endpoint("2.0/0.0", "io 16", f"mem64p {2 * MB}", f"mem32p {MB}"),
        bridge("3.0", "none", "none"), bridge("3.0/0.0", "none", "64"),
        endpoint("3.0/0.0/0.0", f"mem64p {MB}", "mem32 64"), bridge("4.0", "32", "64"), bridge("4.0/0.0", "16", "none"),
        endpoint("4.0/0.0/0.0", "io 64", f"mem64p {MB}"), endpoint("4.0/1.0", f"mem64p {MB}", "io 8"), pref=HIGH)


def narrow_windows() -> Document:
    """32-bit prefetchable windows above and below 64-bit ones, with prefetchable memory above 4 GB."""
    return board(
        bridge("1.0", pref="32"), endpoint("1.0/0.0", f"mem64p {2 * MB}"), bridge("1.0/1.0"),
        endpoint("1.0/1.0/0.0", f"mem64p {MB}", "mem32p 4096"), bridge("2.0"), bridge("2.0/0.0", pref="32"),
        endpoint("2.0/0.0/0.0", f"mem64p {MB}"), endpoint("2.0/1.0", f"mem64p {MB}", f"mem32p {MB}"), pref=HIGH)


def prefetchable_below() -> Document:
    """Prefetchable memory below 4 GB, behind bridges of each kind."""
    return board(
        bridge("1.0", pref="32"), endpoint("1.0/0.0", f"mem32p {2 * MB}", f"mem64p {MB}"), bridge("2.0", pref="64"),
        endpoint("2.0/0.0", f"mem32p {MB}", f"mem64p {4 * MB}", "mem32 16"), bridge("3.0", pref="none"),
        endpoint("3.0/0.0", f"mem32p {MB}", "mem64p 4096"), endpoint("4.0", "mem32p 4096", "mem32 4096"),
        mem=[0x80000000, 0xBFFFFFFF], pref=LAST_GB)


def not_prefetchable() -> Document:
    """64-bit regions that aren't prefetchable, behind bridges with prefetchable windows."""
    return board(
        bridge("1.0"), endpoint("1.0/0.0", f"mem64 {MB}", f"mem64p {MB}"), bridge("2.0"), bridge("2.0/0.0"),
        endpoint("2.0/0.0/0.0", "mem64 4096", f"mem64p {GB}"), endpoint("3.0", f"mem64 {2 * MB}"), pref=HIGH)


def deep() -> Document:
    """A chain of fifteen bridges, with regions at each level."""
    tables = []
    for depth in range(15):
        at = "/".join(["15.0"] * (depth + 1))
        tables += [bridge(at, "32"), endpoint(f"{at}/0.0", "io 16", f"mem32 {4 * KB}", "mem64p 4096", device=depth)]
    return board(*tables, pref=HIGH)


def many_buses() -> Document:
    """The largest number of bridges, 255: the last bus is FFh. Two have I/O windows: 64 KB of ports are too few for one in each."""
    at = [f"{first}.0" for first in range(1, 16)]
    at += [f"{first}.0/{second}.0" for first in range(1, 16) for second in range(16)]
    tables = [bridge(each, "16" if each in ("15.0", "15.0/15.0") else "none", "none") for each in at]
    ends = [endpoint(f"{above}/3.0", f"mem32 {4 * KB}") for above in ("1.0/0.0", "8.0/0.0", "8.0/15.0", "15.0/14.0")]
    return board(*tables, *ends, endpoint("15.0/15.0/15.0", "mem32 16", "io 4"))


def many_functions() -> Document:
    """Devices with gaps between their functions, some of which are bridges, and all device numbers."""
    gaps = [endpoint(f"{at}", "mem32 256", "io 8") for at in ("1.0", "1.7", "2.0", "2.3", "2.5", "15.0", "15.1")]
    behind = [endpoint("3.4/0.0", "mem32 4096"), endpoint("3.4/0.6", "io 32"), endpoint("3.7/15.0", "mem32 4096")]
    singles = [endpoint(f"{device}.0", "mem32 16") for device in range(4, 15)]
    return board(*gaps, endpoint("3.0"), bridge("3.4"), bridge("3.7"), *behind, *singles)


def last_devices() -> Document:
    """Devices 16 to 31 on bus 0, and at the ends of the bus behind a bridge that is the very last function."""
    singles = [endpoint(f"{device}.0", "mem32 16") for device in range(16, 31)]
    behind = [endpoint(f"31.7/{device}.0", "mem32 4096") for device in (0, 15, 16, 31)]
    return board(*singles, endpoint("31.0", "io 8"), bridge("31.7"), *behind, endpoint("31.7/31.7", "io 4"), devices=32)


def odd_bits() -> Document:
    """Functions whose own bit 7 of Header Type is clear, before others of their device; and read-only bits of Status."""
    clear: Dict[str, Any] = {"multifunction": False}
    return board(
        endpoint("1.0", "mem32 16", fixed_status=0x0200), endpoint("1.2", "mem32 256", **clear),
        endpoint("1.5", "io 4", fixed_status=0x02A0, **clear), endpoint("2.0", fixed_status=0x06E0),
        bridge("2.1", fixed_status=0x02A0, fixed_secondary_status=0x0280, **clear), endpoint("2.1/0.0", "mem32 4096"),
        endpoint("2.1/0.1", "mem32 4096", **clear), endpoint("2.1/0.7", "io 8"), endpoint("2.3", "mem32 16", status=0x8000))


def identities() -> Document:
    """Vendor IDs, Device IDs and class codes at the ends of their ranges. Only Vendor ID FFFFh means that there
    is no function. Some of the class codes are those of other kinds of bridges, which have no bus behind
    them."""
    odd = [(0x1234, 0xFFFF, 0xFFFFFF), (0x1234, 0, 0), (0x1234, 0xFFFF, 0x068000), (0x1234, 1, 0x060000), (0x1234, 0x8000, 0x060100),
           (0x1234, 0, 0x060980), (0x1234, 0x7010, 0x010180), (0, 0, 0xFF0000), (0, 0xFFFF, 0xFF0000), (1, 0xFFFF, 0xFF0000),
           (1, 1, 0xFF0000), (0xFFFE, 0xFFFF, 0xFF0000)]
    tables = [endpoint(f"{place}.0", "mem32 4096", "io 16", vendor=vendor, device=device, **{"class": code})
              for place, (vendor, device, code) in enumerate(odd, 1)]
    return board(*tables, {**bridge("13.0"), "device": 0xFFFF}, endpoint("13.0/0.0", "mem32 16", device=0),
                 {**bridge("14.0"), "vendor": 0}, endpoint("14.0/0.0", "mem32 16", vendor=0))


def registers() -> Document:
    """Regions at each register, after gaps."""
    high = [endpoint(f"{place}.0", f"{index} mem64p 4096") for place, index in enumerate((1, 3, 4), 1)]
    return board(
        *high, endpoint("4.0", "5 mem32 4096"), endpoint("5.0", "5 io 64"), endpoint("6.0", *["io 4"] * 6),
        endpoint("7.0", *["mem32 16"] * 6), endpoint("8.0", "mem64 16", "3 io 8", "mem64p 65536"), bridge("9.0"),
        endpoint("9.0/0.0", "mem64p 4096", "mem64 4096", "mem64p 4096"), endpoint("9.0/1.0", "5 io 4"), pref=HIGH)


def siblings() -> Document:
    """Bridges on one bus with bridges behind them: what is behind the later ones is found last."""
    tables = []
    for first in (1, 5, 9):
        tables += [bridge(f"{first}.0"), endpoint(f"{first}.0/9.0", "mem32 4096")]
        for second in (0, 4):
            tables += [bridge(f"{first}.0/{second}.0"), endpoint(f"{first}.0/{second}.0/2.0", "io 16", "mem32 16")]
    return board(*tables)


def empty_bridges() -> Document:
    """Bridges with nothing behind them, on one bus and in a chain, next to bridges with one kind of region."""
    return board(
        bridge("1.0"), bridge("2.0"), bridge("3.0"), bridge("3.0/0.0"), bridge("4.0"), endpoint("4.0/0.0", "io 4"),
        bridge("5.0"), endpoint("5.0/0.0", "mem32 16"), bridge("6.0"), endpoint("6.0/0.0", "mem64p 16"),
        bridge("7.0"), bridge("7.0/0.0"), endpoint("8.0", "mem32 16", "io 4"), pref=HIGH)


def status_bits() -> Document:
    """Functions with bits of Status that are set at reset, with regions in either space."""
    return board(
        endpoint("1.0", "mem32 4096", "io 16", status=0xF900), endpoint("2.0", "mem32 4096", status=0x0100), bridge("3.0"),
        endpoint("3.0/0.0", "mem32 4096", "io 16", status=0x8000), endpoint("3.0/1.0", status=0x4000))


def capabilities() -> Document:
    """Functions with power management, MSI and MSI-X, on bus 0 and behind a bridge."""
    power = {"id": 0x01, "off": 0x40, "block": 8, "reset": "030000000000", "rw": "000003010000"}
    msi = {"id": 0x05, "off": 0x50, "block": 14, "reset": "8000", "rw": "7100fcffffffffffffffffff"}
    table = {"id": 0x11, "off": 0x70, "block": 12, "reset": "00000000000000080000", "rw": "00c0"}
    return board(
        endpoint("1.0", "mem32 4096", "io 16", capability=[power, msi]), bridge("2.0"),
        endpoint("2.0/0.0", "mem32 4096", capability=[table, power]), endpoint("2.0/1.0", "mem64p 4096", capability=[msi]))


def no_ports_left() -> Document:
    """More ports than are available, next to memory that fits."""
    ports = [endpoint(f"{place}.0", *["io 256"] * 6) for place in range(1, 4)]
    return board(*ports, bridge("4.0"), endpoint("4.0/0.0", "mem32 4096"), io=[0x1000, 0x1FFF])


def no_memory_left() -> Document:
    """More memory than is available, most of it behind a bridge."""
    return board(endpoint("1.0", f"mem32 {MB}", "io 16"), bridge("2.0"), endpoint("2.0/0.0", f"mem32 {2 * MB}", "mem32 16"),
                 endpoint("3.0", f"mem32 {MB}"), mem=[0xC0000000, 0xC03FFFFF])


def no_prefetchable_left() -> Document:
    """More prefetchable memory than is available."""
    return board(endpoint("1.0", f"mem64p {4 * GB}"), bridge("2.0"), endpoint("2.0/0.0", f"mem64p {2 * GB}"),
                 endpoint("2.0/1.0", "mem32 4096", "io 16"), pref=[4 * GB, 8 * GB - 1])


def ports_past_the_end() -> Document:
    """One unit of ports more than there are, at the end of I/O space: a 16-bit number wraps to 0 after the first region."""
    return board(endpoint("1.0", "io 16"), bridge("2.0"), endpoint("2.0/0.0", "io 16"), io=[0xF000, 0xFFFF])


def memory_past_the_end() -> Document:
    """More memory than there is, at the end of 32-bit addresses: a 32-bit number wraps to 0 after the first region."""
    return board(endpoint("1.0", f"mem32 {MB}"), endpoint("2.0", "mem32 4096"), mem=[0xFFF00000, 0xFFFFFFFF])


#: the boards by name
SPECIAL: Dict[str, Callable[[], Document]] = {
    drawn.__name__: drawn
    for drawn in (
        large_regions, half_of_memory, from_zero, top_of_memory, last_region, top_of_prefetchable, top_of_ports, small_regions,
        least_windows, greatest_windows, aligned_windows, without_windows, narrow_windows, prefetchable_below,
        not_prefetchable, deep, many_buses, many_functions, last_devices, odd_bits,
        identities, registers, siblings, empty_bridges, status_bits,
        capabilities, no_ports_left, no_memory_left, no_prefetchable_left, ports_past_the_end, memory_past_the_end)
}

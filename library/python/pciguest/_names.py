"""The names of registers in configuration space, as the prompt accepts them, with the offset and width of each.
The page, the tests and tools/from_lspci.py use them, too."""

from __future__ import annotations

from typing import Dict, Tuple

Registers = Dict[str, Tuple[int, int]]

_BOTH: Registers = {
    "vendor": (0x00, 2), "device": (0x02, 2),
    "command": (0x04, 2), "status": (0x06, 2),
    "revision": (0x08, 1), "interface": (0x09, 1), "subclass": (0x0A, 1), "class": (0x0B, 1),
    "cacheline": (0x0C, 1), "latency": (0x0D, 1), "header": (0x0E, 1),
}

_INTERRUPT: Registers = {"line": (0x3C, 1), "pin": (0x3D, 1)}

#: of an endpoint, by its offset
ENDPOINT: Registers = {
    **_BOTH,
    **{f"bar{index}": (0x10 + 4 * index, 4) for index in range(6)},
    "subvendor": (0x2C, 2), "subsystem": (0x2E, 2),
    **_INTERRUPT, "min_gnt": (0x3E, 1), "max_lat": (0x3F, 1),
}

#: the registers that a board file declares for an endpoint, by their keys there, in the order in which an image has them
DECLARED: Registers = {
    key: (0x09, 3) if key == "class" else ENDPOINT[key]
    for key in ("vendor", "device", "revision", "class", "subvendor", "subsystem", "pin", "min_gnt", "max_lat", "status")
}

#: the bytes of an endpoint's header, except its base address registers, whose values an image has
HEADER = (*range(0x00, 0x0F), *range(0x2C, 0x30), *range(0x3C, 0x40))

#: of a bridge
BRIDGE: Registers = {
    **_BOTH,
    "primary": (0x18, 1), "secondary": (0x19, 1), "subordinate": (0x1A, 1),
    "secondary_latency": (0x1B, 1),
    "io_base": (0x1C, 1), "io_limit": (0x1D, 1), "secondary_status": (0x1E, 2),
    "mem_base": (0x20, 2), "mem_limit": (0x22, 2),
    "pref_base": (0x24, 2), "pref_limit": (0x26, 2),
    "pref_base_upper": (0x28, 4),
    "pref_limit_upper": (0x2C, 4),
    "io_base_upper": (0x30, 2), "io_limit_upper": (0x32, 2),
    **_INTERRUPT, "bridge_control": (0x3E, 2),
}

#: what the standards call each of these registers, for the page
TITLES: Dict[str, str] = {
    "vendor": "Vendor ID", "device": "Device ID", "command": "Command", "status": "Status", "revision": "Revision ID",
    "interface": "Class Code, interface", "subclass": "Class Code, subclass", "class": "Class Code, base class",
    "cacheline": "Cache Line Size", "latency": "Latency Timer", "header": "Header Type",
    **{f"bar{index}": f"Base Address Register {index}" for index in range(6)},
    "subvendor": "Subsystem Vendor ID", "subsystem": "Subsystem ID",
    "line": "Interrupt Line", "pin": "Interrupt Pin", "min_gnt": "Min_Gnt", "max_lat": "Max_Lat",
    "primary": "Primary Bus Number", "secondary": "Secondary Bus Number", "subordinate": "Subordinate Bus Number",
    "secondary_latency": "Secondary Latency Timer",
    "io_base": "I/O Base", "io_limit": "I/O Limit", "secondary_status": "Secondary Status",
    "mem_base": "Memory Base", "mem_limit": "Memory Limit",
    "pref_base": "Prefetchable Memory Base", "pref_limit": "Prefetchable Memory Limit",
    "pref_base_upper": "Prefetchable Base Upper 32 Bits", "pref_limit_upper": "Prefetchable Limit Upper 32 Bits",
    "io_base_upper": "I/O Base Upper 16 Bits", "io_limit_upper": "I/O Limit Upper 16 Bits",
    "bridge_control": "Bridge Control",
}

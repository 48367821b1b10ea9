"""What is wrong in a register state, by a second hand: registers, cycles and the audit of docs/PROFILE.md."""
from collections import namedtuple
from itertools import combinations

from board import Endpoint, bridges_above, path_text
from guests import endpoint_cells, number_at, put, write_at
from keys import bits

# who may answer on a bus: its path, what it is called, its space, and pairs of first and last address
Agent = namedtuple("Agent", "path name space ranges")


def bridge_cells(bridge):
    """The configuration cells of a bridge at reset."""
    cells = {}
    put(cells, 0x00, 4, bridge.values["vendor"] | bridge.values["device"] << 16)
    put(cells, 0x04, 2, 0, bits("writable", 1, 0x04))
    put(cells, 0x06, 2, bridge.values.get("fixed_status", 0), 0, bits("clears", 1, 0x06))
    put(cells, 0x08, 4, bridge.values.get("revision", 0) | 0x06040000)
    put(cells, 0x0C, 2, 0, 0xFFFF)
    put(cells, 0x18, 4, 0, 0xFFFFFFFF)
    put(cells, 0x1E, 2, bridge.values.get("fixed_secondary_status", 0), 0, 0xF900)
    put(cells, 0x20, 4, 0, 0xFFF0FFF0)
    put(cells, 0x3C, 1, 0, 0xFF)
    if bridge.io != "none":
        put(cells, 0x1C, 2, 0x0101 * (bridge.io == "32"), 0xF0F0)
    if bridge.io == "32":
        put(cells, 0x30, 4, 0, 0xFFFFFFFF)
    if bridge.pref != "none":
        put(cells, 0x24, 4, 0x10001 * (bridge.pref == "64"), 0xFFF0FFF0)
    if bridge.pref == "64":
        put(cells, 0x28, 8, 0, (1 << 64) - 1)
    return cells


class State:
    """The registers of a board, from reset on."""

    def __init__(self, board):
        self.functions = {function.path: function for function in sorted(board.functions, key=lambda one: one.path)}
        self.cells = {}
        for path, function in self.functions.items():
            self.cells[path] = (endpoint_cells if isinstance(function, Endpoint) else bridge_cells)(function)
            put(self.cells[path], 0x0E, 1, board.header_type(function))

    def read_bytes(self, path, off, width):
        return number_at(self.cells[path], off, width)

    def byte(self, path, off):
        return self.read_bytes(path, off, 1)

    def is_bridge(self, path):
        return not isinstance(self.functions[path], Endpoint)

    def reached(self, at):
        """The path of the function that a cycle for (bus, device, function) reaches, or None."""
        bus, *part = at
        above = () if bus == 0 else self.bus_reached((), bus)
        path = None if above is None else above + (tuple(part),)
        return path if path in self.functions else None

    def bus_reached(self, on, bus):
        """The bridge behind which a type 1 cycle becomes one of type 0, from a bus on."""
        for path in self.functions:
            if path[:-1] == on and self.is_bridge(path) and self.byte(path, 0x19) <= bus <= self.byte(path, 0x1A):
                return path if self.byte(path, 0x19) == bus else self.bus_reached(path, bus)
        return None

    def read(self, at, off):
        path = self.reached(at)
        return 0xFFFFFFFF if path is None else self.read_bytes(path, off, 4)

    def write(self, at, off, width, value):
        path = self.reached(at)
        if path is not None:
            write_at(self.cells[path], off, width, value)

    def opens(self, path, space):
        return self.byte(path, 4) & (1 if space == "I/O" else 2) != 0

    def base(self, endpoint, bar):
        return bar.base(self.read_bytes(endpoint.path, bar.offset, bar.width))

    def regions(self):
        """The regions of all endpoints by path and register: path, declaration and base."""
        for path, endpoint in self.functions.items():
            if not self.is_bridge(path):
                for bar in sorted(endpoint.bars, key=lambda one: one.index):
                    yield path, bar, self.base(endpoint, bar)

    def open_regions(self):
        return [region for region in self.regions() if self.opens(region[0], region[1].space)]

    def regions_at(self, space, address):
        """The regions that hold an address."""
        return [(path, bar, base) for path, bar, base in self.regions()
                if bar.space == space and base <= address < base + bar.size]

    def claims(self, space, address):
        """Those of them that are open, and to which all bridges above forward the address."""
        return [region for region in self.regions_at(space, address) if self.opens(region[0], space)
                and all(self.forwards(bridge, space, address) for bridge in bridges_above(region[0]))]

    def window(self, path, off, width, upper=None):
        """First and last address of a window, by its registers: base and limit, and where their upper bits are, if any."""
        first, last = ((self.read_bytes(path, at, width) & -0x10) << 8 * width for at in (off, off + width))
        if upper:
            first |= self.read_bytes(path, upper, 2 * width) << 16 * width
            last |= self.read_bytes(path, upper + 2 * width, 2 * width) << 16 * width
        return first, last | (0x10 << 8 * width) - 1

    def windows(self, path, space):
        """The windows that a bridge has for a space: by its name the first and last address of each."""
        bridge = self.functions[path]
        if space == "I/O":
            upper = 0x30 if bridge.io == "32" else None
            return {} if bridge.io == "none" else {"I/O": self.window(path, 0x1C, 1, upper)}
        upper = 0x28 if bridge.pref == "64" else None
        pref = {} if bridge.pref == "none" else {"prefetchable": self.window(path, 0x24, 2, upper)}
        return {"memory": self.window(path, 0x20, 2), **pref}

    def forwarded(self, path, space):
        """What a bridge forwards of a space, as pairs of first and last address."""
        windows = self.windows(path, space).values() if self.opens(path, space) else []
        return [(first, last) for first, last in windows if first <= last]

    def forwards(self, bridge, space, address):
        return any(first <= address <= last for first, last in self.forwarded(bridge, space))


def region_text(path, bar, base):
    return f"{path_text(path)} bar{bar.index} at {base:#x} size {bar.size:#x}"


def least_left(first, last, windows):
    """The least address from first to last in no window, or None."""
    inside = True
    while inside and first <= last:
        inside = [end for begin, end in windows if begin <= first <= end]
        first = max(inside) + 1 if inside else first
    return first if first <= last else None


def forwarding_problems(state):
    for path, bar, base in state.open_regions():
        for bridge in bridges_above(path):
            lost = least_left(base, base + bar.size - 1, state.forwarded(bridge, bar.space))
            if lost is not None:
                yield f"{region_text(path, bar, base)}: {lost:#x} is not forwarded by bridge {path_text(bridge)}"
                break


def agents(state):
    for path, bar, base in state.open_regions():
        yield Agent(path, f"{path_text(path)} bar{bar.index}", bar.space, [(base, base + bar.size - 1)])
    for path in filter(state.is_bridge, state.functions):
        for space in ["I/O", "memory"]:
            yield Agent(path, path_text(path), space, state.forwarded(path, space))


def contentions(state):
    for one, other in combinations(sorted(agents(state), key=lambda agent: agent.path), 2):
        if (one.path[:-1], one.space) != (other.path[:-1], other.space):
            continue
        meets = [max(first, begin) for first, last in one.ranges for begin, end in other.ranges
                 if max(first, begin) <= min(last, end)]
        if meets:
            yield f"{one.name} and {other.name}: address conflict at {one.space} {min(meets):#x}"


def numbering_problems(state):
    for path in state.functions:
        bus = state.byte(path[:-1], 0x19) if len(path) > 1 else 0
        found = state.reached((bus, *path[-1]))
        if found != path:
            at = f"{bus:02x}:{path[-1][0]:02x}.{path[-1][1]}"
            yield f"{path_text(path)}: a configuration cycle to {at} reaches {path_text(found) if found else 'nothing'}"


def audit(state):
    """The lines of an audit."""
    wrong = [*forwarding_problems(state), *contentions(state), *numbering_problems(state)]
    count = "ok" if not wrong else "1 problem" if len(wrong) == 1 else f"{len(wrong)} problems"
    return [f"audit: {line}" for line in [*wrong, count]]

"""Set-up of a board by a second hand: bus numbers, placement, windows and the report."""
from board import Bridge, Endpoint, path_text

PINS = ["INTA", "INTB", "INTC", "INTD"]
UNITS = {"io": 0x1000, "mem": 0x100000, "pref": 0x100000}
REFUSALS = {"io": 203, "mem": 204, "pref": 205}


class Refused(Exception):
    """The number of a refusal."""


def up(at, unit):
    return -(-at // unit) * unit


class Layout:
    """Where everything of a board stands, if it is to be placed: `bases` by path and register, `windows` by path and
    pool."""

    def __init__(self, board, is_placed=True):
        self.board = board
        self.bridges = [function for function in board.functions if isinstance(function, Bridge)]
        self.numbers = {(): 0}
        for bridge in self.bridges:
            self.numbers[bridge.path] = len(self.numbers)
        if len(self.bridges) > 255:
            raise Refused(201)
        self.bases, self.windows = {}, {}
        if not is_placed:
            return
        self.check_ports()
        for pool in ["io", "mem", "pref"]:
            self.place(pool)

    def above(self, path):
        return [bridge for bridge in self.bridges if bridge.path == path[: len(bridge.path)] and bridge.path != path]

    def check_ports(self):
        for endpoint in self.board.endpoints():
            if any(bar.kind == "io" for bar in endpoint.bars):
                if any(bridge.io == "none" for bridge in self.above(endpoint.path)):
                    raise Refused(202)

    def pool_of(self, endpoint, bar):
        """The pool that a region is placed in."""
        if bar.kind == "io":
            return "io"
        pref = self.board.apertures.get("pref")
        bridges = self.above(endpoint.path)
        if not bar.kind.endswith("p") or not pref:
            return "mem"
        if pref[1] < 1 << 32:
            return "pref" if all(bridge.pref != "none" for bridge in bridges) else "mem"
        wide = bar.kind == "mem64p" and all(bridge.pref == "64" for bridge in bridges)
        return "pref" if wide else "mem"

    def items(self, bus, pool):
        """What stands on a bus, each as (size, alignment, place on the bus, region, bridge)."""
        found = []
        for function in self.board.functions:
            if function.path[:-1] != bus:
                continue
            if isinstance(function, Endpoint):
                found += [(bar.size, bar.size, function.path[-1] + (bar.index,), (function.path, bar.index), None)
                          for bar in function.bars if self.pool_of(function, bar) == pool]
            else:
                size, alignment = self.pack(function.path, pool)
                if size:
                    unit = UNITS[pool]
                    found.append((up(size, unit), max(alignment, unit), function.path[-1] + (0,), None, function.path))
        return sorted(found, key=lambda item: (-item[1], item[2]))

    def pack(self, bus, pool, at=None):
        """The end and the alignment of what stands on a bus; places it where `at` is given."""
        end, alignment = 0, 1
        for size, needed, _, region, bridge in self.items(bus, pool):
            start = up(end, needed)
            end, alignment = start + size, max(alignment, needed)
            if at is not None and region:
                self.bases[region] = at + start
            elif at is not None:
                self.windows[bridge, pool] = (at + start, at + start + size - 1)
                self.pack(bridge, pool, at + start)
        return end, alignment

    def place(self, pool):
        end, alignment = self.pack((), pool)
        if end == 0:
            return
        first, last = self.board.apertures[pool]
        at = up(first, alignment)
        if at + end - 1 > last:
            raise Refused(REFUSALS[pool])
        self.pack((), pool, at)

    def number(self, path):
        """Bus, device and function."""
        return (self.numbers[path[:-1]],) + path[-1]

    def behind(self, path):
        """The last bus behind a bridge."""
        return max(self.numbers[bridge.path] for bridge in self.bridges if bridge.path[: len(path)] == path)

    def report(self):
        """What `list` writes."""
        lines = [f"endpoints {len(self.board.endpoints())} bridges {len(self.bridges)}"]
        for function in self.board.functions:
            bus, device, number = self.number(function.path)
            named = f"{bus:02x}:{device:02x}.{number} {path_text(function.path)}"
            ids = f"{function.values['vendor']:04x}:{function.values['device']:04x}"
            if isinstance(function, Endpoint):
                lines.append(f"{named} endpoint {ids}")
                lines += self.regions(function)
            else:
                own = self.numbers[function.path]
                lines.append(f"{named} bridge {ids} buses {bus:02x} {own:02x} {self.behind(function.path):02x}")
                lines += [f"  {pool} {window[0]:#x} {window[1]:#x}" for pool in ["io", "mem", "pref"]
                          for window in [self.windows.get((function.path, pool))] if window]
        for name, slots in self.board.guests:
            lines += [f"guest {name} slot {slot} {path_text(path)}" for slot, path in enumerate(slots)]
        return "\n".join(lines) + "\n"

    def regions(self, endpoint):
        """The lines under an endpoint."""
        lines = [f"  bar{bar.index} {bar.kind} at {self.bases[endpoint.path, bar.index]:#x} size {bar.size:#x}"
                 for bar in endpoint.bars]
        pin = endpoint.values.get("pin", 0)
        if pin:
            root = (pin - 1 + sum(device for device, _ in endpoint.path[1:])) % 4
            lines.append(f"  irq {PINS[pin - 1]} at {endpoint.path[0][0]} {PINS[root]}")
        return lines

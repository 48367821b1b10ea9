"""Boards, of documents or by a generator of random numbers, and their board files."""

from keys import RANGES

IDENTITY = {"vendor", "device", "revision", "class"}
# the read-only bits of Status that a function may declare
FIXED_STATUS = 0x06E0
SIZES = {"io": (2, 8), "mem32": (4, 31), "mem32p": (4, 31), "mem64": (4, 40), "mem64p": (4, 40)}


class Bar:
    """A declared region with its block of cells."""

    def __init__(self, index, kind, size, block, patterns):
        self.index, self.kind, self.size, self.block, self.patterns = index, kind, size, block, patterns
        self.space, is_wide = "I/O" if kind == "io" else "memory", kind.startswith("mem64")
        # its registers: where they begin, how many bytes they have, and the bits that say its kind
        self.offset, self.width = 0x10 + 4 * index, 8 if is_wide else 4
        self.type_bits = 1 if kind == "io" else (4 if is_wide else 0) | (8 if kind.endswith("p") else 0)

    def base(self, shown):
        """The base in its registers, of which this is the value."""
        return shown & ~(3 if self.space == "I/O" else 15)


class Endpoint:
    """A declared endpoint. `table` has its numbers and its capability list, and `own` its blocks of cells as (offset, count,
    patterns), as in the file. `values` and `config` have the registers of the list too."""

    def __init__(self, path, table, bars, own):
        self.path, self.table, self.bars, self.own = path, table, bars, own
        structures = list_blocks(table.get("capability", []))
        status = table.get("status", 0) | table.get("fixed_status", 0) | (0x10 if structures else 0)
        self.values, self.config = {**table, "status": status}, structures + own


class Bridge:
    """A declared bridge with the decodes of its windows."""

    def __init__(self, path, values, io, pref):
        self.path, self.values, self.io, self.pref = path, values, io, pref


class Board:
    """Apertures, functions in path order, guests as (name, paths of their slots), and how many devices a bus may have."""

    def __init__(self, apertures, functions, guests, devices=16):
        self.apertures, self.functions, self.guests, self.devices = apertures, functions, guests, devices

    def endpoints(self):
        return [function for function in self.functions if isinstance(function, Endpoint)]

    def header_type(self, function):
        """The Header Type of a function, which says whether its device has others, unless its table leaves that out."""
        is_of_many = sum(other.path[:-1] == function.path[:-1] and other.path[-1][0] == function.path[-1][0]
                         for other in self.functions) > 1
        table = function.values if isinstance(function, Bridge) else function.table
        return int(isinstance(function, Bridge)) | 0x80 * (is_of_many and table.get("multifunction", True))


def masks(given, n):
    """A byte of a block with these patterns: at reset, the bits that a write sets, and those that a one clears."""
    return [given[key][n % len(given[key])] if key in given else 0 for key in ["reset", "rw", "w1c"]]


def spread(text, count):
    """The bytes of a pattern over a block."""
    given = bytes.fromhex(text)
    return bytes(given[n % len(given)] for n in range(count))


def list_blocks(capabilities):
    """The Capabilities Pointer and the structures of a list, with their headers, which are read-only; none of an empty one."""
    found, following = [], 0
    for one in reversed(capabilities):
        header = {"reset": bytes([one["id"], following]), "rw": bytes(2), "w1c": bytes(2)}
        cells = {key: front + spread(one.get(key, "00"), one["block"]) for key, front in header.items()}
        found.append((one["off"], 2 + one["block"], cells))
        following = one["off"]
    return [(0x34, 1, {"reset": bytes([following])}), *found[::-1]] if found else []


def path_of(text):
    return tuple(tuple(map(int, part.split("."))) for part in text.split("/"))


def patterns_of(table):
    return {key: bytes.fromhex(table[key]) for key in ("reset", "rw", "w1c") if key in table}


def board_of(document):
    """The board of a document that is accepted."""
    made = [Bridge(path_of(one["at"]), one, one["io"], one["pref"]) for one in document.get("bridge", [])]
    for one in document.get("endpoint", []):
        bars = [Bar(bar["index"], bar["kind"], bar["size"], bar.get("block", 0), patterns_of(bar))
                for bar in sorted(one.get("bar", []), key=lambda bar: bar["index"])]
        config = [(block["off"], block["block"], patterns_of(block)) for block in one.get("config", [])]
        made.append(Endpoint(path_of(one["at"]), one, bars, config))
    guests = [(guest["name"], [*map(path_of, guest["slots"])]) for guest in document.get("guest", [])]
    host = document["host"]
    apertures = {key: value for key, value in host.items() if key != "devices"}
    return Board(apertures, sorted(made, key=lambda function: function.path), guests, host.get("devices", 16))


def bridges_above(path):
    """The paths of the bridges above a function, from bus 0 on."""
    return [path[:length] for length in range(1, len(path))]


def path_text(path):
    return "/".join(f"{device}.{function}" for device, function in path)


def patterns(rng, block):
    """What stands in a block: a clear-on-one bit is no writable bit."""
    if block == 0:
        return {}
    length = rng.choice([1, 1, 2, 4])
    if length > block:
        length = 1
    writable = bytes(rng.choice([0, 0xFF, 0x0F, 0x55, rng.randrange(256)]) for _ in range(length))
    clearing = bytes(rng.choice([0, 0xFF, 0xF0, rng.randrange(256)]) & ~bits for bits in writable)
    reset = bytes(rng.choice([0, 0xFF, 0xA5, rng.randrange(256)]) for _ in range(length))
    named = {"rw": writable, "w1c": clearing, "reset": reset}
    return {key: value for key, value in named.items() if rng.random() < 0.8}


def random_bars(rng):
    """Regions with registers of their own, most of them small."""
    bars, index = [], 0
    while index < 6:
        if rng.random() < 0.45:
            index += 1
            continue
        kind = rng.choice(list(SIZES))
        if kind.startswith("mem64") and index == 5:
            break
        least, greatest = SIZES[kind]
        most = least + 4 if rng.random() < 0.8 else 24
        size = 1 << (rng.randint(least, min(greatest, most)) if rng.random() < 0.98 else greatest)
        block = rng.choice([0, 1, min(size, 16), min(size, 64), min(size, 4096)])
        bars.append(Bar(index, kind, size, block, patterns(rng, block)))
        index += bars[-1].width // 4
    return bars


def random_config(rng):
    """Blocks of the device's own configuration cells, apart."""
    blocks, at = [], 0x40
    while rng.random() < 0.4 and at < 0x100:
        off = min(0xFF, at + rng.choice([0, 0, 1, 4, 16]))
        count = rng.randint(1, min(0x100 - off, rng.choice([1, 4, 16, 192])))
        blocks.append((off, count, patterns(rng, count)))
        at = off + count
    return blocks


def random_capabilities(rng, config):
    """The structures of a capability list, in any order, apart from these blocks and from each other."""
    found, free = [], set(range(0x40, 0x100)).difference(*(range(off, off + count) for off, count, _ in config))
    for _ in range(rng.choice([0, 0, 0, 1, 2, 3, 4])):
        off = 4 * rng.randrange(0x10, 0x40)
        room = next(end for end in range(off, 0x101) if end not in free) - off - 2
        if room > 0:
            block = rng.randint(1, min(room, rng.choice([1, 6, 10, 190])))
            own = {key: value.hex() for key, value in patterns(rng, block).items()}
            found.append({"id": rng.choice([1, 5, 9, 0x11, 0xFF]), "off": off, "block": block, **own})
            free -= set(range(off, off + 2 + block))
    return found


def odd_bits(rng, path):
    """Keys that any function may have: read-only bits of Status, and bit 7 of Header Type, which only functions 1 to 7 leave
    out."""
    values = {"fixed_status": rng.getrandbits(16) & FIXED_STATUS} if rng.random() < 0.3 else {}
    if rng.random() < 0.4:
        values["multifunction"] = path[-1][1] == 0 or rng.random() < 0.3
    return values


def identity(rng):
    """Values that any function has, some of them left out."""
    values = {"vendor": rng.choice([0, 0x1234, 0xFFFE]), "device": rng.choice([0, 1, 0xFFFF, rng.randrange(0x10000)])}
    if rng.random() < 0.5:
        values["revision"] = rng.randrange(256)
    return values


def random_endpoint(rng, path):
    values = identity(rng)
    values["class"] = rng.choice([0, 0xFF0000, 0xFFFFFF, rng.randrange(1 << 24)])
    for key, greatest in RANGES.items():
        if key not in IDENTITY and rng.random() < 0.4:
            values[key] = rng.randint(0, greatest)
    if rng.random() < 0.5:
        values["status"] = rng.randrange(0x10000) & 0xF900
    values |= odd_bits(rng, path)
    bars, config = random_bars(rng), random_config(rng)
    return Endpoint(path, {**values, "capability": random_capabilities(rng, config)}, bars, config)


def random_bridge(rng, path, io):
    values = {**identity(rng), **odd_bits(rng, path)}
    if rng.random() < 0.3:
        values["fixed_secondary_status"] = rng.getrandbits(16) & FIXED_STATUS
    return Bridge(path, values, io, rng.choice(["none", "32", "64"]))


def random_bus(rng, above, depth, board, windows):
    """Functions of one bus and of all behind it; `windows` tells whether I/O can reach it."""
    count, functions = rng.choice([1, 1, 2, 3, 5]) if above else rng.choice([2, 3, 4, 6, 8]), board.functions
    for device in sorted(rng.sample(range(board.devices), count)):
        more = sorted(rng.sample(range(1, 8), rng.choice([1, 2]))) if rng.random() < 0.3 else []
        for function in [0] + more:
            path = above + ((device, function),)
            if len(functions) >= 60:
                return
            if depth and rng.random() < 0.3:
                io = rng.choice(["16", "32"]) if rng.random() < 0.8 else "none"
                functions.append(random_bridge(rng, path, io))
                random_bus(rng, path, depth - 1, board, windows and io != "none")
            else:
                endpoint = random_endpoint(rng, path)
                if not windows:
                    endpoint.bars = [bar for bar in endpoint.bars if bar.kind != "io" or rng.random() < 0.02]
                functions.append(endpoint)


def random_apertures(rng):
    """Mostly wide apertures, so that boards fit."""
    mem = rng.choice([(0x80000000, 0xFFFFFFFF), (0, 0xFFFFFFFF), (0x100000, 0x7FFFFFFF)])
    apertures = {"io": (0x1000, 0xFFFF), "mem": mem}
    pref = rng.choice([None, (0x100000000, 0x7FFFFFFFFFFFFFFF), (0x400000000, 0x4FFFFFFFF)])
    if rng.random() < 0.3:
        apertures["mem"], pref = (0x80000000, 0xFFFFFFFF), (0x100000, 0x7FFFFFFF)
    if pref:
        apertures["pref"] = pref
    if rng.random() < 0.05:
        apertures["io"] = (0x1000, 0x2FFF)
    if rng.random() < 0.05:
        apertures["mem"] = (0xFFF00000, 0xFFFFFFFF)
    return apertures


def random_guests(rng, endpoints):
    """Guests that have most of the endpoints, one of them nothing now and then."""
    paths = [endpoint.path for endpoint in endpoints]
    rng.shuffle(paths)
    names = rng.sample(["a", "b", "c9", "guest", "z123456789abcdef"], rng.randint(1, 4))
    guests = []
    for name in names:
        count = rng.choice([0, 1, 2, 3, 6, 32])
        guests.append((name, paths[:count]))
        paths = paths[count:]
    return guests


def random_board(rng):
    board = Board(random_apertures(rng), [], [], rng.choice([16, 32]))
    random_bus(rng, (), rng.choice([0, 1, 2, 3, 6]), board, True)
    board.guests = random_guests(rng, board.endpoints())
    return board


def value_text(value):
    """A value of a function's own key."""
    return str(value).lower() if isinstance(value, bool) else f"{value:#x}"


def block_text(pattern):
    return "".join(f', {key} = "{value.hex()}"' for key, value in pattern.items())


def structure_text(one):
    texts = "".join(f', {key} = "{one[key]}"' for key in ["reset", "rw", "w1c"] if key in one)
    return f'{{ id = {one["id"]}, off = {one["off"]}, block = {one["block"]}{texts} }}'


def endpoint_keys(endpoint):
    """The lines of an endpoint below its path."""
    bars = [f'{{ index = {bar.index}, kind = "{bar.kind}", size = {bar.size}, block = {bar.block}'
            + block_text(bar.patterns) + " }" for bar in endpoint.bars]
    config = [f"{{ off = {off}, block = {count}" + block_text(pattern) + " }" for off, count, pattern in endpoint.own]
    structures = [*map(structure_text, endpoint.table.get("capability", []))]
    yield from (f"{key} = {value_text(value)}" for key, value in endpoint.table.items() if key != "capability")
    yield from (f"{key} = [{', '.join(texts)}]" for key, texts in
                [("bar", bars), ("config", config), ("capability", structures)] if texts)


def bridge_keys(bridge):
    yield from (f"{key} = {value_text(value)}" for key, value in bridge.values.items())
    yield from (f'io = "{bridge.io}"', f'pref = "{bridge.pref}"')


def board_file(board):
    """The text of a board file."""
    lines = ["[host]"]
    lines += [f"{key} = [{first:#x}, {last:#x}]" for key, (first, last) in board.apertures.items()]
    lines += [f"devices = {board.devices}"] if board.devices != 16 else []
    for function in board.functions:
        kind, below = ("endpoint", endpoint_keys) if isinstance(function, Endpoint) else ("bridge", bridge_keys)
        lines += [f"[[{kind}]]", f'at = "{path_text(function.path)}"', *below(function)]
    for name, slots in board.guests:
        texts = ", ".join(f'"{path_text(path)}"' for path in slots)
        lines += ["[[guest]]", f'name = "{name}"', f"slots = [{texts}]"]
    return "\n".join(lines) + "\n"

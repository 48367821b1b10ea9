"""The rules of a board file, by docs/board-file.md: the first check that a file fails, and all that breaks it or a check
that is made together with it: those of keys, those of values, and that of patterns."""
import re
import tomllib
from dataclasses import dataclass

from keys import CHOICES, KEYS, NEEDED, OPTIONAL, RANGES

TEXTS = {"at", "name", "reset", "rw", "w1c"}
LISTS = KEYS.keys() - {"", "host"}
SIZES = {"io": (4, 256), "mem32": (16, 1 << 31), "mem32p": (16, 1 << 31), "mem64": (16, 1 << 40),
         "mem64p": (16, 1 << 40)}
# ranges of blocks of cells: table and key, the least and the greatest, and how they are told
BLOCK_RANGES = [("bar", "block", 0, 4096, "0 to 4096"), ("config", "off", 0x40, 0xFF, "0x40 to 0xff"),
                ("config", "block", 1, 192, "1 to 192"), ("capability", "id", 1, 0xFF, "1 to 0xff"),
                ("capability", "off", 0x40, 0xFC, "0x40 to 0xfc, a multiple of 4"), ("capability", "block", 1, 190, "1 to 190")]
# bits that a number may have, by its key
BITS = {"status": 0xF900, "fixed_status": 0x06E0, "fixed_secondary_status": 0x06E0}
# blocks of configuration space: the bytes of the header before each, and the help where one has no room
HEADERS = {"config": 0, "capability": 2}
ROOM = {"config": "", "capability": "the header of a structure takes the two bytes at off, and its block follows them"}


@dataclass
class Problem:
    """What a message says, with its help below, but without places; the table with a header that it is about, and the key of
    that table; the same places of the other entries that it names; and the number of the check."""
    text: str
    table: tuple
    outer: str
    others: list
    number: int


@dataclass
class Entry:
    """A table or a slot: its kind, its name in a message, what it has, and where it stands in the file."""
    kind: str
    name: str
    values: dict
    table: tuple
    outer: str | None
    owner: str | None


def is_integer(value):
    return type(value) is int


def are_tables(value):
    return isinstance(value, list) and all(isinstance(one, dict) for one in value)


def has_form(kind, key, value):
    """Whether a value has the type, or is one of the words, that its key asks."""
    if (kind, key) in CHOICES:
        return value in CHOICES[kind, key] if isinstance(value, str) else False
    if kind == "host" and key != "devices":
        return isinstance(value, list) and len(value) == 2 and all(map(is_integer, value))
    if key == "host":
        return isinstance(value, dict)
    if key == "multifunction":
        return isinstance(value, bool)
    if key in LISTS:
        return are_tables(value)
    if key == "slots":
        return isinstance(value, list) and all(isinstance(one, str) for one in value)
    return isinstance(value, str) if key in TEXTS else is_integer(value)


def tables(values, key):
    found = values.get(key)
    return [one for one in found if isinstance(one, dict)] if isinstance(found, list) else []


def text_of(value):
    return value if isinstance(value, str) else None


def entries(document):
    """All entries: the file, its apertures, endpoints, bridges and guests, each with what stands in it."""
    yield Entry("", "file", document, ("", 0), None, None)
    if isinstance(document.get("host"), dict):
        yield Entry("host", "host", document["host"], ("host", 0), None, None)
    for index, endpoint in enumerate(tables(document, "endpoint")):
        table, owner = ("endpoint", index), text_of(endpoint.get("at"))
        yield Entry("endpoint", f"endpoint[{index}]", endpoint, table, None, owner)
        for kind in ["bar", *HEADERS]:
            for inner, values in enumerate(tables(endpoint, kind)):
                yield Entry(kind, f"endpoint[{index}].{kind}[{inner}]", values, table, kind, owner)
    for index, bridge in enumerate(tables(document, "bridge")):
        yield Entry("bridge", f"bridge[{index}]", bridge, ("bridge", index), None, text_of(bridge.get("at")))
    for index, guest in enumerate(tables(document, "guest")):
        table, owner = ("guest", index), text_of(guest.get("name"))
        yield Entry("guest", f"guest[{index}]", guest, table, None, owner)
        slots = guest.get("slots")
        for inner, slot in enumerate(slots if isinstance(slots, list) else []):
            yield Entry("slot", f"guest[{index}].slots[{inner}]", {"": slot}, table, "slots", owner)


def of(every, *kinds):
    """The entries of some kinds."""
    return [entry for entry in every if entry.kind in kinds]


def problem(entry, key, words, number, *others, has_subject=True, remedy="", label="error"):
    """A message: of `words`, each {} is the name of another entry."""
    name, _, last = entry.name.rpartition(".") if entry.kind == "slot" else (entry.name, "", key)
    value = entry.values.get(key)
    shown = f" = {str(value).lower()}" if isinstance(value, int) else f' = "{value}"' if isinstance(value, str) else ""
    owner = "" if entry.owner is None or key in {"at", "name"} else f' ("{entry.owner}")'
    place = f"{name}{owner}: " if entry.kind else ""
    subject = f"{last}{shown} " if has_subject else ""
    said = words.format(*(other.name for other in others)) if others else words
    text = f"{label}: {place}{subject}{said}" + (f" ({number})" if number else "") + (f"\n  help: {remedy}" if remedy else "")
    named = [(other.table, other.outer or key) for other in others]
    return Problem(text, entry.table, entry.outer or key, named, number)


FORMS = {"host": "a table: write [host]", "multifunction": "true or false, without quotes", "slots": 'an array of strings such as ["1.0", "2.0/0.0"]',
         ("bar", "kind"): '"io", "mem32", "mem32p", "mem64" or "mem64p"',
         ("bridge", "io"): '"none", "16" or "32"', ("bridge", "pref"): '"none", "32" or "64"'}


def asked(kind, key):
    """What the value of a key must be."""
    if (kind, key) in FORMS:
        return FORMS[kind, key]
    if kind == "host" and key != "devices":
        return "an array of two integers such as [0x1000, 0xffff]"
    if key in LISTS:
        return f"an array of tables: write [[{'endpoint.' if kind == 'endpoint' else ''}{key}]]"
    if key in {"reset", "rw", "w1c"}:
        return 'hexadecimal digits in quotes, such as "ff"'
    return FORMS.get(key) or ("a string in quotes" if key in TEXTS else "an integer such as 16 or 0x10, without quotes")


def distance(word, other):
    """How many letters are put in, taken out or changed."""
    row = list(range(len(other) + 1))
    for count, letter in enumerate(word, 1):
        before, row = row, [count]
        for place, wanted in enumerate(other):
            row.append(min(row[place] + 1, before[place + 1] + 1, before[place] + (letter != wanted)))
    return row[-1]


def meant(kind, key):
    """The key that may be meant, or all."""
    keys = KEYS[kind]
    for letters in [1, 2]:
        for one in keys:
            if 2 * letters <= len(one) and distance(key, one) <= letters:
                return f"did you mean '{one}'?"
    return f"the keys of this table are {', '.join(keys)}"


def key_problems(every):
    for entry in of(every, *KEYS):
        for key in NEEDED[entry.kind] + OPTIONAL[entry.kind]:
            if key not in entry.values:
                if key in NEEDED[entry.kind]:
                    yield problem(entry, key, f"missing key '{key}'", 102, has_subject=False)
            elif not has_form(entry.kind, key, entry.values[key]):
                yield problem(entry, key, f"must be {asked(entry.kind, key)}", 102)


def unknown_keys(every):
    for entry in of(every, *KEYS):
        for key in entry.values.keys() - set(NEEDED[entry.kind] + OPTIONAL[entry.kind]):
            yield problem(entry, key, f"unknown key '{key}'", 103, has_subject=False, remedy=meant(entry.kind, key))


def extent(entry):
    """The offsets of a block of configuration space, with its header."""
    begin = entry.values["off"]
    return range(begin, begin + HEADERS[entry.kind] + entry.values["block"])


def number_problems(every):
    for entry in of(every, "endpoint", "bridge"):
        for key, greatest in RANGES.items():
            if not 0 <= entry.values.get(key, 0) <= greatest:
                yield problem(entry, key, f"is out of range (0 to {greatest if key == 'pin' else hex(greatest)})", 104)
        for key, bits in BITS.items():
            if entry.values.get(key, 0) & ~bits:
                yield problem(entry, key, f"has bits outside {bits:#06x}", 104)
        at = entry.values.get("at", "")
        if entry.values.get("multifunction") is False and is_path(at) and at.endswith(".0"):
            yield problem(entry, "multifunction", "is not possible in function 0", 104, remedy=ALWAYS_SET)
    for entry in of(every, "host"):
        if entry.values.get("devices", 16) not in (16, 32):
            yield problem(entry, "devices", "is neither 16 nor 32", 104)
    for kind, key, least, greatest, words in BLOCK_RANGES:
        for entry in of(every, kind):
            value = entry.values.get(key, least)
            if not least <= value <= greatest or (kind, key) == ("capability", "off") and value % 4:
                yield problem(entry, key, f"is out of range ({words})", 104)
    for entry in of(every, *HEADERS):
        if extent(entry).stop > 256:
            yield problem(entry, "block", "extends past offset 0xff", 104, remedy=ROOM[entry.kind])


def count_problems(every):
    for entry in of(every, "endpoint", "bridge"):
        if entry.values.get("at", "").count("/") > 15:
            yield problem(entry, "at", "has more than 16 parts", 108)
    for entry in of(every, "guest"):
        if len(entry.values["slots"]) > 32:
            yield problem(entry, "slots", "too many slots (at most 32)", 108, has_subject=False)


DEVICES_KEY = "set devices = 32 in [host] to use devices 16 to 31"
ALWAYS_SET = "in function 0 of a device with several functions, bit 7 of the header type is always set"


def devices_of(every):
    """How many devices a bus of the board may have. A number that is refused makes no path wrong."""
    return 32 if any(entry.values.get("devices", 16) != 16 for entry in of(every, "host")) else 16


def is_path(text, devices=32):
    parts = [re.fullmatch(r"(0|[1-9]\d?)\.[0-7]", part) for part in text.split("/")]
    return len(parts) <= 16 and all(part and int(part[1]) < devices for part in parts)


def standing(every):
    """Each function's path with its kind. A text that is no path stands for 0.0."""
    return [(at if is_path(at) else "0.0", entry.kind) for entry in of(every, "endpoint", "bridge")
            for at in [entry.values.get("at", "")]]


def meant_path(text, devices):
    """The path that may be meant by a text, or what a path is. Nothing of a path."""
    short = text.removeprefix("00:")
    padded = re.fullmatch(r"([01][0-9a-f])\.([0-7])", short)
    if is_path(text):
        return ""
    if padded:
        device = int(padded[1], 16)
        return (f'did you mean "{device}.{padded[2]}"? numbers in a path are decimal, without leading zeros'
                + (f"; {DEVICES_KEY}" if device >= devices else ""))
    if is_path(short):
        return f'did you mean "{short}"?'
    return (f'write DEVICE.FUNCTION for each bus, for example "2.0/1.0": devices are 0 to {devices - 1}, functions 0 to 7, '
            "without leading zeros")


def place_problems(every):
    earlier, stands, devices = {}, {path for path, _ in standing(every)}, devices_of(every)
    bridges = {path for path, kind in standing(every) if kind == "bridge"}
    for entry in of(every, "endpoint", "bridge"):
        at = entry.values.get("at", "")
        *above, part = at.split("/")
        if not is_path(at, devices):
            yield problem(entry, "at", "is not a valid path", 105, remedy=DEVICES_KEY if is_path(at) else meant_path(at, devices))
        if not is_path(at):
            continue
        if at in earlier:
            yield problem(entry, "at", "is already used by {}", 105, earlier[at])
        if above and "/".join(above) not in bridges:
            gap = next(path for count in range(len(above)) for path in ["/".join(above[:count + 1])] if path not in bridges)
            yield problem(entry, "at", f"requires a bridge at {gap}, but there is none", 105)
        zero = "/".join([*above, part.split(".")[0] + ".0"])
        if zero not in stands:
            yield problem(entry, "at", f"requires a function at {zero}, but there is none", 105)
        earlier.setdefault(at, entry)


WIDE = "a 64-bit BAR uses two registers, index and index + 1"


def register_problems(every):
    for entry in of(every, "bar"):
        if not 0 <= entry.values["index"] <= 5:
            yield problem(entry, "index", "is out of range (0 to 5)", 106)
    for entry in of(every, "endpoint"):
        bars = [bar for bar in of(every, "bar") if bar.table == entry.table]
        if all(0 <= bar.values["index"] <= 5 for bar in bars):
            yield from own_registers(bars)


def own_registers(bars):
    """The first region that takes a register of an earlier one, or has no second register."""
    taken = {}
    for bar in bars:
        registers = [bar.values["index"] + more for more in range(2 if bar.values["kind"].startswith("mem64") else 1)]
        met = [taken[register] for register in registers if register in taken]
        if met:
            yield problem(bar, "index", "shares a register with {}", 106, min(met, key=bars.index), remedy=WIDE)
            return
        if 6 in registers:
            yield problem(bar, "index", "is out of range for a 64-bit BAR (0 to 4)", 106, remedy=WIDE)
            return
        taken |= dict.fromkeys(registers, bar)


def size_cause(kind, size):
    """Why a kind doesn't allow a size."""
    least, greatest = SIZES[kind]
    space = {"io": "an I/O", "mem32": "a 32-bit memory", "mem64": "a 64-bit memory"}[kind.removesuffix("p")]
    if least <= size <= greatest:
        power = 1 << size.bit_length() - 1
        return f"is not a power of two (nearest: {hex(power)} and {hex(2 * power)})"
    return f"is too {'small' if size < least else 'large'} for {space} BAR ({least} to {hex(greatest)})"


def size_problems(every):
    for entry in of(every, "bar"):
        size, (least, greatest) = entry.values["size"], SIZES[entry.values["kind"]]
        if not least <= size <= greatest or size & (size - 1):
            yield problem(entry, "size", size_cause(entry.values["kind"], size), 107)
        if entry.values.get("block", 0) > size:
            yield problem(entry, "block", f"is larger than the BAR (at most {size})", 107)


NAME = 'a name is 1 to 16 lowercase letters and digits, and begins with a letter; "host" is reserved'


def name_problems(every):
    earlier = {}
    for entry in of(every, "guest"):
        name = entry.values.get("name", "")
        if not re.fullmatch(r"[a-z][a-z0-9]{0,15}", name) or name == "host":
            yield problem(entry, "name", "is not a valid guest name", 109, remedy=NAME)
        if name in earlier:
            yield problem(entry, "name", "is already used by {}", 109, earlier[name])
        earlier.setdefault(name, entry)


def slot_problems(every):
    earlier, stands, devices = {}, dict(standing(every)), devices_of(every)
    for entry in of(every, "slot"):
        slot, is_valid = entry.values[""], is_path(entry.values[""])
        if not is_valid or stands.get(slot) != "endpoint":
            there = "is not the path of any endpoint"
            if stands.get(slot) == "bridge":
                is_both = any(other.values["at"] == slot for other in of(every, "endpoint"))
                there = "is the path of " + ("both an endpoint and a bridge" if is_both else "a bridge, not of an endpoint")
            yield problem(entry, "", there if is_valid else "is not a valid path", 110, remedy=meant_path(slot, devices))
        if is_valid and slot in earlier:
            yield problem(entry, "", "is already used by {}", 110, earlier[slot])
        earlier.setdefault(slot, entry)


def is_of_units(unit, first, last):
    return 0 <= first <= last and first % unit == 0 and (last + 1) % unit == 0


def aperture_cause(unit, example, bounds, *others):
    """The first rule that an aperture breaks."""
    first, last = map(abs, bounds)
    rules = [("has a negative address", min(bounds) >= 0),
             ("ends before it begins: write the first and the last address, not a length", first <= last),
             (f"must begin and end on a {example} (the last address is included)",
              first % unit == 0 and (last + 1) % unit == 0), *others]
    return next((words for words, is_kept in rules if not is_kept), "")


def io_cause(io):
    return aperture_cause(1 << 12, "4 KB boundary, such as [0x1000, 0xffff]", io,
                          ("begins below 0x1000", abs(io[0]) >= 0x1000), ("ends above 0xffff", abs(io[1]) <= 0xFFFF))


def memory_cause(bounds, *others):
    return aperture_cause(1 << 20, "1 MB boundary, such as [0xc0000000, 0xdfffffff]", bounds, *others)


def aperture_problems(every):
    for host in of(every, "host"):
        io, mem, pref = host.values["io"], host.values["mem"], host.values.get("pref")
        is_memory = is_of_units(1 << 20, *map(abs, mem)) and abs(mem[1]) < 1 << 32
        if not is_of_units(1 << 12, *io) or io[0] < 0x1000 or io[1] > 0xFFFF:
            yield problem(host, "io", io_cause(io), 111)
        if min(mem) < 0 or not is_memory:
            high = ("ends above 0xffffffff", abs(mem[1]) < 1 << 32)
            yield problem(host, "mem", memory_cause(mem, high), 111)
        if pref is None:
            continue
        sides = pref[1] < 1 << 32 or pref[0] >= 1 << 32
        apart = abs(mem[1]) < pref[0] or pref[1] < abs(mem[0])
        if min(pref) < 0 or is_memory and not (is_of_units(1 << 20, *pref) and sides and apart):
            across = ("begins below 4 GB (0x100000000) and ends above it", sides)
            yield problem(host, "pref", memory_cause(pref, across, ("overlaps mem", apart)), 111)


def pattern_cause(length, text):
    """Why a text is no pattern of a block, if it is none."""
    rules = [("begins with 0x: write only the hexadecimal digits", not text.startswith("0x")),
             ("contains a character that is not a hexadecimal digit", re.fullmatch(r"[0-9a-fA-F]*", text)),
             ("has an odd number of digits: write two for each byte", len(text) % 2 == 0), ("is empty", text),
             ("needs the key 'block' (how many bytes there are), which is missing or 0", length),
             (f"has {len(text) // 2} bytes, but block is {length}", len(text) <= 2 * length)]
    return next((words for words, is_kept in rules if not is_kept), None)


def mask_cause(values):
    """The key of the pattern of a block that isn't lawful, and why: it is no pattern, or a bit is in both masks."""
    length, given = values.get("block", 0), {}
    for key in ["reset", "rw", "w1c"]:
        text = values.get(key)
        why = None if text is None else pattern_cause(length, text)
        if why:
            return key, why
        given[key] = bytes.fromhex(text) if text else b"\0"
    meet = any(given["rw"][n % len(given["rw"])] & given["w1c"][n % len(given["w1c"])] for n in range(length))
    return ("w1c", "has a bit that is also in rw: a bit can be in only one of them") if meet else None


def mask_problems(every):
    for entry in of(every, "bar", *HEADERS):
        why = mask_cause(entry.values)
        if why:
            yield problem(entry, *why, 112)
    earlier = {}
    for entry in [entry for kind in HEADERS for entry in of(every, kind)]:
        blocks = earlier.setdefault(entry.table, [])
        met = [other for other in blocks if set(extent(entry)) & set(extent(other))]
        if met:
            there = extent(met[0])
            words = f"with block = {entry.values['block']} overlaps {{}}, which is at {there.start:#x} to {there[-1]:#x}"
            yield problem(entry, "off", words, 112, met[0], remedy=ROOM[entry.kind])
        blocks.append(entry)


CHECKS = [(102, key_problems), (103, unknown_keys), (104, number_problems), (108, count_problems),
          (105, place_problems), (106, register_problems), (107, size_problems), (109, name_problems),
          (110, slot_problems), (111, aperture_problems), (112, mask_problems)]


def all_faults(text):
    """The number of the first check that a file fails, and all that breaks it or a check that is made together with it, or 0
    with nothing."""
    try:
        document = tomllib.loads(text)
    except tomllib.TOMLDecodeError:
        return 101, []
    every = list(entries(document))
    for checks in [CHECKS[:2], CHECKS[2:-1], CHECKS[-1:]]:
        found = [one for _, check in checks for one in check(every)]
        if found:
            return found[0].number, found
    return 0, []


def place_of(number):
    """The place of a check in their order."""
    return [one for one, _ in CHECKS].index(number)

"""The lines that tell why something finds what it finds, from their JSON, which has all that they tell but the latch."""

import json

SPACES = {"io": "I/O", "mem": "memory", "prefetchable": "prefetchable"}


def number(at):
    return f"{at['bus']:02x}:{at['device']:02x}.{at['function']}"


def behind(path):
    return f"behind bridge {path}" if path else "on bus 00"


def bar(one):
    return f"bar{one['bar']} at {one['base']:#x} size {one['size']:#x}"


def closed(one):
    return f"decode is disabled (Command {one['command']:#06x})"


def window(one):
    found = one["range"]
    return f"{SPACES[one['space']]} window {'{first:#x}-{last:#x}'.format(**found) if found else 'disabled'}"


def cause(one, space):
    disabled = "command" in one and f"{SPACES[space]} {closed(one)}"
    if one["type"] == "closed":
        return disabled
    return f"bridge {one['bridge']} doesn't forward it: {disabled or ', '.join(map(window, one['windows'])) or 'no window'}"


def at_address(found, what):
    answer, count = found["answer"], found["at_reset"]
    nobody = f"{'no BAR' if found['forwards'] else 'nothing'} responds"
    yield f"{what}: " + ("{path} bar{bar} responds at offset {offset:#x}".format(**answer) if answer else nobody)
    yield from (f"bridge {each['path']} forwards it to bus {each['bus']:02x}" for each in found["forwards"])
    for each in found["regions"]:
        causes = [cause(one, each["region"]["space"]) for one in each["causes"]]
        yield f"{each['region']['path']} {bar(each['region'])}: {'; '.join(causes) or 'decodes it too'}"
    if count:
        yield f"{count} BAR{'s' if count > 1 else ''} at 0x0 with decode disabled, as at reset"


def by_number(found, at):
    missing = found["missing"]
    yield f"{at} reaches {found['reached'] or 'nothing'}"
    yield from (f"bridge {path} claims bus {at[:2]}" for path in found["takers"])
    if missing:
        gone = "function {device}.{function}".format(**missing) if "device" in missing else "bridge"
        takes = "" if "device" in missing else f" claims bus {missing['bus']:02x}"
        yield f"no {gone} {behind(missing['behind'])}{takes}"
    yield from (f"{path} has this BDF but isn't reached" for path in found["not_found"])


def to_guest(found, what):
    kind = found["type"]
    if kind == "answers":
        part = "configuration space" if found["bar"] is None else f"bar{found['bar']}"
        yield f"{what}: slot {found['slot']} {part} responds at offset {found['offset']:#x}"
    elif kind == "nobody":
        yield f"{what}: nothing responds"
        yield from (f"slot {each['slot']} {bar(each)}: {closed(each)}" for each in found["regions"])
    else:
        lost = f"slot {found['slot']} is empty" if kind == "empty" else f"there is no slot at {number(found['number'])}"
        yield f"{what}: {lost}"


def by_latch(latch, what, value):
    held = f"CONFIG_ADDRESS ({value:#x})"
    if latch["type"] == "held":
        return f"{what}: 4-byte accesses go to {held}"
    if latch["type"] == "not enabled":
        return f"{what}: {held} is disabled"
    return f"{what}: {held} selects offset {latch['offset']:#x} of {number(latch['number'])}"


def why_lines(told, what, latch):
    """The lines at a place, which stands in the first of them as `I/O 0xcf8`, `memory 0x10`, `slot 0 offset 0x4` or a number;
    `latch` is its value."""
    found, by = json.loads(told).values()
    lines = [by_latch(by, what, latch)] if by else []
    if "type" in found:
        return lines + list(to_guest(found, what))
    if "takers" in found:
        return lines + list(by_number(found, number(by["number"]) if by else what))
    return lines + list(at_address(found, what))

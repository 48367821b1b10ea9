"""An audit and readiness as JSON, made of their lines and of the board's file."""
import json
import re

REGION = r"(\S+) bar(\d) at (\S+) size ([^\s:]+)"
NOT_FORWARDED = re.compile(REGION + r": (\S+) is not forwarded by bridge (\S+)")
CONTENDED = re.compile(r"(\S+)(?: bar(\d))? and (\S+)(?: bar(\d))?: address conflict at (\S+) (\S+)")
NOT_FOUND = re.compile(r"(\S+): a configuration cycle to (..):(..)\.(.) reaches (\S+)")
# the kinds of lacks of a region
LACKS = {
    "closed": re.compile(REGION + ": .* decode is disabled"),
    "outside apertures": re.compile(REGION + r": (?P<address>\S+) is outside the apertures"),
    "prefetched": re.compile(REGION + r": bridge (?P<bridge>\S+) forwards (?P<address>\S+) as prefetchable"),
}
PRIMARY = re.compile(r"(\S+): Primary Bus Number is (..), but the bridge is on bus (..)")


def kind_of(file, path, bar):
    """The kind of a region, as the file says it."""
    endpoint = next(it for it in file.split("[[")[1:] if it.startswith("endpoint]]") and f'at = "{path}"\n' in it)
    return re.search(rf'\bindex = {bar}[,\s]+kind = "(\w+)"', endpoint)[1]


def region_of(file, path, bar, base, size):
    space = "io" if kind_of(file, path, bar) == "io" else "mem"
    return {"path": path, "bar": int(bar), "base": int(base, 16), "size": int(size, 16), "space": space}


def agent_of(path, bar):
    return {"path": path, "bar": int(bar) if bar else None}


def problem_of(line, file):
    """What a line says, which is of one of three forms."""
    if found := NOT_FORWARDED.fullmatch(line):
        *region, address, bridge = found.groups()
        return {"type": "not forwarded", "region": region_of(file, *region), "bridge": bridge, "address": int(address, 16)}
    if found := CONTENDED.fullmatch(line):
        one, bar, other, other_bar, space, address = found.groups()
        agents = [agent_of(one, bar), agent_of(other, other_bar)]
        space = {"I/O": "io", "memory": "mem"}[space]
        return {"type": "contended", "agents": agents, "space": space, "address": int(address, 16)}
    path, bus, device, function, reached = NOT_FOUND.fullmatch(line).groups()
    number = {"bus": int(bus, 16), "device": int(device, 16), "function": int(function)}
    return {"type": "not found", "path": path, "number": number, "reached": None if reached == "nothing" else reached}


def lack_of(line, file):
    """What a line says that is lacking, which is of one of four forms."""
    for kind, form in LACKS.items():
        if found := form.fullmatch(line):
            told = {"type": kind, "region": region_of(file, *found.groups()[:4]), **found.groupdict()}
            return told | ({"address": int(told["address"], 16)} if "address" in told else {})
    path, primary, bus = PRIMARY.fullmatch(line).groups()
    return {"type": "other primary", "path": path, "primary": int(primary, 16), "bus": int(bus, 16)}


def written(value):
    return json.dumps(value, sort_keys=True, separators=(",", ":"))


def text_of(lines, file):
    """The line that `pciguest audit --json` writes in place of these, of which the last one counts."""
    problems = [problem_of(line.removeprefix("audit: "), file) for line in lines[:-1]]
    return written({"problems": problems})


def ready_of(lines, file):
    """The same of `pciguest ready --json`."""
    problems = [problem_of(line.removeprefix("audit: "), file) for line in lines[:-1] if line.startswith("audit: ")]
    lacks = [lack_of(line.removeprefix("ready: "), file) for line in lines[:-1] if line.startswith("ready: ")]
    return written({"problems": problems, "lacks": lacks})

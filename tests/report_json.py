"""The report of a board as JSON, made of the report's lines and of the board's file."""
import json
import re

FUNCTION = re.compile(r"(..):(..)\.(.) (\S+) (endpoint|bridge) (....):(....)(?: buses (..) (..) (..))?")
BUSES = ("primary", "secondary", "subordinate")
# a structure of a capability list, as an inline table
INLINE = re.compile(r"\{[^{}]*\bid\s*=[^{}]*\}")


def function_of(lists, bus, device, function, path, kind, vendor, device_id, *buses):
    """What the first line of a function says of it, with its capability list."""
    told = {"bus": int(bus, 16), "device": int(device, 16), "function": int(function), "path": path, "type": kind,
            "vendor": int(vendor, 16), "device_id": int(device_id, 16)}
    if kind == "endpoint":
        return {**told, "capabilities": lists.get(path, []), "interrupt": None, "regions": []}
    windows = {"io": None, "mem": None, "pref": None}
    return {**told, "buses": {name: int(it, 16) for name, it in zip(BUSES, buses)}, "windows": windows}


def put(function, words):
    """Puts into a function what a line below it says."""
    if words[0] == "irq":
        function["interrupt"] = {"pin": words[1], "root_device": int(words[3]), "root_pin": words[4]}
    elif words[0].startswith("bar"):
        region = {"bar": int(words[0][3:]), "kind": words[1], "base": int(words[3], 16), "size": int(words[5], 16)}
        function["regions"].append(region)
    else:
        function["windows"][words[0]] = {"first": int(words[1], 16), "last": int(words[2], 16)}


def lists_in(file):
    """The capability list of each endpoint of a board file, by its path."""
    for endpoint in re.split(r"^\[\[endpoint\]\]", file, flags=re.M)[1:]:
        tables = [it for it in re.split(r"^(?=\[)", endpoint, flags=re.M) if it.startswith("[[endpoint.capability]]")]
        found = [{key: int(re.search(rf"\b{key}\s*=\s*(\w+)", it)[1], 0) for key in ("id", "off", "block")}
                 for it in tables or INLINE.findall(endpoint)]
        structures = [{"id": it["id"], "off": it["off"], "size": it["block"] + 2} for it in found]
        yield re.search(r'\bat\s*=\s*"(.*?)"', endpoint)[1], structures


def text_of(lines, file):
    """The line that `pciguest list --json` writes. The report's lines say nothing of capability lists and of a guest without
    slots: both are those of the file."""
    functions, slots = [], {name: [] for name in re.findall(r'\bname = "(\w+)"', file)}
    lists = dict(lists_in(file))
    for line in lines[1:]:
        words = line.split()
        if line.startswith("  "):
            put(functions[-1], words)
        elif words[0] == "guest":
            slots[words[1]].append({"slot": int(words[3]), "path": words[4]})
        else:
            functions.append(function_of(lists, *FUNCTION.fullmatch(line).groups()))
    counted = lines[0].split()
    guests = [{"name": name, "slots": held} for name, held in slots.items()]
    report = {"endpoints": int(counted[1]), "bridges": int(counted[3]), "functions": functions, "guests": guests}
    return json.dumps(report, sort_keys=True, separators=(",", ":"))

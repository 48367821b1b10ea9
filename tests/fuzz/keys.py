"""The keys of a board file as examples/board.schema.json has them, by table, and the registers that hold an endpoint's
numbers: their bits as docs/own.toml has them, and their offsets by the names of the prompt for Python."""
import json
import runpy
import tomllib
from pathlib import Path

TOP = Path(__file__).resolve().parents[2]
SCHEMA = json.loads((TOP / "examples/board.schema.json").read_text())
TABLES = {name: table for name, table in {"": SCHEMA, **SCHEMA["definitions"]}.items() if "properties" in table}
KEYS = {name: [*table["properties"]] for name, table in TABLES.items()}
NEEDED = {name: table["required"] for name, table in TABLES.items()}
OPTIONAL = {name: [key for key in keys if key not in NEEDED[name]] for name, keys in KEYS.items()}
CHOICES = {(name, key): form["enum"] for name, table in TABLES.items() for key, form in table["properties"].items()
           if isinstance(form.get("enum", [0])[0], str)}
# of an endpoint's keys those that are integers, in the order of an image, and the greatest value of each that has a range
NUMBERS = [key for key, form in TABLES["endpoint"]["properties"].items() if form.get("type") == "integer"]
RANGES = {key: TABLES["endpoint"]["properties"][key]["maximum"] for key in NUMBERS if key != "status"}
WIDTHS = {key: (RANGES.get(key, 0xFFFF).bit_length() + 7) // 8 for key in NUMBERS}
# where an endpoint has them: as offset and width
PLACES = runpy.run_path(str(TOP / "library/python/pciguest/_names.py"))["DECLARED"]
REGISTERS = tomllib.loads((TOP / "docs/own.toml").read_text())["register"]


def bits(of, header, offset):
    """The bits of a register that a write sets (writable), or that writing a one clears (clears)."""
    return sum(row.get(of, 0) for row in REGISTERS if (row["header"], row["offset"]) == (header, offset))

#!/usr/bin/env python3
"""Holds examples/board.schema.json, by which editors complete and judge board files, against the program: over all boards
of the folders boards and examples, and over random boards with mistakes.

    tests/schema.py PROGRAM [--files N] [--seed S]

What the program accepts the schema accepts. What the program refuses by 102, 103 or 104 the schema refuses, but for a block
of configuration cells or a structure that ends after offset FFh, which no schema can say. It may also tell some with a
number above 104. The subset of JSON Schema that it uses is judged by the class below, and by the module jsonschema too
where that is there.
The last line is 'N passed, M failed'."""
import json
import random
import re
import subprocess
import sys
import tempfile
from pathlib import Path

TOP = Path(__file__).resolve().parent.parent
sys.path.insert(0, str(TOP / "tests" / "fuzz"))
try:
    import tomllib
except ImportError:
    print("skipped: the schema of board files (no Python 3.11: apt-get install python3)\n0 passed, 0 failed")
    sys.exit(0)

from compared import lines_of, options
from mistakes import with_mistakes

TYPES = {"object": dict, "array": list, "string": str, "integer": int, "boolean": bool}
# What each word of a schema asks of a value of its type: whether it is broken.
ASKS = {
    "minimum": lambda value, least: value < least,
    "maximum": lambda value, most: value > most,
    "multipleOf": lambda value, unit: value % unit != 0,
    "enum": lambda value, words: (type(value), value) not in [(type(word), word) for word in words],
    "pattern": lambda value, text: re.search(text, value) is None,
    "minItems": lambda value, least: len(value) < least,
    "maxItems": lambda value, most: len(value) > most,
    "required": lambda value, keys: not set(keys) <= set(value),
}
TYPE_OF = {"minimum": int, "maximum": int, "multipleOf": int, "pattern": str, "minItems": list, "maxItems": list,
           "required": dict}
KNOWN = {*ASKS, "type", "$ref", "properties", "additionalProperties", "items", "allOf", "if", "then", "else",
         "description", "default", "title", "$schema", "definitions"}


class Schema:
    """The subset of JSON Schema, draft 7, that the file uses. Another word is an error."""

    def __init__(self, path):
        self.whole = json.loads(path.read_text())

    def accepts(self, value, part=None):
        part = self.whole if part is None else part
        if "$ref" in part:
            return self.accepts(value, self.whole["definitions"][part["$ref"].removeprefix("#/definitions/")])
        if not set(part) <= KNOWN:
            raise ValueError(f"words that are not judged: {set(part) - KNOWN}")
        return self.has_type(value, part) and self.keeps(value, part) and all(self.inside(value, part))

    def has_type(self, value, part):
        wanted = TYPES.get(part.get("type"))
        return wanted is None or isinstance(value, wanted) and isinstance(value, bool) == (wanted is bool)

    def keeps(self, value, part):
        asked = (word for word in ASKS if word in part and isinstance(value, TYPE_OF.get(word, object)))
        return not any(ASKS[word](value, part[word]) for word in asked)

    def inside(self, value, part):
        """Whether each thing in the value is accepted, and each further schema."""
        if isinstance(value, dict):
            keys = part.get("properties", {})
            yield from (self.accepts(value[key], keys[key]) for key in value if key in keys)
            yield part.get("additionalProperties", True) or set(value) <= set(keys)
        if isinstance(value, list) and "items" in part:
            items = part["items"]
            each = items if isinstance(items, list) else [items] * len(value)
            yield from map(self.accepts, value, each)
        yield from (self.accepts(value, one) for one in part.get("allOf", []))
        if "if" in part:
            yield self.accepts(value, part.get("then" if self.accepts(value, part["if"]) else "else", {}))


class Tests:
    """What is counted, and how a board is judged by both."""

    def __init__(self, program):
        self.program, self.schema = Path(program).resolve(), Schema(TOP / "examples" / "board.schema.json")
        self.passed = self.failed = 0
        self.seen = {}
        try:
            from jsonschema import Draft7Validator
            self.other = Draft7Validator(self.schema.whole).is_valid
        except ImportError:
            self.other = None

    def holds(self, name, found):
        """Counts a test, which holds where nothing is found."""
        self.passed, self.failed = self.passed + (not found), self.failed + bool(found)
        if found:
            print(f"FAILED: {name}: {found}")

    def fault(self, path):
        done = subprocess.run([self.program, "list", path], capture_output=True, text=True, timeout=60)
        told = re.match(r"pciguest: fault (\d+) ", done.stderr)
        return int(told[1]) if told else 0

    def differs(self, path):
        """What is wrong with what the schema says of a file, if anything is."""
        number, text = self.fault(path), path.read_bytes()
        if number == 101:
            return None
        document = tomllib.loads(text.decode())
        accepted = self.schema.accepts(document)
        self.seen[number, accepted] = self.seen.get((number, accepted), 0) + 1
        if self.other and self.other(document) != accepted:
            return "the module jsonschema says otherwise"
        if accepted and number in (102, 103, 104) and not (number == 104 and ends_late(document)):
            return f"accepted, and the program answers {number}"
        if not accepted and (number == 0 or number > 200):
            return "refused, and the program accepts it"
        return None

    def examples(self):
        boards = files_of("boards", "examples")
        for path in boards:
            self.holds(path.name, self.differs(path))

    def random(self, files, seed):
        with tempfile.TemporaryDirectory() as folder:
            path = Path(folder) / "board.toml"
            for one in range(seed, seed + files):
                path.write_text(lines_of(with_mistakes(random.Random(one), [0, 1, 2])))
                self.holds(f"random board {one}", self.differs(path))
        accepted = sum(count for (_, so), count in self.seen.items() if so)
        refused = sum(count for (_, so), count in self.seen.items() if not so)
        self.holds("enough of both", min(accepted, refused) < files // 10 and f"{accepted} accepted, {refused} refused")
        print(f"the schema accepts {accepted} boards and refuses {refused}")

    def directives(self):
        """Each board of the examples names the schema, and each name leads to it."""
        for path in (it for it in files_of("examples") if it.name != "Cargo.toml"):
            self.holds(f"{path.name} names the schema", not path.read_text().startswith("#:schema ") and "it does not")
        for path in files_of("examples", "boards"):
            named = re.match(r"#:schema (.*)\n", path.read_text(errors="replace"))
            lost = named and not (path.parent / named[1]).resolve().samefile(TOP / "examples" / "board.schema.json")
            self.holds(f"what {path.name} names", lost and named[1])

    def formats(self):
        """The keys of docs/board-file.md are those of the schema, and needed where they are there."""
        part, found = self.schema.whole, set()
        for name, table in {"top": part, **part["definitions"]}.items():
            found |= {(name, key, key in table["required"]) for key in table.get("properties", {})}
        self.holds("the keys of docs/board-file.md", found ^ set(keys_in_document()))


def files_of(*folders):
    """The files of TOML below these folders, but for those that were made there."""
    found = [it for folder in folders for it in sorted(TOP.glob(f"{folder}/**/*.toml"))]
    return [it for it in found if "out" not in it.relative_to(TOP).parts]


def keys_in_document():
    section = (TOP / "docs" / "board-file.md").read_text().split("| Table | Key |")[1].split("\n\n")[0]
    for row in section.splitlines()[2:]:
        tables, keys, _, left_out = (cell.strip() for cell in row.strip("|").split(" | "))
        for table in tables.split(", "):
            for key in re.findall(r"`(\w+)`", keys):
                yield table, key, left_out == "refused"


def ends_late(document):
    """Whether a block of configuration cells ends after offset FFh, or a structure, which has a header of two bytes."""
    return any(block["off"] + header + block["block"] > 0x100 for endpoint in document["endpoint"]
               for key, header in (("config", 0), ("capability", 2)) for block in endpoint.get(key, []))


def main():
    chosen = options(__doc__, "program", files=1000, seed=1)
    tests = Tests(chosen.program)
    tests.formats()
    tests.directives()
    tests.examples()
    tests.random(chosen.files, chosen.seed)
    if not tests.other:
        print("skipped: the schema by the module jsonschema (no such module: apt-get install python3-jsonschema)")
    print(f"{tests.passed} passed, {tests.failed} failed")
    return 1 if tests.failed else 0


if __name__ == "__main__":
    sys.exit(main())

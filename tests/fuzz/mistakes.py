"""Board files with mistakes: what a check says of each, beside what this second hand says. Of a file that is accepted
that is how much of each aperture its board takes, and what may be a mistake.

    mistakes.py PROGRAM [--files N] [--seed S]

Each file is that of a random board, with its tables in some order and a few mistakes, and sometimes so long that these stand
past its first 65,536 bytes. The rules are those of docs/board-file.md, without a line of the program's code. The same seed makes
the same files. Where all agree the last line is 'N passed, 0 failed', and else the seed is told and nothing more is tried."""
import random
import re
import sys
from collections import Counter

try:
    import tomllib
except ImportError:
    print("skipped: board files with mistakes (no Python 3.11: apt-get install python3)\n0 passed, 0 failed")
    sys.exit(0)

from board import board_file, random_board
from compared import Room, lines_of, options
from judged import judged, reasons
from rules import all_faults, place_of

NUMBERS = [-1, 0, 1, 4, 5, 6, 16, 17, 20, 32, 63, 0x06E0, 64, 192, 255, 256, 3000, 4096, 4097, 0xF900, 0xFFFE, 0xFFFF, 0x10000,
           1 << 24, 1 << 31, 1 << 40, 1 << 62, -(1 << 62)]
BACKSLASH = "\\"
TEXTS = ["x", "a", "host", "A", "", "0.0", "1.0", "01.0", "15.7", "16.0", "31.7", "32.0", "1.8", "1.0/2.0", "mem32", "io", "none", "64",
         "ff", "f", "0g", "ffff", "/".join(["1.0"] * 17)]
# what may stand after a value on its line
ENDS = ["", "", "", " ", "\t", "\t# x", " # \"", "\t\t#'"]
BOOLEANS = ["true", "false"]
OTHERS = ["true", "[1, 2]", '["x"]', "[0x1000, 0x1fff]", "[-4096, 8191]", "[0x100000, 0xffffffff]"]


def written(rng, number):
    """An integer in one of the ways of TOML."""
    ways = [f"{number}", f"{number:_}"]
    if number >= 0:
        ways += [f"+{number}", f"{number:#x}", f"0x{number:06X}", f"{number:#_b}", f"{number:#o}"]
    return rng.choice(ways)


def some_value(rng, old=""):
    """A value as it is written, mostly of the type of the one before."""
    if rng.random() < 0.1:
        old = rng.choice(["1", '"', "["])
    if old in BOOLEANS:
        return rng.choice(BOOLEANS)
    if old.startswith(('"', "'")):
        return rng.choice([f'"{rng.choice(TEXTS)}"', f"'{rng.choice([*TEXTS, BACKSLASH])}'", f'"{BACKSLASH * 2}"'])
    return rng.choice(OTHERS) if old.startswith("[") else written(rng, rng.choice(NUMBERS))


def keys_in(lines):
    return [place for place, line in enumerate(lines) if " = " in line]


def other_value(rng, lines):
    place = rng.choice(keys_in(lines))
    key, value = lines[place].split(" = ", 1)
    lines[place] = f"{key} = {some_value(rng, value)}{rng.choice(ENDS)}"


def inner_value(rng, lines):
    """Another value inside an array of inline tables."""
    places = [place for place in keys_in(lines) if "{" in lines[place]]
    if places:
        place = rng.choice(places)
        found = rng.choice(list(re.finditer(r'(\w+) = ([+-]?\d\w*|"\w*")', lines[place])))
        put = "" if rng.random() < 0.1 else f"{found[1]} = {some_value(rng, found[2])}"
        if rng.random() < 0.1:
            put = f"{found[0]}, colour = 1"
        text = lines[place][:found.start()] + put + lines[place][found.end():]
        lines[place] = text.replace("{ , ", "{ ").replace(", , ", ", ").replace(",  }", " }")


def other_offset(rng, lines):
    """A block of configuration space that begins where another one does, or near it."""
    found = [(place, match) for place, line in enumerate(lines) for match in re.finditer(r"\boff = (\d+)\b", line)]
    if found:
        place, match = rng.choice(found)
        beside = rng.choice([int(other[1]) for at, other in found if abs(at - place) < 2])
        put = f"off = {beside + rng.choice([0, 1, 4, 4, 8, -4, -4])}"
        lines[place] = lines[place][:match.start()] + put + lines[place][match.end():]


def other_slot(rng, lines):
    places = [place for place in keys_in(lines) if lines[place].startswith("slots") and '"' in lines[place]]
    if places:
        place = rng.choice(places)
        texts = re.findall(r'"[^"]*"', lines[place])
        texts[rng.randrange(len(texts))] = rng.choice(texts + [f'"{rng.choice(TEXTS)}"'])
        lines[place] = f"slots = [{', '.join(texts)}]"


def left_out(rng, lines):
    del lines[rng.choice(keys_in(lines) if rng.random() < 0.95 else range(len(lines)))]


def other_devices(rng, lines):
    """Another number of devices, or none."""
    places = [place for place, line in enumerate(lines) if line.startswith("devices = ")]
    if places:
        lines[places[0]:places[0] + 1] = rng.choice([[], ["devices = 16"], ["devices = 20"]])


def unknown_key(rng, lines):
    lines.insert(rng.randrange(len(lines) + 1), f"colour = {some_value(rng)}")


def table_again(rng, lines):
    heads = [place for place, line in enumerate(lines) if line.startswith("[[")] + [len(lines)]
    if len(heads) > 1:
        at = rng.randrange(len(heads) - 1)
        lines += lines[heads[at]:heads[at + 1]]


MISTAKES = [other_value, other_value, other_value, inner_value, inner_value, other_offset, other_slot, other_devices, left_out,
            unknown_key, table_again]


def with_mistakes(rng, counts):
    """The lines of a random board, with its tables in some order and as many mistakes as one of these counts."""
    tables = re.split(r"\n(?=\[)", board_file(random_board(rng)).strip())
    rng.shuffle(tables)
    lines = "\n".join(tables).split("\n")
    for _ in range(rng.choice(counts)):
        if keys_in(lines):
            rng.choice(MISTAKES)(rng, lines)
    return lines


def lines_of_keys(lines):
    """The line of each key of a table with a header, or None of one without a value: of a list's tables by
    their index."""
    where, table, counts = {}, ("", 0), {}
    for number, line in enumerate(lines, 1):
        if line.startswith("["):
            name = line.strip("[]")
            table = (name, counts.get(name, 0))
            counts[name] = table[1] + 1
        elif " = " in line:
            where[*table, line.split(" = ")[0]] = None if line.endswith(" = []") else number
    return where


def wanted_line(where, table, key):
    """The line that is to be told: of a key that is missing the first one of its table, and of the file none."""
    if (*table, key) in where:
        return where[*table, key]
    lines = [line for (name, index, _), line in where.items() if name and line and (name, index) == table]
    return min(lines, default=None)


IN_LINE = re.compile(r" \(line (\d+)\)")


def without_others(text):
    """What a line says without the lines of other entries, and these lines."""
    return IN_LINE.sub("", text), [int(line) for line in IN_LINE.findall(text)]


VALUE = re.compile(r'((?:error|warning): (?:[\w.\[\]]+(?: \("[^"]*"\))?: )?(\w+) = )([+-]?\w+)(?= )')


def with_decimal(lines, number, column, text):
    """What a line says, with its integer in decimal, if the file has that integer at the line and column, after the key."""
    told = VALUE.match(text)
    if not told:
        return text
    key = f"{told[2]} = "
    if number is None or not lines[number - 1][column - 1 - len(key):].startswith(key + told[3]):
        return f"{text} (not as in line {number}, column {column})"
    return text if told[3] in BOOLEANS else f"{told[1]}{int(told[3], 0)}{text[told.end():]}"


def differs(lines, told, problems):
    """What is wrong with the lines that a check told, if anything is."""
    wanted, texts = {problem.text: problem for problem in problems}, [without_others(line)[0] for _, line in told]
    if len(told) != len(wanted) or {*texts} != wanted.keys():
        return f"{len(told)} lines for {len(wanted)}: {wanted.keys() ^ {*texts} or told}"
    found = [wanted[text] for text in texts]
    numbers = [(place_of(problem.number), number or 0) for problem, (number, _) in zip(found, told)]
    return remarks_differ(lines, told, found) or (None if numbers == sorted(numbers) else f"order {numbers}")


def with_numbers(lines, said):
    """Messages of a check, each with the number of its line in the file, its integer in decimal, and its help."""
    found = re.findall(r"^board\.toml(?::(\d+):(\d+))?: (.*(?:\n  help: .*)?)$", "\n".join(said), re.MULTILINE)
    if sum(1 + text.count("\n") for _, _, text in found) != len(said):
        raise ValueError(said)
    told = [(int(line) if line else None, int(column or 0), text) for line, column, text in found]
    return [(number, with_decimal(lines, number, column, text)) for number, column, text in told]


def judged_differs(lines, text, out):
    """What is wrong with what a check said of a file that is accepted, if anything is."""
    head, warnings = judged(tomllib.loads(text))
    said = out.split("\n")[:-1]
    if said[:4] != head:
        return f"{said[:4]}, not {head}"
    return remarks_differ(lines, with_numbers(lines, said[4:]), warnings)


def remarks_differ(lines, told, remarks):
    """What is wrong with the lines of remarks, if anything is."""
    where, said = lines_of_keys(lines), [(number, *without_others(line)) for number, line in told]
    if [(text, len(others)) for _, text, others in said] != [(one.text, len(one.others)) for one in remarks]:
        return f"{told}, not {remarks}"
    for (number, _, others), one in zip(said, remarks):
        for given, table, key in [(number, one.table, one.outer), *((o, *at) for o, at in zip(others, one.others))]:
            if given != wanted_line(where, table, key):
                return f"line {given}, not {wanted_line(where, table, key)}: {one.text}"
    return None


def misfit_differs(lines, text, number, out):
    """What is wrong with what a check said of a board that can't be set up, if anything is."""
    return remarks_differ(lines, with_numbers(lines, out.split("\n")[:-1]), reasons(tomllib.loads(text), number))


class Files(Room):
    """A folder for files, and counts."""

    def __init__(self, program):
        super().__init__(program)
        self.faults, self.told, self.warned = Counter(), 0, 0

    def one(self, seed):
        rng = random.Random(seed)
        lines = with_mistakes(rng, [1, 1, 1, 2, 4])
        if rng.random() < 0.05:
            lines.insert(0, "#" * rng.randrange(1 << 16, 1 << 17))
        self.judge(seed, lines, lines_of(lines))

    def judge(self, seed, lines, text):
        self.write("board.toml", text)
        _, out, err = self.run("check", "--all", "board.toml")
        number, problems = all_faults(text)
        fault = re.match(r"pciguest: fault (\d+) ", err)
        got, wrong = int(fault[1]) if fault else 0, None
        self.faults[got] += 1
        if got != number and not (number == 0 and 200 < got < 206):
            wrong = f"fault {got}, not {number}"
        elif number == 0:
            wrong = judged_differs(lines, text, out) if got == 0 else misfit_differs(lines, text, got, out)
            self.warned += out.count(": warning: ")
        elif number == 101 and not re.fullmatch(r"board\.toml:\d+:\d+: error: invalid TOML: .+ \(101\)\n", out):
            wrong = out
        elif number > 101:
            *said, count = out.split("\n")[:-1]
            told = with_numbers(lines, said)
            is_counted = count == (f"{len(told)} errors" if len(told) != 1 else "1 error")
            wrong = differs(lines, told, problems) or (None if is_counted else count)
            self.told += len(told)
        if wrong:
            self.differs(seed, "what a check says", wrong)


def main():
    chosen = options(__doc__, "program", files=2000, seed=1)
    files = Files(chosen.program)
    for seed in range(chosen.seed, chosen.seed + chosen.files):
        files.one(seed)
    files.end()
    faults = ", ".join(f"{number or 'ok'}: {count}" for number, count in sorted(files.faults.items()))
    print(f"{chosen.files} files ({faults}), {files.told} lines told, {files.warned} warnings: all agree")
    print(f"{chosen.files} passed, 0 failed")


if __name__ == "__main__":
    main()

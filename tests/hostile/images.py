"""Images of guests that were changed at random, by 100,000 on each board, and 10,000 of whole machines: tests/library/loads.c
loads them, under the sanitizers of the compiler where it has them. Each is refused by 905, 906 or 908, or that of a machine by
907, and nothing changes, or the guest or the machine is then saved as these bytes; and nothing beyond them is read or written.

    images.py [COUNT]      COUNT in place of 100000

The library is library/libpciguest.a. The last line is 'images: N passed, M failed'."""
import os
import re
import subprocess
import sys
import tempfile
from pathlib import Path

from harness import BOARDS, TOP

TOLD = re.compile(r"(guests|machines): ([0-9]+) loaded, refused by 905: ([0-9]+), by 906: ([0-9]+), by 907: ([0-9]+), by 908: ([0-9]+)\n")
SANITIZERS = ["-fsanitize=address,undefined", "-fno-sanitize-recover=all"]
# a board with two guests, each of a function with all kinds of cells
BLOCKS = """[host]
io = [0x1000, 0xffff]
mem = [0xc0000000, 0xdfffffff]
""" + "".join(f"""
[[endpoint]]
at = "{device}.0"
vendor = 0x1234
device = {device}
class = 0xff0000
status = 0xf900
bar = [
  {{ index = 0, kind = "mem64", size = 0x1000, block = 4096, reset = "a5", rw = "0f", w1c = "f0" }},
  {{ index = 5, kind = "io", size = 16, block = 16, rw = "ff" }},
]
config = [ {{ off = 0x40, block = 192, reset = "5a00", rw = "3c" }} ]

[[guest]]
name = "g{device}"
slots = ["{device}.0"]
""" for device in (1, 2))


def build(folder):
    """The program, and whether it has the sanitizers."""
    source, library = TOP / "tests" / "library" / "loads.c", TOP / "library"
    words = [os.environ.get("CC", "cc"), "-std=c11", "-O1", "-g", f"-I{library}", "-o", f"{folder}/loads"]
    for flags in (SANITIZERS, []):
        if subprocess.run([*words, *flags, source, library / "libpciguest.a"], stderr=subprocess.DEVNULL).returncode == 0:
            return f"{folder}/loads", bool(flags)
    sys.exit("images: tests/library/loads.c is not built: is there library/libpciguest.a? make library")


def main(count):
    passed, failed = 0, 0
    with tempfile.TemporaryDirectory(prefix="hostile-") as folder:
        program, is_sanitized = build(folder)
        if not is_sanitized:
            print("the compiler has no sanitizers: without them")
        blocks = Path(folder, "blocks.toml")
        blocks.write_text(BLOCKS)
        print("| Board | Images of | Loaded | 905 | 906 | 907 | 908 |\n|---|---|---|---|---|---|---|")
        for board in (BOARDS / "main.toml", BOARDS / "kinds.toml", BOARDS / "server.toml", blocks):
            run = subprocess.run([program, board, count, "1"], capture_output=True, text=True, timeout=600)
            told = TOLD.findall(run.stdout)
            holds = run.returncode == 0 and [(of, sum(map(int, counts))) for of, *counts in told] == [
                ("guests", int(count)), ("machines", int(count) // 10)]
            passed, failed = passed + holds, failed + (not holds)
            rows = "\n".join(f"| `{board.name}` | {' | '.join(row)} |" for row in told)
            print(rows if holds else f"FAILED: {board.name}: {run.stderr}", flush=True)
    print(f"images: {passed} passed, {failed} failed")
    return failed == 0


if __name__ == "__main__":
    if len(sys.argv) > 2 or not all(word.isdigit() for word in sys.argv[1:]):
        sys.exit("usage: tests/hostile/images.py [COUNT]")
    sys.exit(0 if main(*sys.argv[1:] or ["100000"]) else 1)

#!/usr/bin/env python3
"""A machine at a socket of examples/qemu/serve goes on at that of another server, over another board: its guest is saved to a
file there, and loaded here. And files that are no image for a guest.
    tests/qemu/migrated.py SERVE BOARD
BOARD has a guest a with slots 0 and 1 and a guest b. The last line is 'N passed, M failed'. It needs no QEMU."""
import os
import re
import sys
import tempfile
from contextlib import closing
from pathlib import Path

from strangers import CONFIG_READ, CONFIG_WRITE, REGION_READ, REGION_WRITE, Server, ask, config, region, tallied

BESIDE = Path(__file__).resolve().parents[1] / "library" / "beside.toml"
BASE, WORD = 0x80000000, 0x12345678


def elsewhere(board):
    """The same functions and guests behind two more bridges, at other addresses, and beside others."""
    moved = re.sub(r'"(\d+\.\d[\d./]*)"', r'"6.0/3.0/\1"', board)
    return moved.replace("io = [0x1000", "io = [0x3000").replace("mem = [0xc0000000", "mem = [0x80000000") + BESIDE.read_text()


def host(server, line):
    """What the server answers to a line of the host."""
    server.process.stdin.write(line.encode() + b"\n")
    server.process.stdin.flush()
    return server.process.stdout.readline().decode().rstrip("\n")


def try_moved(here, there, tell, file):
    with here.connect("a:0") as machine:
        tell("the machine places a region, opens it and writes there", ask(machine, config(CONFIG_WRITE, 0x14, 4, BASE)) == 0
             and ask(machine, config(CONFIG_WRITE, 4, 2, 2)) == 0
             and ask(machine, region(REGION_WRITE, BASE + 0x10, 4, WORD)) == 0)
        tell("and in its own configuration space", ask(machine, config(CONFIG_WRITE, 0x40, 4, WORD)) == 0)
        tell("its guest is saved", host(here, f"host save a {file}") == "host: ok")
    with there.connect("a:0") as machine, there.connect("b:0") as other:
        tell("before it comes", ask(machine, config(CONFIG_READ, 0x14, 4)) == 0)
        ask(other, config(CONFIG_WRITE, 0x40, 4, 0x0B0B0B0B))
        tell("it is loaded", host(there, f"host load a {file}") == "host: ok")
        tell("its registers are there", ask(machine, config(CONFIG_READ, 0x14, 4)) == BASE
             and ask(machine, config(CONFIG_READ, 4, 2)) == 2 and ask(machine, config(CONFIG_READ, 0x40, 4)) == WORD)
        tell("its region is open, and has what was written", ask(machine, region(REGION_READ, BASE + 0x10, 4)) == WORD)
        tell("it goes on", ask(machine, region(REGION_WRITE, BASE + 0x14, 2, 0x5A5A)) == 0
             and ask(machine, region(REGION_READ, BASE + 0x12, 4)) == 0x5A5A1234)
        tell("the other guest's is as it was", ask(other, config(CONFIG_READ, 0x40, 4)) == 0x0B0B0B0B)
    tell("where it was, nothing changed", host(here, "a cr 0 0x40 4") == f"a: {WORD:#010x}")


def try_refused(here, tell, file):
    before, absent = host(here, "a cr 0 0x40 4"), f"{file}.absent"
    for line, reply in ((f"host load b {file}", "host: refused 906 image is for other functions"),
                        ("host load a /dev/null", "host: refused 905 not a valid image"),
                        (f"host load nobody {file}", "host: refused 902 invalid argument"),
                        (f"host save nobody {file}", "host: refused 902 invalid argument"),
                        (f"host load a {absent}", f"host: {absent}: No such file or directory"),
                        (f"host save a {absent}/x", f"host: {absent}/x: No such file or directory"),
                        ("host load a", "host: refused 401 bad line"), ("host store a x", "host: refused 401 bad line")):
        tell(f"{line}: {reply}", host(here, line) == reply)
    tell("a save to a full device", host(here, "host save a /dev/full") == "host: /dev/full: No space left on device")
    tell("what is refused changes nothing", host(here, "a cr 0 0x40 4") == before)


def try_logs(here, there, tell, file):
    for server in (here, there):
        server.process.communicate(timeout=20)
    told = [Path(server.log).read_text().splitlines() for server in (here, there)]
    tell("the log says that it was saved", told[0].count(f"#save a {file}") == 1)
    loaded = told[1].index(f"#load a {file}") if f"#load a {file}" in told[1] else -1
    tell("and that it was loaded, with where its region stands",
         loaded >= 0 and told[1][loaded + 1:].count(f"#region a 0 bar1 memory {BASE:#x} 0x1000 open") == 1)


def main(tell, serve, board):
    with tempfile.TemporaryDirectory() as room:
        other, file = Path(room, "elsewhere.toml"), os.path.join(room, "a.image")
        other.write_text(elsewhere(Path(board).read_text()))
        with closing(Server(serve, board)) as here, closing(Server(serve, other)) as there:
            try_moved(here, there, tell, file)
            try_refused(here, tell, file)
            try_logs(here, there, tell, file)


if __name__ == "__main__":
    sys.exit(tallied("migrated", main, *sys.argv[1:]))

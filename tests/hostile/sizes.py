"""Board files and scripts of great size, deep nesting and odd bytes: answers, time and memory."""
import subprocess
import sys
from pathlib import Path

from harness import MAIN, Room

MEGABYTE = 1 << 20
LINE = b"a cr 0 0 4\n"
REPLY = b"a: 0x00011234\n"


def odd_bytes(room):
    """Board files with bytes that editors and other systems leave."""
    board = open(MAIN, "rb").read()
    report = room.run(["list", MAIN]).out
    for name, content, wanted in [
        ("empty", b"", "102"), ("blank lines", b"\n \t\n", "102"), ("one NUL byte", b"\0", "101"),
        ("a NUL byte in a comment", b"# \0\n" + board, "101"),
        ("a NUL byte in a path", board.replace(b'"1.0"', b'"1.0\\u0000"', 1), "105"),
        ("a byte FFh", b"\xff", "101"), ("half a character", b"# \xc3\n" + board, "101"),
        ("a character of UTF-16", b"# \xed\xa0\x80\n" + board, "101"),
        ("UTF-16", board.decode().encode("utf-16"), "101"),
        ("CR LF line ends", board.replace(b"\n", b"\r\n"), "ok"),
        ("CR line ends", board.replace(b"\n", b"\r"), "101"),
        ("a byte order mark", b"\xef\xbb\xbf" + board, "ok"),
        ("a byte order mark alone", b"\xef\xbb\xbf", "102"),
        ("a byte order mark twice", b"\xef\xbb\xbf" * 2 + board, "101"),
        ("no line feed at the end", board.rstrip(b"\n"), "ok"), ("cut in two", board[: len(board) // 2], "101"),
        ("another kind of file", open("/bin/sh", "rb").read(), "101"),
    ]:
        room.row(f"board file: {name}", room.run(["list", room.write("board", content)]), wanted,
                 report if wanted == "ok" else b"")


def deep(depth):
    """Nesting of this depth, in the ways that TOML has."""
    return [
        (f"arrays nested {depth} deep", b"x = " + b"[" * depth + b"]" * depth + b"\n"),
        (f"arrays nested {depth} deep, not closed", b"x = " + b"[" * depth),
        (f"inline tables nested {depth} deep", b"x = " + b"{a = " * depth + b"1" + b"}" * depth + b"\n"),
        (f"a key of {depth} parts", b"a" + b".a" * (depth - 1) + b" = 1\n"),
        (f"a table's name of {depth} parts", b"[a" + b".a" * (depth - 1) + b"]\n"),
    ]


def large(count):
    """Documents with so many of one thing."""
    numbered = range(count)
    return [
        (f"{count} tables", b"".join(b"[t%d]\n" % n for n in numbered)),
        (f"{count} endpoints", b"[[endpoint]]\n" * count),
        (f"{count} keys", b"".join(b"k%d = 1\n" % n for n in numbered)),
        (f"an array of {count} numbers", b"x = [" + b"1," * count + b"]\n"),
        (f"an array of {count} tables", b"endpoint = [" + b"{}," * count + b"]\n"),
        (f"{count} lines", b"# x\n" * count),
    ]


def long_lines(size):
    """Documents of one line."""
    return [
        ("a comment", b"#" * size), ("blanks", b" " * size), ("a key", b"k" * size),
        ("a string", b'x = "' + b"y" * size + b'"'), ("a string that isn't closed", b'x = "' + b"y" * size),
        ("a number", b"x = " + b"1" * size), ("escapes", b'x = "' + b"\\n" * (size // 2) + b'"'),
        ("a path", b'[host]\nio=[0x1000,0xffff]\nmem=[0xc0000000,0xdfffffff]\n[[endpoint]]\nvendor=1\ndevice=1\n'
         b'class=1\nat = "' + b"0.0/" * (size // 4) + b'0.0"'),
    ]


def tell_board(room, name, content, seconds):
    """Runs `list` on a board file that isn't lawful: one fault line, within the time."""
    run = room.run(["list", room.write("board", content)], seconds=seconds)
    holds = run.answer().isdigit() and run.out == b""
    room.expect(f"board file: {name}", holds, f"{run.answer()}, {run.passed / 1000:.1f} s")
    print(f"| board file: {name}, {len(content) / MEGABYTE:.1f} MB | {run.answer()} | {run.passed / 1000:.2f} "
          f"| {run.kilobytes / 1024:.1f} |", flush=True)


def boards(room, whole):
    """Hostile board files; `whole` with those that take long."""
    odd_bytes(room)
    for depth in [1000, 10000] + ([100000, 1000000] if whole else []):
        for name, content in deep(depth):
            tell_board(room, name, content, 300)
    for count in [1000, 10000] + ([100000, 1000000] if whole else []):
        for name, content in large(count):
            tell_board(room, name, content, 300)
    for size in [MEGABYTE] + ([100 * MEGABYTE] if whole else []):
        for name, content in long_lines(size):
            tell_board(room, f"one line, {name}", content, 300)


def piped(room, name, command, wanted_lines, wanted, wanted_said=b"", words=("run", MAIN)):
    """Runs a script that another program writes; counts the lines that come and those that differ."""
    counted = Path(room.path("counted"))
    with subprocess.Popen(["sh", "-c", command], stdout=subprocess.PIPE) as maker, open(counted, "wb") as to, \
            subprocess.Popen(["uniq", "-c"], stdin=subprocess.PIPE, stdout=to) as counter:
        run = room.run(words, stdin=maker.stdout, stdout=counter.stdin, seconds=600)
    got = counted.read_bytes().split(b"\n")[0].strip()
    wanted_told = b"%d %s" % (wanted_lines, wanted) if wanted_lines else b""
    holds = (run.status, run.err, got) == (0, wanted_said, wanted_told)
    room.expect(name, holds and run.kilobytes < 8192, f"{run.answer()}, {got!r}, {run.err!r}, {run.kilobytes} KB")
    end = "ok" if holds else "wrong"
    print(f"| {name} | {end} | {run.passed / 1000:.2f} | {run.kilobytes / 1024:.1f} |", flush=True)


def scripts(room, whole):
    """Long scripts and long lines: memory stays what it is with an empty script."""
    long_line = b"?: refused 403 long line"
    for size in ["1M", "100M"] + (["4G"] if whole else []):
        piped(room, f"script: one line of {size}", f"head -c {size} /dev/zero | tr '\\0' x", 1, long_line)
        piped(room, f"script: one line of {size} of NUL bytes", f"head -c {size} /dev/zero", 1, long_line)
    for count in [10**5, 10**6] + ([10**7] if whole else []):
        piped(room, f"script: {count} lines", f"yes 'a cr 0 0 4' | head -n {count}", count, REPLY.strip())
        told = [b"script:%d: error: missing slot (expected 'cr SLOT OFFSET WIDTH')" % it for it in range(1, 21)]
        told.append(b"script: %d more malformed lines" % (count - 20))
        piped(room, f"script: {count} bad lines", f"yes 'a cr' | head -n {count}", count, b"a: refused 401 bad line",
              b"".join(b"%s\n" % it for it in told))
        piped(room, f"script: {count} blank lines", f"yes '' | head -n {count}", 0, b"")
        piped(room, f"script: {count} raises", f"yes 'a raise 0 cfg 7 0xff' | head -n {count}", count, b"a: ok")


def main(program, whole):
    room = Room(program, "sizes")
    boards(room, whole)
    scripts(room, whole)
    return room.end()


if __name__ == "__main__":
    sys.exit(0 if main(sys.argv[1], "--quick" not in sys.argv) else 1)

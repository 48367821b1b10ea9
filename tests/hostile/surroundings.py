"""What standard input and output may be, and what may stand at a board file's path."""
import os
import pty
import select
import subprocess
import sys
import time

from harness import BOARDS, MAIN, Room, fault_line, memory_of

LINE = b"a cr 0 0 4\n"
REPLY = b"a: 0x00011234\n"


def with_closed(room, name, closed, words, wanted, out=b""):
    """Runs the program with some of its streams closed."""
    run = room.run(["-c", f"exec \"$0\" \"$@\" {closed}", room.program, *words], program="/bin/sh")
    line = fault_line(wanted) if wanted and "2>&-" not in closed else b""
    first = run.err[:run.err.find(b"\n") + 1]
    holds = (run.status, run.out, first) == (1 if wanted else 0, out, line)
    room.expect(name, holds, f"status {run.status}, {run.out[:80]!r}, {run.err[:80]!r}")
    print(f"| {name} | {wanted or 'ok'} |", flush=True)


def closed_streams(room):
    """Standard input, output and error closed before the program begins."""
    report = room.run(["list", MAIN]).out
    with_closed(room, "list, standard input closed", "<&-", ["list", MAIN], 0, report)
    with_closed(room, "list, standard output closed", ">&-", ["list", MAIN], 502)
    with_closed(room, "list, input and output closed", "<&- >&-", ["list", MAIN], 502)
    with_closed(room, "run, standard input closed", "<&-", ["run", MAIN], 501)
    with_closed(room, "run, standard output closed, empty script", ">&-", ["run", MAIN], 0)
    with_closed(room, "demo, standard input closed", "<&-", ["demo"], 501)
    with_closed(room, "list, standard error closed", "2>&-", ["list", MAIN], 0, report)
    with_closed(room, "a usage fault, standard error closed", "2>&-", ["x"], 701)
    with_closed(room, "all three closed", "<&- >&- 2>&-", ["run", MAIN], 501)


def other_streams(room):
    """Standard input and output that are no plain files."""
    folder = os.open("/", os.O_RDONLY)
    room.row("run, standard input a folder", room.run(["run", MAIN], stdin=folder), "501", b"")
    os.close(folder)
    with open("/dev/full", "wb") as full:
        room.row("list, a full device", room.run(["list", MAIN], stdout=full), "502")
        room.row("run, a full device", room.run_script(["run", MAIN], LINE, stdout=full), "502")
        room.row("--help, a full device", room.run(["--help"], stdout=full), "502")
    with open(os.devnull, "rb") as only_read:
        room.row("run, standard output open for reading alone",
                 room.run_script(["run", MAIN], LINE, stdout=only_read), "502")
    with open(os.devnull, "wb") as only_write:
        room.row("run, standard input open for writing alone", room.run(["run", MAIN], stdin=only_write), "501")
    for words, script in [(["list", MAIN], b""), (["run", MAIN], LINE * 100000), (["demo"], LINE * 100000)]:
        ours, theirs = os.pipe()
        os.close(ours)
        room.row(f"{words[0]}, a pipe whose reader is gone", room.run_script(words, script, stdout=theirs), "502")
        os.close(theirs)


def answer_within(master, wanted, seconds=20):
    """Whether these bytes come from a terminal."""
    got, end = b"", time.monotonic() + seconds
    while wanted not in got and time.monotonic() < end:
        if select.select([master], [], [], 0.2)[0]:
            got += os.read(master, 4096)
    return wanted in got


def terminal(room):
    """A terminal: each line is answered as it is typed, and an end of file ends the run."""
    master, slave = pty.openpty()
    program = subprocess.Popen([room.program, "run", MAIN], stdin=slave, stdout=slave, stderr=slave)
    os.write(master, LINE)
    room.expect("a terminal answers a line", answer_within(master, REPLY.replace(b"\n", b"\r\n")))
    os.write(master, b"b cr 0 0 4")
    time.sleep(0.3)
    os.write(master, b"\n")
    room.expect("a terminal answers a second line", answer_within(master, b"b: 0x00031234\r\n"))
    os.write(master, b"\x04")
    room.expect("a terminal's end of file ends the run", program.wait(20) == 0, program.returncode)
    os.close(slave)
    os.close(master)
    master, slave = pty.openpty()
    with open(room.path("out"), "wb") as out, open(room.path("err"), "wb") as err:
        program = subprocess.Popen([room.program, "run", MAIN], stdin=slave, stdout=out, stderr=err)
        os.close(slave)
        os.write(master, LINE)
        time.sleep(0.5)
        os.close(master)
        program.wait(20)
    told, said = open(room.path("out"), "rb").read(), open(room.path("err"), "rb").read()
    holds = told == REPLY and (program.returncode, said) in [(1, fault_line(501)), (0, b"")]
    room.expect("a terminal that goes away", holds, f"{program.returncode} {told!r} {said!r}")
    print(f"| run, a terminal that goes away | status {program.returncode}, {said.decode().strip()} |")


def slow_reader(room):
    """A reader that takes nothing for a while: the program waits, and its memory stays bounded."""
    with open(room.write("script", LINE * 200000), "rb") as script:
        program = subprocess.Popen([room.program, "run", MAIN], stdin=script, stdout=subprocess.PIPE)
        time.sleep(1)
        held = memory_of(program.pid)
        waits = program.poll() is None
        out = program.communicate(timeout=60)[0]
    room.expect("a reader that waits", waits and held < 8192 and out == REPLY * 200000, f"{held} KB")
    print(f"| run, a reader that takes nothing for a second | ok, {held / 1024:.1f} MB held |", flush=True)


def as_nobody(room):
    """An unreadable board file, to one who isn't root."""
    board = room.write("unreadable.toml", open(MAIN, "rb").read())
    os.chmod(board, 0)
    os.chmod(room.folder, 0o755)
    user = 65534 if os.geteuid() == 0 else None
    run = subprocess.run([room.program, "list", board], capture_output=True, user=user, stdin=subprocess.DEVNULL)
    told = fault_line(702) + f"error: cannot read '{board}': permission denied\n".encode()
    room.expect("an unreadable board file", (run.returncode, run.stdout, run.stderr) == (1, b"", told), run)
    print("| a board file that its user can't read | 702 |")


def board_paths(room):
    """What a path may lead to."""
    report = room.run(["list", MAIN]).out
    folder, line = str(BOARDS), room.path("pipe")
    for name, path in [("a folder", folder), ("no file", room.path("none")), ("below a file", MAIN + "/x"),
                       ("an empty path", ""), ("a path of 5000 bytes", "x" * 5000),
                       ("memory that can't be read", "/proc/self/mem")]:
        room.row(f"board file: {name}", room.run(["list", path]), "702", b"")
    os.symlink("loop", room.path("loop"))
    room.row("board file: a link to itself", room.run(["list", room.path("loop")]), "702", b"")
    room.row("board file: /dev/null", room.run(["list", "/dev/null"]), "102", b"")
    os.mkfifo(line)
    writer = subprocess.Popen(["cp", MAIN, line])
    room.row("board file: a pipe", room.run(["list", line]), "ok", report)
    writer.wait(20)
    with open(MAIN, "rb") as board:
        room.row("board file: standard input", room.run(["list", "/dev/stdin"], stdin=board), "ok", report)
    as_nobody(room)


def main(program):
    room = Room(program, "surroundings")
    closed_streams(room)
    other_streams(room)
    terminal(room)
    slow_reader(room)
    board_paths(room)
    return room.end()


if __name__ == "__main__":
    sys.exit(0 if main(sys.argv[1]) else 1)

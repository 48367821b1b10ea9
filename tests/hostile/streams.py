"""Each read of standard input and each write of standard output failing in turn."""
import errno
import sys

from harness import BOARDS, MAIN, Room

SCRIPTS = ["two_guests.script", "move.script"]
ERRORS = [errno.EIO, errno.EAGAIN, errno.EBADF]


def lines_read(script, count):
    """The script's lines whose line feeds are among the first `count` bytes."""
    return script[: script.rfind(b"\n", 0, count) + 1]


def each_read(room, name, words, script, step):
    """Each read fails, once or from then on, or is interrupted by a signal: 501, after the output of the lines
    that were read up to their line feeds. It is not tried again."""
    _, plain = room.counted(words, script, READ_AT_MOST=step)
    wanted = {}
    for failing in range(1, plain.reads + 1):
        given = lines_read(script, step * (failing - 1))
        if given not in wanted:
            wanted[given] = room.run_script(words, given).out
        for onward, error in [(0, ERRORS[failing % 3]), (0, errno.EINTR), (1, errno.EIO)]:
            run, made = room.counted(words, script, READ_AT_MOST=step, FAIL_READ=failing, FAIL_ERROR=error,
                                     FAIL_ONWARD=onward)
            test = f"{name}, read {failing} of {step} bytes, error {error}"
            room.expect(test, run.answer() == "501" and made.reads == failing, f"{run.answer()}, {made.reads} reads")
            room.expect(f"{test}: output", run.out == wanted[given], run.out)
    print(f"| {name} | {step} bytes a read, each of {plain.reads} reads failing | 501, the lines read are answered |")


def each_write(room, name, words, script, step):
    """Each write fails or takes no byte, once or from then on, or is interrupted by a signal: 502, after what was
    taken until then. Nothing more is written, not even tried, though a writer that fails once would take it."""
    more = {"READ_AT_MOST": 7, "WRITE_AT_MOST": step}
    whole, plain = room.counted(words, script, **more)
    before = b""
    for failing in range(1, plain.writes + 1):
        outs = []
        for onward, error in [(1, errno.ENOSPC), (1, 0), (0, ERRORS[failing % 3]), (0, errno.EINTR), (0, 0)]:
            run, made = room.counted(words, script, FAIL_WRITE=failing, FAIL_ERROR=error, FAIL_ONWARD=onward, **more)
            room.expect(f"{name}, write {failing} of {step} bytes, error {error}",
                        run.answer() == "502" and made.writes == failing, f"{run.answer()}, {made.writes} writes")
            outs.append(run.out)
        holds = len(set(outs)) == 1 and whole.out.startswith(outs[0])
        longer = len(before) < len(outs[0]) <= len(before) + step or failing == 1 and not outs[0]
        room.expect(f"{name}, write {failing} of {step} bytes: output", holds and longer, outs)
        before = outs[0]
    print(f"| {name} | {step} bytes a write, each of {plain.writes} writes failing | 502, what was taken until then |")


def short_calls(room, name, words, script):
    """Reads and writes of few bytes give the same output."""
    whole = room.run_script(words, script).out
    for reading, writing in [(1, 1), (1, 4096), (7, 5), (4096, 1), (3, 2)]:
        run = room.run_script(words, script, READ_AT_MOST=reading, WRITE_AT_MOST=writing)
        room.expect(f"{name}, {reading} bytes a read and {writing} a write",
                    run.answer() == "ok" and run.out == whole, run.answer())


def main(program):
    room = Room(program, "reads and writes failing")
    for script_name in SCRIPTS:
        script = (BOARDS / script_name).read_bytes()
        name, words = f"run, main board, {script_name}", ["run", MAIN]
        for step in [1, 7, 4096]:
            each_read(room, name, words, script, step)
        for step in [1, 5, 4096]:
            each_write(room, name, words, script, step)
        short_calls(room, name, words, script)
    each_write(room, "list, main board", ["list", MAIN], b"", 5)
    each_write(room, "--help", ["--help"], b"", 50)
    cut = room.run_script(["run", MAIN], b"a cr 0 0 4\na cr 0 0", READ_AT_MOST=18, FAIL_READ=2)
    room.expect("a reader that fails within a line", cut.out == b"a: 0x00011234\n", cut.out)
    five = room.run_script(["run", MAIN], b"a cr 0 0 4", WRITE_AT_MOST=5, FAIL_WRITE=2,
                           FAIL_ONWARD=1)
    room.expect("a writer that takes 5 bytes and fails", five.out == b"a: 0x", five.out)
    return room.end()


if __name__ == "__main__":
    sys.exit(0 if main(sys.argv[1]) else 1)

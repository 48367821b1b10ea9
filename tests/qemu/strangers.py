#!/usr/bin/env python3
"""Strangers at the sockets of examples/qemu/serve: who sends nonsense, half a message or too much, or dies, is dropped,
and the machine at the next socket is answered as before.
    tests/qemu/strangers.py SERVE PROGRAM BOARD
BOARD has a guest a with slots 0 and 1 and a guest b. The last line is 'N passed, M failed'. It needs no QEMU."""
import array
import contextlib
import os
import random
import shutil
import socket
import struct
import subprocess
import sys
import tempfile
import time

SYNC, REPLY, CONFIG_WRITE, CONFIG_READ, REGION_WRITE, REGION_READ, INTERRUPT, RESET = range(8)
PATIENCE = 5  # seconds that the server gives to half a message


def message(command, body=b"", length=None):
    return struct.pack("<iIQ", command, 0, len(body) if length is None else length) + body


def config(command, offset, width, value=0):
    return message(command, struct.pack("<IIi", offset, value, width))


def region(command, place, width, value=0, is_memory=1):
    return message(command, struct.pack("<QQIB3x", place, value, width, is_memory))


class Server:
    """The server over a board, with a socket for each of some slots."""

    def __init__(self, serve, board, slots=("a:0", "a:1", "b:0")):
        self.room = tempfile.mkdtemp()
        self.log = os.path.join(self.room, "log.script")
        self.told = open(os.path.join(self.room, "told"), "w+")
        gives = [word for slot in slots for word in ("--give", f"{slot}={self.path(slot)}")]
        self.process = subprocess.Popen([serve, "--log", self.log, *gives, board], stdin=subprocess.PIPE,
                                        stdout=subprocess.PIPE, stderr=self.told)
        deadline = time.time() + 20
        while self.last() != "serve: ready":
            if self.process.poll() is not None or time.time() > deadline:
                raise SystemExit(open(self.told.name).read() + "strangers: the server doesn't start")
            time.sleep(0.01)

    def path(self, slot):
        return os.path.join(self.room, slot.replace(":", "") + ".socket")

    def connect(self, slot):
        peer = socket.socket(socket.AF_UNIX)
        peer.connect(self.path(slot))
        peer.settimeout(PATIENCE + 5)
        return peer

    def last(self):
        """The last line that the server told."""
        return (open(self.told.name).read().splitlines() or [""])[-1]

    def descriptors(self):
        return len(os.listdir(f"/proc/{self.process.pid}/fd"))

    def worked(self):
        """Seconds of processor time that the server has taken."""
        fields = open(f"/proc/{self.process.pid}/stat").read().rsplit(")", 1)[1].split()
        return (int(fields[11]) + int(fields[12])) / os.sysconf("SC_CLK_TCK")

    def run_again(self, program, board):
        """The log of a server that has ended, the replies that it tells, and what the program answers to it."""
        log = open(self.log, "rb").read()
        replies = b"".join(line[2:] + b"\n" for line in log.split(b"\n") if line.startswith(b"# "))
        again = subprocess.run([program, "run", board], input=log, capture_output=True, timeout=60)
        return log, replies, again.stdout

    def close(self):
        if self.process.poll() is None:
            self.process.kill()
            self.process.wait()
        shutil.rmtree(self.room)


def whole_answer(peer):
    """The value of a reply; None where the server hung up."""
    came = b""
    while len(came) < 24:
        piece = peer.recv(24 - len(came))
        if not piece:
            return None
        came += piece
    command, _, length, value = struct.unpack("<iIQQ", came)
    return value if (command, length) == (REPLY, 8) else None


def ask(peer, sent):
    peer.sendall(sent)
    return whole_answer(peer)


def send_descriptors(peer, sent, count):
    null = os.open("/dev/null", os.O_RDONLY)
    rights = (socket.SOL_SOCKET, socket.SCM_RIGHTS, array.array("i", [null] * count))
    peer.sendmsg([sent], [rights])
    os.close(null)


# Who is dropped: what is sent, whether the peer then leaves, and what the server tells.
def dropped():
    read = config(CONFIG_READ, 0, 4)
    yield "nothing, and leaves", b"", True, "gone"
    yield "words of another protocol", b"GET / HTTP/1.1\r\nHost: a\r\n\r\n", False, "dropped: no such command"
    yield "half a head, and leaves", read[:9], True, "dropped: half a message"
    yield "half a body, and leaves", read[:20], True, "dropped: half a message"
    yield "half a head, and is silent", read[:9], False, "dropped: half a message, and nothing more"
    yield "half a body, and is silent", read[:20], False, "dropped: half a message, and nothing more"
    for command in (-1, -(1 << 31), REPLY, 8, (1 << 31) - 1):
        yield f"command {command}", message(command, bytes(8)), False, "dropped: no such command"
    for length in (0, 11, 13, 192, 193, 1 << 32, (1 << 64) - 1):
        yield (f"a configuration read of length {length}", message(CONFIG_READ, b"", length), False,
               "dropped: a length that its command doesn't have")
    for command in (SYNC, CONFIG_WRITE, REGION_WRITE, REGION_READ, INTERRUPT, RESET):
        yield (f"command {command} of length 1000000", message(command, bytes(1000), 1000000), False,
               "dropped: a length that its command doesn't have")
    for kind in (2, 255):
        yield (f"a region of kind {kind}", region(REGION_READ, 0, 4, 0, kind), False,
               "dropped: an access neither to a port nor to memory")
    source = random.Random(1)
    for number in range(20):
        yield f"random bytes {number}", source.randbytes(4096), False, "dropped: no such command"


def try_dropped(server, tell, other):
    for name, sent, leaves, words in dropped():
        peer = server.connect("a:0")
        try:
            peer.sendall(sent)
        except OSError:
            pass
        tell(f"{name}: meanwhile the other is answered", other())
        if not leaves:
            tell(f"{name}: is hung up on", hangs_up(peer))
        peer.close()
        tell(f"{name}: the other is answered", other())
        tell(f"{name}: {words}", settles(lambda: server.last() == f"serve: a:0: {words}"))


def hangs_up(peer):
    try:
        return peer.recv(1) == b""
    except ConnectionResetError:
        return True
    except OSError:
        return False


def settles(condition):
    """Whether it holds within some seconds."""
    for _ in range(500):
        if condition():
            return True
        time.sleep(0.01)
    return False


def try_descriptors(server, tell, other):
    before = server.descriptors()
    peer = server.connect("a:0")
    send_descriptors(peer, message(SYNC, bytes(192)), 8)
    send_descriptors(peer, message(INTERRUPT), 2)
    tell("descriptors of memory and interrupts: the next message is answered",
         ask(peer, config(CONFIG_READ, 0, 4)) == 0x000A1234)
    tell("descriptors of memory and interrupts are closed", server.descriptors() == before + 1)
    tries = (("nine with memory", message(SYNC, bytes(192)), 9, "too many descriptors"),
             ("a hundred", message(RESET), 100, "too many descriptors"),
             ("one with a reset", message(RESET), 1, "descriptors that its command doesn't have"),
             ("half a head with two", message(SYNC)[:5], 2, "half a message"))
    for name, sent, count, words in tries:
        peer.close()
        settles(lambda: server.descriptors() == before)
        peer = server.connect("a:0")
        send_descriptors(peer, sent, count)
        if words == "half a message":
            peer.shutdown(socket.SHUT_WR)
        tell(f"descriptors, {name}: is hung up on", hangs_up(peer))
        tell(f"descriptors, {name}: {words}", settles(lambda: server.last() == f"serve: a:0: dropped: {words}"))
    peer.close()
    tell("descriptors of strangers are closed", settles(lambda: server.descriptors() == before))
    tell("descriptors: the other is answered", other())


def try_lawful(server, tell, other):
    """What is strange, and still a message: it is answered, and all ones where nothing takes it."""
    with server.connect("a:0") as peer:
        for piece in config(CONFIG_READ, 0, 4):
            peer.sendall(bytes([piece]))
        tell("a message byte by byte is answered", whole_answer(peer) == 0x000A1234)
        for width in (0, 3, 8, -1, 1 << 30):
            tell(f"a read of width {width} is answered", ask(peer, config(CONFIG_READ, 0, width)) == 0xFFFFFFFF)
        tell("an offset beyond all is answered", ask(peer, config(CONFIG_READ, 0xFFFFFFFC, 4)) == 0xFFFFFFFF)
        tell("a region at the last address is answered",
             ask(peer, region(REGION_READ, (1 << 64) - 8, 8)) == (1 << 64) - 1)
        tell("a port beyond all is answered", ask(peer, region(REGION_READ, 1 << 40, 4, 0, 0)) == 0xFFFFFFFF)
        with server.connect("a:0") as second:
            tell("a second at the same socket is hung up on", hangs_up(second))
        tell("and the first is answered", ask(peer, config(CONFIG_READ, 0, 4)) == 0x000A1234)
        tell("eight bytes are written", ask(peer, config(CONFIG_WRITE, 0x14, 4, 0x80000000)) == 0
             and ask(peer, config(CONFIG_WRITE, 4, 2, 3)) == 0
             and ask(peer, region(REGION_WRITE, 0x80000008, 8, 0x1122334455667788)) == 0)
        tell("and read", ask(peer, region(REGION_READ, 0x80000008, 8)) == 0x1122334455667788)
        tell("a reset is answered", ask(peer, message(RESET)) == 0)
        tell("after it no region is open", ask(peer, region(REGION_READ, 0x80000008, 4)) == 0xFFFFFFFF)
        tell("and its base is 0", ask(peer, config(CONFIG_READ, 0x14, 4)) == 0)
    with server.connect("a:1") as peer:
        tell("the next slot has its own function", ask(peer, config(CONFIG_READ, 0, 4)) == 0x00021B36)
        tell("and its own reset", ask(peer, config(CONFIG_WRITE, 4, 2, 1)) == 0 and ask(peer, message(RESET)) == 0
             and ask(peer, config(CONFIG_READ, 4, 2)) == 0)
    tell("the other is answered", other())


def try_reach(server, tell, other):
    """A socket reaches the regions of its own function alone, and no port of configuration space."""
    with server.connect("a:0") as first, server.connect("a:1") as second:
        tell("two functions are placed", ask(first, config(CONFIG_WRITE, 0x10, 4, 0x1000)) == 0
             and ask(first, config(CONFIG_WRITE, 4, 2, 3)) == 0
             and ask(second, config(CONFIG_WRITE, 0x10, 4, 0x1020)) == 0
             and ask(second, config(CONFIG_WRITE, 4, 2, 1)) == 0)
        tell("a write to one's own port is read", ask(first, region(REGION_WRITE, 0x1008, 1, 0x41, 0)) == 0
             and ask(first, region(REGION_READ, 0x1008, 1, 0, 0)) == 0x41)
        tell("the next slot's socket doesn't read it", ask(second, region(REGION_READ, 0x1008, 1, 0, 0)) == 0xFFFFFFFF)
        tell("nor write it", ask(second, region(REGION_WRITE, 0x1008, 1, 0x42, 0)) == 0
             and ask(first, region(REGION_READ, 0x1008, 1, 0, 0)) == 0x41)
        tell("an access past the end of a region reads no other's",
             ask(first, region(REGION_READ, 0x101C, 8, 0, 0)) == 0xFFFFFFFF00000000)
        tell("CONFIG_ADDRESS is no region", ask(first, region(REGION_WRITE, 0xCF8, 4, 0x80000000, 0)) == 0
             and ask(first, region(REGION_READ, 0xCFC, 4, 0, 0)) == 0xFFFFFFFF)
        ask(first, config(CONFIG_WRITE, 0x10, 4, 0xCE0))
        tell("nor where a region stands over it", ask(first, region(REGION_WRITE, 0xCF8, 4, 0x80000000, 0)) == 0
             and ask(first, region(REGION_READ, 0xCF8, 4, 0, 0)) == 0xFFFFFFFF
             and ask(first, region(REGION_READ, 0xCFC, 4, 0, 0)) == 0)
    tell("the other is answered", other())


def try_floods(server, tell, other):
    """Who asks and never takes an answer; who asks and dies; who comes and goes."""
    peer = server.connect("a:0")
    peer.setblocking(False)
    many, sent = config(CONFIG_READ, 0, 4) * 1000, 0
    deadline = time.time() + 1
    while time.time() < deadline:
        try:
            sent += peer.send(many)
        except BlockingIOError:
            time.sleep(0.001)
    tell("a flood is held back", sent > 1000)
    tell("a flood: the other is answered", all(other() for _ in range(100)))
    before = server.worked()
    time.sleep(1)
    tell("a flood that is held back costs nothing", server.worked() - before < 0.1)
    peer.close()
    tell("a flood that dies is dropped", settles(lambda: server.last().startswith("serve: a:0: dropped: ")))
    for _ in range(100):
        # who comes before the last is seen to be gone is turned away, maybe before it asks
        with server.connect("a:0") as peer, contextlib.suppress(ConnectionError):
            peer.sendall(config(CONFIG_READ, 0, 4))
    tell("a hundred that ask and die: the other is answered", other())


def try_end(server, tell, program, board):
    """The end: the server ends with its standard input, leaves no socket, and its log says what it did."""
    server.process.stdin.write(b"host cr 00:01.0 0 4\na raise 31 cfg 6 1\n" + b"x" * 1000 + b"\n\n# nothing\nhost ")
    out, _ = server.process.communicate(timeout=20)
    tell("lines are answered", out == b"host: 0x000a1234\na: refused 601 empty slot\n?: refused 403 long line\n"
         b"host: refused 401 bad line\n")
    tell("it ends well", server.process.returncode == 0)
    tell("its sockets are gone", not any(os.path.exists(server.path(slot)) for slot in ("a:0", "a:1", "b:0")))
    log, replies, again = server.run_again(program, board)
    tell(f"its log, run again, is answered alike: {replies.count(10)} events", replies == again and replies)
    told = [line[len("serve: "):] for line in open(server.told.name).read().splitlines() if line != "serve: ready"]
    logged = [line[1:].decode() for line in log.split(b"\n") if line[:3] in (b"#a:", b"#b:")]
    tell("its log has who came, went and was dropped", told == logged and told)


def full_board(path, has_other):
    """Writes a board whose guest a has a function in each slot, and b, if it is there, has one."""
    places = [f"{1 + number // 8}.{number % 8}" for number in range(33)]
    with open(path, "w") as file:
        file.write("[host]\nio = [0x1000, 0xffff]\nmem = [0xc0000000, 0xcfffffff]\n")
        for place in places:
            file.write(f'[[endpoint]]\nat = "{place}"\nvendor = 0x1234\ndevice = 10\nclass = 0xff0000\n')
        for name, given in (("a", places[:32]), ("b", places[32:]))[: 1 + has_other]:
            file.write(f'[[guest]]\nname = "{name}"\nslots = {given}\n'.replace("'", '"'))


def try_full(serve, tell, program):
    """A reset in a guest that has no empty slot: its log goes by another guest's or, where there is none, says so."""
    for has_other in (True, False):
        with tempfile.TemporaryDirectory() as room:
            board = os.path.join(room, "board.toml")
            full_board(board, has_other)
            with contextlib.closing(Server(serve, board, ("a:3", "b:0")[:1 + has_other])) as server:
                with server.connect("a:3") as peer:
                    ask(peer, config(CONFIG_WRITE, 0x3C, 1, 0x55))
                    tell("a full guest: a reset", ask(peer, config(CONFIG_READ, 0x3C, 1)) == 0x55
                         and ask(peer, message(RESET)) == 0 and ask(peer, config(CONFIG_READ, 0x3C, 1)) == 0)
                server.process.communicate(timeout=20)
                log, replies, again = server.run_again(program, board)
            if has_other:
                tell("a full guest: its log is answered alike", replies == again and b"host move a 3 b 31\n" in log)
            else:
                tell("no empty slot: its log says a reset", b"\n#reset a 3\n" in log)


def try_words(serve, tell, board):
    """Words that the server can't follow: it ends with a status, and leaves no socket."""
    with tempfile.TemporaryDirectory() as room:
        path = os.path.join(room, "socket")
        open(os.path.join(room, "taken"), "w").close()
        tries = (([], 2), ([board], 2), (["--give", f"a:0={path}"], 2), (["--give", "a0", board], 2),
                 (["--give", f"a:32={path}", board], 2), (["--give", f"a:x={path}", board], 2),
                 (["--give", f"c:0={path}", board], 1), (["--give", f"a:0={room}/taken", board], 1),
                 (["--give", f"a:0={path}", "--give", f"a:1={path}", board], 1),
                 (["--give", f"a:0={'x' * 200}", board], 1), (["--give", f"a:0={path}", room], 1),
                 (["--give", f"a:0={path}", serve], 1), (["--log", room, "--give", f"a:0={path}", board], 1))
        for words, status in tries:
            ended = subprocess.run([serve, *words], stdin=subprocess.DEVNULL, capture_output=True, timeout=20)
            tell(f"words {words}: status {status}", ended.returncode == status and ended.stderr)
            tell(f"words {words}: no socket is left", not os.path.exists(path))


def tallied(title, test, *words):
    """Runs a test, which tells of each thing whether it holds; the status is 1 if any doesn't."""
    counts = {True: 0, False: 0}

    def tell(name, holds):
        counts[bool(holds)] += 1
        if not holds:
            print(f"FAILED: {name}", flush=True)

    test(tell, *words)
    print(f"{title}: {counts[True]} passed, {counts[False]} failed")
    return int(counts[False] > 0)


def main(tell, serve, program, board):
    with contextlib.closing(Server(serve, board)) as server:
        with server.connect("b:0") as peer:
            def other():
                return ask(peer, config(CONFIG_READ, 0, 4)) == 0x000B1234

            for test in (try_dropped, try_descriptors, try_lawful, try_reach, try_floods):
                test(server, tell, other)
        try_end(server, tell, program, board)
        try_full(serve, tell, program)
        try_words(serve, tell, board)


if __name__ == "__main__":
    sys.exit(tallied("strangers", main, *sys.argv[1:]))

#!/usr/bin/env python3
"""A machine of QEMU whose Linux has functions of guest a open, a region, a serial port and a watchdog, is stopped; the guest
is saved at one server of examples/qemu and loaded at another, over another board; and the machine goes on there.
    tests/qemu/linux_migrated.py SERVE ATTACH OUT PROGRAM BOARD
OUT is what examples/qemu/machine/build leaves. It takes QEMU. The last line is 'N passed, M failed'."""
import re
import socket
import subprocess
import sys
import tempfile
from contextlib import ExitStack, closing
from pathlib import Path

from migrated import elsewhere, host
from relay import Relay
from strangers import Server, tallied

SLOTS = ("a:0", "a:1", "a:2")
PATIENCE = 240  # seconds that a machine may take to answer


class Machine:
    """A machine with the functions at these sockets, as its devices 05.0 and so on."""

    def __init__(self, room, attach, out, paths):
        self.monitor_path = f"{room}/monitor"
        devices = [word for n in range(len(paths))
                   for word in ("-device", f"x-pci-proxy-dev,id=slot{n},fd={5 + n},addr={5 + n}")]
        words = [attach, *(f"{5 + n}={path}" for n, path in enumerate(paths)), "qemu-system-x86_64", "-nodefaults",
                 "-no-user-config", "-display", "none", "-machine", "pc,accel=tcg,memory-backend=ram", "-object",
                 "memory-backend-memfd,id=ram,size=192M,share=on", "-m", "192", "-kernel", f"{out}/vmlinuz", "-initrd",
                 f"{out}/initrd", "-append", "console=ttyS0 quiet panic=-1 no_timer_check", "-serial", f"file:{room}/console",
                 "-chardev", "stdio,id=words,signal=off", "-serial", "chardev:words", "-monitor",
                 f"unix:{self.monitor_path},server=on,wait=off", *devices]
        self.process = subprocess.Popen(["timeout", "600", *words], stdin=subprocess.PIPE, stdout=subprocess.PIPE)
        self.answer()
        self.monitor = socket.socket(socket.AF_UNIX)
        self.monitor.settimeout(PATIENCE)
        self.monitor.connect(self.monitor_path)
        self.prompt()

    def answer(self):
        """All that the machine says until it is ready for a command."""
        lines = []
        for line in self.process.stdout:
            lines.append(line.decode(errors="replace").rstrip("\r\n"))
            if lines[-1] == "==":
                return "\n".join(lines[:-1])
        raise SystemExit("linux_migrated: the machine ended")

    def ask(self, command):
        self.process.stdin.write(command.encode() + b"\n")
        self.process.stdin.flush()
        return self.answer()

    def prompt(self):
        told = b""
        while not told.endswith(b"(qemu) "):
            told += self.monitor.recv(4096)
        return told.decode()

    def control(self, words):
        """What QEMU's monitor answers."""
        self.monitor.sendall(words.encode() + b"\n")
        return self.prompt()

    def close(self):
        self.process.kill()
        self.process.wait()


def sent(log):
    """The bytes that hit register 0 of the serial port in slot 1, but for those of its divisor."""
    text, divisor, value = b"", False, None
    for line in Path(log).read_text(errors="replace").splitlines():
        if found := re.fullmatch(r"a iw \S+ 1 (\S+)", line):
            value = int(found[1], 0)
        elif (found := re.fullmatch(r"#hit a 1 bar0 (\S+)", line)) and value is not None:
            if found[1] == "0x3":
                divisor = bool(value & 0x80)
            elif found[1] == "0x0" and not divisor:
                text += bytes([value])
            value = None
        elif re.match(r"a \w\w ", line):
            value = None
    return text.replace(b"\r", b"").decode(errors="replace")


def before(machine, tell):
    tell("a region is written", machine.ask("region 00:05.0 1 0x10 4 0x61616161; region 00:05.0 1 0x10 4") == "0x61616161")
    machine.ask("setpci -s 05.0 40.l=0000000a")
    machine.ask("setserial /dev/ttyS2 irq 0; exec 4> /dev/ttyS2; echo Hello from here >&4; sleep 1")
    machine.ask("insmod modules/watchdog.ko; insmod modules/i6300esb.ko; exec 3> /dev/watchdog0")
    tell("the watchdog is open", machine.ask("cat /sys/class/watchdog/watchdog0/state") == "active")
    return [machine.ask(command) for command in ("lspci -n", "lspci -vvn", "complaints")]


def after(machine, shown, tell):
    tell("the region has what was written", machine.ask("region 00:05.0 1 0x10 4") == "0x61616161")
    tell("and so has configuration space", machine.ask("setpci -s 05.0 40.l") == "0000000a")
    tell("Linux sees the same functions, and has the same complaints",
         [machine.ask(command) for command in ("lspci -n", "lspci -vvn", "complaints")] == shown)
    tell("the watchdog is open still", machine.ask("cat /sys/class/watchdog/watchdog0/state") == "active")
    tell("and is closed", machine.ask("echo V >&3; exec 3>&-; cat /sys/class/watchdog/watchdog0/state") == "inactive")
    machine.ask("echo Hello from there >&4; exec 4>&-; sleep 1")


def main(tell, serve, attach, out, program, board):
    with tempfile.TemporaryDirectory() as room, ExitStack() as ends:
        other, file = f"{room}/elsewhere.toml", f"{room}/a.image"
        Path(other).write_text(elsewhere(Path(board).read_text()))
        here, there = (ends.enter_context(closing(Server(serve, each, SLOTS))) for each in (board, other))
        paths = [f"{room}/{slot.replace(':', '')}.relay" for slot in SLOTS]
        relay = Relay(zip(paths, map(here.path, SLOTS)))
        machine = ends.enter_context(closing(Machine(room, attach, out, paths)))
        shown = before(machine, tell)
        machine.control("stop")
        tell("the machine is stopped", "paused" in machine.control("info status"))
        tell("its guest is saved", host(here, f"host save a {file}") == "host: ok")
        tell("and loaded over another board", host(there, f"host load a {file}") == "host: ok")
        relay.change(zip(paths, map(there.path, SLOTS)))
        control = host(here, "a cr 2 0x68 1")
        machine.control("cont")
        after(machine, shown, tell)
        tell("the watchdog was closed there", host(there, "a cr 2 0x68 1") != control)
        tell("and not where the guest was", host(here, "a cr 2 0x68 1") == control)
        machine.process.stdin.write(b"poweroff -f\n")
        machine.process.stdin.flush()
        tell("the machine ends well", machine.process.wait(timeout=60) == 0)
        for server in (here, there):
            server.process.communicate(timeout=20)
        tell("what Linux sent before went to the one board", sent(here.log) == "Hello from here\n")
        tell("and what it sent after to the other", sent(there.log) == "Hello from there\n")
        _, replies, again = here.run_again(program, board)
        tell("the log of the first, run again, is answered alike", replies == again and replies)


if __name__ == "__main__":
    sys.exit(tallied("linux_migrated", main, *sys.argv[1:]))

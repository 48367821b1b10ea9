"""QEMU's machines `pc` and `q35` over a tree of its devices, as a board of the same four calls, with a console."""
import json
import os
import socket
import subprocess
import tempfile
import time
from typing import NamedTuple

PATIENCE = 120  # seconds of a boot
LETTERS = {1: "b", 2: "w", 4: "l"}


class MachineError(Exception):
    """QEMU ended, or its firmware isn't done in time."""


class Chipset(NamedTuple):
    """A machine of QEMU: its words, its bus 0, the devices that are free there, and the path of its ISA bridge."""

    words: list
    bus: str
    free: range
    isa_bridge: str


PC = Chipset(["-machine", "pc,accel=tcg,acpi=off", "-m", "128"], "pci.0", range(2, 32), "1.0")
Q35 = Chipset(["-machine", "q35,accel=tcg,acpi=off,sata=off,usb=off", "-m", "128"], "pcie.0", range(2, 31), "31.0")


class Machine:
    """`firmware` runs at once; without one the machine stands at reset. `told` is what the console has had."""

    def __init__(self, devices, firmware=None, kind=PC.words):
        self.told, self.room = "", tempfile.TemporaryDirectory()
        path, self.monitor = os.path.join(self.room.name, "console"), os.path.join(self.room.name, "monitor")
        words = ["qemu-system-x86_64", *kind, "-nodefaults", "-display", "none", "-monitor", "none",
                 "-qtest", "stdio", "-qtest-log", "/dev/null", "-qmp", f"unix:{self.monitor},server=on,wait=off",
                 "-chardev", f"socket,id=console,path={path},server=on,wait=on"]
        if firmware:
            words += ["-bios", firmware.rom, "-serial", "chardev:console"]
            if firmware.plain:
                words[-2:] = ["-device", "isa-debugcon,iobase=0x402,chardev=console"]
        else:  # with the serial port of U-Boot's console: the ISA bridge of q35 shows that it is there
            words += ["-S", "-serial", "chardev:console"]
        self.process = subprocess.Popen(words + devices, stdin=subprocess.PIPE, stdout=subprocess.PIPE,
                                        stderr=subprocess.PIPE, text=True)
        self.console = self.connect(path)

    def connect(self, path):
        console, deadline = socket.socket(socket.AF_UNIX), time.monotonic() + PATIENCE
        while True:
            try:
                console.connect(path)
                return console
            except OSError:
                if self.process.poll() is not None or time.monotonic() > deadline:
                    raise MachineError(f"QEMU doesn't start: {self.process.stderr.read().strip()}") from None
                time.sleep(0.01)

    def wait(self, firmware, patience=PATIENCE):
        """Until the console has told the firmware's last words; what it asks for is typed."""
        prompts, deadline = dict(firmware.prompts), time.monotonic() + patience
        while not self.told.endswith(firmware.ending):
            self.console.settimeout(max(0.01, deadline - time.monotonic()))
            try:
                byte = self.console.recv(1)
            except TimeoutError:
                raise MachineError(f"in QEMU: not done after {patience} seconds; its last words are {self.told[-60:]!r}") from None
            if not byte:
                raise MachineError("QEMU ended")
            self.told += byte.decode("latin-1")
            for prompt in [prompt for prompt in prompts if self.told.endswith(prompt)]:
                self.console.sendall(prompts.pop(prompt).encode())

    def stop(self):
        """Stops the processor, so that nothing but the caller uses the registers."""
        with socket.socket(socket.AF_UNIX) as monitor:
            monitor.connect(self.monitor)
            replies = monitor.makefile()
            replies.readline()
            for command in ("qmp_capabilities", "stop"):
                monitor.sendall(json.dumps({"execute": command}).encode() + b"\n")
                while "return" not in json.loads(replies.readline() or '{"return": 0}'):
                    pass

    def ask(self, line):
        self.process.stdin.write(line + "\n")
        self.process.stdin.flush()
        for reply in self.process.stdout:
            if reply.startswith("OK"):
                return int((reply.split() + ["0"])[1], 16)
            if not reply.startswith("IRQ"):
                break
        self.process.kill()
        raise MachineError(f"QEMU doesn't answer '{line}': {self.process.stderr.read().strip()}")

    def port_read(self, port, width):
        return self.ask(f"in{LETTERS[width]} {port:#x}")

    def port_write(self, port, width, value):
        self.ask(f"out{LETTERS[width]} {port:#x} {value:#x}")

    def memory_read(self, address, width):
        return self.ask(f"read{LETTERS[width]} {address:#x}")

    def memory_write(self, address, width, value):
        self.ask(f"write{LETTERS[width]} {address:#x} {value:#x}")

    def close(self):
        self.console.close()
        self.process.kill()
        self.process.communicate()
        self.room.cleanup()

"""QEMU's machine as a back end that answers lines of firmware, by its qtest protocol."""

import places

machine, rules, trees = places.modules("firmware", "machine", "rules", "trees")
LATCH, DATA = 0xCF8, 0xCFC


class Qemu:
    """QEMU's devices at reset. Its processor never runs."""

    def __init__(self, words):
        self.machine = machine.Machine(words)

    def begin(self, mode, board):
        """The devices are those of the words, whatever the board file says."""

    def answer(self, line):
        """The reply to a lawful line."""
        words = line.split()
        read = words[1].endswith("r")
        if words[1] in ("cr", "cw"):
            bus, device, function = int(words[2][:2], 16), int(words[2][3:5], 16), int(words[2][6])
            offset, width = int(words[3], 0), int(words[4])
            place = bus << 16 | device << 11 | function << 8 | offset & 0xFC
            self.machine.port_write(LATCH, 4, 1 << 31 | place)
            value = self.access("port", read, DATA + offset % 4, width, words[5:])
            self.machine.port_write(LATCH, 4, 0)
        else:
            space = "port" if words[1][0] == "i" else "memory"
            width = int(words[3])
            value = self.access(space, read, int(words[2], 0), width, words[4:])
        return f"host: 0x{value:0{2 * width}x}" if read else "host: ok"

    def access(self, space, read, place, width, value):
        if read:
            return getattr(self.machine, f"{space}_read")(place, width)
        getattr(self.machine, f"{space}_write")(place, width, int(value[0], 0) & (1 << 8 * width) - 1)
        return 0

    def close(self):
        self.machine.close()

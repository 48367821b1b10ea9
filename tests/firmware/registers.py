"""The configuration bytes of a board that firmware drives by lines."""

from board import LATCH
from pciguest._board_file import functions


def asked(board, line):
    """What a line reads."""
    return int((board.run_line(line) or "").split()[-1], 16)


class Walk:
    """Reads the registers of all declared functions, whatever the bus numbers are: on the way down each bridge gets
    numbers that lead behind it alone, and on the way up those that it had. So the board stays as it was."""

    def __init__(self, board, document):
        self.board, self.found, self.on_bus = board, {}, {}
        for function in functions(document):
            self.on_bus.setdefault(function.path[:-1], []).append(function)

    def number(self, bus, function):
        return f"{bus:02x}:{function.path[-1][0]:02x}.{function.path[-1][1]}"

    def take(self, bus, function):
        words = (asked(self.board, f"host cr {self.number(bus, function)} {offset} 4") for offset in range(0, 256, 4))
        self.found[function.at] = b"".join(word.to_bytes(4, "little") for word in words)

    def give_numbers(self, bus, bridge, numbers):
        self.board.run_line(f"host cw {self.number(bus, bridge)} 0x18 4 {numbers:#x}")

    def go(self, bus, above):
        """Reads a bus and all behind it."""
        here = self.on_bus.get(above, [])
        bridges = [function for function in here if function.is_bridge]
        for function in here:
            self.take(bus, function)
        for bridge in bridges:
            self.give_numbers(bus, bridge, 0x0000FF00)  # takes no bus
        for bridge in bridges:
            self.give_numbers(bus, bridge, 0xFF << 16 | bus + 1 << 8)
            self.go(bus + 1, bridge.path)
            self.give_numbers(bus, bridge, 0x0000FF00)
        for bridge in bridges:
            self.give_numbers(bus, bridge, int.from_bytes(self.found[bridge.at][0x18:0x1C], "little"))


def of_all(board, document):
    """The configuration bytes of each declared function, by its path. The board stays as it is."""
    latch = asked(board, f"host ir {LATCH:#x} 4")
    walk = Walk(board, document)
    walk.go(0, ())
    board.run_line(f"host iw {LATCH:#x} 4 {latch:#x}")
    return walk.found

"""Random scripts for a board, by a generator of random numbers. Addresses, offsets and values are
often those at which something begins or ends, so that accesses land."""

VALUES = [0, 1, 2, 3, 7, 0x10, 0x80, 0xFF, 0x547, 0xFFFF, 0x80000000, 0xFFFFFFFF, 0xFFFF0003]
OFFSETS = [0, 2, 4, 5, 6, 7, 8, 9, 0xC, 0xD, 0xE, 0xF, 0x10, 0x14, 0x18, 0x1C, 0x20, 0x24, 0x28, 0x2C, 0x2E, 0x3C, 0x3D,
           0x3E, 0x40, 0x41, 0x44, 0x50, 0xFC, 0xFE, 0xFF, 0x100, 254]
BASES = [0, 0x10, 0x100, 0xCF8, 0xCFC, 0x1000, 0x2000, 0x10000, 0x80000000, 0x80000010, 0x80001000, 0xC0000000,
         0xFFFFFFF0, 0xFFFFFF00, 0xFFFFF000, 0x7FFFFFFF]
INNER = [0, 1, 2, 3, 4, 8, 0xC, 0xF, 0x10, 0x3C, 0x40, 0xFC, 0xFFC, 0x1000]
HOSTILE = [b"", b" \t\r ", b"#", b"# a cr 0 0 4", b"a", b"host", b"host raise 0 cfg 7 1", b"A cr 0 0 4",
           b"\xff", b"\x00", b"a \xff", b"\xef\xbb\xbfa cr 0 0 4", b"\xef\xbb\xbf",
           b"a cr 0 0 4 5", b"a cr +0 0 4", b"a cr 0x 0 4", b"a cr 0 0", b"a mr 0x10000000000000000 4",
           b"a ir 0x100000000 4", b"a cw 0 4 2 0x100000000", b"a raise 0 cfg 7 0x100", b"a raise 0 bar6 0 1",
           b"host cr 0:1.0 0 4", b"host cr 00:20.0 0 4", b"host cr 00:1f.8 0 4", b"host move a 0 nobody 0", b"x" * 200,
           b"x" * 201, b"#" * 200, b"#" * 201, b"a cr 0 0 4" + b" " * 190, b"a cr 0 0 4" + b" " * 191]

ODD = [b"cr", b"move", b"why", b"mem", b"host", b"0", b"0x100", b"0x100000000", b"-1", b"0x", b"00:00.0", b"00:20.0", b"bar6", b"cfg",
       b"\xff", b"y" * 40]


class Writer:
    """Writes lines for the guests of a board, and remembers where their regions may be."""

    def __init__(self, rng, board, bases):
        self.rng, self.board = rng, board
        self.names = [name for name, _ in board.guests]
        self.placed = [base for base in bases.values()] or [0]
        self.recent = {name: list(BASES[:2]) for name in self.names}

    def numeral(self, value):
        """A number in one of its forms."""
        form = self.rng.randrange(8)
        if form == 0:
            return f"0X{value:X}"
        if form == 1:
            return f"{'0' * self.rng.randrange(4)}{value}"
        return f"{value:#x}" if form < 5 else str(value)

    def line_of(self, *words):
        """A line of words and numbers, now and then with odd blanks."""
        texts = [word if isinstance(word, str) else self.numeral(word) for word in words]
        if self.rng.random() < 0.02:
            return ("\t" + " \t ".join(texts) + " \r").encode()
        return " ".join(texts).encode()

    def width(self):
        return self.rng.choice([1, 2, 4, 4, 4, 4]) if self.rng.random() < 0.97 else self.rng.choice([0, 3, 8, 1 << 63])

    def aligned(self, at, width):
        return at - at % width if width in (2, 4) and self.rng.random() < 0.95 else at

    def slot(self):
        return self.rng.choice([0] * 24 + [1] * 18 + [2] * 9 + [3] * 6 + [5] * 3 + [31] * 3 + [32, 1 << 40])

    def value(self):
        return self.rng.choice(VALUES) if self.rng.random() < 0.6 else self.rng.getrandbits(32)

    def offset(self, width):
        off = self.rng.choice(OFFSETS) if self.rng.random() < 0.8 else self.rng.randrange(0x108)
        return self.aligned(off, width)

    def address(self, name, width):
        """An address near a base that was written not long ago, and else any."""
        if self.rng.random() < 0.85:
            at = self.rng.choice(self.recent[name]) + self.rng.choice(INNER)
        else:
            ends = [self.rng.choice(BASES), self.rng.choice(self.placed), (1 << 64) - 4]
            at = self.rng.choice(ends + [self.rng.getrandbits(32), self.rng.getrandbits(64)])
        if self.rng.random() < 0.05:
            at = max(0, at - 4)
        return self.aligned(at, width)

    def write_base(self, name):
        """A guest programs a base address register."""
        base = self.rng.choice(BASES) if self.rng.random() < 0.8 else self.rng.getrandbits(32)
        if self.rng.random() < 0.2:
            base = 0
        self.recent[name] = (self.recent[name] + [base])[-6:]
        return self.line_of(name, "cw", self.slot(), 0x10 + 4 * self.rng.randrange(6), 4, base)

    def write_command(self, name):
        value = self.rng.choice([0, 1, 2, 3, 3, 3, 7])
        return self.line_of(name, "cw", self.slot(), 4, self.rng.choice([1, 2, 4]), value)

    def access_ports(self, name):
        """I/O, with the latch and its data often."""
        width = self.width()
        kind = self.rng.randrange(6)
        if kind == 0:
            latch = 0x80000000 | self.slot() % 32 << 11 | self.rng.choice(OFFSETS) & 0xFF
            others = [latch | 0x100, latch | 0x10000, 0, self.value()]
            return self.line_of(name, "iw", 0xCF8, 4, self.rng.choice([latch] * 4 + others))
        port = self.address(name, width) & 0xFFFFFFFF
        if kind == 1:
            port = self.aligned(0xCF8 + self.rng.randrange(8), width)
        if self.rng.random() < 0.5:
            return self.line_of(name, "ir", port, width)
        return self.line_of(name, "iw", port, width, self.value())

    def access_memory(self, name):
        width = self.width()
        at = self.address(name, width) % (1 << 64)
        if self.rng.random() < 0.6:
            return self.line_of(name, "mr", at, width)
        return self.line_of(name, "mw", at, width, self.value())

    def access_config(self, name):
        width = self.width()
        off = self.offset(width)
        if self.rng.random() < 0.6:
            return self.line_of(name, "cr", self.slot(), off, width)
        return self.line_of(name, "cw", self.slot(), off, width, self.value())

    def rise(self, name):
        place = self.rng.choice(["cfg", "cfg", "bar0", "bar1", "bar2", "bar3", "bar5"])
        off = self.offset(1) if place == "cfg" else self.rng.choice(INNER)
        mask = self.rng.choice([0, 1, 0x80, 0xFF, self.rng.randrange(256)])
        return self.line_of(name, "raise", self.slot(), place, off, mask)

    def move(self):
        giver, taker = self.rng.choice(self.names), self.rng.choice(self.names)
        return self.line_of("host", "move", giver, self.slot(), taker, self.slot())

    def host(self):
        """What the host reads of the board."""
        width = self.width()
        kind = self.rng.randrange(3)
        if kind == 0:
            place = f"{self.rng.randrange(6):02x}:{self.rng.randrange(17):02X}.{self.rng.choice([0, 0, 0, 1, 7])}"
            return self.line_of("host", "cr", place, self.offset(width), width)
        at = self.aligned(self.rng.choice(self.placed) + self.rng.choice(INNER), width)
        return self.line_of("host", "ir" if kind == 1 else "mr", at, width)

    def mistaken(self, line):
        """A line with a word less, more or other than it has."""
        words, odd = line.split(), self.rng.choice(ODD)
        at = self.rng.randrange(len(words))
        words[at:at + self.rng.randrange(2)] = self.rng.choice([[], [odd], [odd]])
        return b" ".join(words)

    def of_firmware(self, line):
        """What it says after its first word, said by firmware, or a question."""
        if self.rng.random() < 0.3:
            space = self.rng.choice([b"mem", b"io", b"cfg", self.rng.choice(ODD)])
            return b" ".join([b"host why", space, self.rng.choice(ODD)])
        return b"host " + line.partition(b" ")[2]

    def line(self):
        """Any line."""
        if not self.names or self.rng.random() < 0.02:
            return self.rng.choice(HOSTILE)
        return self.mistaken(self.lawful()) if self.rng.random() < 0.02 else self.lawful()

    def lawful(self):
        """A line of some form."""
        name = self.rng.choice(self.names)
        kinds = [(self.access_memory, 30), (self.access_ports, 15), (self.access_config, 20), (self.write_base, 10),
                 (self.write_command, 8), (self.rise, 5)]
        kind = self.rng.randrange(100)
        for make, share in kinds:
            if kind < share:
                return make(name)
            kind -= share
        return self.move() if kind < 4 else self.host()

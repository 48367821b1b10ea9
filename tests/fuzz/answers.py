"""What a script writes over a board, by a second hand."""
from audited import State
from board import Bridge
from guests import ONES, OWN_COPIES, Function, Guest, Refusal, number_at, write_at
from placement import Layout
from reasons import GUEST, HOST, PLACE, number, reason, words_of

WORDS = {301: "misaligned", 302: "width", 303: "range", 601: "empty slot", 602: "slot taken"}
# by its pool a window: where its base is and how many bytes that has, and where the upper bits are, if any; and a base that shuts it
WINDOWS = [("io", 0x1C, 1, 0x30, 0xF000), ("mem", 0x20, 2, 0x100, 0xFFF00000), ("pref", 0x24, 2, 0x28, 0xFFF00000)]
GREATEST = {b"c": 255, b"i": 0xFFFFFFFF, b"m": (1 << 64) - 1}


class Answer(str):
    """An output line, and whether it answers a read by the host."""

    host_read = False


def check(at, width, greatest, slot=0):
    """The checks of an access in their order."""
    if width not in ONES:
        raise Refusal(302)
    if at % width:
        raise Refusal(301)
    if slot > 31 or at > greatest:
        raise Refusal(303)


def set_up(state, layout):
    """Writes what set-up does. A window with nothing behind it has its base above its limit."""
    for function in layout.board.functions:
        path, cells = function.path, state.cells[function.path]
        if not isinstance(function, Bridge):
            for bar in function.bars:
                write_at(cells, bar.offset, bar.width, layout.bases[path, bar.index])
            write_at(cells, 4, 2, sum({1 if bar.space == "I/O" else 2 for bar in function.bars}))
            continue
        write_at(cells, 4, 2, 3)
        write_at(cells, 0x18, 3, layout.numbers[path[:-1]] | layout.numbers[path] << 8 | layout.behind(path) << 16)
        for pool, off, width, upper, shut in WINDOWS:
            for n, address in enumerate(layout.windows.get((path, pool), (shut, 0))):
                write_at(cells, off + n * width, width, address >> 8 * width)
                write_at(cells, upper + 2 * n * width, 2 * width, address >> 16 * width)


class World:
    """A board that is set up, with its guests. `left` has the registers as set-up leaves them."""

    def __init__(self, board):
        self.layout, self.left = Layout(board), State(board)
        set_up(self.left, self.layout)
        self.functions = {endpoint.path: Function(endpoint) for endpoint in board.endpoints()}
        self.guests = {name.encode(): Guest(name, [self.functions[path] for path in slots])
                       for name, slots in board.guests}
        self.numbers = {self.layout.number(function.path): function for function in board.functions}
        bases = self.layout.bases
        self.claims = [(bases[endpoint.path, bar.index], bar.size, bar.kind == "io", endpoint.path, bar.index)
                       for endpoint in board.endpoints() for bar in endpoint.bars]

    def answer(self, line):
        """The output line of a script's line, or None."""
        if len(line) > 200:
            return Answer("?: refused 403 long line")
        words = words_of(line)
        if not words or words[0].startswith(b"#"):
            return None
        who, *words = words
        if who != b"host" and who not in self.guests:
            return Answer("?: refused 402 unknown guest")
        if reason(HOST if who == b"host" else GUEST, words, self.guests):
            return Answer(f"{who.decode()}: refused 401 bad line")
        try:
            told = self.host(*words) if who == b"host" else self.guest(self.guests[who], *words)
        except Refusal as refusal:
            told = f"refused {refusal.args[0]} {WORDS[refusal.args[0]]}"
        answer = Answer(f"{who.decode()}: {told}")
        answer.host_read = who == b"host" and words[0] != b"move"
        return answer

    def guest(self, guest, verb, *words):
        """An access or a raise of a guest."""
        if verb == b"raise":
            slot, place, off, mask = words
            guest.rise(number(slot), place.decode(), number(off), number(mask))
            return "ok"
        numbers = [number(word) for word in words]
        value = numbers.pop() if verb[1:] == b"w" else None
        *slot, at, width = numbers
        check(at, width, GREATEST[verb[:1]], *slot)
        got = self.reach(guest, verb[:1], slot, at, width, value)
        return "ok" if value is not None else f"0x{got:0{2 * width}x}"

    def reach(self, guest, space, slot, at, width, value):
        if space == b"c":
            return guest.config(slot[0], at, width, value)
        return guest.port(at, width, value) if space == b"i" else guest.access("memory", at, width, value)

    def host(self, verb, *words):
        """A read by the host, or a move."""
        if verb == b"move":
            giver, source, taker, target = words
            return self.move(self.guests[giver], number(source), self.guests[taker], number(target))
        at, width = map(number, words[-2:])
        check(at, width, GREATEST[verb[:1]])
        if verb == b"cr":
            bus, device, function = (int(part, 16) for part in PLACE.match(words[0]).groups())
            got = self.seen_config((bus, device, function), at, width)
        else:
            got = 0 if verb == b"ir" and at == 0xCF8 and width == 4 else self.seen(verb == b"ir", at, width)
        return f"0x{got:0{2 * width}x}"

    def move(self, giver, source, taker, target):
        if source > 31 or target > 31:
            raise Refusal(303)
        if giver.slots[source] is None:
            raise Refusal(601)
        if taker.slots[target] is not None:
            raise Refusal(602)
        giver.slots[source], taker.slots[target] = None, giver.slots[source]
        taker.slots[target].restart()
        return "ok"

    def seen(self, io, at, width):
        """What the host reads at a port or in memory."""
        for base, size, is_io, path, index in self.claims:
            if is_io == io and base <= at < base + size:
                return number_at(self.functions[path].blocks[index], at - base, width)
        return ONES[width]

    def seen_config(self, place, off, width):
        """What the host reads of a function's configuration registers."""
        function = self.numbers.get(place)
        if function is None:
            return ONES[width]
        return sum(self.seen_byte(function, off + n) << 8 * n for n in range(width))

    def seen_byte(self, function, off):
        """A byte of a function's registers: set-up's own of a bridge and where a guest has copies, and else the guest's."""
        is_own = off in OWN_COPIES or isinstance(function, Bridge)
        return number_at(self.left.cells[function.path] if is_own else self.functions[function.path].config, off, 1)

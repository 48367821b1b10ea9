"""Devices that act when their driver touches their registers."""

import unittest

from pciguest import DeclaredOtherwise, Device, Machine, Refusal, Register, check

TOP = "host = { io = [0x1000, 0xffff], mem = [0xc0000000, 0xdfffffff], pref = [0x400000000, 0x4ffffffff] }\n"


class Doorbell(Device):
    """Counts the rings of its driver."""

    vendor_id, device_id, class_code = 0x1234, 0x00D0, 0xFF0000
    subsystem_vendor_id, subsystem_id, interrupt_pin = 0x1111, 0x2222, 1
    bars = {0: ("mem32", 0x1000), 1: ("io", 32), 2: ("mem64p", 0x10000)}
    status = Register(0x00, 1, w1c=0x01)
    rings = Register(0x04, 4)
    bell = Register(0x08, 4, rw=0xFFFFFFFF, reset=0x11223344)
    port = Register(0x10, 2, bar=1, rw=0x0FF0)
    far = Register(0xFF8, 4, bar=2, reset=0xA5A5A5A5)
    long = Register(0x100, 8, bar=2, rw=0xFFFFFFFFFFFFFFFF)
    own = Register(0x40, 4, bar=None, rw=0xFF)
    more = Register(0x48, 1, bar=None, reset=0x7F)

    def __init__(self):
        self.told = []

    def on_write(self, register, value):
        self.told.append((register.name, value))
        if register is Doorbell.bell:
            self.rings += 1
            self.status = 1

    def before_read(self, register):
        self.told.append((register.name, "read"))
        if register is Doorbell.far:
            self.far = 0x5A5A5A5A


def board(*classes):
    """A board with an endpoint of each class, all in slots of guest a, and a guest b without slots."""
    paths = [f"{device}.0" for device in range(1, len(classes) + 1)]
    parts = [each.endpoint(path) for each, path in zip(classes, paths)]
    slots = ", ".join(f'"{path}"' for path in paths)
    return TOP + "".join(parts) + f'[[guest]]\nname = "a"\nslots = [{slots}]\n[[guest]]\nname = "b"\nslots = []\n'


class Case(unittest.TestCase):
    def setUp(self):
        self.machine = Machine(board(Doorbell, Doorbell))
        self.addCleanup(self.machine.close)
        self.a, self.b = self.machine.guest("a"), self.machine.guest("b")
        self.device = Doorbell()
        self.machine.attach(self.a, 0, self.device)
        self.place(self.a, 0)

    def place(self, guest, slot):
        config = guest.config[slot]
        for offset, value in ((0x10, 0xE0000000), (0x14, 0x2000), (0x18, 0x10000000), (0x1C, 8), (4, 3)):
            config[offset:4] = value


class Declared(Case):
    def test_the_board_says_what_the_class_declares(self):
        function = self.a.function(0)
        self.assertIsNone(check(board(Doorbell)).refusal)
        self.assertEqual((function.vendor_id, function.device_id, function.class_code), (0x1234, 0x00D0, 0xFF0000))
        self.assertEqual((function.subsystem_vendor_id, function.subsystem_id), (0x1111, 0x2222))
        self.assertEqual([bar and bar.size for bar in function.regions], [0x1000, 32, 0x10000, None, None, None])
        self.assertEqual((self.a.memory[0xE0000008:4], self.a.memory[0x810000FF8:1]), (0x11223344, 0x5A))
        self.assertEqual((self.a.config[0][0x40:4], self.a.config[0][0x48:4], self.a.config[0][0x3D:1]), (0, 0x7F, 1))

    def test_what_a_driver_may_change(self):
        config, memory = self.a.config[0], self.a.memory
        config[0x40:4], config[0x48:1], memory[0xE0000004:4], self.a.io[0x2010:2] = 0xFFFF, 0, 9, 0xFFFF
        self.assertEqual((config[0x40:4], config[0x48:1], memory[0xE0000004:4]), (0xFF, 0x7F, 0))
        self.assertEqual(self.a.io[0x2010:2], 0x0FF0)

    def test_registers_that_can_not_be(self):
        for registers in (
            {"one": Register(0x3C, 4, bar=None)},
            {"one": Register(0xFE, 4, bar=None)},
            {"one": Register(0, 4, bar=3)},
            {"one": Register(0xFFE, 4)},
            {"one": Register(0, 4), "other": Register(3, 1)},
        ):
            with self.assertRaises(ValueError):
                type("Wrong", (Doorbell,), {name: None for name in ("status", "bell")} | registers)
        for words in ({"rw": 256}, {"reset": -1}, {"rw": 1, "w1c": 1}):
            self.assertRaises(ValueError, Register, 0, 1, **words)
        self.assertRaises(ValueError, Register, 0, 0)

    def test_a_class_with_registers_of_another(self):
        class Louder(Doorbell):
            volume = Register(0x0C, 2, rw=0xFFFF)

        self.assertEqual(len(Louder.registers), len(Doorbell.registers) + 1)
        with Machine(board(Louder)) as machine:
            machine.attach(machine.guest("a"), 0, Louder())


class Acting(Case):
    def test_writes(self):
        self.a.memory[0xE0000008:4] = 7
        self.assertEqual(self.device.told, [("bell", 7)])
        self.assertEqual((self.a.memory[0xE0000004:4], self.a.memory[0xE0000000:1], self.device.bell), (1, 1, 7))
        self.a.memory[0xE0000000:1] = 1
        self.assertEqual((self.device.status, self.device.rings), (0, 1))

    def test_a_region_by_its_offset(self):
        self.a.region_write(0, 0, 8, 7, width=4)
        self.assertEqual(self.a.region_read(0, 2, 0xFF8, width=4), 0x5A5A5A5A)
        self.a.config[0][4:2] = 0
        del self.device.told[2:]
        self.a.region_write(0, 0, 8, 9, width=4)
        self.assertEqual(self.a.region_read(0, 0, 4, width=4), 0xFFFFFFFF)
        self.assertEqual((self.device.told, self.device.rings), ([("bell", 7), ("far", "read")], 1))

    def test_what_was_written(self):
        del self.device.told[:]
        self.a.memory[0xE0000009:1] = 0xAB
        self.a.memory[0xE0000004:4] = 0xFFFFFFFF  # its driver only reads it
        self.a.memory[0xE0000000:4] = 0x12345601  # the register has one byte
        self.a.io[0x2010:4] = 0x5678ABCD
        self.a.config[0][0x41:1] = 0x99
        self.assertEqual(
            self.device.told,
            [("bell", 0x1122AB44), ("rings", 0xFFFFFFFF), ("status", 1), ("port", 0xABCD), ("own", 0x9900)],
        )

    def test_reads(self):
        del self.device.told[:]
        self.assertEqual(self.a.memory[0x810000FF8:4], 0x5A5A5A5A)
        self.assertEqual(self.a.memory[0xE0000000:4], 0)
        self.assertEqual(self.a.config[0][0x48:1], 0x7F)
        self.assertEqual(self.device.told, [("far", "read"), ("status", "read"), ("more", "read")])

    def test_wide_accesses_and_ports(self):
        self.a.memory.wide[0xE0000004:8] = 0x0000000700000000
        self.a.io[0xCF8:4] = 0x80000040
        self.a.io[0xCFC:4] = 0xAA
        self.assertEqual(self.device.told, [("rings", 0), ("bell", 7), ("own", 0xAA)])
        self.assertEqual(self.device.own, 0xAA)

    def test_one_access_is_one_call(self):
        """As examples/c/device.c is told: with the whole value, whatever cycles of the bus it takes."""
        memory = self.a.memory.wide
        memory[0x810000100:8] = 0x1122334455667788
        memory[0x810000103:4] = 0xAABBCCDD
        memory[0xE0000007:4] = 0x44332211  # the highest byte of one register, and three of the next
        self.a.config[0].wide[0x3E:8] = 0x8877665544332211
        told = [("long", 0x1122334455667788), ("long", 0x11AABBCCDD667788), ("rings", 0x11000000)]
        told += [("bell", 0x11443322), ("own", 0x66554433)]
        self.assertEqual(self.device.told, told)
        self.assertEqual((self.device.rings, self.device.long), (1, 0x11AABBCCDD667788))
        del self.device.told[:]
        self.assertEqual(memory[0x810000100:8], 0x11AABBCCDD667788)
        self.assertEqual(memory[0x810000FF7:4], 0x5A5A5A00)
        self.assertEqual(self.device.told, [("long", "read"), ("far", "read")])

    def test_an_access_past_the_space_is_none(self):
        self.a.config[0][0x10:4] = 0
        for call in (lambda: self.a.io.wide[0xFFFFFFFD:4], lambda: self.a.memory.wide[0x810000100:9]):
            self.assertRaises(Refusal, call)
        self.assertEqual(self.device.told, [])

    def test_lines(self):
        run = self.machine.run_line
        self.assertEqual(run("a mw 0xe0000008 4 0x07\n"), "a: ok")
        self.assertEqual(run("a  mr\t0XE0000004 4"), "a: 0x00000001")
        self.assertEqual(run("a mr 0x810000ff8 4"), "a: 0x5a5a5a5a")
        self.assertEqual(run("a cw 0 0x40 1 255"), "a: ok")
        self.assertEqual(run("a iw 0x2010 2 1"), "a: ok")
        self.assertIsNone(run("# a mw 0xe0000008 4 7"))
        told = [("bell", 7), ("rings", "read"), ("far", "read"), ("own", 0xFF), ("port", 1)]
        self.assertEqual(self.device.told, told)

    def test_what_happens_to_command_and_configuration_space(self):
        told = []

        class Listening(Doorbell):
            def on_command(self, old, new):
                told.append(("command", old, new, self.bus_master))

            def on_config_write(self, offset, width, value):
                told.append(("config", offset, width, value))

            def on_write(self, register, value):
                told.append((register.name, value))

        with Machine(board(Listening)) as machine:
            a = machine.guest("a")
            machine.attach(a, 0, Listening())
            a.config[0][4:2] = 0x0406
            a.config[0][4:2] = 0x0406  # as it is
            a.config[0].wide[2:8] = 0x112200021111  # Command becomes 2
            a.io[0xCF8:4] = 0x80000004
            a.io[0xCFC:1] = 0
            a.config[0][0x40:4] = 0x12345678
            a.config[0][0x10:4]
            machine.run_line("a cw 0 5 1 4")
            machine.run_line("a cw 1 4 2 4")
            a.reset(0)
        wanted = [("command", 0, 0x0406, True), ("config", 4, 2, 0x0406), ("config", 4, 2, 0x0406)]
        wanted += [("command", 0x0406, 2, False), ("config", 2, 8, 0x112200021111)]
        wanted += [("command", 2, 0, False), ("config", 4, 1, 0)]
        wanted += [("config", 0x40, 4, 0x12345678), ("own", 0x12345678), ("command", 0, 0x0400, False), ("config", 5, 1, 4)]
        self.assertEqual(told, wanted)

    def test_what_tells_nothing(self):
        quiet = ("a mw 0xe0000009 4 1", "a mr 0xe0000008 3", "a mw 0xe0000008 4", "a cw 32 0x40 1 1", "host ir 0x2010 2",
                 "a mr 0xe0000800 4", "a raise 0 bar0 0 1", "b mr 0xe0000008 4", "a cr 1 0x40 4", "x mr 0xe0000008 4",
                 "a ir 0x100000000 1", "a cw 0 0x40 1 0x100000000", "a", "")
        for line in quiet:
            self.machine.run_line(line)
        for call in (lambda: self.a.memory[0xE0000009:4], lambda: self.a.config[0][0x40:3], lambda: self.a.io[1 << 32:1]):
            self.assertRaises(Refusal, call)
        self.a.io[0xCF8:4]
        self.a.config[0][4:2] = 0
        self.a.memory[0xE0000008:4] = 1  # memory is off: nothing responds
        self.assertEqual(self.device.told, [])


class Attaching(Case):
    def test_a_device_goes_with_its_function(self):
        self.machine.run_line("host move a 0 b 3")
        self.place(self.b, 3)
        self.b.memory[0xE0000008:4] = 1
        self.assertEqual(self.b.memory[0xE0000004:4], 1)
        self.machine.take(self.b, 3)
        with self.assertRaises(ValueError):
            self.device.rings
        self.machine.give("1.0", self.a, 9)
        self.assertEqual(self.device.rings, 0)

    def test_what_is_not_declared_so(self):
        class Other(Doorbell):
            device_id = 0x00D1

        class Smaller(Doorbell):
            bars = {**Doorbell.bars, 1: ("io", 64)}

        for device in (Other(), Smaller(), self.device):
            self.assertRaises(ValueError, self.machine.attach, self.a, 1, device)
        with self.assertRaises(ValueError):
            self.machine.attach(self.a, 0, Doorbell())  # it has a device
        with self.assertRaises(Refusal):
            self.machine.attach(self.a, 2, Doorbell())
        with self.assertRaises(ValueError):
            Doorbell().rings
        with self.assertRaises(ValueError):
            self.device.rings = 1 << 32

    def test_what_differs_is_named(self):
        """All that a class declares is compared, in the order of a board file."""
        as_it_is = {name: getattr(Doorbell, name) for name in ("status", "rings", "bell", "port", "far", "long", "own", "more")}
        others = {
            "vendor_id": {"vendor_id": 0x1235},
            "device_id": {"device_id": 0x00D1},
            "revision_id": {"revision_id": 1},
            "class_code": {"class_code": 0xFF0001},
            "subsystem_vendor_id": {"subsystem_vendor_id": 0},
            "subsystem_id": {"subsystem_id": 0x2223},
            "interrupt_pin": {"interrupt_pin": 2},
            "bars[0]": {"bars": {**Doorbell.bars, 0: ("mem32p", 0x1000)}},
            "bars[1]": {"bars": {**Doorbell.bars, 1: ("io", 64)}},
            "bars[4]": {"bars": {**Doorbell.bars, 4: ("io", 32)}},
            "status.w1c": {"status": Register(0x00, 1, w1c=0x03)},
            "rings.rw": {"rings": Register(0x04, 4, rw=0x80000000)},
            "bell.reset": {"bell": Register(0x08, 4, rw=0xFFFFFFFF)},
            "more.width": {"more": Register(0x48, 2, bar=None, reset=0x7F)},
            "own.rw": {"own": Register(0x40, 4, bar=None, rw=0x01FF)},
            "far.width": {"far": Register(0xFFC, 4, bar=2)},
        }
        for field, words in others.items():
            other = type("Other", (Doorbell,), {**as_it_is, **words})()
            with self.assertRaises(DeclaredOtherwise) as caught:
                self.machine.attach(self.a, 1, other)
            self.assertEqual((caught.exception.field, str(caught.exception)[:7]), (field, "2.0: " + field[:2]))
        both = type("Other", (Doorbell,), {**as_it_is, **others["own.rw"], **others["class_code"]})()
        with self.assertRaisesRegex(ValueError, "class_code: the device declares 0xff0001, and the function has 0xff0000"):
            self.machine.attach(self.a, 1, both)

    def test_what_is_not_declared_may_be_anything(self):
        less = type("Less", (Doorbell,), {name: None for name in ("status", "far", "more")})
        with Machine(board(Doorbell)) as machine:
            machine.attach(machine.guest("a"), 0, less())
        odd = board(Doorbell, Doorbell).replace('at = "2.0"', 'multifunction = false\nfixed_status = 0x0200\nat = "1.1"')
        with Machine(odd.replace('"2.0"', '"1.1"')) as machine:
            machine.attach(machine.guest("a"), 1, Doorbell())

    def test_two_devices(self):
        other = Doorbell()
        self.machine.attach(self.a, 1, other)
        self.a.config[1][0x10:4] = 0xF0000000
        self.a.config[1][4:2] = 2
        self.a.memory[0xF0000008:4] = 1
        self.assertEqual((self.device.rings, other.rings), (0, 1))

    def test_what_a_device_raises_comes_to_its_driver(self):
        class Broken(Doorbell):
            def on_write(self, register, value):
                raise RuntimeError("broken")

        with Machine(board(Broken)) as machine:
            guest = machine.guest("a")
            machine.attach(guest, 0, Broken())
            with self.assertRaises(RuntimeError):
                guest.config[0][0x40:1] = 1
            self.assertEqual(guest.config[0][0x40:1], 1)


class Counter(Doorbell):
    """Keeps, beside its registers, how many rings there were since it was reset, and what it was told."""

    def __init__(self):
        super().__init__()
        self.count = 0

    def on_write(self, register, value):
        super().on_write(register, value)
        self.count += register is Counter.bell

    def on_reset(self):
        self.told.append(("reset", self.rings))
        self.count = 0

    def on_move(self, guest, slot):
        self.told.append(("move", guest.name, slot, self.seat))
        super().on_move(guest, slot)

    def on_give(self):
        self.told.append(("give", self.seat))
        super().on_give()

    def on_take(self):
        self.told.append(("take", self.seat))

    def on_load(self):
        self.told.append(("load", self.rings, self.seat))

    def save_state(self):
        return self.count.to_bytes(2, "little")

    def load_state(self, state):
        if len(state) != 2:
            raise ValueError("no state of this device")
        self.count = int.from_bytes(state, "little")


class Going(Case):
    def setUp(self):
        super().setUp()
        self.counter = Counter()
        self.machine.detach(self.a, 0)
        self.machine.attach(self.a, 1, self.counter)
        self.a.config[0][4:2] = 0
        self.place(self.a, 1)
        self.a.memory[0xE0000008:4] = 1
        del self.counter.told[:]

    def told(self):
        told, self.counter.told = self.counter.told, []
        return told

    def test_resets(self):
        self.a.reset(0)  # another's
        self.b.reset_guest()
        self.assertEqual(self.told(), [])
        self.a.reset(1)
        self.assertEqual((self.told(), self.counter.count), ([("reset", 0)], 0))
        self.a.reset_guest()
        self.assertEqual(self.told(), [("reset", 0)])

    def test_moves(self):
        self.machine.move(self.a, 0, self.b, 3)  # another's
        self.machine.move(self.a, 1, self.b, 1)
        self.assertEqual(self.told(), [("move", "a", 1, (1, 1)), ("reset", 0)])
        self.assertEqual(self.machine.run_line("host move b 1 a 9\n"), "host: ok")
        self.assertEqual(self.told(), [("move", "b", 1, (0, 9)), ("reset", 0)])
        self.machine.run_line("host move b 1 a 9")
        self.machine.run_line("a raise 9 bar0 0 1")
        self.machine.take(self.a, 9)
        self.assertEqual(self.told(), [("take", None)])
        self.machine.give("2.0", self.b, 0)
        self.assertEqual(self.told(), [("give", (1, 0)), ("reset", 0)])
        self.place(self.b, 0)
        self.b.memory[0xE0000008:4] = 1
        self.assertEqual(self.counter.rings, 1)

    def test_refused_calls_tell_nothing(self):
        for call in (lambda: self.a.reset(7), lambda: self.machine.move(self.a, 1, self.a, 0), lambda: self.a.load(b""),
                     lambda: self.machine.take(self.a, 7), lambda: self.machine.load_all(b"")):
            self.assertRaises(Refusal, call)
        self.assertEqual(self.told(), [])

    def test_a_guest_goes_on_elsewhere(self):
        image, state = self.a.save(), self.a.save_state(1)
        with Machine(board(Doorbell, Counter)) as machine:
            other, there = machine.guest("a"), Counter()
            machine.attach(other, 1, there)
            other.load(image)
            self.assertEqual((there.told, there.count), ([("load", 1, (0, 1))], 0))
            other.load_state(1, state)
            self.assertEqual((there.count, there.rings), (1, 1))
            self.assertRaises(ValueError, other.load_state, 1, b"")
            for call in (lambda: other.save_state(0), lambda: other.load_state(0, state), lambda: machine.detach(other, 0)):
                with self.assertRaises(Refusal) as caught:
                    call()
                self.assertEqual(caught.exception.number, 902)
            self.assertEqual(there.count, 1)
        with self.assertRaises(ValueError):
            Doorbell().load_state(b"more")
        self.assertIsNone(Doorbell().load_state(Doorbell().save_state()))

    def test_a_machine_goes_on(self):
        self.machine.move(self.a, 1, self.b, 5)
        image = self.machine.save_all()
        self.machine.move(self.b, 5, self.a, 2)
        self.told()
        self.machine.load_all(image)
        self.assertEqual(self.told(), [("load", 0, (1, 5))])
        self.machine.take(self.b, 5)
        empty = self.machine.save_all()
        self.machine.load_all(image)
        self.assertEqual(self.told(), [("take", None), ("load", 0, (1, 5))])
        self.machine.load_all(empty)
        self.assertEqual(self.told(), [("take", None)])

    def test_detached(self):
        self.assertIs(self.machine.detach(self.a, 1), self.counter)
        self.assertIsNone(self.counter.seat)
        self.a.memory[0xE0000008:4] = 2
        self.assertEqual(self.told(), [])
        with self.assertRaises(ValueError):
            self.counter.rings
        self.machine.attach(self.a, 1, self.counter)
        self.assertEqual((self.counter.bell, self.counter.rings), (2, 1))

    def test_a_device_may_use_its_own_machine(self):
        guest = self.a

        class Busy(Doorbell):
            def on_write(self, register, value):
                if register is Busy.port:
                    guest.memory[0xE0000008:4] = value

        self.machine.detach(self.a, 1)
        self.machine.attach(self.a, 1, Busy())
        self.a.io[0x2010:2] = 0x1234
        self.assertEqual(self.a.memory[0xE0000008:4], 0x1234)

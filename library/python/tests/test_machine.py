"""Each call on `boards/main.toml`; test_refusal_rows.py has most of what is refused."""

import gc
import random
import threading
import unittest.mock

from boards import MAIN, REFUSED, MachineCase
from pciguest import Bar, Interrupt, Machine, limits
from pciguest._library import CALLS
from why_lines import why_lines


# the function in slot 0 has a capability list that isn't in the order of offsets, and the one in slot 1 has none
LISTS = """
host = { io = [0x1000, 0xffff], mem = [0xc0000000, 0xdfffffff] }
endpoint = [
  { at = "1.0", vendor = 0x1234, device = 1, class = 0xff0000, capability = [
    { id = 9, off = 0x80, block = 2 }, { id = 0x11, off = 0x40, block = 10 }, { id = 9, off = 0x60, block = 2 } ] },
  { at = "2.0", vendor = 0x1234, device = 2, class = 0xff0000 },
]
guest = [ { name = "a", slots = ["1.0", "2.0"] } ]
"""


class Guests(MachineCase):
    def test_a_guest_uses_its_function(self):
        a, b = self.a, self.b
        self.assertEqual((a.index, b.index), (0, 1))
        self.assertEqual(a.config[0][0:4], 0x00011234)
        self.assertEqual(b.config[0][2:2], 0x0003)
        a.config[0][0x14:4] = 0xE0000000
        a.config[0][4:2] = 2
        a.memory[0xE0000010:4] = 0x12345678
        self.assertEqual(a.memory[0xE0000012:1], 0x34)
        self.assertEqual(b.memory[0xE0000010:4], 0xFFFFFFFF)

    def test_names(self):
        self.assertEqual(self.machine.guests(), ["a", "b"])
        self.assertEqual([self.machine.guest(name).index for name in self.machine.guests()], [0, 1])

    def test_ports(self):
        self.a.io[0xCF8:4] = 0x80000800
        self.assertEqual(self.a.io[0xCFC:4], 0x00041234)
        self.assertEqual(self.b.io[0xCF8:4], 0)

    def test_all_slots(self):
        found = [function[0:4] for function in self.a.config]
        self.assertEqual(found, [0x00011234, 0x00041234] + [0xFFFFFFFF] * 30)

    def test_a_device_raises_a_bit(self):
        status = self.a.config[0]
        self.a.raise_bits(0, 7, 0x80)
        self.assertEqual(status[6:2] & 0x8000, 0x8000)
        status[6:2] = 0x8000
        self.assertEqual(status[6:2] & 0x8000, 0)
        self.a.raise_bits(0, 0, 0xFF, region=1)
        for region in (6, 7, 0xFFFFFFFF):
            self.refused(902, self.a.raise_bits, 0, 7, 0x80, region)

    def test_regions_stand_where_their_guest_put_them(self):
        a, function = self.a, self.a.config[1]
        self.assertEqual(a.region(0, 0), ("io", 0, 32, False, False))
        function[0x14:4] = 0x20
        function[4:2] = 2
        self.assertEqual(a.region(1, 0), ("memory", 0x2000000000, 0x1000000, True, True))
        self.assertEqual(a.locate("memory", 0x2000000010), (1, 0, 0x10))
        self.assertIsNone(self.b.locate("memory", 0x2000000010))
        self.assertEqual((a.changed(), self.b.changed()), (2, 0))
        a.io[0xCF8:4] = 0x80000840
        self.assertEqual(a.locate("io", 0xCFE), (1, None, 0x42))
        a.reset(1)
        self.assertEqual((a.changed(), self.b.changed()), (3, 0))
        self.assertFalse(a.region(1, 0).is_open)
        self.assertIsNone(a.locate("memory", 0x2000000010))
        self.assertRaises(ValueError, a.locate, "config", 0)
        self.assertRaises(ValueError, a.region, 0, -1)

    def test_a_guest_is_told_why(self):
        a, function = self.a, self.a.config[0]
        function[0x14:4] = 0xD0000000
        self.assertEqual(
            a.why("memory", 0xD0000010),
            "why: memory 0xd0000010: nothing responds\n"
            "why: slot 0 bar1 at 0xd0000000 size 0x1000: decode is disabled (Command 0x0000)\n",
        )
        self.assertEqual(self.b.why("memory", 0xD0000010), "why: memory 0xd0000010: nothing responds\n")
        function[4:2] = 2
        self.assertEqual(a.why("memory", 0xD0000010), "why: memory 0xd0000010: slot 0 bar1 responds at offset 0x10\n")
        self.assertEqual(a.why("config", 0, slot=2), "why: slot 2 offset 0x0: slot 2 is empty\n")
        a.io[0xCF8:4] = 0x80010000
        self.assertEqual(
            a.why("io", 0xCFC),
            "why: I/O 0xcfc: CONFIG_ADDRESS (0x80010000) selects offset 0x0 of 01:00.0\n"
            "why: I/O 0xcfc: there is no slot at 01:00.0\n",
        )
        self.assertRaises(ValueError, a.why, "mem", 0)

    def test_json_tells_a_guest_why_as_lines_do(self):
        chosen = random.Random(4)
        for _ in range(2000):
            guest, slot = chosen.choice((self.a, self.b)), chosen.randrange(3)
            guest.config[slot][chosen.choice((4, 4, 0x10, 0x14)) : 4] = chosen.choice((0, 3, 0x1000, 0xC0000000))
            guest.io[0xCF8:4] = chosen.choice((0, 0x80000000)) | chosen.randrange(0x20000)
            latch = guest.io[0xCF8:4]
            port, address = chosen.choice((0, 0x1000, 0xCF8, 0xCFC, 0xCFF)), chosen.choice((0, 0x1000, 0xC0000004))
            for what, at in ((f"slot {slot} offset 0x10", ("config", 0x10, slot)), (f"I/O {port:#x}", ("io", port)),
                             (f"memory {address:#x}", ("memory", address))):
                lines = why_lines(guest.why_json(*at), what, latch)
                self.assertEqual(guest.why(*at), "".join(f"why: {each}\n" for each in lines))

    def test_a_function_moves(self):
        self.a.config[0][4:2] = 2
        self.machine.move(self.a, 0, self.b, 5)
        self.assertEqual((self.a.changed(), self.b.changed()), (2, 1))
        self.assertEqual(self.a.config[0][0:4], 0xFFFFFFFF)
        self.assertEqual(self.b.config[5][0:4], 0x00011234)
        self.assertEqual(self.b.config[5][4:2], 0)
        with Machine(MAIN) as other, self.assertRaises(ValueError):
            other.move(self.a, 1, other.guest("b"), 6)

    def test_a_function_is_taken_and_given(self):
        machine, a, b = self.machine, self.a, self.b
        a.config[0][0x3C:1] = 0x5A
        machine.take(a, 0)
        self.assertEqual(a.config[0][0:4], 0xFFFFFFFF)
        self.assertFalse([function for function in machine.functions() if function.path == "1.0"][0].seat)
        self.refused(602, machine.give, "1.0", a, 1)
        machine.give("1.0", b, 5)
        self.assertEqual((b.config[5][0:4], b.config[5][0x3C:1]), (0x00011234, 0))
        with Machine(MAIN) as other:
            for call in (lambda: other.give("1.0", a, 0), lambda: other.take(b, 5)):
                self.assertRaises(ValueError, call)

    def test_a_device_reads_and_writes_its_own(self):
        a = self.a
        a.device_write(0, 7, 0xA5)
        self.assertEqual((a.device_read(0, 7), a.config[0][7:1]), (0xA5, 0xA5))
        self.refused(902, a.device_read, 0, 0, 6)
        self.assertRaises(ValueError, a.device_write, 0, 7, 256)

    def test_a_device_has_wide_registers(self):
        a = self.a
        a.device_write(0, 6, 0x5AA5, width=2)
        self.assertEqual((a.device_read(0, 6, width=2), a.config[0][6:2]), (0x5AA5, 0x5AA5))
        a.device_write(0, 1, 0x0123456789ABCDEF, region=1, width=8)
        self.assertEqual(a.device_read(0, 8, region=1), 0x01)
        self.assertEqual(a.device_read(0, 3, region=1, width=4), 0x456789AB)
        self.assertEqual(a.device_read(0, 7), 0x5A)
        for value, width in ((1 << 16, 2), (-1, 4), (0, -1), (1 << 64, 8)):
            self.assertRaises(ValueError, a.device_write, 0, 6, value, width=width)

    def test_a_capability_list_is_read(self):
        with Machine(LISTS) as machine:
            a, declared = machine.guest("a"), [(9, 0x80), (0x11, 0x40), (9, 0x60)]
            self.assertEqual((a.capabilities(0), a.capabilities(1)), (declared, []))
            found = [a.find_capability(0, 9), a.find_capability(0, 0x11), a.find_capability(0, 5), a.find_capability(1, 9)]
            self.assertEqual(found, [0x80, 0x40, None, None])
            a.device_write(0, 0x61, 0x80)  # a loop
            self.assertEqual((a.capabilities(0), a.find_capability(0, 5)), (declared, None))
            a.device_write(0, 0x34, 0x43)  # the low two bits are ignored
            self.assertEqual(a.capabilities(0), declared[1:] + declared[:1])
            a.device_write(0, 0x34, 0x3F)  # in the header
            self.assertEqual(a.capabilities(0), [])
            a.reset(0)
            a.device_write(0, 0x06, 0)
            a.device_write(1, 0x06, 0x10)  # without a Capabilities Pointer
            self.assertEqual((a.capabilities(0), a.capabilities(1)), ([], []))
            self.refused(601, a.capabilities, 2)

    def test_a_region_is_reached_wherever_it_stands(self):
        a = self.a
        self.assertEqual(a.region_read(0, 1, 0, width=3), 0xFFFFFF)  # closed
        a.region_write(0, 1, 0, 0, width=8)
        a.config[0][0x14:4], a.config[0][4:2] = 0x80000000, 3
        a.region_write(0, 1, 1, 0x0123456789ABCDEF, width=8)
        self.assertEqual(a.region_read(0, 1, 1, width=8), a.memory.wide[0x80000001:8])
        self.refused(902, a.region_read, 0, 6, 0)

    def test_a_function_is_reset(self):
        function, other = self.a.config[0], self.a.config[1]
        function[4:2] = other[4:2] = 2
        function[0x3C:1] = 0x5A
        self.a.reset(0)
        self.assertEqual((function[0:4], function[4:2], function[0x3C:1], other[4:2]), (0x00011234, 0, 0, 2))
        self.assertRaises(ValueError, self.a.reset, -1)


class Hosts(MachineCase):
    def test_the_board(self):
        host = self.machine.host
        self.assertEqual(host.config[0, 2, 0][0:4], 0x00021234)
        self.assertEqual(host.config[1, 1, 0][2:2], 0x0004)
        self.assertEqual(host.memory[0x400000000:1], 0xA5)
        self.assertEqual(host.io[0x4000:2], 0xFFFF)

    def test_the_host_writes_nothing(self):
        with self.assertRaises(TypeError):
            self.machine.host.memory[0xC0000000:4] = 0
        with self.assertRaises(TypeError):
            self.machine.host.config[0]


class BoardFunctions(MachineCase):
    def test_all_functions(self):
        machine = self.machine
        all_of_them = list(machine.functions())
        self.assertEqual(machine.count(), 4)
        self.assertEqual([each.path for each in all_of_them], ["1.0", "2.0", "2.0/0.0", "2.0/1.0"])
        self.assertEqual([each.seat for each in all_of_them], [(0, 0), None, (1, 0), (0, 1)])
        self.assertEqual([each.is_bridge for each in all_of_them], [False, True, False, False])
        bridge, last = all_of_them[1], all_of_them[3]
        self.assertEqual((last.bus, last.device, last.function), (1, 1, 0))
        self.assertEqual((last.vendor_id, last.device_id, last.class_code), (0x1234, 4, 0xFF0000))
        self.assertEqual(last.regions, (Bar("memory", 0x400000000, 0x1000000, True, True),) + (None,) * 5)
        self.assertIsNone(last.windows)
        self.assertEqual(bridge.windows.io, (0x1000, 0x1FFF))
        self.assertEqual(bridge.windows.prefetchable, (0x400000000, 0x400FFFFFF))
        self.assertEqual(bridge.regions, (None,) * 6)

    def test_a_function_by_its_slot(self):
        a, b = self.a, self.b
        self.machine.move(a, 1, b, 7)
        moved = b.function(7)
        self.assertEqual((moved.path, moved.seat), ("2.0/1.0", (1, 7)))
        self.assertEqual(moved, self.machine.function(3))
        self.assertRaises(ValueError, a.function, -1)
        self.assertRaises(ValueError, self.machine.function, -1)


class Lines(MachineCase):
    def test_replies(self):
        run = self.machine.run_line
        self.assertEqual(run("a cr 0 0 4"), "a: 0x00011234")
        self.assertEqual(run(b"a cr 0 0 2\n"), "a: 0x1234")
        self.assertEqual(run("a cr 0 0 2\n\n"), "a: refused 401 bad line")
        self.assertEqual(run("nobody cr 0 0 4"), "?: refused 402 unknown guest")
        self.assertEqual(run(" " * 201), "?: refused 403 long line")
        self.assertIsNone(run(""))
        self.assertIsNone(run("# a comment"))


class Refusals(MachineCase):
    def test_accesses(self):
        a = self.a
        refusal = self.refused(301, lambda: a.memory[0xD0000001:4])
        self.assertEqual(str(refusal), f"{refusal.words} (301)")
        self.assertEqual(refusal.words, "address is not a multiple of the width")

    def test_boards(self):
        self.assertTrue(str(self.refused(101, Machine, "x")).startswith("board file is not valid TOML (101)\nboard.toml:1:"))
        self.refused(101, Machine, b"\xff")
        self.refused(102, Machine, "")
        self.assertEqual(self.refused(203, Machine, (REFUSED / "io_pool.toml").read_text()).words, "I/O aperture is too small")

    def test_numbers_that_do_not_fit(self):
        space = self.a.config[0]
        for key in (slice(-1, 4), slice(1 << 64, 4), slice(0, -1), slice(0, 1 << 32)):
            with self.assertRaises(ValueError):
                space[key]
        for value in (-1, 1 << 32):
            with self.assertRaises(ValueError):
                space[4:2] = value
        host, a = self.machine.host, self.a
        for call in (lambda: a.config[-1], lambda: a.raise_bits(0, 7, 256), lambda: host.config[256, 0, 0]):
            self.assertRaises(ValueError, call)

    def test_accesses_of_another_form(self):
        for key in (0, slice(None, 4), slice(0, None), slice(0, 4, 1), slice("0", 4), slice(0.0, 4)):
            with self.assertRaises(TypeError):
                self.a.memory[key]


class Ends(MachineCase):
    def test_closed(self):
        with Machine(MAIN) as machine:
            guest = machine.guest("a")
        self.assertEqual(str(self.refused(901, lambda: guest.config[0][0:4])), "struct holds no machine or board (901)")
        self.refused(901, machine.run_line, "a cr 0 0 4")
        machine.close()

    def test_what_is_left_is_freed(self):
        kept = [Machine(MAIN) for _ in range(200)]
        before = resident()
        del kept
        for _ in range(2000):
            Machine(MAIN)
        gc.collect()
        self.assertLess(resident() - before, 4 << 20)

    def test_threads(self):
        """Calls of several threads on one machine: each answers as it does alone."""
        wrong = []

        def use(guest, value):
            for _ in range(2000):
                guest.config[0][0x3C:1] = value
                if guest.config[0][0x3C:1] != value or guest.config[0][0:2] != 0x1234:
                    wrong.append(guest)

        threads = [threading.Thread(target=use, args=(each, value)) for value, each in enumerate((self.a, self.b), 1)]
        for thread in threads:
            thread.start()
        for thread in threads:
            thread.join()
        self.assertEqual(wrong, [])


class Moves(MachineCase):
    def test_regions_that_move_are_told(self):
        a = self.a
        self.assertEqual([(it.slot, it.register) for it in a.moved()], [(0, 0), (0, 1), (1, 0)])
        self.assertEqual(a.moved(), [])
        for value in 0xFFFFFFFF, 0:  # it is sized, and stands where it stood
            a.config[0][0x14:4] = value
        self.assertEqual(a.moved(), [])
        a.config[0][0x14:4] = 0xE0000000
        a.config[0][4:2] = 2
        (moved,) = a.moved()
        self.assertEqual((moved.slot, moved.register), (0, 1))
        self.assertEqual((moved.before.first, moved.before.is_open), (0, False))
        self.assertEqual((moved.now.first, moved.now.is_open), (0xE0000000, True))
        self.machine.move(a, 0, self.b, 7)
        self.assertEqual([(it.register, it.now) for it in a.moved()], [(0, None), (1, None)])

    def test_an_interrupt_is_told(self):
        self.a.config[1][4:2] = 0x0400
        self.assertEqual(self.a.function(1).interrupt, Interrupt(1, 2, 2, True))
        self.assertEqual(self.b.function(0).interrupt, Interrupt(0, 0, 0, False))

    def test_limits(self):
        self.assertEqual(limits()[1:5], (1024, 32, 32, 6))


class OneAtATime(MachineCase):
    def test_a_call_keeps_others_waiting(self):
        """While a call is made, no other thread gets the lock of the machine, and another machine's is free."""
        found = []

        def take(lock):
            found.append(lock.acquire(blocking=False))
            if found[-1]:
                lock.release()

        def spy(*arguments):
            for machine in (self.machine, other):
                thread = threading.Thread(target=take, args=(machine._lock,))
                thread.start()
                thread.join()
            return 0

        with Machine(MAIN) as other, unittest.mock.patch.dict(CALLS, read=spy):
            self.a.io[0xCF8:4]
        self.assertEqual(found, [False, True])


def resident():
    """The memory of this process that is resident, in bytes, on pages of 4 KB."""
    with open("/proc/self/statm") as told:
        return 4096 * int(told.read().split()[1])

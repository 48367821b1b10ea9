//! Devices that act when their driver touches their registers.

mod doorbell;

use doorbell::{memory, Case, Doorbell, BELL, FAR, LONG, MORE, OWN, PORT, RINGS, STATUS};
use pciguest::{At, Declaration, DeviceModel, Error, Kind, Register, Registers};
use std::panic::{catch_unwind, set_hook, take_hook};
use std::sync::{Arc, Mutex};

fn config(offset: u64) -> At {
    At::Config { slot: 0, offset }
}

#[test]
fn a_declaration_is_an_endpoint() {
    let simple = Declaration::new(0x1234, 0x0001, 0xff0000)
        .region(0, Kind::Mem32, 0x1000)
        .register(STATUS)
        .register(RINGS)
        .register(BELL);
    let wanted = "[[endpoint]]\nat = \"1.0\"\nvendor = 0x1234\ndevice = 0x0001\nclass = 0xff0000\nrevision = 0x00\n\
                  subvendor = 0x0000\nsubsystem = 0x0000\npin = 0\nbar = [\n  \
                  { index = 0, kind = \"mem32\", size = 0x1000, block = 12, reset = \"000000000000000044332211\", \
                  rw = \"0000000000000000ffffffff\", w1c = \"010000000000000000000000\" },\n]\nconfig = []\n";
    assert_eq!(simple.endpoint("1.0"), wanted);
    let own = Declaration::new(1, 2, 3).register(OWN).register(MORE);
    assert!(own.endpoint("2.0/1.0").ends_with(
        "config = [ { off = 0x40, block = 9, reset = \"00000000000000007f\", rw = \"ff0000000000000000\" } ]\n"
    ));
    let same = Declaration::new(1, 2, 3)
        .region(3, Kind::Io, 8)
        .register(Register::in_region(3, 0, 4).rw(0xff00_ff00))
        .register(Register::in_region(3, 4, 4).rw(0xff00_ff00));
    assert!(same.endpoint("1.0").contains("size = 0x8, block = 8, rw = \"00ff\" }"));
}

#[test]
fn the_board_says_what_is_declared() {
    let mut case = Case::new();
    let function = case.machine.slot_function(case.a, 0).unwrap();
    assert_eq!((function.vendor_id, function.device_id), (0x1234, 0x00d0));
    assert_eq!((function.subsystem_vendor_id, function.subsystem_id), (0x1111, 0x2222));
    assert_eq!(case.read(memory(0xe000_0008), 4), 0x1122_3344);
    assert_eq!(case.read(config(0x48), 4), 0x7f);
    case.write(memory(0xe000_0004), 4, 9); // its driver only reads it
    assert_eq!(case.read(memory(0xe000_0004), 4), 0);
    case.write(At::Io { port: 0x2010 }, 2, 0xffff);
    assert_eq!(case.read(At::Io { port: 0x2010 }, 2), 0x0ff0);
}

/// Lets panics of this thread, which are awaited, tell nothing.
fn hush() {
    let (here, others) = (std::thread::current().id(), take_hook());
    set_hook(Box::new(move |told| {
        if std::thread::current().id() != here {
            others(told)
        }
    }));
}

#[test]
fn registers_that_can_not_be() {
    hush();
    let region = |register| {
        Declaration::new(1, 2, 3).region(0, Kind::Mem32, 0x10000).register(RINGS).register(register)
    };
    for register in [
        Register::in_config(0x3c, 4),
        Register::in_config(0xfe, 4),
        Register::in_region(3, 0, 4),
        Register::in_region(9, 0, 4),
        Register::in_region(0, 0xffe, 4),
        Register::in_region(0, u64::MAX, 4),
        Register::in_region(0, 7, 1),
        Register::in_region(0, 0x20, 1).rw(0x100),
        Register::in_region(0, 0x20, 1).reset(0x100),
        Register::in_region(0, 0x20, 1).rw(1).w1c(1),
    ] {
        assert!(catch_unwind(|| region(register)).is_err(), "{register:?}");
    }
    assert!(catch_unwind(|| Register::in_region(0, 0, 0)).is_err());
    assert!(catch_unwind(|| Register::in_region(0, 0, 9)).is_err());
}

#[test]
fn writes_are_told() {
    let mut case = Case::new();
    case.write(memory(0xe000_0008), 4, 7);
    assert_eq!(case.told(), [(BELL, Some(7))]);
    assert_eq!(case.read(memory(0xe000_0004), 4), 1);
    assert_eq!(case.read(memory(0xe000_0000), 1), 1);
    case.write(memory(0xe000_0000), 1, 1);
    let mut registers = case.machine.registers(case.a, 0).unwrap();
    assert_eq!((registers.get(STATUS), registers.get(RINGS), registers.get(BELL)), (0, 1, 7));
}

#[test]
fn what_was_written_is_told() {
    let mut case = Case::new();
    case.write(memory(0xe000_0009), 1, 0xab);
    case.write(memory(0xe000_0004), 4, u32::MAX); // its driver only reads it
    case.write(memory(0xe000_0000), 4, 0x1234_5601); // the register has one byte
    case.write(At::Io { port: 0x2010 }, 4, 0x5678_abcd);
    case.write(config(0x41), 1, 0x99);
    case.write(memory(0x8_1000_0104), 4, 0xaaaa_bbbb); // the upper half of 8 bytes
    let wanted = [
        (BELL, Some(0x1122_ab44)),
        (RINGS, Some(0xffff_ffff)),
        (STATUS, Some(1)),
        (PORT, Some(0xabcd)),
        (OWN, Some(0x9900)),
        (LONG, Some(0xaaaa_bbbb_0000_0000)),
    ];
    assert_eq!(case.told(), wanted);
}

#[test]
fn reads_are_told_before() {
    let mut case = Case::new();
    assert_eq!(case.read(memory(0x8_1000_0ff8), 4), 0x5a5a_5a5a);
    assert_eq!(case.read(memory(0xe000_0000), 4), 0);
    assert_eq!(case.read(config(0x48), 1), 0x7f);
    assert_eq!(case.told(), [(FAR, None), (STATUS, None), (MORE, None)]);
}

#[test]
fn wide_accesses_and_ports() {
    let mut case = Case::new();
    let a = case.a;
    case.machine.write_wide(a, memory(0xe000_0004), 8, 7 << 32).unwrap();
    case.write(At::Io { port: 0xcf8 }, 4, 0x8000_0040);
    case.write(At::Io { port: 0xcfc }, 4, 0xaa);
    assert_eq!(case.told(), [(RINGS, Some(0)), (BELL, Some(7)), (OWN, Some(0xaa))]);
    assert_eq!(case.machine.registers(a, 0).unwrap().get(OWN), 0xaa);
}

/// As `examples/c/device.c` is told: with the whole value, whatever cycles of the bus it takes.
#[test]
fn one_access_is_one_call() {
    let mut case = Case::new();
    let a = case.a;
    for (at, width, value) in [
        (memory(0x8_1000_0100), 8, 0x1122_3344_5566_7788),
        (memory(0x8_1000_0103), 4, 0xaabb_ccdd),
        (memory(0xe000_0007), 4, 0x4433_2211), // the highest byte of one register, and three of the next
        (config(0x3e), 8, 0x8877_6655_4433_2211),
    ] {
        case.machine.write_wide(a, at, width, value).unwrap();
    }
    let wanted = [
        (LONG, Some(0x1122_3344_5566_7788)),
        (LONG, Some(0x11aa_bbcc_dd66_7788)),
        (RINGS, Some(0x1100_0000)),
        (BELL, Some(0x1144_3322)),
        (OWN, Some(0x6655_4433)),
    ];
    assert_eq!(case.told(), wanted);
    let mut read = |address| case.machine.read_wide(a, memory(address), 8).unwrap();
    assert_eq!(read(0x8_1000_0100), 0x11aa_bbcc_dd66_7788);
    assert_eq!(read(0x8_1000_0ff7), 0x5a_5a5a_5a00);
    assert_eq!(case.told(), [(LONG, None), (FAR, None)]);
}

#[test]
fn lines_are_told() {
    let mut case = Case::new();
    let mut run = |line: &str| case.machine.run_line(line).unwrap();
    assert_eq!(run("a mw 0xe0000008 4 0x07\n").as_deref(), Some("a: ok"));
    assert_eq!(run("a  mr\t0XE0000004 4").as_deref(), Some("a: 0x00000001"));
    assert_eq!(run("a mr 0x810000ff8 4").as_deref(), Some("a: 0x5a5a5a5a"));
    assert_eq!(run("a cw 0 0x40 1 255").as_deref(), Some("a: ok"));
    assert_eq!(run("a iw 0x2010 2 1").as_deref(), Some("a: ok"));
    assert_eq!(run("# a mw 0xe0000008 4 7"), None);
    let wanted = [(BELL, Some(7)), (RINGS, None), (FAR, None), (OWN, Some(0xff)), (PORT, Some(1))];
    assert_eq!(case.told(), wanted);
}

#[test]
fn what_tells_nothing() {
    let mut case = Case::new();
    for line in [
        "a mw 0xe0000009 4 1",
        "a mr 0xe0000008 3",
        "a mw 0xe0000008 4",
        "a cw 32 0x40 1 1",
        "host ir 0x2010 2",
        "a mr 0xe0000800 4",
        "a raise 0 bar0 0 1",
        "b mr 0xe0000008 4",
        "a cr 1 0x40 4",
        "x mr 0xe0000008 4",
        "a ir 0x100000000 1",
        "a cw 0 0x40 1 0x100000000",
        "a mr +0xe0000008 4",
        "a mr 0x 4",
        "a",
        "",
    ] {
        case.machine.run_line(line).unwrap();
    }
    let (a, wrong) = (case.a, memory(0xe000_0009));
    assert_eq!(case.machine.read(a, wrong, 4).unwrap_err().number(), 301);
    assert_eq!(case.machine.write(a, wrong, 4, 0).unwrap_err().number(), 301);
    case.read(At::Io { port: 0xcf8 }, 4);
    case.write(config(4), 2, 0);
    case.write(memory(0xe000_0008), 4, 1); // memory is off: nothing responds
    assert!(case.told().is_empty());
}

#[test]
fn a_device_goes_with_its_function() -> Result<(), Error> {
    let mut case = Case::new();
    let (a, b) = (case.a, case.b);
    case.machine.run_line("host move a 0 b 3")?;
    case.place(b, 3)?;
    case.machine.write(b, memory(0xe000_0008), 4, 1)?;
    assert_eq!(case.machine.read(b, memory(0xe000_0004), 4)?, 1);
    case.machine.take(b, 3)?;
    assert_eq!(case.machine.registers(b, 3).unwrap_err().number(), 601);
    case.machine.give("1.0", a, 9)?;
    assert_eq!(case.machine.registers(a, 9)?.get(RINGS), 0);
    assert_eq!(case.machine.registers(a, 1).unwrap_err().number(), 902); // no device
    Ok(())
}

/// Keeps what happens to Command and to configuration space.
#[derive(Default)]
struct Listening(Vec<String>);

impl DeviceModel for Listening {
    fn declaration(&self) -> Declaration {
        Doorbell::default().declaration()
    }

    fn on_command(&mut self, registers: &mut Registers<'_>, old: u16, new: u16) {
        self.0.push(format!("command {old:x} {new:x} {}", registers.bus_master()));
    }

    fn on_config_write(&mut self, _: &mut Registers<'_>, offset: u64, width: u32, value: u64) {
        self.0.push(format!("config {offset:x} {width} {value:x}"));
    }

    fn on_write(&mut self, _: &mut Registers<'_>, _: Register, value: u64) {
        self.0.push(format!("register {value:x}"));
    }
}

#[test]
fn commands_and_configuration_writes_are_told() -> Result<(), Error> {
    let mut case = Case::new();
    let (a, device) = (case.a, Arc::<Mutex<Listening>>::default());
    case.machine.attach(a, 1, Arc::clone(&device)).expect("a device");
    let at = |offset| At::Config { slot: 1, offset };
    case.write(at(4), 2, 0x0406);
    case.write(at(4), 2, 0x0406); // as it is
    case.machine.write_wide(a, at(2), 8, 0x1122_0002_1111)?; // Command becomes 2
    case.write(At::Io { port: 0xcf8 }, 4, 0x8000_0804);
    case.write(At::Io { port: 0xcfc }, 1, 0);
    case.write(at(0x40), 4, 0x1234_5678);
    case.read(at(0x10), 4);
    case.machine.run_line("a cw 1 5 1 4")?;
    case.machine.run_line("a cw 0 4 2 4")?; // another's
    case.machine.reset(a, 1)?;
    let wanted = [
        "command 0 406 true",
        "config 4 2 406",
        "config 4 2 406",
        "command 406 2 false",
        "config 2 8 112200021111",
        "command 2 0 false",
        "config 4 1 0",
        "config 40 4 12345678",
        "register 12345678",
        "command 0 400 false",
        "config 5 1 4",
    ];
    assert_eq!(device.lock().unwrap().0, wanted);
    Ok(())
}

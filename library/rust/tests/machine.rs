//! Each call on `boards/main.toml`. `refusal_rows.rs` has most of what is refused.

mod shared;

use pciguest::{
    At, Bar, Capability, Error, Guest, Hit, HostAt, Interrupt, Machine, Part, Places, Ranges,
    Space, Window,
};
use shared::{config, memory, number, start, BOARD};

#[test]
fn a_guest_uses_its_function() -> Result<(), Error> {
    let (mut machine, a, b) = start(BOARD)?;
    assert_eq!((a.index(), b.index()), (0, 1));
    assert_eq!(machine.read(a, config(0, 0), 4)?, 0x0001_1234);
    assert_eq!(machine.read(b, config(0, 2), 2)?, 0x0003);
    machine.write(a, config(0, 0x14), 4, 0xe000_0000)?;
    machine.write(a, config(0, 4), 2, 2)?;
    machine.write(a, memory(0xe000_0010), 4, 0x1234_5678)?;
    assert_eq!(machine.read(a, memory(0xe000_0012), 1)?, 0x34);
    assert_eq!(machine.read(b, memory(0xe000_0010), 4)?, u32::MAX);
    Ok(())
}

#[test]
fn the_guests_have_names() -> Result<(), Error> {
    let mut machine = Machine::new(BOARD)?;
    assert_eq!(machine.guests()?, ["a", "b"]);
    let b = machine.guest("b")?;
    assert_eq!(machine.guest_name(b)?, "b");
    Ok(())
}

#[test]
fn a_device_has_wide_registers() -> Result<(), Error> {
    let (mut machine, a, _) = start(BOARD)?;
    machine.device_write_wide(a, 0, Part::Config, 6, 2, 0x12_5aa5)?;
    assert_eq!(machine.read(a, config(0, 6), 2)?, 0x5aa5);
    assert_eq!(machine.device_read_wide(a, 0, Part::Config, 6, 2)?, 0x5aa5);
    let region = Part::Region(1);
    machine.device_write_wide(a, 0, region, 1, 8, 0x0123_4567_89ab_cdef)?;
    assert_eq!(machine.device_read(a, 0, region, 8)?, 0x01);
    assert_eq!(
        machine.device_read_wide(a, 0, region, 0, 8)?,
        (0x0123_4567_89ab_cdef << 8) | u64::from(machine.device_read(a, 0, region, 0)?)
    );
    assert_eq!(machine.device_read(a, 0, Part::Config, 7)?, 0x5a);
    Ok(())
}

#[test]
fn a_region_is_reached_wherever_it_stands() -> Result<(), Error> {
    let (mut machine, a, _) = start(BOARD)?;
    assert_eq!(machine.region_read(a, 0, 1, 0, 3)?, 0xff_ffff); // closed
    machine.region_write(a, 0, 1, 0, 8, 0)?;
    machine.write(a, config(0, 4), 2, 3)?;
    machine.write(a, config(0, 0x14), 4, 0x8000_0000)?;
    let place = memory(0x8000_0001);
    machine.region_write(a, 0, 1, 1, 8, 0x0123_4567_89ab_cdef)?;
    let by_address = machine.read_wide(a, place, 8)?;
    assert_eq!(machine.region_read(a, 0, 1, 1, 8)?, by_address);
    assert_eq!(number(machine.region_read(a, 0, 6, 0, 1)), 902);
    Ok(())
}

#[test]
fn a_guest_finds_its_function_by_ports() -> Result<(), Error> {
    let (mut machine, a, _) = start(BOARD)?;
    machine.write(a, At::Io { port: 0xcf8 }, 4, 0x8000_0800)?;
    assert_eq!(machine.read(a, At::Io { port: 0xcfc }, 4)?, 0x0004_1234);
    Ok(())
}

#[test]
fn the_host_sees_the_board() -> Result<(), Error> {
    let mut machine = Machine::new(BOARD)?;
    let at = |bus, device, offset| HostAt::Config { bus, device, function: 0, offset };
    assert_eq!(machine.host_read(at(0, 2, 0), 4)?, 0x0002_1234);
    assert_eq!(machine.host_read(at(1, 1, 2), 2)?, 0x0004);
    let cell = HostAt::Memory { address: 0x4_0000_0000 };
    assert_eq!(machine.host_read(cell, 1)?, 0xa5);
    assert_eq!(machine.host_read(HostAt::Io { port: 0x4000 }, 2)?, 0xffff);
    Ok(())
}

#[test]
fn a_device_raises_a_bit() -> Result<(), Error> {
    let (mut machine, a, _) = start(BOARD)?;
    machine.raise(a, 0, Part::Config, 7, 0x80)?;
    assert_eq!(machine.read(a, config(0, 6), 2)? & 0x8000, 0x8000);
    machine.write(a, config(0, 6), 2, 0x8000)?;
    assert_eq!(machine.read(a, config(0, 6), 2)? & 0x8000, 0);
    machine.raise(a, 0, Part::Region(1), 0, 0xff)?;
    for register in [6, 7, 255] {
        assert_eq!(number(machine.raise(a, 0, Part::Region(register), 0, 1)), 902);
    }
    Ok(())
}

#[test]
fn regions_stand_where_their_guest_put_them() -> Result<(), Error> {
    let (mut machine, a, b) = start(BOARD)?;
    let ports = machine.region(a, 0, 0)?;
    assert_eq!((ports.space, ports.size, ports.is_open), (Space::Io, 32, false));
    machine.write(a, config(1, 0x10), 4, 0)?;
    machine.write(a, config(1, 0x14), 4, 0x20)?;
    machine.write(a, config(1, 4), 2, 2)?;
    let wide = machine.region(a, 1, 0)?;
    assert_eq!((wide.space, wide.first, wide.size), (Space::Memory, 0x20_0000_0000, 0x100_0000));
    assert!(wide.prefetchable && wide.is_open);
    let bell = memory(0x20_0000_0010);
    let hit = Hit { slot: 1, part: Part::Region(0), offset: 0x10 };
    assert_eq!(machine.locate(a, bell)?, Some(hit));
    assert_eq!(machine.locate(b, bell)?, None);
    assert_eq!((machine.changed(a)?, machine.changed(b)?), (3, 0));
    machine.write(a, At::Io { port: 0xcf8 }, 4, 0x8000_0840)?;
    let selected = Hit { slot: 1, part: Part::Config, offset: 0x42 };
    assert_eq!(machine.locate(a, At::Io { port: 0xcfe })?, Some(selected));
    machine.reset(a, 1)?;
    assert_eq!((machine.changed(a)?, machine.changed(b)?), (4, 0));
    assert!(!machine.region(a, 1, 0)?.is_open);
    assert_eq!(number(machine.locate(a, config(0, 256))), 303);
    Ok(())
}

#[test]
fn a_guest_is_told_why() -> Result<(), Error> {
    let (mut machine, a, b) = start(BOARD)?;
    let bell = memory(0xd000_0010);
    machine.write(a, config(0, 0x14), 4, 0xd000_0000)?;
    assert_eq!(
        machine.why(a, bell)?,
        "why: memory 0xd0000010: nothing responds\n\
         why: slot 0 bar1 at 0xd0000000 size 0x1000: decode is disabled (Command 0x0000)\n"
    );
    assert_eq!(
        machine.why_json(a, bell)?,
        "{\"found\":{\"regions\":[{\"bar\":1,\"base\":3489660928,\"command\":0,\"size\":4096,\"slot\":0}],\
         \"type\":\"nobody\"},\"latch\":null}\n"
    );
    assert_eq!(machine.why(b, bell)?, "why: memory 0xd0000010: nothing responds\n");
    machine.write(a, config(0, 4), 2, 2)?;
    assert_eq!(
        machine.why(a, bell)?,
        "why: memory 0xd0000010: slot 0 bar1 responds at offset 0x10\n"
    );
    assert_eq!(machine.why(a, config(2, 0))?, "why: slot 2 offset 0x0: slot 2 is empty\n");
    machine.write(a, At::Io { port: 0xcf8 }, 4, 0x8000_0840)?;
    assert_eq!(
        machine.why(a, At::Io { port: 0xcfe })?,
        "why: I/O 0xcfe: CONFIG_ADDRESS (0x80000840) selects offset 0x42 of 00:01.0\n\
         why: I/O 0xcfe: slot 1 configuration space responds at offset 0x42\n"
    );
    Ok(())
}

#[test]
fn a_function_moves() -> Result<(), Error> {
    let (mut machine, a, b) = start(BOARD)?;
    machine.write(a, config(0, 4), 2, 2)?;
    machine.move_function(a, 0, b, 5)?;
    assert_eq!((machine.changed(a)?, machine.changed(b)?), (2, 1));
    assert_eq!(machine.read(a, config(0, 0), 4)?, u32::MAX);
    assert_eq!(machine.read(b, config(5, 0), 4)?, 0x0001_1234);
    assert_eq!(machine.read(b, config(5, 4), 2)?, 0);
    Ok(())
}

#[test]
fn a_device_reads_and_writes_its_own() -> Result<(), Error> {
    let (mut machine, a, _) = start(BOARD)?;
    machine.device_write(a, 0, Part::Config, 7, 0xa5)?;
    assert_eq!(machine.device_read(a, 0, Part::Config, 7)?, 0xa5);
    assert_eq!(machine.read(a, config(0, 7), 1)?, 0xa5);
    assert_eq!(number(machine.device_read(a, 0, Part::Region(6), 0)), 902);
    Ok(())
}

#[test]
fn a_capability_list_is_read() -> Result<(), Error> {
    let mut machine = Machine::new(
        r#"host = { io = [0x1000, 0xffff], mem = [0xc0000000, 0xdfffffff] }
        endpoint = [
          { at = "1.0", vendor = 0x1234, device = 1, class = 0xff0000, capability = [
            { id = 9, off = 0x80, block = 2 },
            { id = 0x11, off = 0x40, block = 10 },
            { id = 9, off = 0x60, block = 2 },
          ] },
          { at = "2.0", vendor = 0x1234, device = 2, class = 0xff0000 },
        ]
        guest = [ { name = "a", slots = ["1.0", "2.0"] } ]"#,
    )?;
    let a = machine.guest("a")?;
    let [first, second, third] =
        [(9, 0x80), (0x11, 0x40), (9, 0x60)].map(|(id, offset)| Capability { id, offset });
    assert_eq!(machine.capabilities(a, 0)?, [first, second, third]);
    assert_eq!(machine.capabilities(a, 1)?, []);
    machine.device_write(a, 0, Part::Config, 0x61, 0x80)?; // a loop
    assert_eq!(machine.capabilities(a, 0)?, [first, second, third]);
    machine.device_write(a, 0, Part::Config, 0x34, 0x43)?; // the low two bits are ignored
    assert_eq!(machine.capabilities(a, 0)?, [second, third, first]);
    machine.device_write(a, 0, Part::Config, 0x34, 0x3f)?; // in the header
    assert_eq!(machine.capabilities(a, 0)?, []);
    machine.reset(a, 0)?;
    machine.device_write(a, 0, Part::Config, 0x06, 0)?;
    assert_eq!(machine.capabilities(a, 0)?, []);
    machine.device_write(a, 1, Part::Config, 0x06, 0x10)?; // without a Capabilities Pointer
    assert_eq!(machine.capabilities(a, 1)?, []);
    assert_eq!(number(machine.capabilities(a, 2)), 601);
    Ok(())
}

#[test]
fn a_function_is_reset() -> Result<(), Error> {
    let (mut machine, a, _) = start(BOARD)?;
    machine.write(a, config(0, 4), 2, 2)?;
    machine.write(a, config(0, 0x3c), 1, 0x5a)?;
    machine.write(a, config(1, 4), 2, 2)?;
    machine.reset(a, 0)?;
    assert_eq!(machine.read(a, config(0, 0), 4)?, 0x0001_1234);
    assert_eq!(machine.read(a, config(0, 4), 2)?, 0);
    assert_eq!(machine.read(a, config(0, 0x3c), 1)?, 0);
    assert_eq!(machine.read(a, config(1, 4), 2)?, 2);
    Ok(())
}

#[test]
fn a_function_is_taken_and_given() -> Result<(), Error> {
    let (mut machine, a, b) = start(BOARD)?;
    machine.write(a, config(0, 0x3c), 1, 0x5a)?;
    machine.take(a, 0)?;
    assert_eq!(machine.read(a, config(0, 0), 4)?, 0xffff_ffff);
    assert_eq!(number(machine.give("1.0", a, 1)), 602);
    machine.give("1.0", b, 5)?;
    assert_eq!(machine.read(b, config(5, 0), 4)?, 0x0001_1234);
    assert_eq!(machine.read(b, config(5, 0x3c), 1)?, 0);
    Ok(())
}

#[test]
fn lines_have_replies() -> Result<(), Error> {
    let mut machine = Machine::new(BOARD)?;
    let mut reply = |line: &str| machine.run_line(line);
    assert_eq!(reply("a cr 0 0 4")?.as_deref(), Some("a: 0x00011234"));
    assert_eq!(reply("a cr 0 0 2\n")?.as_deref(), Some("a: 0x1234"));
    assert_eq!(reply("a cr 0 0 2\n\n")?.as_deref(), Some("a: refused 401 bad line"));
    assert_eq!(reply("nobody cr 0 0 4")?.as_deref(), Some("?: refused 402 unknown guest"));
    assert_eq!(reply(&" ".repeat(201))?.as_deref(), Some("?: refused 403 long line"));
    assert_eq!(reply("")?, None);
    assert_eq!(reply("# a comment")?, None);
    Ok(())
}

#[test]
fn accesses_are_refused() -> Result<(), Error> {
    let (mut machine, a, _) = start(BOARD)?;
    let memory = memory(0xd000_0001);
    assert_eq!(
        machine.read(a, memory, 4).unwrap_err().to_string(),
        "address is not a multiple of the width (301)"
    );
    assert!(
        matches!(machine.read(a, memory, 3), Err(Error::Access(refusal)) if refusal.words() == "access width is not 1, 2 or 4 (wide calls: 1 to 8)")
    );
    assert!(matches!(machine.read(Guest::of_index(2), config(0, 0), 4), Err(Error::Argument(_))));
    Ok(())
}

#[test]
fn boards_are_refused() {
    let refused = |board: &[u8]| Machine::new(board).unwrap_err();
    assert_eq!(refused(b"x").to_string(), "board file is not valid TOML (101)");
    assert_eq!(refused(b"\xff").to_string(), "board file is not valid TOML (101)");
    assert!(matches!(refused(b""), Error::BoardFile(refusal) if refusal.number() == 102));
    let io_pool = include_bytes!("../../../boards/refused/io_pool.toml");
    assert!(
        matches!(refused(io_pool), Error::SetUp(refusal) if refusal.to_string() == "I/O aperture is too small (203)")
    );
}

#[test]
fn many_machines_come_and_go() -> Result<(), Error> {
    let mut machines = Vec::new();
    for value in 0..50 {
        let mut machine = Machine::new(BOARD)?;
        let a = machine.guest("a")?;
        machine.write(a, config(0, 0x3c), 1, value)?;
        machines.push(machine);
    }
    let threads: Vec<_> = machines
        .into_iter()
        .map(|mut machine| {
            std::thread::spawn(move || machine.read(Guest::of_index(0), config(0, 0x3c), 1))
        })
        .collect();
    for (value, thread) in threads.into_iter().enumerate() {
        assert_eq!(thread.join().expect("a thread that ends")?, value as u32);
    }
    Ok(())
}

#[test]
fn errors_go_where_errors_go() {
    let error: Box<dyn std::error::Error + Send + Sync> = Machine::new("").unwrap_err().into();
    assert_eq!(error.to_string(), "required key is missing, or value has the wrong form (102)");
    assert_eq!(
        format!("{:?}", Machine::new("").unwrap_err()),
        "BoardFile(Refusal(102 \"required key is missing, or value has the wrong form\"))"
    );
}

#[test]
fn functions_of_the_board_are_told() -> Result<(), Error> {
    let (mut machine, a, b) = start(BOARD)?;
    assert_eq!(machine.count()?, 4);
    let all: Vec<_> = machine.functions().collect();
    let paths: Vec<&str> = all.iter().map(|function| function.path.as_str()).collect();
    assert_eq!(paths, ["1.0", "2.0", "2.0/0.0", "2.0/1.0"]);
    let seats: Vec<_> = all.iter().map(|function| function.seat).collect();
    assert_eq!(seats, [Some((a, 0)), None, Some((b, 0)), Some((a, 1))]);
    let last = &all[3];
    assert_eq!((last.bus, last.device, last.function), (1, 1, 0));
    assert_eq!((last.vendor_id, last.device_id, last.class_code), (0x1234, 4, 0xff_0000));
    let region = Bar {
        space: Space::Memory,
        first: 0x4_0000_0000,
        size: 0x100_0000,
        prefetchable: true,
        is_64_bit: true,
    };
    let regions = [Some(region), None, None, None, None, None];
    assert_eq!(last.ranges, Ranges::Regions(regions));
    assert!(all[1].is_bridge() && !last.is_bridge());
    let windows = Ranges::Windows {
        io: Some(Window { first: 0x1000, last: 0x1fff }),
        memory: Some(Window { first: 0xc000_0000, last: 0xc00f_ffff }),
        prefetchable: Some(Window { first: 0x4_0000_0000, last: 0x4_00ff_ffff }),
    };
    assert_eq!(all[1].ranges, windows);
    Ok(())
}

#[test]
fn a_function_is_told_by_its_slot() -> Result<(), Error> {
    let (mut machine, a, b) = start(BOARD)?;
    machine.move_function(a, 1, b, 7)?;
    let moved = machine.slot_function(b, 7)?;
    assert_eq!((moved.path.as_str(), moved.seat), ("2.0/1.0", Some((b, 7))));
    assert_eq!(moved, machine.function(3)?);
    Ok(())
}

#[test]
fn regions_that_move_are_told() -> Result<(), Error> {
    let (mut machine, a, b) = start(BOARD)?;
    let mut places = Places::new();
    let seats = |moved: &[pciguest::Moved]| -> Vec<(u64, u32)> {
        moved.iter().map(|it| (it.slot, it.register)).collect()
    };
    assert_eq!(seats(&machine.moved(a, &mut places)?), [(0, 0), (0, 1), (1, 0)]);
    assert_eq!(machine.moved(a, &mut places)?, []);
    for value in [0xffff_ffff, 0] {
        machine.write(a, config(0, 0x14), 4, value)?; // it is sized, and stands where it stood
    }
    assert_eq!(machine.moved(a, &mut places)?, []);
    machine.write(a, config(0, 0x14), 4, 0xe000_0000)?;
    machine.write(a, config(0, 4), 2, 2)?;
    let moved = machine.moved(a, &mut places)?;
    assert_eq!(seats(&moved), [(0, 1)]);
    let (before, now) = (moved[0].before.unwrap(), moved[0].now.unwrap());
    assert_eq!((before.first, before.is_open), (0, false));
    assert_eq!((now.first, now.is_open), (0xe000_0000, true));
    machine.move_function(a, 0, b, 7)?;
    let gone = machine.moved(a, &mut places)?;
    assert_eq!(seats(&gone), [(0, 0), (0, 1)]);
    assert!(gone.iter().all(|it| it.now.is_none()) && gone[1].before == Some(now));
    Ok(())
}

#[test]
fn an_interrupt_is_told() -> Result<(), Error> {
    let (mut machine, a, _) = start(BOARD)?;
    machine.write(a, config(1, 4), 2, 0x0400)?;
    let interrupt = Interrupt { pin: 1, root_device: 2, root_pin: 2, is_disabled: true };
    assert_eq!(machine.slot_function(a, 1)?.interrupt, interrupt);
    assert_eq!(machine.function(2)?.interrupt, Interrupt::default());
    Ok(())
}

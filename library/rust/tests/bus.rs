//! Accesses in the form of hypervisors, and those of processors.

mod shared;

use pciguest::{At, Error, GuestBus, Machine, SlotConfig, Space};
use shared::{memory, number, BOARD};
use std::sync::{Arc, Mutex};

/// A machine whose guest a has the second region of its first function open at E0000000h.
fn machine() -> Result<Machine, Error> {
    let mut machine = Machine::new(BOARD)?;
    let a = machine.guest("a")?;
    let register = |offset| At::Config { slot: 0, offset };
    machine.write(a, register(0x14), 4, 0xe000_0000)?;
    machine.write(a, register(4), 2, 2)?;
    Ok(machine)
}

#[test]
fn wide_accesses_are_split() -> Result<(), Error> {
    let (mut machine, mut other) = (machine()?, machine()?);
    let a = machine.guest("a")?;
    for (width, first) in (1..=8).flat_map(|width| (0..4).map(move |first| (width, first))) {
        let value = 0x8877_6655_4433_2211u64.rotate_left(8 * first as u32 + width);
        machine.write_wide(a, memory(0xe000_0000 + first), width, value)?;
        for byte in 0..u64::from(width) {
            let at = memory(0xe000_0000 + first + byte);
            other.write(a, at, 1, (value >> (8 * byte)) as u32)?;
        }
        for place in 0..16 {
            let at = memory(0xe000_0000 + place);
            assert_eq!(machine.read(a, at, 1)?, other.read(a, at, 1)?);
        }
        let all = machine.read_wide(a, memory(0xe000_0000 + first), width)?;
        let single = (0..u64::from(width)).try_fold(0, |all, byte| {
            let one = other.read(a, memory(0xe000_0000 + first + byte), 1)?;
            Ok::<u64, Error>(all | u64::from(one) << (8 * byte))
        })?;
        assert_eq!(all, single);
    }
    assert_eq!(number(machine.read_wide(a, memory(0), 0)), 302);
    assert_eq!(number(machine.read_wide(a, memory(0), 9)), 302);
    assert_eq!(number(machine.read_wide(a, memory(u64::MAX), 2)), 303);
    assert_eq!(number(machine.read_wide(a, At::Io { port: 0xffff_fffd }, 4)), 303);
    assert_eq!(machine.read_wide(a, At::Io { port: 0xfffd }, 4)?, 0xffff_ffff);
    let end = At::Config { slot: 0, offset: 0xfd };
    assert_eq!(number(machine.read_wide(a, end, 4)), 303);
    assert_eq!(number(machine.write_wide(a, end, 4, 0)), 303);
    Ok(())
}

#[test]
fn a_bus_reads_and_writes_bytes() -> Result<(), Error> {
    let shared = Arc::new(Mutex::new(machine()?));
    let a = shared.lock().unwrap().guest("a")?;
    let bus = GuestBus::new(Arc::clone(&shared), a, Space::Memory);
    let bytes: Vec<u8> = (1..=19).collect();
    let mut found = vec![0; 19];
    bus.write(0xe000_0000, 3, &bytes);
    bus.read(0xe000_0000, 3, &mut found);
    let singly: Result<Vec<u8>, Error> = (0..19)
        .map(|byte| Ok(shared.lock().unwrap().read(a, memory(0xe000_0003 + byte), 1)? as u8))
        .collect();
    assert_eq!(found, singly?);
    let mut nothing = [0; 5];
    bus.read(0xd000_0000, 0, &mut nothing);
    assert_eq!(nothing, [0xff; 5]);
    for (base, offset) in [(u64::MAX, 1), (u64::MAX, 0), (1, u64::MAX)] {
        let mut past = [0; 2];
        bus.read(base, offset, &mut past);
        assert_eq!(past, [0xff; 2]);
        bus.write(base, offset, &past);
    }
    bus.read(0, 0, &mut []);
    Ok(())
}

#[test]
fn a_bus_goes_on_after_a_thread_that_ended() -> Result<(), Error> {
    let shared = Arc::new(Mutex::new(machine()?));
    let a = shared.lock().unwrap().guest("a")?;
    let other = Arc::clone(&shared);
    let ended = std::thread::spawn(move || {
        let _held = other.lock().unwrap();
        panic!("it ends");
    });
    assert!(ended.join().is_err());
    let ports = GuestBus::new(shared, a, Space::Io);
    let mut identity = [0; 4];
    ports.write(0xcf8, 0, &0x8000_0000u32.to_le_bytes());
    ports.read(0xcfc, 0, &mut identity);
    assert_eq!(u32::from_le_bytes(identity), 0x0001_1234);
    Ok(())
}

#[test]
fn configuration_by_registers() -> Result<(), Error> {
    let shared = Arc::new(Mutex::new(machine()?));
    let a = shared.lock().unwrap().guest("a")?;
    let config = SlotConfig::new(Arc::clone(&shared), a, 0);
    assert_eq!(config.read_config_register(0), 0x0001_1234);
    config.write_config_register(15, 0, &[9]);
    assert_eq!(config.read_config_register(15) & 0xff, 9);
    config.write_config_register(1, 0, &[0, 0]);
    assert_eq!(config.read_config_register(1) & 0xffff, 0);
    for index in [64, usize::MAX] {
        assert_eq!(config.read_config_register(index), u32::MAX);
        config.write_config_register(index, 0, &[0; 4]);
    }
    let nobody = SlotConfig::new(shared, a, 31);
    assert_eq!(nobody.read_config_register(0), u32::MAX);
    Ok(())
}

/// Where a write leaves all regions where they are, as one of another register or the last one of sizing, nothing is told.
#[test]
fn moves_of_regions() -> Result<(), Error> {
    let shared = Arc::new(Mutex::new(machine()?));
    let a = shared.lock().unwrap().guest("a")?;
    let config = SlotConfig::new(shared, a, 0);
    let wrote = |index: usize, value: u32| -> Vec<(u32, u64, u64, bool)> {
        let moved = config.write_config_register(index, 0, &value.to_le_bytes());
        let told = moved.into_iter();
        told.map(|it| (it.register, it.before.first, it.now.first, it.now.is_open)).collect()
    };
    assert_eq!(wrote(5, 0xd000_0000), [(1, 0xe000_0000, 0xd000_0000, true)]);
    assert_eq!(wrote(5, 0xd000_0000), []);
    assert_eq!(wrote(15, 9), []);
    assert_eq!(wrote(64, 9), []);
    let closed = wrote(1, 0);
    assert!(closed.contains(&(1, 0xd000_0000, 0xd000_0000, false)));
    assert_eq!(wrote(1, 0), []);
    Ok(())
}

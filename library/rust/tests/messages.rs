//! Tests whether a device may access its guest's memory, and the messages for MSI-X vectors, in
//! each state of the four bits that decide and with arguments out of range.
//! `tests/library/messages.c` tests the same in C.

mod doorbell;
mod shared;

use doorbell::{Doorbell, TOP};
use pciguest::{At, DeviceModel, Error, Guest, Machine, Message, Part};
use shared::{number, start};

const BOARD: &str = include_str!("../../../tests/library/messages.toml");
const COMMAND: u64 = 4;
const CONTROL: u64 = 0x62;
const TABLE: u64 = 0x64;

fn config(offset: u64) -> At {
    At::Config { slot: 0, offset }
}

/// Writes 4 bytes of the table as the driver does.
fn set_table(machine: &mut Machine, a: Guest, offset: u64, value: u64) -> Result<(), Error> {
    machine.write(a, config(COMMAND), 2, 2)?;
    machine.region_write(a, 0, 2, 0x800 + offset, 4, value)
}

#[test]
fn bus_master_is_that_of_the_guest() -> Result<(), Error> {
    let (mut machine, a, b) = start(BOARD)?;
    assert!(!machine.bus_master(a, 0)?);
    machine.write(a, config(COMMAND), 2, 0x543)?; // all but Bus Master
    assert!(!machine.bus_master(a, 0)?);
    machine.write(a, config(COMMAND), 1, 4)?;
    assert!(machine.bus_master(a, 0)?);
    assert!(!machine.bus_master(a, 1)?);
    machine.move_function(a, 0, b, 5)?;
    assert!(!machine.bus_master(b, 5)?);
    assert_eq!(number(machine.bus_master(a, 0)), 601);
    assert_eq!(number(machine.bus_master(a, 32)), 303);
    assert_eq!(number(machine.bus_master(Guest::of_index(2), 0)), 902);
    Ok(())
}

#[test]
fn a_message_can_be_sent_in_one_of_sixteen_states() -> Result<(), Error> {
    let (mut machine, a, _) = start(BOARD)?;
    let masked = Message { is_masked: true, ..Message::default() };
    assert_eq!(machine.msix_message(a, 0, 3)?, masked); // as at reset
    for (offset, value) in [(0x20, 0xfee0_1003), (0x24, 1), (0x28, 0x4321)] {
        set_table(&mut machine, a, offset, value)?;
    }
    for bits in 0..16 {
        let [is_enabled, function, vector, is_master] = [1, 2, 4, 8].map(|bit| bits & bit != 0);
        set_table(&mut machine, a, 0x2c, vector.into())?;
        let control = u32::from(is_enabled) << 15 | u32::from(function) << 14;
        machine.write(a, config(CONTROL), 2, control)?;
        machine.write(a, config(COMMAND), 2, u32::from(is_master) << 2)?;
        let is_masked = function || vector;
        let can_be_sent = bits == 0b1001;
        let wanted =
            Message { address: 0x1_fee0_1000, data: 0x4321, is_enabled, is_masked, can_be_sent };
        assert_eq!(machine.msix_message(a, 0, 2)?, wanted, "{bits:04b}");
    }
    assert_eq!(machine.msix_message(a, 1, 0)?, Message::default());
    assert_eq!(machine.msix_message(a, 2, 2000)?, Message::default());
    Ok(())
}

#[test]
fn vectors_out_of_range() -> Result<(), Error> {
    let (mut machine, a, _) = start(BOARD)?;
    for vector in [4, u32::MAX] {
        assert_eq!(number(machine.msix_message(a, 0, vector)), 303);
    }
    for register in [1, 3, 4, 5, 6, 7] {
        machine.device_write(a, 0, Part::Config, TABLE, register)?;
        assert_eq!(number(machine.msix_message(a, 0, 0)), 303);
    }
    // the region ends after vector 1
    machine.device_write_wide(a, 0, Part::Config, TABLE, 4, 0xfe0)?;
    assert_eq!(machine.msix_message(a, 0, 1)?, Message::default());
    assert_eq!(number(machine.msix_message(a, 0, 2)), 303);
    machine.device_write_wide(a, 0, Part::Config, TABLE, 4, 0xffff_fff8)?;
    assert_eq!(number(machine.msix_message(a, 0, 0)), 303);
    machine.device_write(a, 0, Part::Config, 0x34, 0xfc)?; // extends past configuration space
    machine.device_write(a, 0, Part::Config, 0xfc, 0x11)?;
    assert_eq!(number(machine.msix_message(a, 0, 0)), 303);
    machine.device_write(a, 0, Part::Config, 0xfc, 0x09)?;
    machine.device_write(a, 0, Part::Config, 0xfd, 0xfc)?; // a loop
    assert_eq!(machine.msix_message(a, 0, 0)?, Message::default());
    assert_eq!(number(machine.msix_message(a, 5, 0)), 601);
    assert_eq!(number(machine.msix_message(a, 32, 0)), 303);
    assert_eq!(number(machine.msix_message(Guest::of_index(2), 0, 0)), 902);
    Ok(())
}

#[test]
fn messages_of_msi() -> Result<(), Error> {
    let (mut machine, a, _) = start(BOARD)?;
    let at = |slot, offset| At::Config { slot, offset };
    for (slot, offset, width, value) in [
        (3, 0x54, 4, 0xfee0_1003),
        (3, 0x58, 4, 1),
        (3, 0x5c, 2, 0x4327),
        (4, 0x54, 4, 0xfee0_2000),
        (4, 0x58, 2, 0x4327),
    ] {
        assert_eq!(machine.msi_message(a, slot - 3, 0)?, Message::default());
        machine.write(a, at(slot, offset), width, value)?;
    }
    for bits in 0..32u32 {
        let [is_enabled, is_masked, is_master] = [1, 2, 4].map(|bit| bits & bit != 0);
        let (exponent, count) = (bits >> 3, 1 << (bits >> 3));
        for slot in [3, 4] {
            machine.write(a, at(slot, 0x52), 2, exponent << 4 | u32::from(is_enabled))?;
            machine.write(a, at(slot, COMMAND), 2, u32::from(is_master) << 2)?;
        }
        let mask = u64::from(is_masked) << (count - 1);
        machine.device_write_wide(a, 3, Part::Config, 0x60, 4, mask)?;
        let data = (0x4327 & !(count - 1)) + count - 1;
        let can_be_sent = is_enabled && is_master;
        let plain =
            Message { address: 0xfee0_2000, data, is_enabled, is_masked: false, can_be_sent };
        assert_eq!(machine.msi_message(a, 4, count - 1)?, plain, "{bits:05b}");
        let can_be_sent = can_be_sent && !is_masked;
        let both = Message { address: 0x1_fee0_1000, is_masked, can_be_sent, ..plain };
        assert_eq!(machine.msi_message(a, 3, count - 1)?, both, "{bits:05b}");
        assert_eq!(number(machine.msi_message(a, 3, count)), 303);
    }
    machine.write(a, at(4, 0x52), 1, 0x71)?; // a reserved number of vectors
    assert_eq!(machine.msi_message(a, 4, 31)?.data, 0x433f);
    assert_eq!(number(machine.msi_message(a, 4, 32)), 303);
    assert_eq!(number(machine.msi_message(a, 5, 0)), 601);
    assert_eq!(number(machine.msi_message(a, 32, 0)), 303);
    assert_eq!(number(machine.msi_message(Guest::of_index(2), 0, 0)), 902);
    Ok(())
}

#[test]
fn the_pin_is_asserted_in_one_of_sixteen_states() -> Result<(), Error> {
    let (mut machine, a, _) = start(BOARD)?;
    let at = |offset| At::Config { slot: 3, offset };
    for bits in 0..16u32 {
        let [is_requested, disabled, msi, msix] = [1, 2, 4, 8].map(|bit| bits & bit != 0);
        machine.write(a, at(COMMAND), 2, u32::from(disabled) << 10)?;
        machine.write(a, at(0x52), 1, u32::from(msi))?;
        machine.write(a, at(0x72), 2, u32::from(msix) << 15)?;
        assert_eq!(machine.set_interrupt(a, 3, is_requested)?, bits == 1, "{bits:04b}");
        assert_eq!(machine.read(a, at(6), 2)?, 0x10 | u32::from(is_requested) << 3);
    }
    assert!(!machine.set_interrupt(a, 1, true)?); // no pin
    assert_eq!(number(machine.set_interrupt(a, 5, true)), 601);
    assert_eq!(number(machine.set_interrupt(a, 32, true)), 303);
    assert_eq!(number(machine.set_interrupt(Guest::of_index(2), 0, true)), 902);
    Ok(())
}

/// An attached device finds out the same from its registers.
#[test]
fn a_device_asks_for_itself() -> Result<(), Error> {
    let msix = "[[endpoint.capability]]\nid = 0x11\noff = 0x60\nblock = 10\n\
                reset = \"00800220000002300000\"\n";
    let guest = "[[guest]]\nname = \"a\"\nslots = [\"1.0\"]\n";
    let endpoint = Doorbell::default().declaration().endpoint("1.0");
    let mut machine = Machine::new([TOP, &endpoint, msix, guest].concat())?;
    let a = machine.guest("a")?;
    machine.attach(a, 0, Doorbell::default()).expect("a device");
    assert!(!machine.registers(a, 0)?.bus_master());
    machine.write(a, config(COMMAND), 2, 4)?;
    let mut registers = machine.registers(a, 0)?;
    assert!(registers.bus_master());
    let message = Message { is_enabled: true, can_be_sent: true, ..Message::default() };
    assert_eq!(registers.msix_message(0)?, message);
    assert_eq!(number(registers.msix_message(1)), 303);
    Ok(())
}

//! A hypervisor's accesses (`serve`) and a device model (`act`), with pciguest. This is
//! `examples/c/device.c` with the crate in `library/rust`, and prints the same. It then runs a
//! script line on the same machine.
//!
//!     device BOARD      examples/device.toml, whose guest `a` has this device

use pciguest::{At, Error, Guest, Hit, Machine, Part, Places, Space};

/// The registers of the device's region. Bit 0 of STATUS is set when the device was rung, and is
/// cleared by writing a one. COUNT says how often the device was rung; the driver can only read it.
/// A write to DOORBELL rings the device.
const STATUS: u64 = 0x00;
const COUNT: u64 = 0x04;
const DOORBELL: u64 = 0x08;
const SERVED: u8 = 1;

/// The number with which an access past a region's end is refused.
const OUT_OF_RANGE: u32 = 303;

/// A trapped access: its address, its width (1 to 8 bytes), and the value of a write.
#[derive(Clone, Copy)]
struct Trap {
    at: At,
    width: u32,
    written: Option<u64>,
}

/// The machine of the board, the guest whose processor this is, and where its regions were last
/// reported.
struct Board {
    machine: Machine,
    guest: Guest,
    places: Places,
}

impl Board {
    /// Returns what an access reaches. If it reaches nothing, it is meant for the hypervisor's own
    /// UART or RAM, or for nothing at all.
    fn find(&mut self, trap: Trap) -> Option<Hit> {
        self.machine.locate(self.guest, trap.at).ok().flatten()
    }

    /// Makes one access, and returns the value that is read or written. Accesses to regions are
    /// made by slot, register and offset, which `find` returned. All others are made by port or
    /// address: accesses to configuration space, and those that extend past a region's end, where
    /// another region may begin. A bus can't refuse anything, so if nothing responds, a write is
    /// lost.
    fn serve(&mut self, trap: Trap, hit: Option<Hit>) -> u64 {
        let (machine, guest, Trap { at, width, written }) = (&mut self.machine, self.guest, trap);
        let by_region = match (hit, written) {
            (Some(Hit { slot, part: Part::Region(register), offset }), Some(value)) => {
                Some(machine.region_write(guest, slot, register, offset, width, value).map(|()| value))
            }
            (Some(Hit { slot, part: Part::Region(register), offset }), None) => {
                Some(machine.region_read(guest, slot, register, offset, width))
            }
            _ => None,
        };
        let served = match (by_region, written) {
            (Some(served), _) if !matches!(&served, Err(error) if error.number() == OUT_OF_RANGE) => served,
            (_, Some(value)) => machine.write_wide(guest, at, width, value).map(|()| value),
            (_, None) => machine.read_wide(guest, at, width),
        };
        served.unwrap_or(written.unwrap_or(u64::MAX))
    }

    /// The device is rung: it counts the ring, sets the bit of STATUS, and drives its pin unless
    /// the driver has disabled interrupts.
    fn ring(&mut self, Hit { slot, part, .. }: Hit) -> Result<(), Error> {
        let (machine, guest) = (&mut self.machine, self.guest);
        let rings = machine.device_read_wide(guest, slot, part, COUNT, 4)?;
        machine.device_write_wide(guest, slot, part, COUNT, 4, rings.wrapping_add(1))?;
        machine.raise(guest, slot, part, STATUS, SERVED)?;
        let interrupt = machine.slot_function(guest, slot)?.interrupt;
        let pin = char::from(b"-ABCD"[usize::from(interrupt.pin)]);
        println!("ring, INT{pin}# {}", if interrupt.is_disabled { "off" } else { "on" });
        Ok(())
    }

    /// Prints which addresses must be trapped from now on.
    fn tell_traps(&mut self) -> Result<(), Error> {
        let moved = self.machine.moved(self.guest, &mut self.places)?;
        for region in moved.iter().filter_map(|it| it.now).filter(|now| now.is_open) {
            let space = if region.space == Space::Io { "port" } else { "memory" };
            println!("trap {space} {:#x} to {:#x}", region.first, region.first + region.size - 1);
        }
        Ok(())
    }

    /// Acts after a write. If it reached configuration space, regions may have moved. If it reached
    /// the doorbell, the device acts. The access may also begin before the doorbell and extend into
    /// it.
    fn act(&mut self, trap: Trap, hit: Hit) -> Result<(), Error> {
        let rings = hit.offset < DOORBELL + 4 && hit.offset + u64::from(trap.width) > DOORBELL;
        match hit.part {
            Part::Config => self.tell_traps(),
            Part::Region(_) if rings => self.ring(hit),
            Part::Region(_) => Ok(()),
        }
    }

    /// Makes an access, prints it, and lets the device act.
    fn step(&mut self, trap: Trap) -> Result<(), Error> {
        let (space, place) = match trap.at {
            At::Config { offset, .. } => ("config", offset),
            At::Io { port } => ("port", port),
            At::Memory { address } => ("memory", address),
        };
        let name = if trap.written.is_some() { "write" } else { "read " };
        print!("{name} {space} {place:#x} {}: ", trap.width);
        // a 4-byte access to CF8h is always for CONFIG_ADDRESS
        let is_selection = (trap.at, trap.width) == (At::Io { port: 0xcf8 }, 4);
        let hit = self.find(trap);
        if hit.is_none() && !is_selection {
            println!("nobody here");
            return Ok(());
        }
        println!("{:#0digits$x}", self.serve(trap, hit), digits = trap.width as usize * 2 + 2);
        match hit {
            Some(hit) if trap.written.is_some() => self.act(trap, hit),
            _ => Ok(()),
        }
    }
}

fn read(at: At, width: u32) -> Trap {
    let written = None;
    Trap { at, width, written }
}

fn write(at: At, width: u32, value: u64) -> Trap {
    let written = Some(value);
    Trap { at, width, written }
}

/// Selects a register of a device on bus 0, with CONFIG_ADDRESS.
fn select(device: u64, offset: u64) -> Trap {
    write(At::Io { port: 0xcf8 }, 4, 0x8000_0000 | device << 11 | offset)
}

const DATA: At = At::Io { port: 0xcfc };

/// Firmware finds the device through ports CF8h and CFCh, sizes its region and places it. Then a
/// driver rings the device, reads the result, and clears it.
fn accesses() -> Vec<Trap> {
    let register = |offset| At::Memory { address: 0xe000_0000 + offset };
    vec![
        select(0, 0x00), // firmware: what is device 0?
        read(DATA, 4),
        select(7, 0x00), // and device 7?
        read(DATA, 4),
        select(0, 0x10), // the size of its region
        write(DATA, 4, 0xffff_ffff),
        read(DATA, 4),
        write(DATA, 4, 0xe000_0000), // its address
        select(0, 0x04),
        write(DATA, 2, 0x0002),                    // memory on
        write(register(DOORBELL), 4, 0x1234_5678), // the driver rings
        read(register(STATUS), 1),
        read(register(DOORBELL), 4),
        write(register(DOORBELL + 2), 1, 0xff),    // and again, by one byte of it
        read(register(STATUS), 8),                 // STATUS and COUNT at once
        write(register(STATUS), 1, SERVED.into()), // the driver clears STATUS; COUNT stays
        write(register(COUNT), 4, 1),
        select(0, 0x04),
        write(DATA, 2, 0x0402), // no more interrupts; the region's address isn't printed again
        write(register(COUNT + 2), 8, 0), // unaligned, and across the doorbell
        read(register(STATUS), 8),
        read(register(0xffc), 8),                     // past the region's end
        read(At::Memory { address: 0xd000_0000 }, 4), // nothing responds
    ]
}

/// Makes the accesses, and runs a script line that shows what the last ring left.
fn main() -> Result<(), Box<dyn std::error::Error>> {
    let mut machine = Machine::load(std::env::args().nth(1).ok_or("device BOARD")?)?;
    let (guest, places) = (machine.guest("a")?, Places::new());
    let mut board = Board { machine, guest, places };
    accesses().into_iter().try_for_each(|trap| board.step(trap))?;
    assert_eq!(board.machine.run_line("a mr 0xe0000004 4")?.as_deref(), Some("a: 0x00000003"));
    Ok(())
}

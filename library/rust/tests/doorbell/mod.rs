//! A device that counts the rings of its driver, on a board of its own.

// no test uses all of it
#![allow(dead_code)]

use pciguest::{At, Declaration, DeviceModel, Error, Guest, Kind, Machine, Register, Registers};
use std::sync::{Arc, Mutex};

pub const TOP: &str = "host = { io = [0x1000, 0xffff], mem = [0xc0000000, 0xdfffffff], \
                   pref = [0x400000000, 0x4ffffffff] }\n";

pub const STATUS: Register = Register::in_region(0, 0x00, 1).w1c(0x01);
pub const RINGS: Register = Register::in_region(0, 0x04, 4);
pub const BELL: Register = Register::in_region(0, 0x08, 4).rw(0xffff_ffff).reset(0x1122_3344);
pub const PORT: Register = Register::in_region(1, 0x10, 2).rw(0x0ff0);
pub const FAR: Register = Register::in_region(2, 0xff8, 4).reset(0xa5a5_a5a5);
pub const LONG: Register = Register::in_region(2, 0x100, 8).rw(u64::MAX);
pub const OWN: Register = Register::in_config(0x40, 4).rw(0xff);
pub const MORE: Register = Register::in_config(0x48, 1).reset(0x7f);

/// Counts the rings of its driver, and keeps what it was told.
#[derive(Default)]
pub struct Doorbell {
    pub told: Vec<(Register, Option<u64>)>,
}

impl DeviceModel for Doorbell {
    fn declaration(&self) -> Declaration {
        let head = Declaration::new(0x1234, 0x00d0, 0xff0000)
            .subsystem(0x1111, 0x2222)
            .interrupt_pin(1)
            .region(0, Kind::Mem32, 0x1000)
            .region(1, Kind::Io, 32)
            .region(2, Kind::Mem64p, 0x10000);
        [STATUS, RINGS, BELL, PORT, FAR, LONG, OWN, MORE]
            .into_iter()
            .fold(head, Declaration::register)
    }

    fn on_write(&mut self, registers: &mut Registers<'_>, register: Register, value: u64) {
        self.told.push((register, Some(value)));
        if register == BELL {
            let rings = registers.get(RINGS);
            registers.set(RINGS, rings + 1);
            registers.set(STATUS, 1);
        }
    }

    fn before_read(&mut self, registers: &mut Registers<'_>, register: Register) {
        self.told.push((register, None));
        if register == FAR {
            registers.set(FAR, 0x5a5a_5a5a);
        }
    }
}

pub fn memory(address: u64) -> At {
    At::Memory { address }
}

/// A machine with two such functions in slots of guest a, and a guest b, where the first has its device.
pub struct Case {
    pub machine: Machine,
    pub a: Guest,
    pub b: Guest,
    pub device: Arc<Mutex<Doorbell>>,
}

impl Case {
    pub fn new() -> Case {
        let endpoint = |at| Doorbell::default().declaration().endpoint(at);
        let guests = "[[guest]]\nname = \"a\"\nslots = [\"1.0\", \"2.0\"]\n[[guest]]\nname = \"b\"\nslots = []\n";
        let board = [TOP, &endpoint("1.0"), &endpoint("2.0"), guests].concat();
        let mut machine = Machine::new(board).expect("a board");
        let (a, b) = (machine.guest("a").unwrap(), machine.guest("b").unwrap());
        let device: Arc<Mutex<Doorbell>> = Arc::default();
        machine.attach(a, 0, Arc::clone(&device)).expect("a device");
        let mut case = Case { machine, a, b, device };
        case.place(a, 0).unwrap();
        case.told();
        case
    }

    pub fn place(&mut self, guest: Guest, slot: u64) -> Result<(), Error> {
        for (offset, value) in
            [(0x10, 0xe000_0000), (0x14, 0x2000), (0x18, 0x1000_0000), (0x1c, 8), (4, 3)]
        {
            self.machine.write(guest, At::Config { slot, offset }, 4, value)?;
        }
        Ok(())
    }

    pub fn told(&mut self) -> Vec<(Register, Option<u64>)> {
        std::mem::take(&mut self.device.lock().unwrap().told)
    }

    pub fn read(&mut self, at: At, width: u32) -> u32 {
        self.machine.read(self.a, at, width).expect("a read")
    }

    pub fn write(&mut self, at: At, width: u32, value: u32) {
        self.machine.write(self.a, at, width, value).expect("a write")
    }
}

//! The buses of a hypervisor in Rust: RAM from rust-vmm's crate vm-memory, a serial port from its
//! vm-superio, and a function of a board, whose device reads what its driver put into RAM. Instead
//! of a processor, a driver makes the accesses that a hypervisor would trap.

use pciguest::{
    At, Declaration, DeviceModel, Error, Guest, GuestBus, Kind, Machine, Places, Region, Register,
    Registers, Space,
};
use std::io::{stdout, Stdout};
use std::sync::{Arc, Mutex};
use vm_memory::{Bytes, GuestAddress, GuestMemoryMmap};
use vm_superio::serial::NoEvents;
use vm_superio::{Serial, Trigger};

/// The address and the length of the driver's message in RAM, the doorbell, and the number of
/// messages that the device has printed.
const ADDRESS: Register = Register::in_region(0, 0x00, 8).rw(u64::MAX);
const LENGTH: Register = Register::in_region(0, 0x08, 4).rw(0xffff);
const PRINT: Register = Register::in_region(0, 0x0c, 4);
const PRINTED: Register = Register::in_region(0, 0x10, 4);

/// The RAM of each guest, by the guest's index.
type Memories = Arc<Vec<GuestMemoryMmap>>;

/// A printer, which reads RAM as a bus master does. pciguest isn't involved in these reads. The
/// printer's function can move to another guest, so the printer looks up the RAM of its function's
/// guest each time, and reads only while that guest has set Bus Master.
struct Printer(Memories);

impl DeviceModel for Printer {
    fn declaration(&self) -> Declaration {
        let head = Declaration::new(0x1234, 0x0100, 0x078000).region(0, Kind::Mem32, 0x1000);
        [ADDRESS, LENGTH, PRINT, PRINTED].into_iter().fold(head, Declaration::register)
    }

    fn on_write(&mut self, registers: &mut Registers<'_>, register: Register, _: u64) {
        if register != PRINT || !registers.bus_master() {
            return;
        }
        let ram = &self.0[registers.guest().index()];
        let mut message = vec![0; registers.get(LENGTH) as usize];
        let address = GuestAddress(registers.get(ADDRESS));
        if ram.read_slice(&mut message, address).is_ok() {
            println!("printer: {}", String::from_utf8_lossy(&message));
            let printed = registers.get(PRINTED);
            registers.set(PRINTED, printed + 1);
        }
    }
}

/// An interrupt line that isn't connected, because the driver polls.
struct NoLine;

impl Trigger for NoLine {
    type E = ();

    fn trigger(&self) -> Result<(), ()> {
        Ok(())
    }
}

/// A processor's access to a bus: bytes to be read or written.
enum Access<'a> {
    Read(&'a mut [u8]),
    Write(&'a [u8]),
}

/// A guest's machine: what is on its buses besides RAM.
struct Buses {
    serial: Serial<NoLine, NoEvents, Stdout>,
    board: Arc<Mutex<Machine>>,
    guest: Guest,
    ports: GuestBus,
    memory: GuestBus,
    /// The enabled regions on the board, and where all regions were last reported.
    open: Vec<Region>,
    places: Places,
}

impl Buses {
    fn new(board: Machine, guest: Guest) -> Buses {
        let board = Arc::new(Mutex::new(board));
        Buses {
            serial: Serial::new(NoLine, stdout()),
            guest,
            ports: GuestBus::new(Arc::clone(&board), guest, Space::Io),
            memory: GuestBus::new(Arc::clone(&board), guest, Space::Memory),
            board,
            open: Vec::new(),
            places: Places::new(),
        }
    }

    /// A port: that of the serial port, CONFIG_ADDRESS, CONFIG_DATA, or one in an enabled region.
    fn port(&mut self, port: u64, access: Access<'_>) {
        match (port, access) {
            (0x3f8..=0x3ff, Access::Read(data)) => {
                data.fill_with(|| self.serial.read((port - 0x3f8) as u8))
            }
            (0x3f8..=0x3ff, Access::Write(data)) => data.iter().for_each(|&byte| {
                let _ = self.serial.write((port - 0x3f8) as u8, byte);
            }),
            (0xcf8..=0xcff, access) => served(&self.ports, port, access),
            (_, access) if self.holds(Space::Io, port) => served(&self.ports, port, access),
            (_, access) => nobody(access),
        }
        self.see_moves();
    }

    /// An address that isn't RAM.
    fn mmio(&mut self, address: u64, access: Access<'_>) {
        if self.holds(Space::Memory, address) {
            served(&self.memory, address, access);
        } else {
            nobody(access);
        }
    }

    fn holds(&self, space: Space, place: u64) -> bool {
        let mut open = self.open.iter();
        open.any(|it| it.space == space && (it.first..=it.first + (it.size - 1)).contains(&place))
    }

    /// Handles regions that moved.
    fn see_moves(&mut self) {
        let moved =
            self.board.lock().unwrap().moved(self.guest, &mut self.places).unwrap_or_default();
        self.open.retain(|open| !moved.iter().any(|it| it.before == Some(*open)));
        self.open.extend(moved.iter().filter_map(|it| it.now).filter(|now| now.is_open));
    }
}

fn served(bus: &GuestBus, place: u64, access: Access<'_>) {
    match access {
        Access::Read(data) => bus.read(place, 0, data),
        Access::Write(data) => bus.write(place, 0, data),
    }
}

fn nobody(access: Access<'_>) {
    if let Access::Read(data) = access {
        data.fill(0xff);
    }
}

fn configure(buses: &mut Buses, register: u32, value: u32) {
    buses.port(0xcf8, Access::Write(&(0x8000_0000 | register).to_le_bytes()));
    buses.port(0xcfc, Access::Write(&value.to_le_bytes()));
}

/// The driver: it finds the printer, places its region, puts a message into RAM, has it printed,
/// and reports through the serial port how many were printed. Until the driver sets Bus Master, the
/// printer does nothing.
fn drive(buses: &mut Buses, ram: &GuestMemoryMmap) -> Result<(), vm_memory::GuestMemoryError> {
    const MEMORY: u32 = 2;
    const MASTER: u32 = 4;
    let message = b"read from RAM by the device";
    ram.write_slice(message, GuestAddress(0x1000))?;
    configure(buses, 0x10, 0xe000_0000);
    for command in [MEMORY, MEMORY | MASTER] {
        configure(buses, 0x04, command);
        print(buses, message.len() as u32);
    }
    Ok(())
}

fn print(buses: &mut Buses, length: u32) {
    buses.mmio(0xe000_0000, Access::Write(&0x1000u64.to_le_bytes()));
    buses.mmio(0xe000_0008, Access::Write(&length.to_le_bytes()));
    buses.mmio(0xe000_000c, Access::Write(&[1, 0, 0, 0]));
    let mut printed = [0; 4];
    buses.mmio(0xe000_0010, Access::Read(&mut printed));
    for byte in format!("serial: {} printed\n", u32::from_le_bytes(printed)).bytes() {
        buses.port(0x3f8, Access::Write(&[byte]));
    }
}

/// The board, with the printer as it declares itself, and guest a.
fn board(printer: Printer) -> Result<(Machine, Guest), Error> {
    let host = "host = { io = [0x1000, 0xffff], mem = [0xc0000000, 0xdfffffff] }\n";
    let guest = "[[guest]]\nname = \"a\"\nslots = [\"1.0\"]\n";
    let file = [host, &printer.declaration().endpoint("1.0"), guest].concat();
    let mut machine = Machine::new(file)?;
    let a = machine.guest("a")?;
    machine.attach(a, 0, printer).expect("the board is made of its declaration");
    assert_eq!(machine.read(a, At::Config { slot: 0, offset: 0 }, 4)?, 0x0100_1234);
    Ok((machine, a))
}

fn main() -> Result<(), Box<dyn std::error::Error>> {
    let ram = GuestMemoryMmap::<()>::from_ranges(&[(GuestAddress(0), 1 << 20)])
        .map_err(|error| error.to_string())?;
    let (machine, a) = board(Printer(Arc::new(vec![ram.clone()])))?;
    drive(&mut Buses::new(machine, a), &ram)?;
    Ok(())
}

//! A virtio entropy device and a driver for it, tested without a virtual machine: the driver finds
//! the device's structures through the capability list, sets up a queue, and gets an MSI-X message.
//! This is `examples/python/entropy.py` with the crate in `library/rust`, and prints the same.
//!
//!     entropy BOARD     examples/entropy.toml
//!
//! Section numbers are those of virtio 1.2. Not implemented: interrupts without MSI-X, queues of
//! other sizes, and access to the BARs through configuration space (4.1.4.9).

use pciguest::{
    At, Declaration, DeviceModel, Error, Guest, Kind, Machine, Message, Register, Registers,
};
use std::sync::mpsc::{channel, Receiver, Sender};
use std::sync::{Arc, Mutex};

/// Bits of the device's status (2.1).
const ACKNOWLEDGE: u64 = 1;
const DRIVER: u64 = 2;
const DRIVER_OK: u64 = 4;
const FEATURES_OK: u64 = 8;
const NEEDS_RESET: u64 = 64;
/// The only feature that is offered (6).
const VERSION_1: u64 = 1 << 32;
/// Flags of a descriptor (2.7.5).
const NEXT: u64 = 1;
const WRITE: u64 = 2;
const QUEUE_SIZE: u64 = 8;
const VECTORS: u32 = 2;
const NO_VECTOR: u64 = 0xffff;

// The common configuration (4.1.4.3), and the queue's notification register.
const FEATURE_SELECT: Register = Register::in_region(0, 0x00, 4).rw(0xffff_ffff);
const FEATURE: Register = Register::in_region(0, 0x04, 4);
const DRIVER_FEATURE_SELECT: Register = Register::in_region(0, 0x08, 4).rw(0xffff_ffff);
const DRIVER_FEATURE: Register = Register::in_region(0, 0x0c, 4).rw(0xffff_ffff);
const CONFIG_VECTOR: Register = Register::in_region(0, 0x10, 2).reset(NO_VECTOR).rw(0xffff);
const NUM_QUEUES: Register = Register::in_region(0, 0x12, 2).reset(1);
const STATUS: Register = Register::in_region(0, 0x14, 1).rw(0xff);
const QUEUE_SELECT: Register = Register::in_region(0, 0x16, 2).rw(0xffff);
const SIZE_OF_QUEUE: Register = Register::in_region(0, 0x18, 2).reset(QUEUE_SIZE);
const QUEUE_VECTOR: Register = Register::in_region(0, 0x1a, 2).reset(NO_VECTOR).rw(0xffff);
const QUEUE_ENABLE: Register = Register::in_region(0, 0x1c, 2).rw(0xffff);
const QUEUE_DESC: Register = Register::in_region(0, 0x20, 8).rw(u64::MAX);
const QUEUE_DRIVER: Register = Register::in_region(0, 0x28, 8).rw(u64::MAX);
const QUEUE_DEVICE: Register = Register::in_region(0, 0x30, 8).rw(u64::MAX);
const NOTIFY: Register = Register::in_region(0, 0x38, 2).rw(0xffff);
/// The device's own state. Because no driver can write this register, images contain it.
const ACCEPTED: Register = Register::in_region(0, 0x40, 8);
/// All of these with their reset values, which the driver's reset restores.
const VIRTIO: [(Register, u64); 16] = [
    (FEATURE_SELECT, 0),
    (FEATURE, 0),
    (DRIVER_FEATURE_SELECT, 0),
    (DRIVER_FEATURE, 0),
    (CONFIG_VECTOR, NO_VECTOR),
    (NUM_QUEUES, 1),
    (STATUS, 0),
    (QUEUE_SELECT, 0),
    (SIZE_OF_QUEUE, QUEUE_SIZE),
    (QUEUE_VECTOR, NO_VECTOR),
    (QUEUE_ENABLE, 0),
    (QUEUE_DESC, 0),
    (QUEUE_DRIVER, 0),
    (QUEUE_DEVICE, 0),
    (NOTIFY, 0),
    (ACCEPTED, 0),
];
// MSI-X: Message Control, Vector Control of both vectors, and the pending bits.
const CONTROL: Register = Register::in_config(0x82, 2).reset(1).rw(0xc000);
const MASKS: [Register; 2] = [
    Register::in_region(1, 0x0c, 4).reset(1).rw(1),
    Register::in_region(1, 0x1c, 4).reset(1).rw(1),
];
const PENDING: Register = Register::in_region(1, 0x20, 8);

/// The memory of a guest, which its device accesses by DMA. For an address past its end, methods
/// return `None`.
struct Memory(Vec<u8>);

impl Memory {
    fn bytes(&mut self, address: u64, length: u64) -> Option<&mut [u8]> {
        let end = usize::try_from(address.checked_add(length)?).ok()?;
        self.0.get_mut(usize::try_from(address).ok()?..end)
    }

    fn read(&mut self, address: u64, width: u64) -> Option<u64> {
        let bytes = self.bytes(address, width)?;
        Some(bytes.iter().rev().fold(0, |value, &byte| value << 8 | u64::from(byte)))
    }

    fn write(&mut self, address: u64, width: u64, value: u64) -> Option<()> {
        let bytes = self.bytes(address, width)?;
        bytes.copy_from_slice(&value.to_le_bytes()[..width as usize]);
        Some(())
    }
}

/// Bytes that the driver can check, from a linear congruential generator.
fn noise() -> impl Iterator<Item = u8> {
    let next = |state: &u64| Some((state * 1_103_515_245 + 12345) % (1 << 31));
    std::iter::successors(Some(1), next).skip(1).map(|state| (state >> 16) as u8)
}

/// The device (5.4). It has the memory of each guest, and sends messages to a channel.
struct Entropy {
    memories: [Arc<Mutex<Memory>>; 2],
    messages: Sender<(Guest, Message)>,
}

impl DeviceModel for Entropy {
    fn declaration(&self) -> Declaration {
        let head = Declaration::new(0x1af4, 0x1044, 0x00ff00)
            .revision(1)
            .subsystem(0x1af4, 0x1100)
            .region(0, Kind::Mem32, 0x1000)
            .region(1, Kind::Mem32, 0x1000);
        let virtio = VIRTIO.into_iter().map(|(register, _)| register);
        let msix = [CONTROL, MASKS[0], MASKS[1], PENDING];
        virtio.chain(msix).fold(head, Declaration::register)
    }

    fn on_write(&mut self, registers: &mut Registers<'_>, register: Register, value: u64) {
        match register {
            FEATURE_SELECT => {
                registers.set(FEATURE, if value < 2 { VERSION_1 >> (32 * value) } else { 0 })
            }
            DRIVER_FEATURE => accept(registers, value),
            STATUS if value == 0 => VIRTIO.iter().for_each(|&(it, reset)| registers.set(it, reset)),
            STATUS if value & FEATURES_OK != 0 && registers.get(ACCEPTED) != VERSION_1 => {
                registers.set(STATUS, value & !FEATURES_OK)
            }
            QUEUE_SELECT => {
                registers.set(SIZE_OF_QUEUE, if value == 0 { QUEUE_SIZE } else { 0 })
                // there is one queue
            }
            CONFIG_VECTOR | QUEUE_VECTOR if value >= VECTORS.into() => {
                registers.set(register, NO_VECTOR)
            }
            NOTIFY => self.serve(registers),
            CONTROL => self.send_pending(registers),
            _ if MASKS.contains(&register) => self.send_pending(registers),
            _ => (),
        }
    }
}

/// The driver accepts features, 32 of them at a time.
fn accept(registers: &mut Registers<'_>, value: u64) {
    let select = registers.get(DRIVER_FEATURE_SELECT);
    if select < 2 {
        let others = registers.get(ACCEPTED) & !(0xffff_ffff << (32 * select));
        registers.set(ACCEPTED, others | value << (32 * select));
    }
}

impl Entropy {
    /// Fills the available buffers. The device may access only the memory of the guest that has its
    /// function, and only while that guest has set Bus Master.
    fn serve(&mut self, registers: &mut Registers<'_>) {
        let is_ready = registers.get(STATUS) & DRIVER_OK != 0 && registers.get(QUEUE_ENABLE) != 0;
        if !is_ready || !registers.bus_master() {
            return;
        }
        let memory = &self.memories[registers.guest().index()];
        if fill_available(registers, &mut memory.lock().unwrap()).is_some() {
            self.interrupt(registers);
        } else {
            let status = registers.get(STATUS); // a bad address
            registers.set(STATUS, status | NEEDS_RESET);
        }
    }

    fn interrupt(&mut self, registers: &mut Registers<'_>) {
        let vector = registers.get(QUEUE_VECTOR);
        if registers.msix_message(vector as u32).map_or(false, |it| it.is_enabled) {
            let pending = registers.get(PENDING);
            registers.set(PENDING, pending | 1 << vector);
            self.send_pending(registers);
        }
    }

    /// Sends pending messages that may be sent now. The message of a masked vector stays pending.
    fn send_pending(&mut self, registers: &mut Registers<'_>) {
        for vector in 0..VECTORS {
            let pending = registers.get(PENDING);
            match registers.msix_message(vector) {
                Ok(message) if message.can_be_sent && pending >> vector & 1 != 0 => {
                    registers.set(PENDING, pending & !(1 << vector));
                    let _ = self.messages.send((registers.guest(), message));
                }
                _ => (),
            }
        }
    }
}

/// Fills buffers in order. The used ring says how many were filled before.
fn fill_available(registers: &mut Registers<'_>, memory: &mut Memory) -> Option<()> {
    let [desc, driver, device] =
        [QUEUE_DESC, QUEUE_DRIVER, QUEUE_DEVICE].map(|register| registers.get(register));
    let available = memory.read(driver.checked_add(2)?, 2)?;
    let mut used = memory.read(device.checked_add(2)?, 2)?;
    while used != available {
        let entry = used % QUEUE_SIZE;
        let head = memory.read(driver.checked_add(4 + 2 * entry)?, 2)?;
        let written = fill(memory, desc, head)?;
        let place = device.checked_add(4 + 8 * entry)?;
        memory.write(place, 8, head | written << 32)?;
        used = (used + 1) % (1 << 16);
        memory.write(device + 2, 2, used)?;
    }
    Some(())
}

/// Fills the buffer of a chain of descriptors, and returns how many bytes were written.
fn fill(memory: &mut Memory, desc: u64, head: u64) -> Option<u64> {
    let (mut written, mut index) = (0, head);
    for _ in 0..QUEUE_SIZE {
        let place = desc.checked_add(16 * index)?;
        let address = memory.read(place, 8)?;
        let length = memory.read(place + 8, 4)?.min(64);
        let flags = memory.read(place + 12, 2)?;
        index = memory.read(place + 14, 2)?;
        if flags & WRITE != 0 {
            let buffer = memory.bytes(address, length)?;
            buffer.iter_mut().zip(noise()).for_each(|(byte, random)| *byte = random);
            written += length;
        }
        if flags & NEXT == 0 {
            break;
        }
    }
    Some(written)
}

/// The driver. It knows the guest, the slot and the memory, and finds everything else.
struct EntropyDriver {
    guest: Guest,
    memory: Arc<Mutex<Memory>>,
    /// virtio's structures by cfg_type (4.1.4)
    places: [u64; 6],
    /// the MSI-X structure, and the first vector in its table
    msix: u64,
    vector: u64,
}

/// Where the queue and the buffer are, in the guest's memory.
const DESC: u64 = 0x1000;
const AVAILABLE: u64 = 0x2000;
const USED: u64 = 0x3000;
const BUFFER: u64 = 0x4000;

fn config(offset: u64) -> At {
    At::Config { slot: 0, offset }
}

impl EntropyDriver {
    fn new(
        machine: &mut Machine,
        guest: Guest,
        memory: &Arc<Mutex<Memory>>,
    ) -> Result<EntropyDriver, Error> {
        assert_eq!(machine.read(guest, config(0), 4)?, 0x1044_1af4);
        for (offset, value) in [(0x10, 0xe000_0000), (0x14, 0xe000_1000)] {
            machine.write(guest, config(offset), 4, value)?;
        }
        machine.write(guest, config(0x04), 2, 0x0006)?; // memory and Bus Master
        let memory = Arc::clone(memory);
        let mut driver = EntropyDriver { guest, memory, places: [0; 6], msix: 0, vector: 0 };
        driver.find(machine)?;
        driver.set_up(machine)?;
        Ok(driver)
    }

    fn find(&mut self, machine: &mut Machine) -> Result<(), Error> {
        let guest = self.guest;
        let mut read =
            |offset: u64, width| machine.read(guest, config(offset), width).map(u64::from);
        let mut at = read(0x34, 1)?;
        for _ in 0..48 {
            // no list without a loop has more structures
            if at < 0x40 {
                break;
            }
            let id = read(at, 1)?;
            if id == 0x09 {
                let (kind, bar, place) = (read(at + 3, 1)?, read(at + 4, 1)?, read(at + 8, 4)?);
                self.places[kind as usize] = (read(0x10 + 4 * bar, 4)? & !0xf) + place;
            } else if id == 0x11 {
                let table = read(at + 4, 4)?;
                self.msix = at;
                self.vector = (read(0x10 + 4 * (table & 7), 4)? & !0xf) + (table & !7);
            }
            at = read(at + 1, 1)?;
        }
        Ok(())
    }

    fn set_up(&self, machine: &mut Machine) -> Result<(), Error> {
        let (common, vector) = (self.places[1], self.vector);
        let mut write = |address, width, value| {
            machine.write_wide(self.guest, At::Memory { address }, width, value)
        };
        for status in [0, ACKNOWLEDGE, ACKNOWLEDGE | DRIVER] {
            write(common + 0x14, 1, status)?;
        }
        for (offset, value) in [(0x08, 1), (0x0c, VERSION_1 >> 32)] {
            write(common + offset, 4, value)?;
        }
        write(common + 0x14, 1, ACKNOWLEDGE | DRIVER | FEATURES_OK)?;
        for (offset, value) in [(0, 0xfee0_0000), (4, 0), (8, 0x41), (12, 0)] {
            write(vector + offset, 4, value)?;
        }
        write(common + 0x1a, 2, 0)?; // the queue's vector
        for (offset, place) in [(0x20, DESC), (0x28, AVAILABLE), (0x30, USED)] {
            write(common + offset, 8, place)?;
        }
        write(common + 0x1c, 2, 1)?; // the queue is enabled
        write(common + 0x14, 1, ACKNOWLEDGE | DRIVER | FEATURES_OK | DRIVER_OK)?;
        let status = machine.read(self.guest, At::Memory { address: common + 0x14 }, 1)?;
        assert_eq!(u64::from(status) & (FEATURES_OK | NEEDS_RESET), FEATURES_OK);
        machine.write(self.guest, config(self.msix + 2), 2, 0x8000) // MSI-X Enable
    }

    /// Makes a buffer available to the device.
    fn ask(&self, machine: &mut Machine, count: u64) -> Result<(), Error> {
        let mut memory = self.memory.lock().unwrap();
        let available = memory.read(AVAILABLE + 2, 2).unwrap();
        let (entry, flags) = (available % QUEUE_SIZE, count | WRITE << 32);
        let writes = [
            (DESC, 8, BUFFER),
            (DESC + 8, 8, flags),
            (AVAILABLE + 4 + 2 * entry, 2, 0),
            (AVAILABLE + 2, 2, available + 1),
        ];
        writes
            .iter()
            .for_each(|&(address, width, value)| memory.write(address, width, value).unwrap());
        drop(memory);
        self.notify(machine)
    }

    fn notify(&self, machine: &mut Machine) -> Result<(), Error> {
        machine.write(self.guest, At::Memory { address: self.places[2] }, 2, 0)
    }

    fn mask(&self, machine: &mut Machine, bit: u32) -> Result<(), Error> {
        machine.write(self.guest, At::Memory { address: self.vector + 12 }, 4, bit)
    }

    /// The bytes in the buffer, once the device has filled it.
    fn answer(&self) -> Vec<u8> {
        let mut memory = self.memory.lock().unwrap();
        let mut read = |address, width| memory.read(address, width).unwrap();
        let (available, used) = (read(AVAILABLE + 2, 2), read(USED + 2, 2));
        let length = read(USED + 8 + 8 * (used.wrapping_sub(1) % QUEUE_SIZE), 4);
        let length = if used == available { length } else { 0 };
        memory.bytes(BUFFER, length).unwrap().to_vec()
    }
}

/// Prints the result of an event, and checks the bytes.
fn show(event: &str, driver: &EntropyDriver, messages: &Receiver<(Guest, Message)>) {
    let answer = driver.answer();
    assert!(answer.iter().copied().eq(noise().take(answer.len())));
    let sent: Vec<String> = messages
        .try_iter()
        .map(|(guest, Message { address, data, .. })| {
            format!("{data:#x} to {address:#x} of {}", ["a", "b"][guest.index()])
        })
        .collect();
    let sent = if sent.is_empty() { "no message".to_owned() } else { sent.join(", ") };
    println!("{event}: {} bytes, {sent}", answer.len());
}

fn main() -> Result<(), Box<dyn std::error::Error>> {
    let mut machine = Machine::load(std::env::args().nth(1).ok_or("entropy BOARD")?)?;
    let machine = &mut machine;
    let (a, b) = (machine.guest("a")?, machine.guest("b")?);
    let memories = [(); 2].map(|()| Arc::new(Mutex::new(Memory(vec![0; 0x10000]))));
    let (sender, messages) = channel();
    machine.attach(a, 0, Entropy { memories: memories.clone(), messages: sender })?;
    let driver = EntropyDriver::new(machine, a, &memories[0])?;
    driver.ask(machine, 16)?;
    show("a asks for 16 bytes", &driver, &messages);
    driver.mask(machine, 1)?;
    driver.ask(machine, 24)?;
    show("a masks the vector, and asks for 24", &driver, &messages);
    driver.mask(machine, 0)?;
    show("a unmasks it", &driver, &messages);
    machine.write(a, config(0x04), 2, 0x0002)?;
    driver.ask(machine, 32)?;
    show("a clears Bus Master, and asks for 32", &driver, &messages);
    machine.write(a, config(0x04), 2, 0x0006)?;
    driver.notify(machine)?;
    show("a sets Bus Master, and notifies again", &driver, &messages);
    machine.move_function(a, 0, b, 0)?;
    driver.ask(machine, 40)?;
    show("the function moves to b, and a asks for 40", &driver, &messages);
    let driver = EntropyDriver::new(machine, b, &memories[1])?;
    driver.ask(machine, 48)?;
    show("b asks for 48", &driver, &messages);
    Ok(())
}

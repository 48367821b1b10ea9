//! Trapped accesses, in the form in which hypervisors in Rust forward them.

use crate::acting::waits;
use crate::machine::Machine;
use crate::place::{At, Guest, Region, Space};
use std::sync::{Arc, Mutex, MutexGuard, PoisonError};

/// The ports or the memory of a guest, for the bus of a hypervisor. It handles accesses to all regions of all
/// functions of this guest. Put it on the bus once for each range that [`Machine::region`] reports as enabled,
/// and for ports also for CF8h to CFFh. It locks the machine for each access, and splits an access into parts
/// of at most 8 bytes.
///
/// ```
/// # const BOARD: &str = include_str!("board.toml");
/// use pciguest::{GuestBus, Machine, Space};
/// use std::sync::{Arc, Mutex};
///
/// let machine = Arc::new(Mutex::new(Machine::new(BOARD)?));
/// let a = machine.lock().unwrap().guest("a")?;
/// let ports = GuestBus::new(machine, a, Space::Io);
///
/// let mut identity = [0; 4];
/// ports.write(0xcf8, 0, &[0, 0, 0, 0x80]); // CONFIG_ADDRESS: device 0, register 0
/// ports.read(0xcf8, 4, &mut identity);
/// assert_eq!(identity, [0x34, 0x12, 0x01, 0x00]);
/// # Ok::<(), pciguest::Error>(())
/// ```
///
/// A hypervisor implements its own bus trait for this type. This is the trait of Firecracker and Cloud
/// Hypervisor:
///
/// ```
/// # use pciguest::GuestBus;
/// # use std::sync::{Arc, Barrier};
/// # trait BusDeviceSync: Send + Sync {
/// #     fn read(&self, base: u64, offset: u64, data: &mut [u8]);
/// #     fn write(&self, base: u64, offset: u64, data: &[u8]) -> Option<Arc<Barrier>>;
/// # }
/// impl BusDeviceSync for GuestBus {
///     fn read(&self, base: u64, offset: u64, data: &mut [u8]) {
///         self.read(base, offset, data)
///     }
///
///     fn write(&self, base: u64, offset: u64, data: &[u8]) -> Option<Arc<Barrier>> {
///         self.write(base, offset, data);
///         None // done: the processor needn't wait for anything
///     }
/// }
/// ```
///
/// # Panics
///
/// A [`DeviceModel`](crate::DeviceModel) of the same machine makes the access. The machine waits until the
/// device has acted.
#[derive(Clone, Debug)]
pub struct GuestBus {
    machine: Arc<Mutex<Machine>>,
    guest: Guest,
    space: Space,
}

impl GuestBus {
    /// The ports or the memory of a guest.
    pub fn new(machine: Arc<Mutex<Machine>>, guest: Guest, space: Space) -> GuestBus {
        GuestBus { machine, guest, space }
    }

    /// Fills `data` with bytes at an offset of a range that begins at `base`, in ascending order of addresses.
    /// If nothing responds, the bytes are all ones.
    pub fn read(&self, base: u64, offset: u64, data: &mut [u8]) {
        let mut machine = locked(&self.machine);
        for (count, part) in data.chunks_mut(8).enumerate() {
            let at = self.place(base, offset, 8 * count);
            read_part(&mut machine, self.guest, at, part);
        }
    }

    /// Writes the bytes of `data`, in ascending order of addresses. If nothing responds, they are dropped.
    pub fn write(&self, base: u64, offset: u64, data: &[u8]) {
        let mut machine = locked(&self.machine);
        for (count, part) in data.chunks(8).enumerate() {
            let at = self.place(base, offset, 8 * count);
            write_part(&mut machine, self.guest, at, part);
        }
    }

    /// An address in its space, unless it is past the end of all addresses.
    fn place(&self, base: u64, offset: u64, done: usize) -> Option<At> {
        let place = base.checked_add(offset)?.checked_add(done as u64)?;
        Some(match self.space {
            Space::Io => At::Io { port: place },
            Space::Memory => At::Memory { address: place },
        })
    }
}

/// A region that a configuration write moved, enabled or disabled, as the guest sees it.
#[derive(Clone, Copy, Debug, PartialEq, Eq)]
pub struct RegionMove {
    /// Its first base address register, 0 to 5.
    pub register: u32,
    /// Where it was.
    pub before: Region,
    /// Where it is now.
    pub now: Region,
}

/// The configuration space of the function in a guest's slot, by registers of 4 bytes, for a hypervisor that
/// maintains CONFIG_ADDRESS or ECAM itself. This is what the trait `PciDevice` of Firecracker and Cloud
/// Hypervisor needs. It locks the machine for each access, and panics like a [`GuestBus`].
///
/// ```
/// # const BOARD: &str = include_str!("board.toml");
/// use pciguest::{Machine, SlotConfig};
/// use std::sync::{Arc, Mutex};
///
/// let machine = Arc::new(Mutex::new(Machine::new(BOARD)?));
/// let a = machine.lock().unwrap().guest("a")?;
/// let config = SlotConfig::new(machine, a, 0);
/// assert_eq!(config.read_config_register(0), 0x0001_1234);
/// assert_eq!(config.write_config_register(1, 0, &[2, 0])[0].now.is_open, true); // memory on
/// let moved = config.write_config_register(4, 0, &0xe000_0000u32.to_le_bytes());
/// assert_eq!((moved[0].before.first, moved[0].now.first), (0, 0xe000_0000));
/// # Ok::<(), pciguest::Error>(())
/// ```
///
/// The trait of Cloud Hypervisor, whose writes return moved regions and a barrier. The hypervisor's own
/// allocator is left out here:
///
/// ```
/// # use pciguest::{GuestBus, SlotConfig};
/// # use std::sync::{Arc, Barrier};
/// # struct BarReprogrammingParams { old_base: u64, new_base: u64, len: u64 }
/// # trait PciDevice: Send {
/// #     fn write_config_register(&mut self, reg_idx: usize, offset: u64, data: &[u8])
/// #         -> (Vec<BarReprogrammingParams>, Option<Arc<Barrier>>);
/// #     fn read_config_register(&mut self, reg_idx: usize) -> u32;
/// #     fn read_bar(&mut self, base: u64, offset: u64, data: &mut [u8]);
/// #     fn write_bar(&mut self, base: u64, offset: u64, data: &[u8]) -> Option<Arc<Barrier>>;
/// # }
/// struct Function {
///     config: SlotConfig,
///     memory: GuestBus,
/// }
///
/// impl PciDevice for Function {
///     fn write_config_register(&mut self, reg_idx: usize, offset: u64, data: &[u8])
///         -> (Vec<BarReprogrammingParams>, Option<Arc<Barrier>>)
///     {
///         let moved = self.config.write_config_register(reg_idx, offset, data).into_iter();
///         let moved = moved.filter(|it| it.before.first != it.now.first).map(|it| BarReprogrammingParams {
///             old_base: it.before.first,
///             new_base: it.now.first,
///             len: it.now.size,
///         });
///         (moved.collect(), None)
///     }
///
///     fn read_config_register(&mut self, reg_idx: usize) -> u32 {
///         self.config.read_config_register(reg_idx)
///     }
///
///     fn read_bar(&mut self, base: u64, offset: u64, data: &mut [u8]) {
///         self.memory.read(base, offset, data)
///     }
///
///     fn write_bar(&mut self, base: u64, offset: u64, data: &[u8]) -> Option<Arc<Barrier>> {
///         self.memory.write(base, offset, data);
///         None
///     }
/// }
/// ```
#[derive(Clone, Debug)]
pub struct SlotConfig {
    machine: Arc<Mutex<Machine>>,
    guest: Guest,
    slot: u64,
}

impl SlotConfig {
    /// The configuration space of a slot.
    pub fn new(machine: Arc<Mutex<Machine>>, guest: Guest, slot: u64) -> SlotConfig {
        SlotConfig { machine, guest, slot }
    }

    /// Reads the register at an index, 0 to 63: all ones if the slot is empty or there is no such register.
    pub fn read_config_register(&self, index: usize) -> u32 {
        let mut data = [0; 4];
        let at = self.place(index, 0);
        read_part(&mut locked(&self.machine), self.guest, at, &mut data);
        u32::from_le_bytes(data)
    }

    /// Writes 1 to 4 bytes at an offset in this register, and returns the regions of the function that moved,
    /// or were enabled or disabled.
    pub fn write_config_register(&self, index: usize, offset: u64, data: &[u8]) -> Vec<RegionMove> {
        let at = self.place(index, offset);
        let mut machine = locked(&self.machine);
        let (count, before) = (machine.changed(self.guest), self.regions(&mut machine));
        write_part(&mut machine, self.guest, at, data);
        if machine.changed(self.guest) == count {
            return Vec::new();
        }
        let now = self.regions(&mut machine);
        let both = before.into_iter().zip(now).zip(0..);
        both.filter_map(|((before, now), register)| {
            let (before, now) = (before?, now?);
            (before != now).then_some(RegionMove { register, before, now })
        })
        .collect()
    }

    /// Where the regions of the function are, by their first base address registers.
    fn regions(&self, machine: &mut Machine) -> [Option<Region>; 6] {
        [0, 1, 2, 3, 4, 5].map(|register| machine.region(self.guest, self.slot, register).ok())
    }

    fn place(&self, index: usize, offset: u64) -> Option<At> {
        let offset = (index as u64).checked_mul(4)?.checked_add(offset)?;
        let slot = self.slot;
        Some(At::Config { slot, offset })
    }
}

/// The machine, even if a thread panicked while it held the lock: no call leaves the machine in a partial
/// state.
///
/// # Panics
///
/// A device of this machine acts on this thread, and the machine waits for it.
fn locked(machine: &Mutex<Machine>) -> MutexGuard<'_, Machine> {
    let is_waiting = waits(machine);
    assert!(
        !is_waiting,
        "a device calls a bus of its own machine, which waits until the device has acted"
    );
    machine.lock().unwrap_or_else(PoisonError::into_inner)
}

/// Reads up to 8 bytes: all ones if the access is refused.
fn read_part(machine: &mut Machine, guest: Guest, at: Option<At>, data: &mut [u8]) {
    let read = at.and_then(|at| machine.read_wide(guest, at, data.len() as u32).ok());
    let bytes = read.unwrap_or(u64::MAX).to_le_bytes();
    data.copy_from_slice(&bytes[..data.len()]);
}

/// Writes up to 8 bytes. If the access is refused, they are dropped.
fn write_part(machine: &mut Machine, guest: Guest, at: Option<At>, data: &[u8]) {
    let Some(at) = at else { return };
    let mut bytes = [0; 8];
    for (byte, &value) in bytes.iter_mut().zip(data) {
        *byte = value;
    }
    let _ = machine.write_wide(guest, at, data.len() as u32, u64::from_le_bytes(bytes));
}

//! Device models: the devices behind a function's registers, which act when a driver reads or writes them.

use crate::declared::{Declaration, Register};
use crate::device_side::DeviceSide;
use crate::place::Guest;
use crate::prelude::*;
use crate::raw::Handle;
use core::fmt;
#[cfg(feature = "std")]
use std::sync::{Arc, Mutex, MutexGuard, PoisonError};

/// A device model. It declares the function's identity, regions and registers, and defines what happens when
/// the driver reads or writes a register. [`Declaration::endpoint`] generates the matching table for a board
/// file, and [`Machine::attach`](crate::Machine::attach) attaches the model to a function.
///
/// ```
/// use pciguest::{At, Declaration, DeviceModel, Kind, Machine, Register, Registers};
///
/// const STATUS: Register = Register::in_region(0, 0x00, 1).w1c(0x01); // the driver clears the bit by writing a one
/// const RINGS: Register = Register::in_region(0, 0x04, 4); // the driver can only read it
/// const BELL: Register = Register::in_region(0, 0x08, 4).rw(0xffff_ffff);
///
/// struct Doorbell;
///
/// impl DeviceModel for Doorbell {
///     fn declaration(&self) -> Declaration {
///         Declaration::new(0x1234, 0x0001, 0xff0000)
///             .region(0, Kind::Mem32, 0x1000)
///             .register(STATUS)
///             .register(RINGS)
///             .register(BELL)
///     }
///
///     fn on_write(&mut self, registers: &mut Registers<'_>, register: Register, _value: u64) {
///         if register == BELL {
///             let rings = registers.get(RINGS);
///             registers.set(RINGS, rings + 1);
///             registers.set(STATUS, 1);
///         }
///     }
/// }
///
/// let host = "host = { io = [0x1000, 0xffff], mem = [0xc0000000, 0xdfffffff] }\n";
/// let guest = "[[guest]]\nname = \"a\"\nslots = [\"1.0\"]\n";
/// let board = [host, &Doorbell.declaration().endpoint("1.0"), guest].concat();
/// let mut machine = Machine::new(board)?;
/// let a = machine.guest("a")?;
/// machine.attach(a, 0, Doorbell)?;
///
/// let place = |offset: u64| At::Memory { address: 0xe000_0000 + offset };
/// machine.write(a, At::Config { slot: 0, offset: 0x10 }, 4, 0xe000_0000)?;
/// machine.write(a, At::Config { slot: 0, offset: 0x04 }, 2, 2)?;
/// machine.write(a, place(8), 4, 7)?; // the driver rings
/// assert_eq!((machine.read(a, place(4), 4)?, machine.read(a, place(0), 1)?), (1, 1));
/// # Ok::<(), Box<dyn std::error::Error>>(())
/// ```
///
/// A guest's access causes one call for each register that it touches, with the whole value that it writes
/// there, even if the access takes several bus cycles. When the device is notified of a reset, a move or a
/// load, its registers already have their new values; other fields are for the device itself to clear. The
/// machine waits until the device has acted. So a device that calls a bus of its own machine
/// ([`GuestBus`](crate::GuestBus), [`SlotConfig`](crate::SlotConfig)) would wait for itself; the call panics. A
/// device that locks its own machine deadlocks.
///
/// A device that is also used elsewhere is attached as an `Arc<Mutex<_>>`.
pub trait DeviceModel: Send {
    /// The device's declaration, which must be the same each time.
    fn declaration(&self) -> Declaration;

    /// Called after the driver wrote a register. `value` is what the driver wrote, even if the register can't
    /// store it. For bytes that the driver didn't write, `value` contains the register's own.
    fn on_write(&mut self, registers: &mut Registers<'_>, register: Register, value: u64) {
        let _ = (registers, register, value);
    }

    /// Called when the driver is about to read a register. The driver reads what the register contains after
    /// this call.
    fn before_read(&mut self, registers: &mut Registers<'_>, register: Register) {
        let _ = (registers, register);
    }

    /// Called after the guest changed Command by a write. Bit 0 enables I/O space, bit 1 enables memory space,
    /// bit 2 is Bus Master, and bit 10 is Interrupt Disable. A reset, a move and a load may change Command too;
    /// they have their own calls.
    fn on_command(&mut self, registers: &mut Registers<'_>, old: u16, new: u16) {
        let _ = (registers, old, new);
    }

    /// Called after the guest wrote bytes of the function's configuration space, in any registers. Comes after
    /// [`on_command`](DeviceModel::on_command) and before [`on_write`](DeviceModel::on_write).
    fn on_config_write(
        &mut self, registers: &mut Registers<'_>, offset: u64, width: u32, value: u64,
    ) {
        let _ = (registers, offset, width, value);
    }

    /// Called after the function was reset without a move, by [`Machine::reset`](crate::Machine::reset) or
    /// [`reset_guest`](crate::Machine::reset_guest).
    fn on_reset(&mut self, registers: &mut Registers<'_>) {
        let _ = registers;
    }

    /// Called after the function was moved to another slot, by a call or a line. The move has reset the
    /// function. By default, this calls `on_reset`.
    fn on_move(&mut self, registers: &mut Registers<'_>, from: Guest, slot: u64) {
        let _ = (from, slot);
        self.on_reset(registers);
    }

    /// Called after the function, which no guest had, was assigned to a guest. The function is in its reset
    /// state. By default, this calls `on_reset`.
    fn on_give(&mut self, registers: &mut Registers<'_>) {
        self.on_reset(registers);
    }

    /// Called after the function was taken from its guest. No guest has it now.
    fn on_take(&mut self) {}

    /// Called after an image was loaded. The registers have the values in the image; the guest and the slot may
    /// have changed.
    fn on_load(&mut self, registers: &mut Registers<'_>) {
        let _ = registers;
    }

    /// Returns the state that the device keeps outside its registers, to be saved along with an image. Empty by
    /// default.
    fn save_state(&self) -> Vec<u8> {
        Vec::new()
    }

    /// Restores a state that `save_state` returned, after the image was loaded, and returns whether the bytes
    /// are such a state. If they aren't, nothing changes.
    fn load_state(&mut self, registers: &mut Registers<'_>, state: &[u8]) -> bool {
        let _ = registers;
        state.is_empty()
    }
}

#[cfg(feature = "std")]
/// The device, even if a thread panicked while it held the lock.
fn locked<D>(device: &Mutex<D>) -> MutexGuard<'_, D> {
    device.lock().unwrap_or_else(PoisonError::into_inner)
}

/// A device behind a pointer.
macro_rules! device_behind {
    ($kind:ty, |$it:ident| $device:expr, $($of:tt)*) => {
        impl<$($of)*> DeviceModel for $kind {
            fn declaration(&self) -> Declaration {
                let $it = self;
                $device.declaration()
            }

            fn on_write(&mut self, registers: &mut Registers<'_>, register: Register, value: u64) {
                let $it = self;
                $device.on_write(registers, register, value)
            }

            fn before_read(&mut self, registers: &mut Registers<'_>, register: Register) {
                let $it = self;
                $device.before_read(registers, register)
            }

            fn on_command(&mut self, registers: &mut Registers<'_>, old: u16, new: u16) {
                let $it = self;
                $device.on_command(registers, old, new)
            }

            fn on_config_write(
                &mut self, registers: &mut Registers<'_>, offset: u64, width: u32, value: u64,
            ) {
                let $it = self;
                $device.on_config_write(registers, offset, width, value)
            }

            fn on_reset(&mut self, registers: &mut Registers<'_>) {
                let $it = self;
                $device.on_reset(registers)
            }

            fn on_move(&mut self, registers: &mut Registers<'_>, from: Guest, slot: u64) {
                let $it = self;
                $device.on_move(registers, from, slot)
            }

            fn on_give(&mut self, registers: &mut Registers<'_>) {
                let $it = self;
                $device.on_give(registers)
            }

            fn on_take(&mut self) {
                let $it = self;
                $device.on_take()
            }

            fn on_load(&mut self, registers: &mut Registers<'_>) {
                let $it = self;
                $device.on_load(registers)
            }

            fn save_state(&self) -> Vec<u8> {
                let $it = self;
                $device.save_state()
            }

            fn load_state(&mut self, registers: &mut Registers<'_>, state: &[u8]) -> bool {
                let $it = self;
                $device.load_state(registers, state)
            }
        }
    };
}

// as a machine gives it back
device_behind!(Box<D>, |it| (**it), D: DeviceModel + ?Sized);
#[cfg(feature = "std")]
device_behind!(Arc<Mutex<D>>, |it| locked(it), D: DeviceModel);

/// The registers of a device that acts. The device can read and set all bits, no matter which of them the
/// driver can change.
pub struct Registers<'a> {
    pub(crate) handle: &'a mut Handle,
    pub(crate) guest: Guest,
    pub(crate) slot: u64,
    pub(crate) declared: &'a [Register],
}

impl Registers<'_> {
    /// The guest that has the function now.
    pub fn guest(&self) -> Guest {
        self.guest
    }

    /// The function's slot in that guest.
    pub fn slot(&self) -> u64 {
        self.slot
    }

    /// Returns the value of a register.
    ///
    /// # Panics
    ///
    /// The device doesn't declare this register.
    pub fn get(&mut self, register: Register) -> u64 {
        let Register { part, offset, width, .. } = register;
        let value = self.side(register).read(part, offset, width as u32);
        debug_assert!(value.is_ok(), "a declared register is there");
        value.unwrap_or_default()
    }

    /// Sets a register to the low bytes of a value.
    ///
    /// # Panics
    ///
    /// The device doesn't declare this register.
    pub fn set(&mut self, register: Register, value: u64) {
        let Register { part, offset, width, .. } = register;
        let bits = value & register.all_ones();
        let answer = self.side(register).write(part, offset, width as u32, bits);
        debug_assert!(answer.is_ok(), "a declared register is there");
    }

    /// The function that has a declared register.
    fn side(&mut self, register: Register) -> DeviceSide<'_> {
        let is_declared = self.declared.contains(&register);
        assert!(is_declared, "the device declares no {register:x?}");
        DeviceSide::of(self.handle, self.guest, self.slot)
    }
}

impl fmt::Debug for Registers<'_> {
    fn fmt(&self, f: &mut fmt::Formatter<'_>) -> fmt::Result {
        f.debug_list().entries(self.declared).finish()
    }
}

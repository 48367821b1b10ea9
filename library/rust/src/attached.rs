//! Devices that are attached to functions of a machine, and events other than accesses that they are notified
//! of.

#[cfg(feature = "std")]
use crate::acting::Acting;
use crate::declared::Register;
use crate::device::{DeviceModel, Registers};
use crate::differs::{first_difference, Difference};
use crate::error::{answered, Error};
use crate::machine::Machine;
use crate::place::Guest;
use crate::prelude::*;
use crate::raw::{ARGUMENT, BAD_IMAGE};
use core::fmt;

/// Why a device can't be attached.
#[derive(Clone, Debug, PartialEq, Eq)]
pub enum NotAttached {
    /// 303: the slot is above 31. 601: the slot is empty. 902: there is no such guest.
    Refused(Error),
    /// The function isn't as the device declares it. This is the first field that differs.
    DeclaredOtherwise(Difference),
    /// The function already has a device.
    Taken,
}

impl fmt::Display for NotAttached {
    fn fmt(&self, f: &mut fmt::Formatter<'_>) -> fmt::Result {
        match self {
            NotAttached::Refused(error) => error.fmt(f),
            NotAttached::DeclaredOtherwise(difference) => difference.fmt(f),
            NotAttached::Taken => f.write_str("the function has a device"),
        }
    }
}

#[cfg(feature = "std")]
impl std::error::Error for NotAttached {}

impl From<Error> for NotAttached {
    fn from(error: Error) -> NotAttached {
        NotAttached::Refused(error)
    }
}

/// A guest and a slot.
type Seat = (Guest, u64);

/// A device with its function: the function's index on the board, and the guest and slot that have it.
pub(crate) struct Attached {
    function: usize,
    seat: Option<Seat>,
    registers: Vec<Register>,
    model: Box<dyn DeviceModel>,
}

impl Machine {
    /// Attaches a device to the function in a guest's slot. From now on, the device is notified of the
    /// registers that each guest access touches, no matter whether the access is a call or a line. It isn't
    /// notified of accesses that are refused. The device follows its function to other slots and guests.
    /// [`DeviceModel`] has an example.
    ///
    /// # Errors
    ///
    /// The function must have everything that the device declares: its identity, its regions, and the patterns
    /// of each register. Register bytes that the device doesn't declare aren't compared. The function must not
    /// have another device.
    pub fn attach(
        &mut self, guest: Guest, slot: u64, device: impl DeviceModel + 'static,
    ) -> Result<(), NotAttached> {
        let path = self.slot_function(guest, slot)?.path;
        if self.device_at(guest, slot).is_some() {
            return Err(NotAttached::Taken);
        }
        let mut declared = device.declaration();
        let image = self.save(guest)?;
        if let Some(difference) = first_difference(&declared, &image, slot) {
            return Err(NotAttached::DeclaredOtherwise(difference));
        }
        declared.registers.sort_by_key(Register::place);
        let function = self.functions().position(|it| it.path == path);
        self.devices.push(Attached {
            function: function.unwrap_or_default(),
            seat: Some((guest, slot)),
            registers: declared.registers,
            model: Box::new(device),
        });
        Ok(())
    }

    /// Detaches the device from the function in a guest's slot, so it isn't notified any more. The registers
    /// keep their contents.
    ///
    /// # Errors
    ///
    /// 303: the slot is above 31. 601: the slot is empty. 902: there is no such guest, or the function has no device.
    pub fn detach(&mut self, guest: Guest, slot: u64) -> Result<Box<dyn DeviceModel>, Error> {
        let device = self.device_behind(guest, slot)?;
        Ok(self.devices.remove(device).model)
    }

    /// Returns the registers of the device that is attached to the function in a guest's slot, as the device
    /// reads and sets them. Refused as [`Machine::detach`] is.
    pub fn registers(&mut self, guest: Guest, slot: u64) -> Result<Registers<'_>, Error> {
        let device = self.device_behind(guest, slot)?;
        Ok(self.lent(device).expect("the seat is that slot"))
    }

    /// Returns the state that the device behind the function in a guest's slot keeps outside its registers. An
    /// image ([`Machine::save`]) contains only the registers. Refused as [`Machine::detach`] is.
    pub fn save_state(&mut self, guest: Guest, slot: u64) -> Result<Vec<u8>, Error> {
        let device = self.device_behind(guest, slot)?;
        Ok(self.devices[device].model.save_state())
    }

    /// Restores a state that `save_state` returned, after the image was loaded. Refused as [`Machine::detach`]
    /// is, and with 905 if the device doesn't accept the bytes as its state.
    pub fn load_state(&mut self, guest: Guest, slot: u64, state: &[u8]) -> Result<(), Error> {
        let device = self.device_behind(guest, slot)?;
        let taken = self.act(device, |model, registers| model.load_state(registers, state));
        answered(if taken == Some(true) { 0 } else { BAD_IMAGE })
    }

    /// The device at a seat, if there is one.
    pub(crate) fn device_at(&self, guest: Guest, slot: u64) -> Option<usize> {
        let seat = Some((guest, slot));
        self.devices.iter().position(|it| it.seat == seat)
    }

    /// The device at a seat, or why there is none.
    fn device_behind(&mut self, guest: Guest, slot: u64) -> Result<usize, Error> {
        self.slot_function(guest, slot)?;
        let none = || answered(ARGUMENT).expect_err("a refusal");
        self.device_at(guest, slot).ok_or_else(none)
    }

    /// The registers of a device whose function a guest has.
    pub(crate) fn lent(&mut self, device: usize) -> Option<Registers<'_>> {
        let Attached { seat, registers, .. } = &self.devices[device];
        let (guest, slot) = (*seat)?;
        Some(Registers { handle: &mut self.handle, guest, slot, declared: registers })
    }

    /// Calls a device whose function a guest has, while the machine waits.
    pub(crate) fn act<T>(
        &mut self, device: usize, acts: impl FnOnce(&mut dyn DeviceModel, &mut Registers<'_>) -> T,
    ) -> Option<T> {
        #[cfg(feature = "std")]
        let _acting = Acting::begin(self);
        let Attached { seat, registers, model, .. } = &mut self.devices[device];
        let (guest, slot) = (*seat)?;
        let mut lent = Registers { handle: &mut self.handle, guest, slot, declared: registers };
        Some(acts(model.as_mut(), &mut lent))
    }

    /// Calls the devices whose functions are at some seats.
    pub(crate) fn tell(
        &mut self, stands: impl Fn(Seat) -> bool,
        acts: impl Fn(&mut dyn DeviceModel, &mut Registers<'_>),
    ) {
        for device in 0..self.devices.len() {
            if self.devices[device].seat.map_or(false, &stands) {
                self.act(device, &acts);
            }
        }
    }

    /// Updates which guests and slots have the devices' functions. Returns each device whose seat changed, with
    /// the seat before.
    pub(crate) fn reseat(&mut self) -> Vec<(usize, Option<Seat>)> {
        let mut changed = Vec::new();
        for device in 0..self.devices.len() {
            let function = self.function(self.devices[device].function);
            let seat = function.ok().and_then(|it| it.seat);
            let before = core::mem::replace(&mut self.devices[device].seat, seat);
            if before != seat {
                changed.push((device, before));
            }
        }
        changed
    }

    /// Notifies the devices whose functions were moved, given or taken.
    pub(crate) fn tell_moved(&mut self) {
        for (device, before) in self.reseat() {
            match before {
                Some((from, slot)) if self.devices[device].seat.is_some() => {
                    self.act(device, |model, registers| model.on_move(registers, from, slot));
                }
                Some(_) => self.tell_taken(device),
                None => {
                    self.act(device, |model, registers| model.on_give(registers));
                }
            }
        }
    }

    /// Notifies the machine's devices of a load.
    pub(crate) fn tell_loaded(&mut self) {
        for (device, _) in self.reseat() {
            if self.devices[device].seat.is_none() {
                self.tell_taken(device);
            }
        }
        self.tell(|_| true, |model, registers| model.on_load(registers));
    }

    fn tell_taken(&mut self, device: usize) {
        #[cfg(feature = "std")]
        let _acting = Acting::begin(self);
        self.devices[device].model.on_take();
    }
}

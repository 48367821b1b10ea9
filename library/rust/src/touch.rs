//! Which devices a guest's accesses reach, and how these are notified.

use crate::declared::Register;
use crate::error::Error;
use crate::machine::Machine;
use crate::place::{At, Guest, Hit, Part};
use crate::prelude::*;
use crate::wide::pieces;

/// The part of a device that a bus cycle accesses: bytes of a part of its function, and the bytes that are
/// written.
pub(crate) struct Touch {
    device: usize,
    hit: Hit,
    width: u64,
    value: u64,
    /// Command before the access, where it touches that.
    command: Option<u16>,
}

impl Machine {
    /// Makes a guest's read. If it isn't refused, the devices that it reaches are notified first, and then it
    /// reads what they left in their registers.
    pub(crate) fn read_and_tell<T>(
        &mut self, (guest, at, width): (Guest, At, u32),
        read: impl Fn(&mut Machine) -> Result<T, Error>,
    ) -> Result<T, Error> {
        let value = read(self)?;
        if self.tell_read(guest, at, width) {
            read(self)
        } else {
            Ok(value)
        }
    }

    /// Notifies devices of a read that isn't refused, once for each register that it touches. Returns whether
    /// there was any.
    pub(crate) fn tell_read(&mut self, guest: Guest, at: At, width: u32) -> bool {
        if self.devices.is_empty() {
            return false;
        }
        let touched: Vec<Touch> =
            pieces(at, width).filter_map(|(_, at, size)| self.touch(guest, at, size, 0)).collect();
        self.tell_reading(touched)
    }

    /// The same, for the part of a device that the read accesses.
    pub(crate) fn tell_reading(&mut self, touched: impl IntoIterator<Item = Touch>) -> bool {
        let touched: Vec<Touch> = touched.into_iter().collect();
        let told = self.told_by(&touched);
        for &(device, register, _) in &told {
            self.act(device, |model, registers| model.before_read(registers, register));
        }
        !told.is_empty()
    }

    /// The part of a device that a bus cycle accesses, if it reaches a device. To be called before a write,
    /// because the write may move the function.
    pub(crate) fn touch(&mut self, guest: Guest, at: At, width: u32, value: u32) -> Option<Touch> {
        if self.devices.is_empty() || (at, width) == (At::Io { port: 0xcf8 }, 4) {
            return None;
        }
        let hit = self.locate(guest, at).ok()??;
        let device = self.device_at(guest, hit.slot)?;
        let (width, value) = (u64::from(width), u64::from(value));
        let is_command = hit.part == Part::Config && hit.offset < 6 && hit.offset + width > 4;
        let command = if is_command { self.command_of(device) } else { None };
        Some(Touch { device, hit, width, value, command })
    }

    /// Command as the guest of a device has it.
    fn command_of(&mut self, device: usize) -> Option<u16> {
        self.lent(device)?.command().ok()
    }

    /// The part of a device that an access to a region reaches, if the region is enabled and has a device. The
    /// access must not be one that is refused.
    pub(crate) fn region_touch(
        &mut self, guest: Guest, hit: Hit, width: u32, value: u64,
    ) -> Option<Touch> {
        let device = self.device_at(guest, hit.slot)?;
        let Part::Region(register) = hit.part else {
            return None;
        };
        let region = self.region(guest, hit.slot, u32::from(register)).ok()?;
        let width = u64::from(width);
        region.is_open.then_some(Touch { device, hit, width, value, command: None })
    }

    /// Notifies devices of a completed write, once for each register that it touched.
    pub(crate) fn tell_written(&mut self, touched: impl IntoIterator<Item = Touch>) {
        let touched: Vec<Touch> = touched.into_iter().collect();
        let told = self.told_by(&touched);
        self.tell_command(&touched);
        for (device, offset, width, value) in config_writes(&touched) {
            self.act(device, |model, registers| {
                model.on_config_write(registers, offset, width, value);
            });
        }
        for (device, register, value) in told {
            self.act(device, |model, registers| model.on_write(registers, register, value));
        }
    }

    /// Notifies devices whose Command an access changed, with Command before the first write to it and now.
    fn tell_command(&mut self, touched: &[Touch]) {
        for device in 0..self.devices.len() {
            let before = touched.iter().filter(|it| it.device == device).find_map(|it| it.command);
            let Some(old) = before else { continue };
            let Some(new) = self.command_of(device).filter(|&new| new != old) else { continue };
            self.act(device, |model, registers| model.on_command(registers, old, new));
        }
    }

    /// The registers that an access touches, each with its device and the value after the write: the bytes that
    /// the access writes, and the register's own bytes everywhere else.
    fn told_by(&mut self, touched: &[Touch]) -> Vec<(usize, Register, u64)> {
        let mut told = Vec::new();
        for device in 0..self.devices.len() {
            let here: Vec<&Touch> = touched.iter().filter(|it| it.device == device).collect();
            let Some(mut lent) = self.lent(device).filter(|_| !here.is_empty()) else {
                continue;
            };
            for &register in lent.declared {
                let (mask, bits) = here.iter().fold((0, 0), |(mask, bits), touch| {
                    let (more, there) = touch.within(register);
                    (mask | more, bits | there)
                });
                if mask != 0 {
                    told.push((device, register, lent.get(register) & !mask | bits));
                }
            }
        }
        told
    }
}

/// The bytes of configuration space that an access writes: each run with its device, its first offset, its width and what
/// was written.
fn config_writes(touched: &[Touch]) -> Vec<(usize, u64, u32, u64)> {
    let mut runs: Vec<(usize, u64, u32, u64)> = Vec::new();
    for it in touched.iter().filter(|it| it.hit.part == Part::Config) {
        let bits = it.value & (u64::MAX >> (64 - 8 * it.width));
        match runs.last_mut() {
            Some((device, first, width, value))
                if *device == it.device && *first + u64::from(*width) == it.hit.offset =>
            {
                *value |= bits << (8 * *width);
                *width += it.width as u32;
            }
            _ => runs.push((it.device, it.hit.offset, it.width as u32, bits)),
        }
    }
    runs
}

impl Touch {
    /// The bits of a register that are accessed, and the value that is written to them.
    fn within(&self, register: Register) -> (u64, u64) {
        let Hit { part, offset, .. } = self.hit;
        if !register.is_touched(part, offset, self.width) {
            return (0, 0);
        }
        let all = u64::MAX >> (64 - 8 * self.width);
        let moved = |bits: u64| match offset.checked_sub(register.offset) {
            Some(up) => bits << (8 * up),
            None => bits >> (8 * (register.offset - offset)),
        };
        let mask = moved(all) & register.all_ones();
        (mask, moved(self.value & all) & mask)
    }
}

//! Guest accesses by region and offset.

use crate::error::{answered, valued, Error};
use crate::machine::Machine;
use crate::place::{Guest, Hit, Part};
use crate::raw;

impl Machine {
    /// Reads 1 to 8 bytes, as a guest, of the region that begins at a base address register, 0 to 5. The bytes
    /// are identified by their offset in the region instead of an address. This suits a hypervisor that maps
    /// each region separately. While Command disables the region, the value is all ones. Even if two regions of
    /// the guest are at the same address, this call can read either of them. The byte at the lowest offset is
    /// the lowest byte of the value. An attached device is notified as of one access.
    ///
    /// # Errors
    ///
    /// 302: the width isn't 1 to 8. 303: the slot is above 31, no region begins at this register, or a byte is
    /// past the end of the region. 601: the slot is empty. 902: there is no such guest, or the register is
    /// above 5.
    ///
    /// ```
    /// # const BOARD: &str = include_str!("board.toml");
    /// use pciguest::{At, Machine};
    ///
    /// let mut machine = Machine::new(BOARD)?;
    /// let a = machine.guest("a")?;
    /// assert_eq!(machine.region_read(a, 0, 0, 0x10, 2)?, 0xffff);
    /// machine.write(a, At::Config { slot: 0, offset: 0x04 }, 2, 2)?; // memory on, wherever the region is
    /// machine.region_write(a, 0, 0, 0x10, 4, 0x1234_5678)?;
    /// assert_eq!(machine.region_read(a, 0, 0, 0x11, 2)?, 0x3456);
    /// assert_eq!(machine.region_read(a, 0, 0, 4093, 4).unwrap_err().to_string(), "slot, offset, port or path is out of range (303)");
    /// # Ok::<(), pciguest::Error>(())
    /// ```
    pub fn region_read(
        &mut self, guest: Guest, slot: u64, register: u8, offset: u64, width: u32,
    ) -> Result<u64, Error> {
        let part = Part::Region(register);
        let hit = Hit { slot, part, offset };
        let value = self.region_read_alone(guest, hit, width)?;
        let touched = self.region_touch(guest, hit, width, 0);
        if self.tell_reading(touched) {
            return self.region_read_alone(guest, hit, width);
        }
        Ok(value)
    }

    /// Reads without notifying a device.
    fn region_read_alone(&mut self, guest: Guest, hit: Hit, width: u32) -> Result<u64, Error> {
        let (machine, guest, Hit { slot, part, offset }) = (&mut self.handle, guest.index(), hit);
        // SAFETY: `value` is a separate variable.
        valued(|value| unsafe {
            raw::pciguest_region_read(machine, guest, slot, part.number(), offset, width, value)
        })
    }

    /// Writes the low 1 to 8 bytes of a value to bytes that [`Machine::region_read`] reads. Only bits that the
    /// guest can write change, and a disabled region drops the write. Refused as a read is; then nothing is
    /// written.
    pub fn region_write(
        &mut self, guest: Guest, slot: u64, register: u8, offset: u64, width: u32, value: u64,
    ) -> Result<(), Error> {
        let (machine, index, part) = (&mut self.handle, guest.index(), Part::Region(register));
        // SAFETY: no pointer except the handle is passed.
        answered(unsafe {
            raw::pciguest_region_write(machine, index, slot, part.number(), offset, width, value)
        })?;
        let touched = self.region_touch(guest, Hit { slot, part, offset }, width, value);
        self.tell_written(touched);
        Ok(())
    }
}

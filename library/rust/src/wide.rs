//! Processor accesses of 1 to 8 bytes at any address.

use crate::error::{answered, Error};
use crate::machine::Machine;
use crate::place::{At, Guest};
use crate::prelude::*;
use crate::raw::{BAD_WIDTH, CONFIG, IO, OUT_OF_RANGE};

impl Machine {
    /// Reads 1 to 8 bytes as a guest, at any address, as a processor does. The access is split as a bridge does
    /// it, into aligned reads in ascending order of addresses. The byte at the lowest address is the lowest
    /// byte of the value. An attached device is notified as of one access.
    ///
    /// # Errors
    ///
    /// 302: the width isn't 1 to 8. 303: the slot is out of range, or the access ends past the end of its
    /// space. 902: there is no such guest.
    ///
    /// ```
    /// # const BOARD: &str = include_str!("board.toml");
    /// use pciguest::{At, Machine};
    ///
    /// let mut machine = Machine::new(BOARD)?;
    /// let a = machine.guest("a")?;
    /// let identity = At::Config { slot: 0, offset: 0 };
    /// assert_eq!(machine.read_wide(a, identity, 3)?, 0x01_1234);
    /// assert_eq!(machine.read_wide(a, identity, 9).unwrap_err().to_string(), "access width is not 1, 2 or 4 (wide calls: 1 to 8) (302)");
    /// # Ok::<(), pciguest::Error>(())
    /// ```
    pub fn read_wide(&mut self, guest: Guest, at: At, width: u32) -> Result<u64, Error> {
        may_be_split(at, width)?;
        self.read_and_tell((guest, at, width), |machine| {
            pieces(at, width).try_fold(0, |all, (done, at, size)| {
                let part = machine.read_alone(guest, at, size)?;
                Ok(all | u64::from(part) << (8 * done))
            })
        })
    }

    /// Writes 1 to 8 bytes as a guest, at any address: the low bytes of a value. Split and refused as a read
    /// is.
    ///
    /// ```
    /// # const BOARD: &str = include_str!("board.toml");
    /// use pciguest::{At, Machine};
    ///
    /// let mut machine = Machine::new(BOARD)?;
    /// let a = machine.guest("a")?;
    /// machine.write(a, At::Config { slot: 0, offset: 0x10 }, 4, 0x8000_0000)?;
    /// machine.write(a, At::Config { slot: 0, offset: 0x04 }, 2, 2)?;
    /// let cells = At::Memory { address: 0x8000_0003 };
    /// machine.write_wide(a, cells, 8, 0x1122_3344_5566_7788)?;
    /// assert_eq!(machine.read_wide(a, cells, 8)?, 0x1122_3344_5566_7788);
    /// # Ok::<(), pciguest::Error>(())
    /// ```
    pub fn write_wide(
        &mut self, guest: Guest, at: At, width: u32, value: u64,
    ) -> Result<(), Error> {
        may_be_split(at, width)?;
        let mut touched = Vec::new();
        for (done, at, size) in pieces(at, width) {
            touched.extend(self.write_alone(guest, at, size, (value >> (8 * done)) as u32)?);
        }
        self.tell_written(touched);
        Ok(())
    }
}

/// Whether a processor access is invalid, according to the header.
fn may_be_split(at: At, width: u32) -> Result<(), Error> {
    let (space, _, place) = at.parts();
    if !(1..=8).contains(&width) {
        return answered(BAD_WIDTH);
    }
    let last = match space {
        CONFIG => 0xff,
        IO => 0xffff_ffff,
        _ => u64::MAX,
    };
    if place > last || u64::from(width) - 1 > last - place {
        return answered(OUT_OF_RANGE);
    }
    Ok(())
}

/// The aligned pieces of an access that ends within its space: how many bytes come before each, its address and
/// its width.
pub(crate) fn pieces(at: At, width: u32) -> impl Iterator<Item = (u32, At, u32)> {
    let (_, _, place) = at.parts();
    let mut done = 0;
    core::iter::from_fn(move || {
        let before = (done < width).then_some(done)?;
        let (place, left) = (place + u64::from(before), width - before);
        // the largest width for which the piece is aligned
        let size = match () {
            _ if place % 4 == 0 && left >= 4 => 4,
            _ if place % 2 == 0 && left >= 2 => 2,
            _ => 1,
        };
        done += size;
        Some((before, at.further(u64::from(before)), size))
    })
}

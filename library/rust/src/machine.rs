//! A board that is set up, with its guests.

use crate::attached::Attached;
use crate::device_side::{Capability, DeviceSide};
use crate::error::{answered, valued, Error};
use crate::lines::{asked_by, Asked};
use crate::place::{At, Guest, Hit, HostAt, Part, Region};
use crate::prelude::*;
use crate::raw::{self, Handle};
use crate::text::{reply_to, text_of};
use crate::touch::Touch;
use core::fmt;
use core::ptr::null_mut;

/// A call that explains an access of a guest.
type WhyCall =
    unsafe extern "C" fn(*mut Handle, usize, u32, u64, u64, *mut u8, usize, *mut usize) -> u32;

/// A board that was set up, with its guests. Dropping the machine frees its memory.
///
/// Each call takes the machine mutably, even a read, because only one library call can run on a machine at a
/// time. So put a machine that several threads use into a lock:
///
/// ```
/// # const BOARD: &str = include_str!("board.toml");
/// use pciguest::{At, Machine};
/// use std::sync::{Arc, Mutex};
/// use std::thread;
///
/// let machine = Arc::new(Mutex::new(Machine::new(BOARD)?));
/// let other = Arc::clone(&machine);
/// let identity = thread::spawn(move || {
///     let mut machine = other.lock().unwrap();
///     let a = machine.guest("a")?;
///     machine.read(a, At::Config { slot: 0, offset: 0 }, 4)
/// });
/// assert_eq!(identity.join().unwrap()?, 0x0001_1234);
/// # Ok::<(), pciguest::Error>(())
/// ```
pub struct Machine {
    pub(crate) handle: Handle,
    /// The devices that are attached.
    pub(crate) devices: Vec<Attached>,
}

// SAFETY: The library has no global state. Any thread may make a call on a struct, if something orders the call after the
// previous one; it is proved that a struct's contents may move between threads. Here, each call borrows the machine
// mutably or drops it, and nothing else has the pointer in it. So two calls on one machine never overlap, and sending the
// machine to another thread orders them. Devices are `Send` themselves. The machine isn't `Sync`, which a lock doesn't need.
unsafe impl Send for Machine {}

impl Machine {
    /// Sets up the board of a board file, and assigns its functions to the guests in the file. No access has
    /// been made to them yet.
    ///
    /// # Errors
    ///
    /// The number of the first check that the file or its board fails, or 199 or 299 if memory runs out.
    ///
    /// ```
    /// let refused = pciguest::Machine::new("x = 1").unwrap_err();
    /// assert_eq!(refused.to_string(), "required key is missing, or value has the wrong form (102)");
    /// ```
    pub fn new(board: impl AsRef<[u8]>) -> Result<Machine, Error> {
        let board = board.as_ref();
        // SAFETY: the handle is empty, and `board` has the given length.
        Machine::made_by(|handle| unsafe { raw::pciguest_new(handle, board.as_ptr(), board.len()) })
    }

    /// The machine that a call stores in an empty handle.
    pub(crate) fn made_by(call: impl FnOnce(&mut Handle) -> u32) -> Result<Machine, Error> {
        let mut handle = Handle { live: false, at: null_mut() };
        answered(call(&mut handle))?;
        let devices = Vec::new();
        Ok(Machine { handle, devices })
    }

    /// Returns the guest with this name. 902: there is no such guest.
    ///
    /// ```
    /// # const BOARD: &str = include_str!("board.toml");
    /// let mut machine = pciguest::Machine::new(BOARD)?;
    /// assert_eq!(machine.guest("a")?.index(), 0);
    /// assert_eq!(machine.guest("nobody").unwrap_err().to_string(), "invalid argument (902)");
    /// # Ok::<(), pciguest::Error>(())
    /// ```
    pub fn guest(&mut self, name: &str) -> Result<Guest, Error> {
        // SAFETY: `name` has the given length, and nothing overlaps.
        valued(|guest| unsafe {
            raw::pciguest_guest(&mut self.handle, name.as_ptr(), name.len(), guest)
        })
        .map(Guest::of_index)
    }

    /// Returns the names of all guests, in the order of the board file. [`Guest::of_index`] takes an index in
    /// this order.
    ///
    /// ```
    /// # const BOARD: &str = include_str!("board.toml");
    /// assert_eq!(pciguest::Machine::new(BOARD)?.guests()?, ["a"]);
    /// # Ok::<(), pciguest::Error>(())
    /// ```
    pub fn guests(&mut self) -> Result<Vec<String>, Error> {
        let mut count = 0;
        // SAFETY: `count` is a separate variable.
        answered(unsafe { raw::pciguest_guest_count(&mut self.handle, &mut count) })?;
        (0..count).map(|index| self.guest_name(Guest::of_index(index))).collect()
    }

    /// Returns the name of a guest. 902: there is no such guest.
    ///
    /// ```
    /// # const BOARD: &str = include_str!("board.toml");
    /// use pciguest::{Guest, Machine};
    ///
    /// let mut machine = Machine::new(BOARD)?;
    /// let a = machine.guest("a")?;
    /// assert_eq!(machine.guest_name(a)?, "a");
    /// assert_eq!(machine.guest_name(Guest::of_index(1)).unwrap_err().to_string(), "invalid argument (902)");
    /// # Ok::<(), pciguest::Error>(())
    /// ```
    pub fn guest_name(&mut self, guest: Guest) -> Result<String, Error> {
        // SAFETY: the text has the given length, and nothing overlaps.
        text_of(raw::GUEST_NAME, |text, room, needed| unsafe {
            raw::pciguest_guest_name(&mut self.handle, guest.index(), text, room, needed)
        })
    }

    /// Reads 1, 2 or 4 bytes as a guest: what the guest's own functions return, or all ones if none of them
    /// responds. A read changes nothing, except through a device that is notified of it ([`Machine::attach`]).
    ///
    /// # Errors
    ///
    /// 302: the width isn't 1, 2 or 4. 301: the offset, port or address isn't a multiple of the width. 303: the
    /// slot, offset or port is out of range. 902: there is no such guest.
    ///
    /// ```
    /// # const BOARD: &str = include_str!("board.toml");
    /// use pciguest::{At, Machine};
    ///
    /// let mut machine = Machine::new(BOARD)?;
    /// let a = machine.guest("a")?;
    /// assert_eq!(machine.read(a, At::Config { slot: 0, offset: 0 }, 4)?, 0x0001_1234);
    /// assert_eq!(machine.read(a, At::Memory { address: 0x8000_0000 }, 2)?, 0xffff); // nothing responds
    /// assert_eq!(machine.read(a, At::Io { port: 1 }, 4).unwrap_err().to_string(), "address is not a multiple of the width (301)");
    /// # Ok::<(), pciguest::Error>(())
    /// ```
    pub fn read(&mut self, guest: Guest, at: At, width: u32) -> Result<u32, Error> {
        self.read_and_tell((guest, at, width), |machine| machine.read_alone(guest, at, width))
    }

    /// Reads without notifying a device.
    pub(crate) fn read_alone(&mut self, guest: Guest, at: At, width: u32) -> Result<u32, Error> {
        let (space, slot, place) = at.parts();
        // SAFETY: `value` is a separate variable.
        valued(|value| unsafe {
            raw::pciguest_read(&mut self.handle, guest.index(), space, slot, place, width, value)
        })
    }

    /// Writes the low 1, 2 or 4 bytes of a value as a guest. No other guest can notice it. Refused as a read
    /// is.
    ///
    /// ```
    /// # const BOARD: &str = include_str!("board.toml");
    /// use pciguest::{At, Machine};
    ///
    /// let mut machine = Machine::new(BOARD)?;
    /// let a = machine.guest("a")?;
    /// let cell = At::Memory { address: 0x8000_0010 };
    /// machine.write(a, At::Config { slot: 0, offset: 0x10 }, 4, 0x8000_0000)?; // the address of the region
    /// machine.write(a, At::Config { slot: 0, offset: 0x04 }, 2, 2)?; // memory on
    /// machine.write(a, cell, 4, 0x1234_5678)?;
    /// assert_eq!(machine.read(a, cell, 2)?, 0x5678);
    /// # Ok::<(), pciguest::Error>(())
    /// ```
    pub fn write(&mut self, guest: Guest, at: At, width: u32, value: u32) -> Result<(), Error> {
        let touch = self.write_alone(guest, at, width, value)?;
        self.tell_written(touch);
        Ok(())
    }

    /// Writes, and returns the part of a device that the write accesses. The device is notified once the whole
    /// access is done.
    pub(crate) fn write_alone(
        &mut self, guest: Guest, at: At, width: u32, value: u32,
    ) -> Result<Option<Touch>, Error> {
        let (space, slot, place) = at.parts();
        let touch = self.touch(guest, at, width, value);
        // SAFETY: no pointer except the handle is passed.
        answered(unsafe {
            raw::pciguest_write(&mut self.handle, guest.index(), space, slot, place, width, value)
        })?;
        Ok(touch)
    }

    /// Sets bits of one byte of the function in a guest's slot, as its device does. Only bits that are cleared
    /// by writing a one can be set.
    ///
    /// # Errors
    ///
    /// 303: the slot is above 31, or the function has no such byte. 601: the slot is empty. 902: there is no such
    /// guest, or the region is above 5.
    ///
    /// ```
    /// # const BOARD: &str = include_str!("board.toml");
    /// use pciguest::{At, Machine, Part};
    ///
    /// let mut machine = Machine::new(BOARD)?;
    /// let a = machine.guest("a")?;
    /// let status = At::Config { slot: 0, offset: 6 };
    /// machine.raise(a, 0, Part::Config, 7, 0x08)?; // signaled target abort
    /// assert_eq!(machine.read(a, status, 2)?, 0x0800);
    /// machine.write(a, status, 2, 0x0800)?; // the driver clears it by writing a one
    /// assert_eq!(machine.read(a, status, 2)?, 0);
    /// # Ok::<(), pciguest::Error>(())
    /// ```
    pub fn raise(
        &mut self, guest: Guest, slot: u64, part: Part, offset: u64, mask: u8,
    ) -> Result<(), Error> {
        // SAFETY: no pointer except the handle is passed.
        answered(unsafe {
            raw::pciguest_raise(&mut self.handle, guest.index(), slot, part.number(), offset, mask)
        })
    }

    /// Reads 1, 2 or 4 bytes as the host: at a physical BDF, port or address of the board. Changes nothing.
    /// Refused as a guest's read is. 902: the device is above 31, or the function above 7.
    ///
    /// ```
    /// # const BOARD: &str = include_str!("board.toml");
    /// use pciguest::{HostAt, Machine};
    ///
    /// let mut machine = Machine::new(BOARD)?;
    /// let identity = |device| HostAt::Config { bus: 0, device, function: 0, offset: 0 };
    /// assert_eq!(machine.host_read(identity(1), 4)?, 0x0001_1234);
    /// assert_eq!(machine.host_read(identity(2), 4)?, 0xffff_ffff); // nobody
    /// assert_eq!(machine.host_read(identity(32), 4).unwrap_err().to_string(), "invalid argument (902)");
    /// # Ok::<(), pciguest::Error>(())
    /// ```
    pub fn host_read(&mut self, at: HostAt, width: u32) -> Result<u32, Error> {
        let ((space, bus, device, function, place), machine) = (at.parts(), &mut self.handle);
        // SAFETY: `value` is a separate variable.
        valued(|value| unsafe {
            raw::pciguest_host_read(machine, space, bus, device, function, place, width, value)
        })
    }

    /// Moves the function in a guest's slot to the slot `target` of another guest or the same one. Nothing
    /// carries over: the function is reset.
    ///
    /// # Errors
    ///
    /// 303: a slot is above 31. 601: the slot that the function leaves is empty. 602: the other slot isn't
    /// empty. 902: there is no such guest.
    ///
    /// ```
    /// # const BOARD: &str = include_str!("board.toml");
    /// use pciguest::{At, Machine};
    ///
    /// let mut machine = Machine::new(BOARD)?;
    /// let a = machine.guest("a")?;
    /// machine.move_function(a, 0, a, 7)?;
    /// assert_eq!(machine.read(a, At::Config { slot: 7, offset: 0 }, 4)?, 0x0001_1234);
    /// assert_eq!(machine.move_function(a, 0, a, 1).unwrap_err().to_string(), "slot is empty (601)");
    /// # Ok::<(), pciguest::Error>(())
    /// ```
    pub fn move_function(
        &mut self, from: Guest, slot: u64, to: Guest, target: u64,
    ) -> Result<(), Error> {
        // SAFETY: no pointer except the handle is passed.
        answered(unsafe {
            raw::pciguest_move(&mut self.handle, from.index(), slot, to.index(), target)
        })?;
        self.tell_moved();
        Ok(())
    }

    /// Resets the function in a guest's slot without moving it. As in a move, nothing carries over.
    ///
    /// # Errors
    ///
    /// 303: the slot is above 31. 601: the slot is empty. 902: there is no such guest.
    ///
    /// ```
    /// # const BOARD: &str = include_str!("board.toml");
    /// use pciguest::{At, Machine};
    ///
    /// let mut machine = Machine::new(BOARD)?;
    /// let a = machine.guest("a")?;
    /// let command = At::Config { slot: 0, offset: 4 };
    /// machine.write(a, command, 2, 2)?;
    /// machine.reset(a, 0)?;
    /// assert_eq!(machine.read(a, command, 2)?, 0);
    /// # Ok::<(), pciguest::Error>(())
    /// ```
    pub fn reset(&mut self, guest: Guest, slot: u64) -> Result<(), Error> {
        // SAFETY: no pointer except the handle is passed.
        answered(unsafe { raw::pciguest_reset(&mut self.handle, guest.index(), slot) })?;
        self.tell(|seat| seat == (guest, slot), |model, registers| model.on_reset(registers));
        Ok(())
    }

    /// Assigns the function at a path, which no guest has, to an empty slot of a guest. The function is reset,
    /// except for those of the board's registers of which guests have copies. The path is a text, as in board
    /// files and in [`Function::path`](crate::Function::path).
    ///
    /// # Errors
    ///
    /// 303: the slot is above 31, or there is no endpoint at this path. 602: a guest has the function, or the
    /// slot isn't empty. 206: one of its regions is disabled. 902: there is no such guest.
    ///
    /// ```
    /// # const BOARD: &str = include_str!("board.toml");
    /// let mut machine = pciguest::Machine::new(BOARD)?;
    /// let a = machine.guest("a")?;
    /// assert_eq!(machine.give("1.0", a, 5).unwrap_err().to_string(), "slot already contains a function (602)");
    /// machine.take(a, 0)?;
    /// machine.give("1.0", a, 5)?;
    /// # Ok::<(), pciguest::Error>(())
    /// ```
    pub fn give(&mut self, path: &str, guest: Guest, slot: u64) -> Result<(), Error> {
        // SAFETY: `path` has the given length, and nothing overlaps.
        answered(unsafe {
            raw::pciguest_give(&mut self.handle, path.as_ptr(), path.len(), guest.index(), slot)
        })?;
        self.tell_moved();
        Ok(())
    }

    /// Takes the function in a guest's slot from the guest. The slot is then empty, and no guest has the
    /// function. The function is reset, except for those of the board's registers of which guests have copies.
    /// Refused as a reset is.
    ///
    /// ```
    /// # const BOARD: &str = include_str!("board.toml");
    /// use pciguest::{At, Machine};
    ///
    /// let mut machine = Machine::new(BOARD)?;
    /// let a = machine.guest("a")?;
    /// machine.take(a, 0)?;
    /// assert_eq!(machine.read(a, At::Config { slot: 0, offset: 0 }, 4)?, 0xffff_ffff); // nobody
    /// assert_eq!(machine.take(a, 0).unwrap_err().to_string(), "slot is empty (601)");
    /// # Ok::<(), pciguest::Error>(())
    /// ```
    pub fn take(&mut self, guest: Guest, slot: u64) -> Result<(), Error> {
        // SAFETY: no pointer except the handle is passed.
        answered(unsafe { raw::pciguest_take(&mut self.handle, guest.index(), slot) })?;
        self.tell_moved();
        Ok(())
    }

    /// Reads one byte of the function in a guest's slot, as its device does: in a region, or in configuration
    /// space, where a device can read only the two bytes of Status (06h, 07h), the Capabilities Pointer (34h)
    /// and its own registers (40h to FFh). A byte without a register reads as 0. Changes nothing.
    ///
    /// # Errors
    ///
    /// 303: the slot is above 31, or the device has no such byte. 601: the slot is empty. 902: there is no such
    /// guest, or the region is above 5.
    ///
    /// ```
    /// # const BOARD: &str = include_str!("board.toml");
    /// use pciguest::{Machine, Part};
    ///
    /// let mut machine = Machine::new(BOARD)?;
    /// let a = machine.guest("a")?;
    /// assert_eq!(machine.device_read(a, 0, Part::Region(0), 8)?, 0);
    /// assert_eq!(machine.device_read(a, 0, Part::Config, 4).unwrap_err().to_string(), "slot, offset, port or path is out of range (303)"); // the guest's own
    /// # Ok::<(), pciguest::Error>(())
    /// ```
    pub fn device_read(
        &mut self, guest: Guest, slot: u64, part: Part, offset: u64,
    ) -> Result<u8, Error> {
        self.device_read_wide(guest, slot, part, offset, 1).map(|value| value as u8)
    }

    /// Writes one byte that [`Machine::device_read`] reads, as the device does. The device can change all bits,
    /// even bits that the guest can't change; which bits the guest can change stays the same. A write to a byte
    /// without a register is dropped. Refused as a read is.
    ///
    /// ```
    /// # const BOARD: &str = include_str!("board.toml");
    /// use pciguest::{Machine, Part};
    ///
    /// let mut machine = Machine::new(BOARD)?;
    /// let a = machine.guest("a")?;
    /// machine.device_write(a, 0, Part::Region(0), 8, 0x5a)?;
    /// assert_eq!(machine.device_read(a, 0, Part::Region(0), 8)?, 0x5a);
    /// # Ok::<(), pciguest::Error>(())
    /// ```
    pub fn device_write(
        &mut self, guest: Guest, slot: u64, part: Part, offset: u64, value: u8,
    ) -> Result<(), Error> {
        self.device_write_wide(guest, slot, part, offset, 1, value.into())
    }

    /// Reads 1 to 8 bytes of the function in a guest's slot, as its device does, at any offset within one part.
    /// The byte at the lowest offset is the lowest byte of the value. Changes nothing.
    ///
    /// # Errors
    ///
    /// 302: the width isn't 1 to 8. 303: the slot is above 31, or a byte is past the end of the part or isn't
    /// one that a device can access. 601: the slot is empty. 902: there is no such guest, or the region is
    /// above 5.
    ///
    /// ```
    /// # const BOARD: &str = include_str!("board.toml");
    /// use pciguest::{Machine, Part};
    ///
    /// let mut machine = Machine::new(BOARD)?;
    /// let a = machine.guest("a")?;
    /// machine.device_write(a, 0, Part::Region(0), 9, 0x5a)?;
    /// assert_eq!(machine.device_read_wide(a, 0, Part::Region(0), 8, 4)?, 0x5a00);
    /// assert_eq!(machine.device_read_wide(a, 0, Part::Region(0), 4093, 4).unwrap_err().to_string(), "slot, offset, port or path is out of range (303)");
    /// # Ok::<(), pciguest::Error>(())
    /// ```
    pub fn device_read_wide(
        &mut self, guest: Guest, slot: u64, part: Part, offset: u64, width: u32,
    ) -> Result<u64, Error> {
        DeviceSide::of(&mut self.handle, guest, slot).read(part, offset, width)
    }

    /// Writes the low 1 to 8 bytes of a value, as the device does. The device can change all bits of these
    /// bytes. Refused as a read is; then nothing is written.
    ///
    /// ```
    /// # const BOARD: &str = include_str!("board.toml");
    /// use pciguest::{Machine, Part};
    ///
    /// let mut machine = Machine::new(BOARD)?;
    /// let a = machine.guest("a")?;
    /// machine.device_write_wide(a, 0, Part::Region(0), 8, 4, 0x1234_5678)?;
    /// assert_eq!(machine.device_read(a, 0, Part::Region(0), 9)?, 0x56);
    /// # Ok::<(), pciguest::Error>(())
    /// ```
    pub fn device_write_wide(
        &mut self, guest: Guest, slot: u64, part: Part, offset: u64, width: u32, value: u64,
    ) -> Result<(), Error> {
        DeviceSide::of(&mut self.handle, guest, slot).write(part, offset, width, value)
    }

    /// Returns the capability list of the function in a guest's slot (PCI Local Bus 3.0, 6.7), in the order of the list.
    /// Reads the registers as the device does. Bits 0 and 1 of a pointer are ignored, and a pointer below 40h ends the
    /// list. If the device has changed the pointers to a loop, the list ends where it would repeat. Changes nothing.
    ///
    /// # Errors
    ///
    /// 303: the slot is above 31. 601: the slot is empty. 902: there is no such guest.
    ///
    /// ```
    /// # const BOARD: &str = include_str!("board.toml");
    /// use pciguest::{Machine, Part};
    ///
    /// let msix = "[[endpoint.capability]]\nid = 0x11\noff = 0x40\nblock = 10\nreset = \"030000080000000c0000\"\n";
    /// let mut machine = Machine::new([BOARD, msix].concat())?;
    /// let a = machine.guest("a")?;
    /// for capability in machine.capabilities(a, 0)? {
    ///     if capability.id == 0x11 {
    ///         let table = machine.device_read_wide(a, 0, Part::Config, capability.offset + 4, 4)?;
    ///         assert_eq!((table & 7, table & !7), (0, 0x800)); // the MSI-X table is in BAR 0, at offset 800h
    ///     }
    /// }
    /// # assert_eq!(machine.capabilities(a, 0)?.len(), 1);
    /// # Ok::<(), pciguest::Error>(())
    /// ```
    pub fn capabilities(&mut self, guest: Guest, slot: u64) -> Result<Vec<Capability>, Error> {
        DeviceSide::of(&mut self.handle, guest, slot).capabilities()
    }

    /// Returns where the region that begins at a base address register, 0 to 5, is now, as the guest sees it.
    /// The result stays valid until the guest writes Command or a base address register of this function, or
    /// the function is moved, reset, loaded or taken. Changes nothing.
    ///
    /// # Errors
    ///
    /// 303: the slot is above 31, or no region begins at this register. 601: the slot is empty. 902: there is no such
    /// guest.
    ///
    /// ```
    /// # const BOARD: &str = include_str!("board.toml");
    /// use pciguest::{At, Machine, Space};
    ///
    /// let mut machine = Machine::new(BOARD)?;
    /// let a = machine.guest("a")?;
    /// machine.write(a, At::Config { slot: 0, offset: 0x10 }, 4, 0x8000_0000)?;
    /// machine.write(a, At::Config { slot: 0, offset: 0x04 }, 2, 2)?;
    /// let region = machine.region(a, 0, 0)?;
    /// assert_eq!((region.space, region.first, region.size), (Space::Memory, 0x8000_0000, 4096));
    /// assert!(region.is_open);
    /// # Ok::<(), pciguest::Error>(())
    /// ```
    pub fn region(&mut self, guest: Guest, slot: u64, register: u32) -> Result<Region, Error> {
        // SAFETY: `told` is a separate variable.
        valued(|told| unsafe {
            raw::pciguest_region(&mut self.handle, guest.index(), slot, register, told)
        })
        .map(|told| Region::of(&told))
    }

    /// Returns a count that increases when an access of this guest, a move, a reset, a give, a take or a load
    /// may have changed a result of [`Machine::region`]. As long as the count is the same, each of these
    /// results is valid; nothing else increases it. The count is 0 in a new machine, and continues with 0 after
    /// 2^64 - 1. Changes nothing.
    ///
    /// ```
    /// # const BOARD: &str = include_str!("board.toml");
    /// use pciguest::{At, Machine};
    ///
    /// let mut machine = Machine::new(BOARD)?;
    /// let a = machine.guest("a")?;
    /// machine.read(a, At::Config { slot: 0, offset: 0x10 }, 4)?;
    /// assert_eq!(machine.changed(a)?, 0);
    /// machine.write(a, At::Config { slot: 0, offset: 0x10 }, 4, 0x8000_0000)?;
    /// assert_eq!(machine.changed(a)?, 1);
    /// # Ok::<(), pciguest::Error>(())
    /// ```
    pub fn changed(&mut self, guest: Guest) -> Result<u64, Error> {
        // SAFETY: `count` is a separate variable.
        valued(|count| unsafe { raw::pciguest_changed(&mut self.handle, guest.index(), count) })
    }

    /// Returns what a guest's access reaches: a byte of a function in one of its slots, or nothing. Every
    /// access to this address begins at this byte. The only exception are 4 bytes at port CF8h, which are the
    /// guest's CONFIG_ADDRESS. Changes nothing. Refused as a read of one byte is.
    ///
    /// ```
    /// # const BOARD: &str = include_str!("board.toml");
    /// use pciguest::{At, Hit, Machine, Part};
    ///
    /// let mut machine = Machine::new(BOARD)?;
    /// let a = machine.guest("a")?;
    /// let bell = At::Memory { address: 0x8000_0010 };
    /// assert_eq!(machine.locate(a, bell)?, None);
    /// machine.write(a, At::Config { slot: 0, offset: 0x10 }, 4, 0x8000_0000)?;
    /// machine.write(a, At::Config { slot: 0, offset: 0x04 }, 2, 2)?;
    /// let hit = Hit { slot: 0, part: Part::Region(0), offset: 0x10 };
    /// assert_eq!(machine.locate(a, bell)?, Some(hit));
    /// # Ok::<(), pciguest::Error>(())
    /// ```
    pub fn locate(&mut self, guest: Guest, at: At) -> Result<Option<Hit>, Error> {
        let (space, slot, place) = at.parts();
        // SAFETY: `told` is a separate variable.
        valued(|told| unsafe {
            raw::pciguest_locate(&mut self.handle, guest.index(), space, slot, place, told)
        })
        .map(|told| Hit::of(&told))
    }

    /// Explains what a guest's access reaches, and why. For ports CF8h and CFCh to CFFh, the first line says
    /// what CONFIG_ADDRESS selects. The next line says what responds, or that nothing does, that the slot is
    /// empty, or that CONFIG_ADDRESS selects no slot. If nothing responds, there is a line for each region of
    /// the guest's functions that contains the address, but whose space Command doesn't enable. The answer
    /// depends only on the guest's own functions and CONFIG_ADDRESS. Changes nothing.
    ///
    /// # Errors
    ///
    /// Those of a read of one byte, and 299 if memory runs out.
    ///
    /// ```
    /// # const BOARD: &str = include_str!("board.toml");
    /// use pciguest::{At, Machine};
    ///
    /// let mut machine = Machine::new(BOARD)?;
    /// let a = machine.guest("a")?;
    /// let bell = At::Memory { address: 0x8000_0010 };
    /// machine.write(a, At::Config { slot: 0, offset: 0x10 }, 4, 0x8000_0000)?;
    /// assert_eq!(
    ///     machine.why(a, bell)?,
    ///     "why: memory 0x80000010: nothing responds\n\
    ///      why: slot 0 bar0 at 0x80000000 size 0x1000: decode is disabled (Command 0x0000)\n"
    /// );
    /// machine.write(a, At::Config { slot: 0, offset: 0x04 }, 2, 2)?;
    /// assert_eq!(machine.why(a, bell)?, "why: memory 0x80000010: slot 0 bar0 responds at offset 0x10\n");
    /// # Ok::<(), pciguest::Error>(())
    /// ```
    pub fn why(&mut self, guest: Guest, at: At) -> Result<String, Error> {
        self.told_why(raw::pciguest_why, guest, at)
    }

    /// Returns the [explanation](Machine::why) as a JSON object on one line.
    ///
    /// # Errors
    ///
    /// Those of a read of one byte, and 299 if memory runs out.
    ///
    /// ```
    /// # const BOARD: &str = include_str!("board.toml");
    /// use pciguest::{At, Machine};
    ///
    /// let mut machine = Machine::new(BOARD)?;
    /// let a = machine.guest("a")?;
    /// assert_eq!(
    ///     machine.why_json(a, At::Config { slot: 5, offset: 0 })?,
    ///     "{\"found\":{\"slot\":5,\"type\":\"empty\"},\"latch\":null}\n"
    /// );
    /// # Ok::<(), pciguest::Error>(())
    /// ```
    pub fn why_json(&mut self, guest: Guest, at: At) -> Result<String, Error> {
        self.told_why(raw::pciguest_why_json, guest, at)
    }

    fn told_why(&mut self, call: WhyCall, guest: Guest, at: At) -> Result<String, Error> {
        let (space, slot, place) = at.parts();
        // SAFETY: the text has the given length, and nothing overlaps.
        text_of(512, |text, room, needed| unsafe {
            call(&mut self.handle, guest.index(), space, slot, place, text, room, needed)
        })
    }

    /// Explains why a line is refused with 401, 402 or 403. Returns `None` for any other line. The line isn't
    /// run.
    ///
    /// ```
    /// # const BOARD: &str = include_str!("board.toml");
    /// let why = pciguest::Machine::new(BOARD)?.explain_line("a cr 0 0")?;
    /// assert_eq!(why.as_deref(), Some("missing width (expected 'cr SLOT OFFSET WIDTH')"));
    /// # Ok::<(), pciguest::Error>(())
    /// ```
    pub fn explain_line(&mut self, line: impl AsRef<[u8]>) -> Result<Option<String>, Error> {
        let line = line.as_ref();
        // SAFETY: the handle holds a machine, `line` has the given length, and so has the text; nothing overlaps.
        text_of(128, |text, room, needed| unsafe {
            let (bytes, length) = (line.as_ptr(), line.len());
            raw::pciguest_explain_line(&mut self.handle, bytes, length, &mut 0, text, room, needed)
        })
        .map(|text| Some(text).filter(|text| !text.is_empty()))
    }

    /// Runs one line of a script, and returns the reply without its line feed; a blank line or a comment has no
    /// reply. The line may end with a line feed; a line feed anywhere else makes it a bad line. If a line is
    /// refused, the reply says so.
    ///
    /// ```
    /// # const BOARD: &str = include_str!("board.toml");
    /// let mut machine = pciguest::Machine::new(BOARD)?;
    /// assert_eq!(machine.run_line("a cr 0 0 4")?.as_deref(), Some("a: 0x00011234"));
    /// assert_eq!(machine.run_line("a cr 0 1 4")?.as_deref(), Some("a: refused 301 misaligned"));
    /// assert_eq!(machine.run_line("# a comment")?, None);
    /// # Ok::<(), pciguest::Error>(())
    /// ```
    pub fn run_line(&mut self, line: impl AsRef<[u8]>) -> Result<Option<String>, Error> {
        let line = line.as_ref();
        let found = self.asked(line);
        let written =
            found.and_then(|asked| self.touch(asked.guest, asked.at, asked.width, asked.written?));
        let reply = self.run_alone(line)?;
        if reply.as_ref().map_or(true, |text| text.contains(" refused ")) {
            return Ok(reply);
        }
        match found {
            Some(Asked { guest, at, width, written: None }) if self.tell_read(guest, at, width) => {
                return self.run_alone(line)
            }
            Some(_) => self.tell_written(written),
            None => self.tell_moved(),
        }
        Ok(reply)
    }

    /// The guest access that a line asks for, if devices must be notified of it.
    fn asked(&mut self, line: &[u8]) -> Option<Asked> {
        if self.devices.is_empty() {
            return None;
        }
        asked_by(line, |name| self.guest(name).ok())
    }

    /// Runs a line without notifying a device.
    fn run_alone(&mut self, line: &[u8]) -> Result<Option<String>, Error> {
        reply_to(line, |line, length, reply, room, written| {
            // SAFETY: `line` and `reply` have the given lengths, and nothing overlaps.
            unsafe { raw::pciguest_run_line(&mut self.handle, line, length, reply, room, written) }
        })
    }
}

impl Drop for Machine {
    fn drop(&mut self) {
        // SAFETY: no call is made on the handle after this one.
        unsafe { raw::pciguest_free(&mut self.handle) }
    }
}

impl fmt::Debug for Machine {
    fn fmt(&self, f: &mut fmt::Formatter<'_>) -> fmt::Result {
        f.write_str("Machine")
    }
}

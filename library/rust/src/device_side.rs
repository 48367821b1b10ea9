//! What a device finds out from its function's registers: the capability list, whether it may
//! access memory, and MSI-X messages.

use crate::device::Registers;
use crate::error::{answered, valued, Error};
use crate::machine::Machine;
use crate::place::{Guest, Part};
use crate::prelude::*;
use crate::raw::{self, Handle};

/// A structure of a function's capability list, which [`Machine::capabilities`] returns.
#[derive(Clone, Copy, Debug, PartialEq, Eq)]
pub struct Capability {
    /// Its Capability ID.
    pub id: u8,
    /// Its offset in configuration space, where its header begins: the Capability ID, then the Next
    /// Capability.
    pub offset: u64,
}

/// The message (a 4-byte write to memory) that a function sends for an MSI-X or MSI vector, and
/// whether the function may send it now. [`Machine::msix_message`] and [`Machine::msi_message`]
/// return it. If `is_enabled` is true and `can_be_sent` is false, the function keeps the message
/// pending. A function may use its interrupt pin only while both MSI Enable and MSI-X Enable are
/// clear.
#[derive(Clone, Copy, Debug, Default, PartialEq, Eq)]
pub struct Message {
    /// Where the message is written.
    pub address: u64,
    /// What is written.
    pub data: u32,
    /// Whether MSI-X Enable (or, for MSI, MSI Enable) is set.
    pub is_enabled: bool,
    /// Whether Function Mask or the vector's own mask bit is set.
    pub is_masked: bool,
    /// Whether the message is enabled and not masked, and the guest has set Bus Master.
    pub can_be_sent: bool,
}

/// The Capability IDs of MSI and MSI-X.
const MSI: u8 = 0x05;
const MSIX: u8 = 0x11;

/// The function in a guest's slot, as its device reads it.
pub(crate) struct DeviceSide<'a> {
    handle: &'a mut Handle,
    guest: usize,
    slot: u64,
}

impl DeviceSide<'_> {
    pub(crate) fn of(handle: &mut Handle, guest: Guest, slot: u64) -> DeviceSide<'_> {
        DeviceSide { handle, guest: guest.index(), slot }
    }

    pub(crate) fn read(&mut self, part: Part, offset: u64, width: u32) -> Result<u64, Error> {
        let (guest, slot, part) = (self.guest, self.slot, part.number());
        // SAFETY: `value` is a separate variable.
        valued(|value| unsafe {
            raw::pciguest_device_read_wide(self.handle, guest, slot, part, offset, width, value)
        })
    }

    pub(crate) fn write(
        &mut self, part: Part, offset: u64, width: u32, value: u64,
    ) -> Result<(), Error> {
        let (guest, slot, part) = (self.guest, self.slot, part.number());
        // SAFETY: no pointer except the handle is passed.
        answered(unsafe {
            raw::pciguest_device_write_wide(self.handle, guest, slot, part, offset, width, value)
        })
    }

    /// Returns the offset at which the capability list begins, or a value below 40h if the function
    /// has no list.
    fn first(&mut self) -> Result<u64, Error> {
        let has_list = self.read(Part::Config, 0x06, 1)? & 0x10 != 0;
        Ok(if has_list { self.read(Part::Config, 0x34, 1)? & 0xfc } else { 0 })
    }

    pub(crate) fn capabilities(&mut self) -> Result<Vec<Capability>, Error> {
        let mut list: Vec<Capability> = Vec::new();
        let mut offset = self.first()?;
        while offset >= 0x40 && list.iter().all(|before| before.offset != offset) {
            let header = self.read(Part::Config, offset, 2)?;
            list.push(Capability { id: header as u8, offset });
            offset = header >> 8 & 0xfc;
        }
        Ok(list)
    }

    /// Returns the offset of the first structure with a Capability ID, and allocates no memory. A
    /// list without a loop has at most 48 structures.
    fn find(&mut self, id: u8) -> Result<Option<u64>, Error> {
        let mut offset = self.first()?;
        for _ in 0..48 {
            if offset < 0x40 {
                break;
            }
            let header = self.read(Part::Config, offset, 2)?;
            if header as u8 == id {
                return Ok(Some(offset));
            }
            offset = header >> 8 & 0xfc;
        }
        Ok(None)
    }

    /// Reads configuration space as the guest does.
    fn config(&mut self, offset: u64, width: u32) -> Result<u32, Error> {
        let (guest, slot) = (self.guest, self.slot);
        // SAFETY: `value` is a separate variable.
        valued(|value| unsafe {
            raw::pciguest_read(self.handle, guest, raw::CONFIG, slot, offset, width, value)
        })
    }

    fn command(&mut self) -> Result<u32, Error> {
        let command = self.config(0x04, 2)?;
        if command == 0xffff {
            answered(raw::EMPTY_SLOT)?; // nothing responds, since Command has fewer bits
        }
        Ok(command)
    }

    fn bus_master(&mut self) -> Result<bool, Error> {
        Ok(self.command()? & 0x4 != 0)
    }

    fn msi_message(&mut self, vector: u32) -> Result<Message, Error> {
        let is_master = self.bus_master()?;
        let Some(offset) = self.find(MSI)? else {
            return Ok(Message::default());
        };
        let control = self.read(Part::Config, offset + 2, 2)?;
        let allocated = 1 << (control >> 4 & 7).min(5); // 6 and 7 are reserved
        if vector >= allocated {
            answered(raw::OUT_OF_RANGE)?;
        }
        // an address of 64 bits moves what follows it
        let half = if control & 0x80 != 0 { 4 } else { 0 };
        let address = self.read(Part::Config, offset + 4, 4 + half)?;
        let half = u64::from(half);
        let data = self.read(Part::Config, offset + 8 + half, 2)? as u32;
        let has_masks = control & 0x100 != 0;
        let masks = if has_masks { self.read(Part::Config, offset + 12 + half, 4)? } else { 0 };
        let (is_enabled, is_masked) = (control & 1 != 0, masks >> vector & 1 != 0);
        let can_be_sent = is_master && is_enabled && !is_masked;
        let data = data & !(allocated - 1) | vector;
        Ok(Message { address, data, is_enabled, is_masked, can_be_sent })
    }

    /// Whether a bit of a byte of a structure is set, if the function has the structure.
    fn has_bit(&mut self, id: u8, at: u64, bit: u64) -> Result<bool, Error> {
        Ok(match self.find(id)? {
            Some(offset) => self.read(Part::Config, offset + at, 1)? & bit != 0,
            None => false,
        })
    }

    fn set_interrupt(&mut self, is_requested: bool) -> Result<bool, Error> {
        let (command, pin) = (self.command()?, self.config(0x3d, 1)?);
        let status = self.read(Part::Config, 0x06, 1)? & !0x08;
        let is_enabled = self.has_bit(MSI, 2, 0x01)? | self.has_bit(MSIX, 3, 0x80)?;
        self.write(Part::Config, 0x06, 1, status | u64::from(is_requested) << 3)?;
        Ok(is_requested && pin != 0 && command & 0x400 == 0 && !is_enabled)
    }

    fn msix_message(&mut self, vector: u32) -> Result<Message, Error> {
        let is_master = self.bus_master()?;
        let Some(offset) = self.find(MSIX)? else {
            return Ok(Message::default());
        };
        let control = self.read(Part::Config, offset + 2, 2)?;
        let table = self.read(Part::Config, offset + 4, 4)?;
        let register = (table & 7) as u8;
        if u64::from(vector) > control & 0x7ff || register > 5 {
            answered(raw::OUT_OF_RANGE)?;
        }
        let (part, first) = (Part::Region(register), (table & !7) + 16 * u64::from(vector));
        let address = self.read(part, first, 8)?;
        let data = self.read(part, first + 8, 8)?;
        let (is_enabled, is_masked) =
            (control & 0x8000 != 0, control & 0x4000 != 0 || data >> 32 & 1 != 0);
        let can_be_sent = is_master && is_enabled && !is_masked;
        Ok(Message { address, data: data as u32, is_enabled, is_masked, can_be_sent })
    }
}

impl Machine {
    /// Returns whether the function in a guest's slot may access memory by itself (DMA), that is,
    /// whether Bus Master, bit 2 of Command, is set in the guest's own Command (PCI Local Bus 3.0,
    /// 6.2.2). A device may access only the memory of the guest that has its function, and only
    /// while the bit is set. The library has no access to memory and can't enforce this, so a
    /// device model must make this call before it reads or writes memory. A reset or a move clears
    /// the bit. Changes nothing.
    ///
    /// # Errors
    ///
    /// 303: the slot is above 31. 601: the slot is empty. 902: there is no such guest.
    ///
    /// ```
    /// # const BOARD: &str = include_str!("board.toml");
    /// use pciguest::{At, Machine};
    ///
    /// let mut machine = Machine::new(BOARD)?;
    /// let a = machine.guest("a")?;
    /// assert!(!machine.bus_master(a, 0)?);
    /// machine.write(a, At::Config { slot: 0, offset: 4 }, 2, 0x0006)?; // memory and Bus Master
    /// assert!(machine.bus_master(a, 0)?);
    /// # Ok::<(), pciguest::Error>(())
    /// ```
    pub fn bus_master(&mut self, guest: Guest, slot: u64) -> Result<bool, Error> {
        DeviceSide::of(&mut self.handle, guest, slot).bus_master()
    }

    /// Returns the message that the function in a guest's slot sends for an MSI-X vector, and
    /// whether the function may send it now (PCI Local Bus 3.0, 6.8.2). Vectors are counted from 0.
    /// Finds the MSI-X structure in the capability list, and the table's region and offset in that
    /// structure. Reads these registers as the device does. If the function has no MSI-X structure,
    /// all fields are 0 or false. A message is a write to memory, so it can only be sent while Bus
    /// Master is set. The library doesn't set pending bits: a device model that can't send a
    /// message sets the vector's pending bit, and repeats the call when the guest has written
    /// Command, Message Control or the table. Changes nothing.
    ///
    /// # Errors
    ///
    /// 303: the slot is above 31, the table has no such vector, or the table isn't in a region of
    /// the function. 601: the slot is empty. 902: there is no such guest.
    ///
    /// ```
    /// # const BOARD: &str = include_str!("board.toml");
    /// use pciguest::{At, Machine};
    ///
    /// // a table of 4 vectors at the beginning of BAR 0
    /// let msix = "[[endpoint.capability]]\nid = 0x11\noff = 0x40\nblock = 10\n\
    ///             reset = \"03000000000000080000\"\nrw = \"00c00000000000000000\"\n";
    /// let mut machine = Machine::new([BOARD, msix].concat())?;
    /// let a = machine.guest("a")?;
    /// machine.write(a, At::Config { slot: 0, offset: 0x10 }, 4, 0x8000_0000)?;
    /// machine.write(a, At::Config { slot: 0, offset: 4 }, 2, 0x0006)?; // memory and Bus Master
    /// machine.write(a, At::Memory { address: 0x8000_0010 }, 4, 0xfee0_0000)?; // vector 1
    /// machine.write(a, At::Memory { address: 0x8000_0018 }, 4, 0x41)?;
    /// assert!(!machine.msix_message(a, 0, 1)?.can_be_sent);
    /// machine.write(a, At::Config { slot: 0, offset: 0x42 }, 2, 0x8000)?; // MSI-X Enable
    /// let message = machine.msix_message(a, 0, 1)?;
    /// assert_eq!((message.address, message.data, message.can_be_sent), (0xfee0_0000, 0x41, true));
    /// # Ok::<(), pciguest::Error>(())
    /// ```
    pub fn msix_message(&mut self, guest: Guest, slot: u64, vector: u32) -> Result<Message, Error> {
        DeviceSide::of(&mut self.handle, guest, slot).msix_message(vector)
    }

    /// Returns the message that the function in a guest's slot sends for an MSI vector, and whether
    /// the function may send it now (PCI Local Bus 3.0, 6.8.1). Vectors are counted from 0. The low
    /// bits of the data are the vector, as many bits as Multiple Message Enable says. `is_masked`
    /// can be true only if the structure has mask bits. If the function has no MSI structure, all
    /// fields are 0 or false. A device model repeats the call when the guest has written Command or
    /// the structure. Changes nothing.
    ///
    /// # Errors
    ///
    /// 303: the slot is above 31, the driver hasn't allocated the vector (vector 0 is always
    /// allocated), or the structure extends past FFh. 601: the slot is empty. 902: there is no such
    /// guest.
    pub fn msi_message(&mut self, guest: Guest, slot: u64, vector: u32) -> Result<Message, Error> {
        DeviceSide::of(&mut self.handle, guest, slot).msi_message(vector)
    }

    /// Sets or clears Interrupt Status, bit 3 of Status, of the function in a guest's slot, and
    /// returns whether the function asserts its interrupt pin now (PCI Local Bus 3.0, 6.2.2, 6.2.3
    /// and 6.8.1.3): the bit is set, the function has a pin, the guest's own Command doesn't set
    /// Interrupt Disable, and both MSI Enable and MSI-X Enable are clear. A device model sets the
    /// bit while it requests an interrupt, and repeats the call with the same value after a guest
    /// write to Command or to the capability list, and after a load.
    ///
    /// # Errors
    ///
    /// 303: the slot is above 31, or a structure of the capability list extends past FFh. 601: the
    /// slot is empty. 902: there is no such guest.
    ///
    /// ```
    /// # const BOARD: &str = include_str!("board.toml");
    /// use pciguest::{At, Machine};
    ///
    /// let mut machine = Machine::new(BOARD)?;
    /// let a = machine.guest("a")?;
    /// assert!(!machine.set_interrupt(a, 0, true)?); // the function has no pin
    /// assert_eq!(machine.read(a, At::Config { slot: 0, offset: 6 }, 2)? & 8, 8);
    /// # Ok::<(), pciguest::Error>(())
    /// ```
    pub fn set_interrupt(
        &mut self, guest: Guest, slot: u64, is_requested: bool,
    ) -> Result<bool, Error> {
        DeviceSide::of(&mut self.handle, guest, slot).set_interrupt(is_requested)
    }
}

impl Registers<'_> {
    /// Returns whether the device may access its guest's memory, as [`Machine::bus_master`] does.
    pub fn bus_master(&mut self) -> bool {
        let answer = DeviceSide::of(self.handle, self.guest, self.slot).bus_master();
        debug_assert!(answer.is_ok(), "the guest has the function");
        answer.unwrap_or(false)
    }

    /// Returns the message for an MSI-X vector, and whether the device may send it now, as
    /// [`Machine::msix_message`] does.
    ///
    /// # Errors
    ///
    /// 303: the MSI-X table has no such vector, or isn't in a region of the function.
    pub fn msix_message(&mut self, vector: u32) -> Result<Message, Error> {
        DeviceSide::of(self.handle, self.guest, self.slot).msix_message(vector)
    }

    /// Returns the message for an MSI vector, and whether the device may send it now, as
    /// [`Machine::msi_message`] does.
    ///
    /// # Errors
    ///
    /// 303: the driver hasn't allocated the vector, or the structure extends past FFh.
    pub fn msi_message(&mut self, vector: u32) -> Result<Message, Error> {
        DeviceSide::of(self.handle, self.guest, self.slot).msi_message(vector)
    }

    /// Sets or clears Interrupt Status, and returns whether the device asserts its interrupt pin
    /// now, as [`Machine::set_interrupt`] does.
    ///
    /// # Errors
    ///
    /// 303: a structure of the capability list extends past FFh.
    pub fn set_interrupt(&mut self, is_requested: bool) -> Result<bool, Error> {
        DeviceSide::of(self.handle, self.guest, self.slot).set_interrupt(is_requested)
    }

    /// Command as the guest has it.
    pub(crate) fn command(&mut self) -> Result<u16, Error> {
        let command = DeviceSide::of(self.handle, self.guest, self.slot).command();
        command.map(|command| command as u16)
    }
}

//! The places of accesses and raises, and of regions.

use crate::raw::{self, PART_CONFIG};

/// Not a part of a function: the library refuses it.
const NO_PART: u32 = PART_CONFIG + 1;

/// A guest of a machine, which [`Machine::guest`](crate::Machine::guest) finds by its name. In another machine,
/// it means the guest with the same index.
#[derive(Clone, Copy, Debug, PartialEq, Eq, Hash)]
pub struct Guest(usize);

impl Guest {
    /// The guest with an index: its position in the board file, from 0. If there is no such guest, calls are
    /// refused with 902.
    ///
    /// ```
    /// # const BOARD: &str = include_str!("board.toml");
    /// use pciguest::{Guest, Machine};
    ///
    /// let mut machine = Machine::new(BOARD)?;
    /// assert_eq!(machine.guest("a")?, Guest::of_index(0));
    /// assert_eq!(machine.changed(Guest::of_index(1)).unwrap_err().to_string(), "invalid argument (902)");
    /// # Ok::<(), pciguest::Error>(())
    /// ```
    pub fn of_index(index: usize) -> Guest {
        Guest(index)
    }

    /// The index.
    pub fn index(self) -> usize {
        self.0
    }
}

/// The place of a guest's access, as the guest sees it.
#[derive(Clone, Copy, Debug, PartialEq, Eq)]
pub enum At {
    /// The configuration space of the function in a slot.
    Config {
        /// 0 to 31.
        slot: u64,
        /// In bytes, 0 to 255.
        offset: u64,
    },
    /// I/O space.
    Io {
        /// 0 to FFFFFFFFh.
        port: u64,
    },
    /// Memory space.
    Memory {
        /// Any.
        address: u64,
    },
}

impl At {
    /// Space, slot and place, in the form that the header uses.
    pub(crate) fn parts(self) -> (u32, u64, u64) {
        match self {
            At::Config { slot, offset } => (raw::CONFIG, slot, offset),
            At::Io { port } => (raw::IO, 0, port),
            At::Memory { address } => (raw::MEMORY, 0, address),
        }
    }

    /// The place some bytes further on.
    pub(crate) fn further(self, bytes: u64) -> At {
        match self {
            At::Config { slot, offset } => At::Config { slot, offset: offset + bytes },
            At::Io { port } => At::Io { port: port + bytes },
            At::Memory { address } => At::Memory { address: address + bytes },
        }
    }
}

/// Where the host reads, and where firmware reads and writes: a place on the board.
#[derive(Clone, Copy, Debug, PartialEq, Eq)]
pub enum HostAt {
    /// The configuration space of a function.
    Config {
        /// The bus number.
        bus: u8,
        /// 0 to 31.
        device: u8,
        /// 0 to 7.
        function: u8,
        /// In bytes, 0 to 255.
        offset: u64,
    },
    /// I/O space.
    Io {
        /// 0 to FFFFFFFFh.
        port: u64,
    },
    /// Memory space.
    Memory {
        /// Any.
        address: u64,
    },
}

impl HostAt {
    /// Space, bus, device, function and place, in the form that the header uses.
    pub(crate) fn parts(self) -> (u32, u8, u8, u8, u64) {
        match self {
            HostAt::Config { bus, device, function, offset } => {
                (raw::CONFIG, bus, device, function, offset)
            }
            HostAt::Io { port } => (raw::IO, 0, 0, 0, port),
            HostAt::Memory { address } => (raw::MEMORY, 0, 0, 0, address),
        }
    }
}

/// A part of a function, which a device or a guest's access can reach.
#[derive(Clone, Copy, Debug, PartialEq, Eq)]
pub enum Part {
    /// Configuration space.
    Config,
    /// The region of a base address register, 0 to 5.
    Region(u8),
}

impl Part {
    /// The part, in the form that the header uses.
    pub(crate) fn number(self) -> u32 {
        match self {
            Part::Config => PART_CONFIG,
            Part::Region(register) if register < 6 => u32::from(register),
            Part::Region(_) => NO_PART,
        }
    }

    /// The part with a number that the library stores.
    fn of_number(number: u32) -> Part {
        match number {
            PART_CONFIG => Part::Config,
            register => Part::Region(register as u8),
        }
    }
}

/// The space of a region.
#[derive(Clone, Copy, Debug, PartialEq, Eq, Hash)]
pub enum Space {
    /// I/O space.
    Io,
    /// Memory space.
    Memory,
}

/// Where a region of a guest's function is now, according to the guest's own registers. It occupies `size`
/// addresses of its space, starting at `first`, and responds there while it is enabled.
#[derive(Clone, Copy, Debug, PartialEq, Eq)]
pub struct Region {
    /// The space.
    pub space: Space,
    /// The first address.
    pub first: u64,
    /// In bytes.
    pub size: u64,
    /// Whether it is prefetchable memory.
    pub prefetchable: bool,
    /// Whether the guest's Command enables the space.
    pub is_open: bool,
}

impl Region {
    pub(crate) fn of(told: &raw::Region) -> Region {
        Region {
            space: if told.space == raw::IO { Space::Io } else { Space::Memory },
            first: told.first,
            size: told.size,
            prefetchable: told.prefetchable != 0,
            is_open: told.is_open != 0,
        }
    }
}

/// The byte of a guest's function that an access reaches.
#[derive(Clone, Copy, Debug, PartialEq, Eq)]
pub struct Hit {
    /// 0 to 31.
    pub slot: u64,
    /// The region, or configuration space.
    pub part: Part,
    /// The offset in the part, in bytes.
    pub offset: u64,
}

impl Hit {
    pub(crate) fn of(told: &raw::Hit) -> Option<Hit> {
        (told.found != 0).then_some(Hit {
            slot: told.slot,
            part: Part::of_number(told.part),
            offset: told.offset,
        })
    }
}

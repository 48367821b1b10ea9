//! Descriptions of the board's functions.

use crate::error::{valued, Error};
use crate::machine::Machine;
use crate::place::{Guest, Space};
use crate::prelude::*;
use crate::raw;
use core::iter::FusedIterator;

/// The current state of a function of the board.
#[derive(Clone, Debug, PartialEq, Eq)]
pub struct Function {
    /// The path, as in board files: `2.0/1.0`.
    pub path: String,
    /// 0 on bus 0, else the Secondary Bus Number of the bridge above.
    pub bus: u8,
    /// 0 to 31.
    pub device: u8,
    /// 0 to 7.
    pub function: u8,
    /// The Vendor ID.
    pub vendor_id: u16,
    /// The Device ID.
    pub device_id: u16,
    /// The Revision ID.
    pub revision_id: u8,
    /// Base class, subclass and programming interface, 24 bits.
    pub class_code: u32,
    /// The Subsystem Vendor ID, 0 in a bridge.
    pub subsystem_vendor_id: u16,
    /// The Subsystem ID, 0 in a bridge.
    pub subsystem_id: u16,
    /// Its regions or windows.
    pub ranges: Ranges,
    /// The guest that has it, and its slot, if a guest has it.
    pub seat: Option<(Guest, u64)>,
    /// Its interrupt pin; all 0 in a [`BoardFunction`], because firmware reads the pin itself.
    pub interrupt: Interrupt,
}

/// The interrupt pin of a function, and where it reaches the board's bus 0. No interrupt is delivered.
#[derive(Clone, Copy, Debug, Default, PartialEq, Eq)]
pub struct Interrupt {
    /// From 1 for INTA# to 4 for INTD#; 0 where the function has none, as are then the next two.
    pub pin: u8,
    /// The device on the board's bus 0 that the pin reaches. (On the guest's own bus, the pin isn't routed.)
    pub root_device: u8,
    /// The pin of this device that it reaches: it moves on by the device number on each bus but bus 0.
    pub root_pin: u8,
    /// Interrupt Disable of Command, as the guest that has the function wrote it, else as on the board.
    pub is_disabled: bool,
}

/// A function of a [`Board`](crate::Board), according to its current registers.
#[derive(Clone, Debug, PartialEq, Eq)]
pub struct BoardFunction {
    /// What a [`Function`] describes. No guest has it, and its BDF is the one at which firmware looks for it.
    pub function: Function,
    /// Whether a configuration access to this BDF reaches it.
    pub is_found: bool,
    /// Whether its Command enables I/O space.
    pub opens_io: bool,
    /// Whether its Command enables memory space.
    pub opens_memory: bool,
}

/// The regions of an endpoint or the windows of a bridge, according to the registers on the board.
#[derive(Clone, Debug, PartialEq, Eq)]
pub enum Ranges {
    /// The regions of an endpoint, each at the index of its first base address register.
    Regions([Option<Bar>; 6]),
    /// The windows of a bridge. A window is `None` if the bridge doesn't have it, or if its base is above its
    /// limit.
    Windows {
        /// I/O.
        io: Option<Window>,
        /// Memory.
        memory: Option<Window>,
        /// Prefetchable memory.
        prefetchable: Option<Window>,
    },
}

/// A region, according to its base address register on the board. It occupies `size` addresses of its space,
/// starting at `first`.
#[derive(Clone, Copy, Debug, PartialEq, Eq)]
pub struct Bar {
    /// The space.
    pub space: Space,
    /// The first address.
    pub first: u64,
    /// In bytes.
    pub size: u64,
    /// Whether it is prefetchable memory.
    pub prefetchable: bool,
    /// Whether the next register contains the high half of the address.
    pub is_64_bit: bool,
}

/// The addresses that a bridge's window forwards.
#[derive(Clone, Copy, Debug, PartialEq, Eq)]
pub struct Window {
    /// The first address.
    pub first: u64,
    /// The last address, which is also forwarded.
    pub last: u64,
}

impl Function {
    pub(crate) fn of(told: &raw::Function) -> Function {
        Function {
            path: String::from_utf8_lossy(&told.path[..told.path_length]).into_owned(),
            bus: told.bus as u8,
            device: told.device as u8,
            function: told.function as u8,
            vendor_id: told.vendor_id as u16,
            device_id: told.device_id as u16,
            revision_id: told.revision_id as u8,
            class_code: told.class_code,
            subsystem_vendor_id: told.subsystem_vendor_id as u16,
            subsystem_id: told.subsystem_id as u16,
            ranges: Ranges::of(told),
            seat: (told.is_given != 0).then_some((Guest::of_index(told.guest), told.slot)),
            interrupt: Interrupt {
                pin: told.interrupt.pin as u8,
                root_device: told.interrupt.root_device as u8,
                root_pin: told.interrupt.root_pin as u8,
                is_disabled: told.interrupt.is_disabled != 0,
            },
        }
    }

    /// Whether the function is a bridge.
    pub fn is_bridge(&self) -> bool {
        matches!(self.ranges, Ranges::Windows { .. })
    }
}

impl BoardFunction {
    pub(crate) fn of(told: &raw::BoardFunction) -> BoardFunction {
        BoardFunction {
            function: Function::of(&told.function),
            is_found: told.is_found != 0,
            opens_io: told.opens_io != 0,
            opens_memory: told.opens_memory != 0,
        }
    }
}

impl Ranges {
    fn of(told: &raw::Function) -> Ranges {
        if told.is_bridge == 0 {
            return Ranges::Regions(told.regions.map(|bar| Bar::of(&bar)));
        }
        let [io, memory, prefetchable] = told.windows.map(|window| Window::of(&window));
        Ranges::Windows { io, memory, prefetchable }
    }
}

impl Bar {
    fn of(told: &raw::Bar) -> Option<Bar> {
        (told.size != 0).then_some(Bar {
            space: if told.space == raw::IO { Space::Io } else { Space::Memory },
            first: told.first,
            size: told.size,
            prefetchable: told.prefetchable != 0,
            is_64_bit: told.is_64_bit != 0,
        })
    }
}

impl Window {
    fn of(told: &raw::Window) -> Option<Window> {
        (told.is_there != 0).then_some(Window { first: told.first, last: told.last })
    }
}

impl Machine {
    /// Returns how many functions the board has, endpoints and bridges.
    ///
    /// ```
    /// # const BOARD: &str = include_str!("board.toml");
    /// assert_eq!(pciguest::Machine::new(BOARD)?.count()?, 1);
    /// # Ok::<(), pciguest::Error>(())
    /// ```
    pub fn count(&mut self) -> Result<usize, Error> {
        // SAFETY: `count` is a separate variable.
        valued(|count| unsafe { raw::pciguest_count(&mut self.handle, count) })
    }

    /// Returns the function at an index, in path order. Addresses of regions, windows and the BDF come from the
    /// board's own registers. Changes nothing. 902: there is no such function.
    ///
    /// ```
    /// # const BOARD: &str = include_str!("board.toml");
    /// let mut machine = pciguest::Machine::new(BOARD)?;
    /// let function = machine.function(0)?;
    /// assert_eq!((function.bus, function.device, function.function), (0, 1, 0));
    /// assert_eq!((function.interrupt.pin, function.interrupt.is_disabled), (0, false));
    /// assert!(!function.is_bridge());
    /// assert_eq!(machine.function(1).unwrap_err().to_string(), "invalid argument (902)");
    /// # Ok::<(), pciguest::Error>(())
    /// ```
    pub fn function(&mut self, index: usize) -> Result<Function, Error> {
        // SAFETY: `told` is a separate variable.
        valued(|told| unsafe { raw::pciguest_function(&mut self.handle, index, told) })
            .map(|told| Function::of(&told))
    }

    /// Returns all functions of the board, in path order.
    ///
    /// ```
    /// # const BOARD: &str = include_str!("board.toml");
    /// use pciguest::{Machine, Ranges};
    ///
    /// let mut machine = Machine::new(BOARD)?;
    /// for function in machine.functions() {
    ///     assert_eq!((function.path.as_str(), function.vendor_id), ("1.0", 0x1234));
    ///     assert_eq!(function.seat.map(|(guest, slot)| (guest.index(), slot)), Some((0, 0)));
    ///     let Ranges::Regions(regions) = function.ranges else { panic!("a bridge") };
    ///     assert_eq!(regions[0].map(|region| (region.first, region.size)), Some((0xc000_0000, 4096)));
    /// }
    /// # Ok::<(), pciguest::Error>(())
    /// ```
    pub fn functions(&mut self) -> Functions<'_> {
        Functions::of(self)
    }

    /// Returns the function in a guest's slot.
    ///
    /// # Errors
    ///
    /// 303: the slot is above 31. 601: the slot is empty. 902: there is no such guest.
    ///
    /// ```
    /// # const BOARD: &str = include_str!("board.toml");
    /// let mut machine = pciguest::Machine::new(BOARD)?;
    /// let a = machine.guest("a")?;
    /// assert_eq!(machine.slot_function(a, 0)?.path, "1.0");
    /// assert_eq!(machine.slot_function(a, 1).unwrap_err().to_string(), "slot is empty (601)");
    /// # Ok::<(), pciguest::Error>(())
    /// ```
    pub fn slot_function(&mut self, guest: Guest, slot: u64) -> Result<Function, Error> {
        // SAFETY: `told` is a separate variable.
        valued(|told| unsafe { raw::pciguest_slot(&mut self.handle, guest.index(), slot, told) })
            .map(|told| Function::of(&told))
    }
}

/// The functions of a board, in path order: [`Machine::functions`](crate::Machine::functions).
#[derive(Debug)]
pub struct Functions<'a> {
    machine: &'a mut Machine,
    next: usize,
}

impl<'a> Functions<'a> {
    pub(crate) fn of(machine: &'a mut Machine) -> Functions<'a> {
        Functions { machine, next: 0 }
    }
}

impl Iterator for Functions<'_> {
    type Item = Function;

    /// The next function, or `None` after the last one, for which the library returns 902.
    fn next(&mut self) -> Option<Function> {
        let function = self.machine.function(self.next).ok()?;
        self.next += 1;
        Some(function)
    }
}

impl FusedIterator for Functions<'_> {}

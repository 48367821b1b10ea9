//! A PCI board, its firmware, and the monitor that assigns its functions to guests: pciguest's proved library,
//! in Rust.
//!
//! A [`Machine`] is a board that was set up from a board file, with its guests. Accesses, raises, moves and
//! script lines are calls on it. A [`Board`] is a board that your own firmware drives, from reset. A
//! [`DeviceModel`] acts when the driver of its function accesses its registers. A [`GuestBus`] accepts trapped
//! accesses in the form in which hypervisors in Rust forward them. `docs/board-file.md`,
//! `docs/script-language.md` and `docs/errors.md` explain board files, lines and error numbers, and
//! `docs/library-c.md` says what is proved about the library. This crate is tested, but not proved.
//!
//! ```
//! use pciguest::{At, HostAt, Machine};
//!
//! let board = r#"
//!     [host]
//!     io = [0x1000, 0xffff]
//!     mem = [0xc0000000, 0xdfffffff]
//!
//!     [[endpoint]]
//!     at = "1.0"
//!     vendor = 0x1234
//!     device = 0x0001
//!     class = 0xff0000
//!     bar = [ { index = 0, kind = "mem32", size = 4096, block = 64, rw = "ff" } ]
//!
//!     [[guest]]
//!     name = "a"
//!     slots = ["1.0"]
//! "#;
//! let mut machine = Machine::new(board)?;
//! let a = machine.guest("a")?;
//!
//! assert_eq!(machine.read(a, At::Config { slot: 0, offset: 0 }, 4)?, 0x0001_1234);
//! machine.write(a, At::Config { slot: 0, offset: 0x10 }, 4, 0x8000_0000)?;
//! assert_eq!(machine.read(a, At::Config { slot: 0, offset: 0x10 }, 4)?, 0x8000_0000);
//!
//! // The board's own register stays as set-up left it.
//! let register = HostAt::Config { bus: 0, device: 1, function: 0, offset: 0x10 };
//! assert_eq!(machine.host_read(register, 4)?, 0xc000_0000);
//! # Ok::<(), pciguest::Error>(())
//! ```
//!
//! Don't use either in a signal handler, or in a child that a process with several threads forked.

#![warn(missing_docs)]
#![cfg_attr(not(feature = "std"), no_std)]

extern crate alloc;

use pciguest_sys as raw;

/// What the standard library's prelude contains and that of `alloc` doesn't.
mod prelude {
    pub(crate) use alloc::borrow::ToOwned;
    pub(crate) use alloc::boxed::Box;
    pub(crate) use alloc::string::String;
    pub(crate) use alloc::vec::Vec;
    pub(crate) use alloc::{format, vec};
}

#[cfg(feature = "std")]
mod acting;
mod attached;
mod board;
#[cfg(feature = "std")]
mod bus;
mod declared;
mod device;
mod device_side;
mod differs;
mod error;
mod function;
mod image;
mod image_fault;
mod limits;
mod lines;
#[cfg(feature = "std")]
mod load;
mod machine;
mod moved;
mod place;
mod region;
mod structure;
mod text;
mod touch;
mod wide;

pub use attached::NotAttached;
pub use board::{Audit, Board, NotGiven, Readiness};
#[cfg(feature = "std")]
pub use bus::{GuestBus, RegionMove, SlotConfig};
pub use declared::{Declaration, Kind, Register};
pub use device::{DeviceModel, Registers};
pub use device_side::{Capability, Message};
pub use differs::Difference;
pub use error::{Error, Refusal};
pub use function::{Bar, BoardFunction, Function, Functions, Interrupt, Ranges, Window};
pub use image_fault::ImageFault;
pub use limits::{limits, Limits};
pub use machine::Machine;
pub use moved::{Moved, Places};
pub use place::{At, Guest, Hit, HostAt, Part, Region, Space};
pub use structure::Structure;
pub use text::{check, report, report_json, strerror, version, Check};

#[cfg(feature = "std")]
pub use load::LoadError;

//! The main board and its guests.

// no test uses all of it
#![allow(dead_code)]

use pciguest::{At, Error, Guest, Machine};

pub const BOARD: &str = include_str!("../../../../boards/main.toml");

pub fn config(slot: u64, offset: u64) -> At {
    At::Config { slot, offset }
}

pub fn memory(address: u64) -> At {
    At::Memory { address }
}

/// The machine of a board, and its guests.
pub fn start(board: &str) -> Result<(Machine, Guest, Guest), Error> {
    let mut machine = Machine::new(board)?;
    let (a, b) = (machine.guest("a")?, machine.guest("b")?);
    Ok((machine, a, b))
}

/// The number by which a call is refused.
pub fn number<T>(answer: Result<T, Error>) -> u32 {
    answer.err().expect("a refusal").number()
}

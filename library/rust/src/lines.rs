//! The guest accesses that script lines ask for. The library decides whether a line is valid, so the results
//! here count only if its reply says that the line was executed.

use crate::place::{At, Guest};
use crate::prelude::*;

/// An access of a guest, and for a write its value.
#[derive(Clone, Copy)]
pub(crate) struct Asked {
    pub(crate) guest: Guest,
    pub(crate) at: At,
    pub(crate) width: u32,
    pub(crate) written: Option<u32>,
}

/// What a line asks for, if that is an access of a guest.
pub(crate) fn asked_by(
    line: &[u8], mut guest_of: impl FnMut(&str) -> Option<Guest>,
) -> Option<Asked> {
    let mut words = core::str::from_utf8(line).ok()?.split_ascii_whitespace();
    let (name, verb) = (words.next()?, words.next()?);
    let numbers: Vec<u64> = words.map(number_of).collect::<Option<_>>()?;
    let (space, is_write) = match *verb.as_bytes() {
        [space, b'r'] => (space, false),
        [space, b'w'] => (space, true),
        _ => return None,
    };
    let (at, rest) = match (space, numbers.as_slice()) {
        (b'c', &[slot, offset, ref rest @ ..]) => (At::Config { slot, offset }, rest),
        (b'i', &[port, ref rest @ ..]) => (At::Io { port }, rest),
        (b'm', &[address, ref rest @ ..]) => (At::Memory { address }, rest),
        _ => return None,
    };
    let (width, written) = match (rest, is_write) {
        (&[width], false) => (width, None),
        (&[width, value], true) => (width, Some(u32::try_from(value).ok()?)),
        _ => return None,
    };
    Some(Asked { guest: guest_of(name)?, at, width: u32::try_from(width).ok()?, written })
}

/// The number in a word of a line, if it is one below 2^64.
fn number_of(word: &str) -> Option<u64> {
    let (digits, radix) = match word.strip_prefix("0x").or(word.strip_prefix("0X")) {
        Some(digits) => (digits, 16),
        None => (word, 10),
    };
    let is_plain = digits.chars().all(|digit| digit.is_digit(radix));
    is_plain.then(|| u64::from_str_radix(digits, radix).ok())?
}

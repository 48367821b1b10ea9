//! Reports on board files, error messages and the library's version, for which no machine is needed; and
//! replies to lines.

use crate::error::{answered, Error};
use crate::prelude::*;
use crate::raw::{
    pciguest_check, pciguest_report, pciguest_report_json, pciguest_strerror, pciguest_version,
    ARGUMENT, REPLY,
};
use core::ffi::CStr;

/// The result of checking a board file.
#[derive(Clone, Debug, PartialEq, Eq)]
pub struct Check {
    /// What is wrong with the file, or that its board fits, like `pciguest check --plain board.toml`, without
    /// the warnings that `--all` adds.
    pub text: String,
    /// Why the file or its board is refused, if it is.
    pub refusal: Option<Error>,
}

/// Returns the report of a board file, like `pciguest list`.
///
/// # Errors
///
/// Those of [`Machine::new`](crate::Machine::new).
///
/// ```
/// # const BOARD: &str = include_str!("board.toml");
/// assert!(pciguest::report(BOARD)?.starts_with("endpoints 1 bridges 0\n00:01.0 1.0 endpoint 1234:0001\n"));
/// # Ok::<(), pciguest::Error>(())
/// ```
pub fn report(board: impl AsRef<[u8]>) -> Result<String, Error> {
    let board = board.as_ref();
    // SAFETY: `board` has the given length, and so has the text; nothing overlaps.
    text_of(4096, |text, room, needed| unsafe {
        pciguest_report(board.as_ptr(), board.len(), text, room, needed)
    })
}

/// Returns the [report] of a board file as a JSON object on one line, like `pciguest list --json`. Refused as
/// the report is.
///
/// ```
/// # const BOARD: &str = include_str!("board.toml");
/// assert!(pciguest::report_json(BOARD)?.starts_with("{\"bridges\":0,\"endpoints\":1,"));
/// # Ok::<(), pciguest::Error>(())
/// ```
pub fn report_json(board: impl AsRef<[u8]>) -> Result<String, Error> {
    let board = board.as_ref();
    // SAFETY: as for a report.
    text_of(4096, |text, room, needed| unsafe {
        pciguest_report_json(board.as_ptr(), board.len(), text, room, needed)
    })
}

/// Checks a board file, and returns everything that is wrong with it, or that its board fits.
///
/// # Errors
///
/// Only 199 and 299, if memory runs out. If a file is refused, the result contains the refusal and the text.
///
/// ```
/// let check = pciguest::check("[host]\nio = [0x1000, 0xffff]\nmem = 7\n")?;
/// assert_eq!(check.refusal.unwrap().to_string(), "required key is missing, or value has the wrong form (102)");
/// assert!(check.text.starts_with("board.toml:3:7: error: host: mem = 7"));
/// # Ok::<(), pciguest::Error>(())
/// ```
pub fn check(board: impl AsRef<[u8]>) -> Result<Check, Error> {
    let board = board.as_ref();
    // SAFETY: as for a report.
    let (number, text) = told(4096, |text, room, needed| unsafe {
        pciguest_check(board.as_ptr(), board.len(), text, room, needed)
    });
    match answered(number) {
        Err(Error::Memory(refusal)) => Err(Error::Memory(refusal)),
        answer => Ok(Check { text, refusal: answer.err() }),
    }
}

/// Returns the message that says what an error number means. It is empty for a number without a meaning.
///
/// ```
/// assert_eq!(pciguest::strerror(602), "slot already contains a function");
/// assert_eq!(pciguest::strerror(0), "");
/// ```
pub fn strerror(number: u32) -> &'static str {
    // SAFETY: for any number, the library returns a static text that ends with a 0.
    let text = unsafe { CStr::from_ptr(pciguest_strerror(number)) };
    text.to_str().unwrap_or_default()
}

/// Returns the version of the library that is linked, as a number that increases from version to version: 10000
/// times the major version, 100 times the minor one, and the patch.
///
/// ```
/// assert_eq!(pciguest::version() / 10000, 0);
/// ```
pub fn version() -> u32 {
    // SAFETY: the call has no arguments.
    unsafe { pciguest_version() }
}

/// Makes a call that writes a text, with so much room; if that is too little, again with enough. Returns the
/// number that the call returns, and the text.
fn told(room: usize, mut call: impl FnMut(*mut u8, usize, &mut usize) -> u32) -> (u32, String) {
    let mut text = vec![0; room];
    let mut needed = 0;
    let mut number = call(text.as_mut_ptr(), text.len(), &mut needed);
    if number == ARGUMENT && needed > text.len() {
        text.resize(needed, 0);
        number = call(text.as_mut_ptr(), text.len(), &mut needed);
    }
    text.truncate(needed);
    (number, String::from_utf8_lossy(&text).into_owned())
}

/// The text that such a call writes.
pub(crate) fn text_of(
    room: usize, call: impl FnMut(*mut u8, usize, &mut usize) -> u32,
) -> Result<String, Error> {
    let (number, text) = told(room, call);
    answered(number).map(|()| text)
}

/// Runs a line by a call. If the reply needs more room, nothing has changed, and the line runs again. The reply
/// has no line feed; a blank line or a comment has no reply.
pub(crate) fn reply_to(
    line: &[u8], mut call: impl FnMut(*const u8, usize, *mut u8, usize, &mut usize) -> u32,
) -> Result<Option<String>, Error> {
    let text =
        text_of(REPLY, |text, room, needed| call(line.as_ptr(), line.len(), text, room, needed))?;
    Ok(text.strip_suffix('\n').map(str::to_owned))
}

//! A board that your own firmware drives, from reset.

use crate::error::{answered, valued, Error};
use crate::function::BoardFunction;
use crate::machine::Machine;
use crate::place::HostAt;
use crate::prelude::*;
use crate::raw::{self, BoardHandle};
use crate::text::{reply_to, text_of};
use core::fmt;
use core::ptr::null_mut;

/// What is wrong in the registers of a board.
#[derive(Clone, Debug, PartialEq, Eq)]
pub struct Audit {
    /// A line for each problem, and a last line that counts them.
    pub text: String,
    /// How many problems there are.
    pub problems: usize,
}

/// What is wrong in the registers of a board, and what is left to do.
#[derive(Clone, Debug, PartialEq, Eq)]
pub struct Readiness {
    /// A line for each problem and each thing that is left to do, and a last line that counts them.
    pub text: String,
    /// How many problems and things that are left to do there are. If there are none, the board is ready.
    pub lacks: usize,
}

/// A call that writes a text and stores a count.
type TextCall =
    unsafe extern "C" fn(*mut BoardHandle, *mut u8, usize, *mut usize, *mut usize) -> u32;

/// A board that your own firmware drives, from reset: the firmware assigns bus numbers, and addresses to
/// regions. Dropping the board frees its memory.
///
/// Each call takes the board mutably, as for a [`Machine`].
///
/// ```
/// # const BOARD: &str = include_str!("board.toml");
/// use pciguest::{Board, HostAt};
///
/// let mut board = Board::new(BOARD)?;
/// let on_bus_0 = |offset| HostAt::Config { bus: 0, device: 1, function: 0, offset };
/// assert_eq!(board.read(on_bus_0(0), 4)?, 0x0001_1234);
/// board.write(on_bus_0(0x10), 4, 0xffff_ffff)?; // how large is its region?
/// assert_eq!(!board.read(on_bus_0(0x10), 4)? + 1, 4096);
/// board.write(on_bus_0(0x10), 4, 0xd000_0000)?; // the address of its region
/// board.write(on_bus_0(4), 2, 2)?; // memory on
/// board.write(HostAt::Memory { address: 0xd000_0010 }, 4, 0x1234_5678)?;
/// assert_eq!(board.read(HostAt::Memory { address: 0xd000_0010 }, 2)?, 0x5678);
/// # Ok::<(), pciguest::Error>(())
/// ```
pub struct Board {
    handle: BoardHandle,
}

// SAFETY: as for `Machine`.
unsafe impl Send for Board {}

impl Board {
    /// Returns the board of a board file in its reset state. The guests of the file are checked, but they
    /// aren't assigned any functions.
    ///
    /// # Errors
    ///
    /// The number of the first check that the file fails, or 199 if memory runs out.
    ///
    /// ```
    /// let refused = pciguest::Board::new("x = 1").unwrap_err();
    /// assert_eq!(refused.to_string(), "required key is missing, or value has the wrong form (102)");
    /// ```
    pub fn new(file: impl AsRef<[u8]>) -> Result<Board, Error> {
        let file = file.as_ref();
        let mut handle = BoardHandle { live: false, at: null_mut() };
        // SAFETY: the handle is empty, and `file` has the given length.
        answered(unsafe { raw::pciguest_board_new(&mut handle, file.as_ptr(), file.len()) })?;
        Ok(Board { handle })
    }

    /// Reads 1, 2 or 4 bytes as firmware does, whatever the registers contain: all ones if nothing responds. A
    /// configuration read by BDF sets CONFIG_ADDRESS to 0. Apart from that, a read changes nothing.
    ///
    /// # Errors
    ///
    /// 302: the width isn't 1, 2 or 4. 301: the offset, port or address isn't a multiple of the width. 303: the
    /// offset is above 255, or the port above FFFFFFFFh. 902: the device is above 31, or the function above 7.
    ///
    /// ```
    /// # const BOARD: &str = include_str!("board.toml");
    /// use pciguest::{Board, HostAt};
    ///
    /// let mut board = Board::new(BOARD)?;
    /// board.write(HostAt::Io { port: 0xcf8 }, 4, 0x8000_0800)?; // CONFIG_ADDRESS: device 1 of bus 0
    /// assert_eq!(board.read(HostAt::Io { port: 0xcfc }, 4)?, 0x0001_1234);
    /// assert_eq!(board.read(HostAt::Memory { address: 0xd000_0000 }, 4)?, 0xffff_ffff); // nothing responds
    /// # Ok::<(), pciguest::Error>(())
    /// ```
    pub fn read(&mut self, at: HostAt, width: u32) -> Result<u32, Error> {
        let ((space, bus, device, function, place), board) = (at.parts(), &mut self.handle);
        // SAFETY: `value` is a separate variable.
        valued(|value| unsafe {
            raw::pciguest_board_read(board, space, bus, device, function, place, width, value)
        })
    }

    /// Writes the low 1, 2 or 4 bytes of a value as firmware does. If nothing responds, the write is dropped. A
    /// configuration write by BDF sets CONFIG_ADDRESS to 0. Refused as a read is.
    ///
    /// ```
    /// # const BOARD: &str = include_str!("board.toml");
    /// use pciguest::{Board, HostAt};
    ///
    /// let mut board = Board::new(BOARD)?;
    /// let command = HostAt::Config { bus: 0, device: 1, function: 0, offset: 4 };
    /// board.write(command, 2, 0x0003)?; // decodes I/O and memory
    /// assert_eq!(board.read(command, 2)?, 0x0003);
    /// # Ok::<(), pciguest::Error>(())
    /// ```
    pub fn write(&mut self, at: HostAt, width: u32, value: u32) -> Result<(), Error> {
        let ((space, bus, device, function, place), board) = (at.parts(), &mut self.handle);
        // SAFETY: no pointer except the handle is passed.
        answered(unsafe {
            raw::pciguest_board_write(board, space, bus, device, function, place, width, value)
        })
    }

    /// Runs one line, as `pciguest firmware` does, and returns the reply. The line is one of these: an access
    /// by firmware; `host audit`, `host ready` or `host why ..`, which report something and change nothing; or
    /// `host guests`, which hands the board over to the guests in its file, or says why it can't. After `host
    /// guests`, the lines are script lines, and every other call of the board is refused with 901;
    /// [`into_guests`](Board::into_guests) returns the [`Machine`].
    ///
    /// Lines and replies are like those of [`Machine::run_line`], but the reply to a query or to `host guests`
    /// can have several lines.
    ///
    /// # Errors
    ///
    /// 299: memory runs out for a query or for `host guests`; then nothing has changed.
    ///
    /// ```
    /// # const BOARD: &str = include_str!("board.toml");
    /// let mut board = pciguest::Board::new(BOARD)?;
    /// assert_eq!(board.run_line("host cw 00:01.0 4 2 2")?.as_deref(), Some("host: ok"));
    /// assert_eq!(board.run_line("host cr 00:01.0 4 2")?.as_deref(), Some("host: 0x0002"));
    /// assert_eq!(board.run_line("host audit")?.as_deref(), Some("audit: ok"));
    /// assert_eq!(board.run_line("host guests")?.as_deref(), Some("host: ok"));
    /// assert_eq!(board.run_line("a cr 0 0 4")?.as_deref(), Some("a: 0x00011234"));
    /// # Ok::<(), pciguest::Error>(())
    /// ```
    pub fn run_line(&mut self, line: impl AsRef<[u8]>) -> Result<Option<String>, Error> {
        reply_to(line.as_ref(), |line, length, reply, room, written| {
            // SAFETY: `line` and `reply` have the given lengths, and nothing overlaps.
            unsafe {
                raw::pciguest_board_run_line(&mut self.handle, line, length, reply, room, written)
            }
        })
    }

    /// Returns how many functions the board has, endpoints and bridges.
    ///
    /// ```
    /// # const BOARD: &str = include_str!("board.toml");
    /// assert_eq!(pciguest::Board::new(BOARD)?.count()?, 1);
    /// # Ok::<(), pciguest::Error>(())
    /// ```
    pub fn count(&mut self) -> Result<usize, Error> {
        // SAFETY: `count` is a separate variable.
        valued(|count| unsafe { raw::pciguest_board_count(&mut self.handle, count) })
    }

    /// Returns the function at an index, in path order, according to the current registers. Changes nothing,
    /// not even CONFIG_ADDRESS. 902: there is no such function.
    ///
    /// ```
    /// # const BOARD: &str = include_str!("board.toml");
    /// use pciguest::{Board, HostAt, Ranges};
    ///
    /// let mut board = Board::new(BOARD)?;
    /// let register = |offset| HostAt::Config { bus: 0, device: 1, function: 0, offset };
    /// board.write(register(0x10), 4, 0xd000_0000)?;
    /// let told = board.function(0)?;
    /// assert!(told.is_found && !told.opens_memory); // on bus 0, it is found at reset; its region is still disabled
    /// let Ranges::Regions(regions) = told.function.ranges else { panic!("a bridge") };
    /// assert_eq!(regions[0].map(|region| (region.first, region.size)), Some((0xd000_0000, 4096)));
    /// # Ok::<(), pciguest::Error>(())
    /// ```
    pub fn function(&mut self, index: usize) -> Result<BoardFunction, Error> {
        // SAFETY: `told` is a separate variable.
        valued(|told| unsafe { raw::pciguest_board_function(&mut self.handle, index, told) })
            .map(|told| BoardFunction::of(&told))
    }

    /// Returns all functions of the board, in path order.
    ///
    /// ```
    /// # const BOARD: &str = include_str!("board.toml");
    /// let mut board = pciguest::Board::new(BOARD)?;
    /// assert!(board.functions()?.iter().all(|told| told.function.path == "1.0"));
    /// # Ok::<(), pciguest::Error>(())
    /// ```
    pub fn functions(&mut self) -> Result<Vec<BoardFunction>, Error> {
        (0..self.count()?).map(|index| self.function(index)).collect()
    }

    /// Returns what is wrong in the registers, no matter who wrote them: bytes of enabled regions that a bridge
    /// above doesn't forward, addresses at which two functions on one bus respond, and functions that no
    /// configuration cycle reaches. Changes nothing.
    ///
    /// # Errors
    ///
    /// Only 299, if memory runs out.
    ///
    /// ```
    /// # const BOARD: &str = include_str!("board.toml");
    /// let mut board = pciguest::Board::new(BOARD)?;
    /// let audit = board.audit()?;
    /// assert_eq!((audit.text.as_str(), audit.problems), ("audit: ok\n", 0));
    /// # Ok::<(), pciguest::Error>(())
    /// ```
    pub fn audit(&mut self) -> Result<Audit, Error> {
        let (text, problems) = self.counted(raw::pciguest_board_audit)?;
        Ok(Audit { text, problems })
    }

    /// Returns an [audit](Board::audit) as a JSON object on one line, like `pciguest audit --json`.
    ///
    /// # Errors
    ///
    /// Only 299, if memory runs out.
    ///
    /// ```
    /// # const BOARD: &str = include_str!("board.toml");
    /// assert_eq!(pciguest::Board::new(BOARD)?.audit_json()?, "{\"problems\":[]}\n");
    /// # Ok::<(), pciguest::Error>(())
    /// ```
    pub fn audit_json(&mut self) -> Result<String, Error> {
        Ok(self.counted(raw::pciguest_board_audit_json)?.0)
    }

    /// Returns what is wrong in the registers and what is left to do, no matter who wrote them. The report
    /// begins with the lines of an [audit](Board::audit). Then it lists regions that are disabled, outside the
    /// apertures, or prefetched although they aren't prefetchable, and bridges whose Primary Bus Number isn't
    /// the number of their bus. Changes nothing.
    ///
    /// # Errors
    ///
    /// Only 299, if memory runs out.
    ///
    /// ```
    /// # const BOARD: &str = include_str!("board.toml");
    /// let mut board = pciguest::Board::new(BOARD)?;
    /// let ready = board.ready()?;
    /// assert!(ready.lacks > 0 && ready.text.ends_with(" decode is disabled\nready: 1 left to do\n"));
    /// # Ok::<(), pciguest::Error>(())
    /// ```
    pub fn ready(&mut self) -> Result<Readiness, Error> {
        let (text, lacks) = self.counted(raw::pciguest_board_ready)?;
        Ok(Readiness { text, lacks })
    }

    /// Returns whether the board is [ready](Board::ready), as a JSON object on one line, like `pciguest ready
    /// --json`.
    ///
    /// # Errors
    ///
    /// Only 299, if memory runs out.
    ///
    /// ```
    /// # const BOARD: &str = include_str!("board.toml");
    /// let ready = pciguest::Board::new(BOARD)?.ready_json()?;
    /// assert!(ready.starts_with("{\"lacks\":[{\"region\":{\"bar\":0,") && ready.ends_with(",\"problems\":[]}\n"));
    /// # Ok::<(), pciguest::Error>(())
    /// ```
    pub fn ready_json(&mut self) -> Result<String, Error> {
        Ok(self.counted(raw::pciguest_board_ready_json)?.0)
    }

    /// Explains what an access reaches, and why, or why it reaches nothing. Returns everything that `host why
    /// ..` reports, as a JSON object on one line. For configuration space, the offset is ignored. Changes
    /// nothing, not even CONFIG_ADDRESS.
    ///
    /// # Errors
    ///
    /// 902: the device is above 31, or the function above 7. 299: memory runs out.
    ///
    /// ```
    /// # const BOARD: &str = include_str!("board.toml");
    /// use pciguest::{Board, HostAt};
    ///
    /// let mut board = Board::new(BOARD)?;
    /// assert_eq!(
    ///     board.why_json(HostAt::Memory { address: 0xd000_0000 })?,
    ///     "{\"found\":{\"answer\":null,\"at_reset\":0,\"forwards\":[],\"regions\":[]},\"latch\":null}\n"
    /// );
    /// # Ok::<(), pciguest::Error>(())
    /// ```
    pub fn why_json(&mut self, at: HostAt) -> Result<String, Error> {
        let ((space, bus, device, function, at), board) = (at.parts(), &mut self.handle);
        // SAFETY: the text has the given length, and nothing overlaps.
        text_of(1024, |text, room, needed| unsafe {
            raw::pciguest_board_why_json(
                board, space, bus, device, function, at, text, room, needed,
            )
        })
    }

    fn counted(&mut self, call: TextCall) -> Result<(String, usize), Error> {
        let mut count = 0;
        // SAFETY: the text has the given length, and nothing overlaps.
        let text = text_of(1024, |text, room, needed| unsafe {
            call(&mut self.handle, text, room, needed, &mut count)
        })?;
        Ok((text, count))
    }

    /// Returns the machine that [`Machine::new`] makes of the same file, with the built-in set-up instead of
    /// your own firmware. The board must be in its reset state, and isn't changed.
    ///
    /// # Errors
    ///
    /// 904: there was a write since the reset. Otherwise 201 to 205, or 199 or 299 if memory runs out.
    ///
    /// ```
    /// # const BOARD: &str = include_str!("board.toml");
    /// use pciguest::{Board, HostAt};
    ///
    /// let mut board = Board::new(BOARD)?;
    /// let register = HostAt::Config { bus: 0, device: 1, function: 0, offset: 0x10 };
    /// let mut machine = board.set_up()?;
    /// assert_eq!(machine.host_read(register, 4)?, 0xc000_0000);
    /// board.write(register, 4, 0)?;
    /// assert_eq!(board.set_up().unwrap_err().to_string(), "board has been written to since reset (904)");
    /// # Ok::<(), pciguest::Error>(())
    /// ```
    pub fn set_up(&mut self) -> Result<Machine, Error> {
        // SAFETY: the handle is empty, and the two handles don't overlap.
        Machine::made_by(|machine| unsafe { raw::pciguest_set_up(&mut self.handle, machine) })
    }

    /// Assigns the board's functions to the guests in its file, and returns the machine. It doesn't matter who
    /// set the board up. Each assigned function is first reset, except for the registers of which guests have
    /// copies. If `host guests` ([`run_line`](Board::run_line)) handed the board over before, the machine
    /// consists of those guests as they are now.
    ///
    /// # Errors
    ///
    /// Returns the unchanged board with the reason. 207: the [audit](Board::audit) reports a problem. 206: a
    /// region of a function that is to be assigned is disabled. 299: memory runs out.
    ///
    /// ```
    /// # const BOARD: &str = include_str!("board.toml");
    /// use pciguest::{At, Board, HostAt, NotGiven};
    ///
    /// let mut board = Board::new(BOARD)?;
    /// let register = |offset| HostAt::Config { bus: 0, device: 1, function: 0, offset };
    /// board.write(register(0x10), 4, 0xd000_0000)?;
    /// let NotGiven { mut board, error } = board.into_guests().unwrap_err();
    /// assert_eq!(error.to_string(), "decoding of an assigned function's BAR is disabled (206)");
    /// board.write(register(4), 2, 2)?; // memory on
    /// let mut machine = board.into_guests()?;
    /// let a = machine.guest("a")?;
    /// assert_eq!(machine.read(a, At::Config { slot: 0, offset: 0x10 }, 4)?, 0);
    /// assert_eq!(machine.host_read(register(0x10), 4)?, 0xd000_0000);
    /// # Ok::<(), pciguest::Error>(())
    /// ```
    pub fn into_guests(mut self) -> Result<Machine, NotGiven> {
        // SAFETY: the handle is empty, and the two handles don't overlap.
        let made = Machine::made_by(|machine| unsafe {
            raw::pciguest_board_guests(&mut self.handle, machine)
        });
        made.map_err(|error| NotGiven { board: self, error })
    }
}

/// A board that couldn't be handed over to its guests, unchanged, and the reason.
#[derive(Debug)]
pub struct NotGiven {
    /// The board.
    pub board: Board,
    /// Why it couldn't be handed over.
    pub error: Error,
}

impl From<NotGiven> for Error {
    fn from(not_given: NotGiven) -> Error {
        not_given.error
    }
}

impl fmt::Display for NotGiven {
    fn fmt(&self, f: &mut fmt::Formatter<'_>) -> fmt::Result {
        self.error.fmt(f)
    }
}

#[cfg(feature = "std")]
impl std::error::Error for NotGiven {}

impl Drop for Board {
    fn drop(&mut self) {
        // SAFETY: no call is made on the handle after this one.
        unsafe { raw::pciguest_board_free(&mut self.handle) }
    }
}

impl fmt::Debug for Board {
    fn fmt(&self, f: &mut fmt::Formatter<'_>) -> fmt::Result {
        f.write_str("Board")
    }
}

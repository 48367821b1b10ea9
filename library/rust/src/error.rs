//! Refusals: an error number and its message.

use crate::text::strerror;
use core::fmt;

/// An error number, with the message that says what it means.
#[derive(Clone, Copy, PartialEq, Eq)]
pub struct Refusal {
    number: u32,
}

impl Refusal {
    /// The number.
    pub fn number(&self) -> u32 {
        self.number
    }

    /// The message, such as `slot is empty` for 601. It is empty for a number without a meaning.
    pub fn words(&self) -> &'static str {
        strerror(self.number)
    }
}

impl fmt::Display for Refusal {
    fn fmt(&self, f: &mut fmt::Formatter<'_>) -> fmt::Result {
        write!(f, "{} ({})", self.words(), self.number)
    }
}

impl fmt::Debug for Refusal {
    fn fmt(&self, f: &mut fmt::Formatter<'_>) -> fmt::Result {
        write!(f, "Refusal({} {:?})", self.number, self.words())
    }
}

/// Why a call was refused. A refused call changes nothing.
///
/// ```
/// # const BOARD: &str = include_str!("board.toml");
/// use pciguest::{At, Error, Machine};
///
/// let mut machine = Machine::new(BOARD)?;
/// let a = machine.guest("a")?;
/// match machine.read(a, At::Memory { address: 0x8000_0001 }, 4) {
///     Err(Error::Access(refusal)) => assert_eq!(refusal.words(), "address is not a multiple of the width"),
///     other => panic!("{other:?}"),
/// }
/// # Ok::<(), Error>(())
/// ```
#[derive(Clone, Copy, Debug, PartialEq, Eq)]
#[non_exhaustive]
pub enum Error {
    /// 1xx except 199: the board file is refused.
    BoardFile(Refusal),
    /// 201 to 205: the board can't be set up.
    SetUp(Refusal),
    /// 206: Command disables a region of a function that would be assigned to a guest.
    ClosedRegion(Refusal),
    /// 207: an audit of the board finds a problem.
    NotInOrder(Refusal),
    /// 199, 299: out of memory.
    Memory(Refusal),
    /// 3xx: an access is misaligned, its width is invalid, or it is out of range.
    Access(Refusal),
    /// 6xx: a slot that must contain a function is empty, or one that must be empty isn't.
    Slot(Refusal),
    /// 902: a guest, region, device or function doesn't exist, or no guest has the name.
    Argument(Refusal),
    /// 904: the board has been written to since reset.
    NotAtReset(Refusal),
    /// 905: the bytes aren't a valid image of a guest or of a machine.
    Image(Refusal),
    /// 906: the image is for a guest with other functions, or puts a function into a slot to which it can't be assigned.
    OtherFunctions(Refusal),
    /// 907: the image is for a machine with another board, other guests or another set-up.
    OtherBoard(Refusal),
    /// 908: the library doesn't support the version of the image.
    ImageVersion(Refusal),
    /// 909: another call is running on the machine or the board. This can't happen to calls of this crate, which borrow it.
    Busy(Refusal),
    /// Any other number. Calls of this crate return none today.
    Other(Refusal),
}

impl Error {
    fn of(number: u32) -> Error {
        let refusal = Refusal { number };
        match number {
            199 | 299 => Error::Memory(refusal),
            100..=199 => Error::BoardFile(refusal),
            201..=205 => Error::SetUp(refusal),
            206 => Error::ClosedRegion(refusal),
            207 => Error::NotInOrder(refusal),
            300..=399 => Error::Access(refusal),
            600..=699 => Error::Slot(refusal),
            902 => Error::Argument(refusal),
            904 => Error::NotAtReset(refusal),
            905 => Error::Image(refusal),
            906 => Error::OtherFunctions(refusal),
            907 => Error::OtherBoard(refusal),
            908 => Error::ImageVersion(refusal),
            909 => Error::Busy(refusal),
            _ => Error::Other(refusal),
        }
    }

    /// The number with its message.
    pub fn refusal(&self) -> Refusal {
        match *self {
            Error::BoardFile(refusal)
            | Error::SetUp(refusal)
            | Error::ClosedRegion(refusal)
            | Error::NotInOrder(refusal)
            | Error::Memory(refusal)
            | Error::Access(refusal)
            | Error::Slot(refusal)
            | Error::Argument(refusal)
            | Error::NotAtReset(refusal)
            | Error::Image(refusal)
            | Error::OtherFunctions(refusal)
            | Error::OtherBoard(refusal)
            | Error::ImageVersion(refusal)
            | Error::Busy(refusal)
            | Error::Other(refusal) => refusal,
        }
    }

    /// The number.
    pub fn number(&self) -> u32 {
        self.refusal().number()
    }
}

/// The message and the number, such as `slot is empty (601)`.
impl fmt::Display for Error {
    fn fmt(&self, f: &mut fmt::Formatter<'_>) -> fmt::Result {
        self.refusal().fmt(f)
    }
}

#[cfg(feature = "std")]
impl std::error::Error for Error {}

/// Converts the result of a call, which is 0 or an error number.
pub(crate) fn answered(number: u32) -> Result<(), Error> {
    match number {
        0 => Ok(()),
        number => Err(Error::of(number)),
    }
}

/// The value that a call stores.
pub(crate) fn valued<T: Default>(call: impl FnOnce(&mut T) -> u32) -> Result<T, Error> {
    let mut value = T::default();
    answered(call(&mut value)).map(|()| value)
}

//! Upper limits.

use crate::raw;

/// Upper limits that hold for every board.
#[derive(Clone, Copy, Debug, PartialEq, Eq)]
pub struct Limits {
    /// The size of the largest possible image of a guest, in bytes.
    pub guest_image: u64,
    /// Functions of a board, endpoints and bridges.
    pub functions: u32,
    /// Guests of a machine.
    pub guests: u32,
    /// Slots of a guest.
    pub slots: u32,
    /// Base address registers of an endpoint.
    pub bars: u32,
    /// Register bytes of a region.
    pub block: u32,
    /// Register bytes of a function at 40h to FFh in configuration space.
    pub own_cells: u32,
}

/// Returns the upper limits that hold for every board. No machine is needed.
///
/// ```
/// assert_eq!(pciguest::limits().slots, 32);
/// ```
pub fn limits() -> Limits {
    let mut told = raw::Limits::default();
    // SAFETY: `told` is a separate variable. No such call is refused.
    unsafe { raw::pciguest_limits(&mut told) };
    Limits {
        guest_image: told.guest_image,
        functions: told.functions,
        guests: told.guests,
        slots: told.slots,
        bars: told.bars,
        block: told.block,
        own_cells: told.own_cells,
    }
}

//! Which regions of a guest moved.

use crate::error::{answered, Error};
use crate::machine::Machine;
use crate::place::{Guest, Region};
use crate::prelude::*;
use crate::raw;

/// Where the regions of a guest were at the previous call. At first there are none, so the first call returns
/// all regions.
#[derive(Clone)]
pub struct Places(Vec<raw::Place>);

impl Places {
    /// No call was made yet.
    pub fn new() -> Places {
        Places(vec![raw::Place::default(); raw::PLACES])
    }
}

impl Default for Places {
    fn default() -> Places {
        Places::new()
    }
}

/// A region of a guest that moved, or was enabled or disabled, since the previous call.
#[derive(Clone, Copy, Debug, PartialEq, Eq)]
pub struct Moved {
    /// 0 to 31.
    pub slot: u64,
    /// Its first base address register, 0 to 5.
    pub register: u32,
    /// Where it was, or `None` if there was no region.
    pub before: Option<Region>,
    /// Where it is now, or `None` if there is no region any more.
    pub now: Option<Region>,
}

impl Machine {
    /// Returns the regions of a guest that moved, or were enabled or disabled, compared with these places, and
    /// updates the places. A region whose base was written but is the same again, as after sizing, hasn't
    /// moved. A hypervisor makes this call when [`Machine::changed`] returns a new count. 902: there is no such
    /// guest.
    ///
    /// ```
    /// # const BOARD: &str = include_str!("board.toml");
    /// use pciguest::{At, Machine, Places};
    ///
    /// let mut machine = Machine::new(BOARD)?;
    /// let a = machine.guest("a")?;
    /// let mut places = Places::new();
    /// assert!(machine.moved(a, &mut places)?[0].before.is_none());
    /// machine.write(a, At::Config { slot: 0, offset: 0x10 }, 4, 0x8000_0000)?;
    /// let moved = machine.moved(a, &mut places)?;
    /// assert_eq!((moved[0].slot, moved[0].register), (0, 0));
    /// assert_eq!(moved[0].now.map(|region| region.first), Some(0x8000_0000));
    /// assert_eq!(machine.moved(a, &mut places)?, []);
    /// # Ok::<(), pciguest::Error>(())
    /// ```
    pub fn moved(&mut self, guest: Guest, places: &mut Places) -> Result<Vec<Moved>, Error> {
        let mut count = 0;
        let (rows, room) = (places.0.as_mut_ptr(), places.0.len());
        // SAFETY: there are that many rows, and `count` is a separate variable.
        answered(unsafe {
            raw::pciguest_moved(&mut self.handle, guest.index(), rows, room, &mut count)
        })?;
        let moved = places.0.iter().enumerate();
        let moved = moved.filter(|(_, row)| row.has_moved != 0);
        Ok(moved.map(|(nth, row)| Moved::of(nth, row)).collect())
    }
}

impl Moved {
    fn of(nth: usize, row: &raw::Place) -> Moved {
        let region = |told: &raw::Region| (told.size != 0).then(|| Region::of(told));
        Moved {
            slot: (nth / raw::BARS) as u64,
            register: (nth % raw::BARS) as u32,
            before: region(&row.before),
            now: region(&row.now),
        }
    }
}

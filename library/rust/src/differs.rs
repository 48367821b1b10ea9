//! The first difference between a function and what a device declares, found in the image of the guest that has
//! the function.

use crate::declared::{Declaration, Kind, Register, PATTERNS};
use crate::image_fault::{HEADER, IDENTITY};
use crate::place::Part;
use crate::prelude::*;
use core::fmt;

/// The first field in which a function differs from what a device declares.
#[derive(Clone, Debug, PartialEq, Eq)]
pub struct Difference {
    /// The field, such as `class_code` or `rw of the register at 0x8 of region 0`.
    pub field: String,
    /// What the device declares.
    pub declared: String,
    /// What the function has.
    pub found: String,
}

impl fmt::Display for Difference {
    fn fmt(&self, f: &mut fmt::Formatter<'_>) -> fmt::Result {
        let Difference { field, declared, found } = self;
        write!(f, "{field}: the device declares {declared}, and the function has {found}")
    }
}

/// The patterns of register bytes: reset values, writable bits, and write-1-to-clear bits.
type Cell = [u8; 3];

/// The declaration of a function.
struct Declared {
    identity: [u64; 7],
    regions: [Option<(u8, u64)>; 6],
    /// Blocks of register bytes, each with its part and first offset.
    blocks: Vec<(Part, u64, Vec<Cell>)>,
}

/// The fields that a device declares, which come first in a function's part of an image.
const FIELDS: [&str; 7] = [
    "vendor_id",
    "device_id",
    "revision_id",
    "class_code",
    "subsystem_vendor_id",
    "subsystem_id",
    "interrupt_pin",
];

/// The first field in which the function in a slot differs, according to its guest's image.
pub(crate) fn first_difference(
    device: &Declaration, image: &[u8], slot: u64,
) -> Option<Difference> {
    let Some(function) = function_in(image, slot) else {
        return differs("slot", "a function".into(), "none".into());
    };
    let identity = device.identity();
    let of_identity = (0..7).find(|&at| identity[at] != function.identity[at]);
    if let Some(at) = of_identity {
        let text = |value| format!("{value:#x}");
        return differs(FIELDS[at], text(identity[at]), text(function.identity[at]));
    }
    let regions = (0..6).find_map(|at| region(device, &function, at));
    let mut registers: Vec<&Register> = device.registers.iter().collect();
    registers.sort_by_key(|it| it.place());
    regions
        .or_else(|| capabilities(device, &function))
        .or_else(|| registers.into_iter().find_map(|it| register(it, &function)))
}

fn differs(field: &str, declared: String, found: String) -> Option<Difference> {
    (declared != found).then(|| Difference { field: field.into(), declared, found })
}

/// The difference in the region of a base address register, if there is one.
fn region(device: &Declaration, function: &Declared, at: usize) -> Option<Difference> {
    let told = |found: Option<(&str, u64)>| match found {
        Some((kind, size)) => format!("{kind} of {size:#x} bytes"),
        None => "none".into(),
    };
    let declared = device.regions[at].map(|(kind, size)| (kind.word(), size));
    let found = function.regions[at].map(|(kind, size)| (Kind::word_of(kind), size));
    differs(&format!("region {at}"), told(declared), told(found))
}

/// The difference in the capability list, if there is one and the device declares a list.
fn capabilities(device: &Declaration, function: &Declared) -> Option<Difference> {
    let told = |list: Vec<(u8, u64)>| {
        let texts: Vec<String> =
            list.iter().map(|(id, offset)| format!("{id:02X}h at {offset:02X}h")).collect();
        if texts.is_empty() {
            "none".into()
        } else {
            texts.join(", ")
        }
    };
    let declared: Vec<(u8, u64)> = device.structures.iter().map(|it| (it.id, it.offset)).collect();
    if declared.is_empty() {
        return None;
    }
    differs("capabilities", told(declared), told(function.capabilities()))
}

/// The difference in a register, if there is one: a byte of it isn't declared, or a pattern differs.
fn register(it: &Register, function: &Declared) -> Option<Difference> {
    let part = match it.part {
        Part::Config => "configuration space".into(),
        Part::Region(at) => format!("region {at}"),
    };
    let named = |field: &str| format!("{field} of the register at {:#x} of {part}", it.offset);
    let cells: Vec<Option<Cell>> =
        (it.offset..it.offset + it.width).map(|offset| function.cell(it.part, offset)).collect();
    let count = cells.iter().flatten().count();
    let width = format!("{} bytes", it.width);
    differs(&named("width"), width, format!("{count} bytes")).or_else(|| {
        PATTERNS.iter().enumerate().find_map(|(at, (name, bits))| {
            let bytes = cells.iter().map(|cell| cell.unwrap_or_default()[at]);
            let found = number(&bytes.collect::<Vec<u8>>());
            differs(&named(name), format!("{:#x}", bits(it)), format!("{found:#x}"))
        })
    })
}

impl Declared {
    /// The Capability IDs and offsets of the declared list.
    fn capabilities(&self) -> Vec<(u8, u64)> {
        let byte = |offset| self.cell(Part::Config, offset).map_or(0, |cell| cell[0]);
        let (mut list, mut at) = (Vec::new(), u64::from(byte(0x34)));
        while at >= 0x40 && list.len() < 48 {
            list.push((byte(at), at));
            at = byte(at + 1).into();
        }
        list
    }

    fn cell(&self, part: Part, offset: u64) -> Option<Cell> {
        self.blocks.iter().find_map(|(of, first, cells)| {
            let at = (*of == part).then(|| offset.checked_sub(*first))??;
            cells.get(at as usize).copied()
        })
    }
}

/// Bytes that are read from front to back.
struct Bytes<'a>(&'a [u8]);

impl<'a> Bytes<'a> {
    fn take(&mut self, count: usize) -> Option<&'a [u8]> {
        let found = self.0.get(..count)?;
        self.0 = &self.0[count..];
        Some(found)
    }

    fn number(&mut self, width: usize) -> Option<u64> {
        self.take(width).map(number)
    }

    fn cells(&mut self, count: u64) -> Option<Vec<Cell>> {
        let bytes = self.take(3 * count as usize)?;
        Some(bytes.chunks(3).map(|cell| [cell[0], cell[1], cell[2]]).collect())
    }

    /// The declaration of a function, and how many bytes of values come after it (`docs/image-format.md`).
    fn declared(&mut self) -> Option<(Declared, usize)> {
        let mut numbers = [0; IDENTITY.len()];
        for (number, (_, width)) in numbers.iter_mut().zip(IDENTITY) {
            *number = self.number(width)?;
        }
        let mut identity: [u64; 7] = core::array::from_fn(|at| numbers[at]); // the first seven numbers
        identity[6] &= 0x7f; // bit 7 isn't of the pin: it says whether bit 7 of Header Type is clear
        let (mut regions, mut blocks) = ([None; 6], Vec::new());
        let (mut values, count) = (HEADER, self.number(1)?);
        for _ in 0..count {
            let (at, kind, size) = (self.number(1)? as u8, self.number(1)? as u8, self.number(8)?);
            *regions.get_mut(usize::from(at))? = Some((kind, size));
            let cells = self.number(2)?;
            values += cells as usize + if kind < 3 { 4 } else { 8 };
            blocks.push((Part::Region(at), 0, self.cells(cells)?));
        }
        for _ in 0..self.number(1)? {
            let (first, cells) = (self.number(1)?, self.number(1)?);
            values += cells as usize;
            blocks.push((Part::Config, first, self.cells(cells)?));
        }
        let declared = Declared { identity, regions, blocks };
        Some((declared, values))
    }
}

/// The number in some bytes, the lowest first.
fn number(bytes: &[u8]) -> u64 {
    bytes.iter().rev().fold(0, |all, &byte| all << 8 | u64::from(byte))
}

/// What an image says about the function in a slot.
fn function_in(image: &[u8], slot: u64) -> Option<Declared> {
    let mut bytes = Bytes(image);
    bytes.take(12)?; // the format, its version, CONFIG_ADDRESS
    for at in 0..=slot {
        if bytes.number(1)? == 0 {
            continue;
        }
        let (declared, values) = bytes.declared()?;
        if at == slot {
            return Some(declared);
        }
        bytes.take(values)?;
    }
    None
}

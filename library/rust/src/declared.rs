//! What a device declares: identity, regions and registers, and the table of a board file with the same
//! declaration.

use crate::place::Part;
use crate::prelude::*;
use crate::structure::Structure;
use core::fmt::Write;

/// The patterns of a block in a board file, each with a register's bits in it.
pub(crate) const PATTERNS: [(&str, BitsOf); 3] =
    [("reset", |it| it.reset), ("rw", |it| it.rw), ("w1c", |it| it.w1c)];

/// Where the registers of a region end at the latest.
const REGION_END: u64 = 0x1000;

pub(crate) type BitsOf = fn(&Register) -> u64;

/// The kind of a region, as in board files.
#[derive(Clone, Copy, Debug, PartialEq, Eq)]
pub enum Kind {
    /// `io`: I/O space.
    Io,
    /// `mem32`: memory below 4 GB.
    Mem32,
    /// `mem32p`: prefetchable memory below 4 GB.
    Mem32p,
    /// `mem64`: memory with a 64-bit base address.
    Mem64,
    /// `mem64p`: prefetchable memory with a 64-bit base address.
    Mem64p,
}

impl Kind {
    /// The name in board files.
    pub(crate) fn word(self) -> &'static str {
        Kind::word_of(self as u8)
    }

    /// The name of a kind, from its number in images.
    pub(crate) fn word_of(number: u8) -> &'static str {
        let words = ["io", "mem32", "mem32p", "mem64", "mem64p"];
        words[usize::from(number.min(4))]
    }
}

/// A register of a device: 1 to 8 bytes at an offset in a region, or in configuration space at 40h or above.
/// The driver can write the bits of `rw`, and clears those of `w1c` by writing ones.
///
/// ```
/// use pciguest::Register;
///
/// const STATUS: Register = Register::in_region(0, 0x00, 1).w1c(0x01);
/// const BELL: Register = Register::in_region(0, 0x08, 4).rw(0xffff_ffff);
/// assert_ne!(STATUS, BELL);
/// ```
#[derive(Clone, Copy, Debug, PartialEq, Eq)]
pub struct Register {
    pub(crate) part: Part,
    pub(crate) offset: u64,
    pub(crate) width: u64,
    pub(crate) reset: u64,
    pub(crate) rw: u64,
    pub(crate) w1c: u64,
}

impl Register {
    /// A register in the region of a base address register, 0 to 5. The driver can only read it, and its reset
    /// value is 0.
    ///
    /// # Panics
    ///
    /// A register has 1 to 8 bytes.
    pub const fn in_region(region: u8, offset: u64, width: u64) -> Register {
        Register::of(Part::Region(region), offset, width)
    }

    /// A register in configuration space. The driver can only read it, and its reset value is 0.
    ///
    /// # Panics
    ///
    /// A register has 1 to 8 bytes.
    pub const fn in_config(offset: u64, width: u64) -> Register {
        Register::of(Part::Config, offset, width)
    }

    const fn of(part: Part, offset: u64, width: u64) -> Register {
        assert!(1 <= width && width <= 8, "a register has 1 to 8 bytes");
        Register { part, offset, width, reset: 0, rw: 0, w1c: 0 }
    }

    /// The same register with this reset value.
    pub const fn reset(self, value: u64) -> Register {
        Register { reset: value, ..self }
    }

    /// The same register, with bits that the driver can write.
    pub const fn rw(self, bits: u64) -> Register {
        Register { rw: bits, ..self }
    }

    /// The same register, with bits that the driver clears by writing ones.
    pub const fn w1c(self, bits: u64) -> Register {
        Register { w1c: bits, ..self }
    }

    /// Whether an access of some bytes at an offset of a part reaches a byte of the register.
    pub(crate) fn is_touched(&self, part: Part, offset: u64, width: u64) -> bool {
        self.part == part && self.offset < offset + width && offset < self.offset + self.width
    }

    /// Whether the two registers overlap.
    fn meets(&self, other: &Register) -> bool {
        self.is_touched(other.part, other.offset, other.width)
    }

    /// Its position: configuration space before regions, and then by offset.
    pub(crate) fn place(&self) -> (Option<u8>, u64) {
        match self.part {
            Part::Config => (None, self.offset),
            Part::Region(at) => (Some(at), self.offset),
        }
    }

    /// All ones, in all bits of the register.
    pub(crate) fn all_ones(&self) -> u64 {
        u64::MAX >> (64 - 8 * self.width)
    }
}

/// A device's declaration of its function: identity, regions and registers.
///
/// ```
/// use pciguest::{Declaration, Kind, Register};
///
/// const RINGS: Register = Register::in_region(0, 0x04, 4);
/// const BELL: Register = Register::in_region(0, 0x08, 4).rw(0xffff_ffff);
/// let doorbell = Declaration::new(0x1234, 0x0001, 0xff0000)
///     .region(0, Kind::Mem32, 0x1000)
///     .register(RINGS)
///     .register(BELL);
/// assert!(doorbell.endpoint("1.0").starts_with("[[endpoint]]\nat = \"1.0\"\nvendor = 0x1234\n"));
/// ```
#[derive(Clone, Debug, PartialEq, Eq)]
pub struct Declaration {
    vendor_id: u16,
    device_id: u16,
    class_code: u32,
    revision_id: u8,
    subsystem: (u16, u16),
    interrupt_pin: u8,
    pub(crate) regions: [Option<(Kind, u64)>; 6],
    pub(crate) registers: Vec<Register>,
    /// Those of the capability list, in its order.
    pub(crate) structures: Vec<Structure>,
}

impl Declaration {
    /// A device with a Vendor ID, a Device ID and a 24-bit class code, but without regions, registers and
    /// interrupt pin.
    pub fn new(vendor_id: u16, device_id: u16, class_code: u32) -> Declaration {
        Declaration {
            vendor_id,
            device_id,
            class_code,
            revision_id: 0,
            subsystem: (0, 0),
            interrupt_pin: 0,
            regions: [None; 6],
            registers: Vec::new(),
            structures: Vec::new(),
        }
    }

    /// The same declaration with a Revision ID.
    pub fn revision(self, revision_id: u8) -> Declaration {
        Declaration { revision_id, ..self }
    }

    /// The same declaration with a Subsystem Vendor ID and a Subsystem ID.
    pub fn subsystem(self, vendor_id: u16, id: u16) -> Declaration {
        let subsystem = (vendor_id, id);
        Declaration { subsystem, ..self }
    }

    /// The same declaration with an interrupt pin: 1 to 4 are INTA# to INTD#.
    pub fn interrupt_pin(self, interrupt_pin: u8) -> Declaration {
        Declaration { interrupt_pin, ..self }
    }

    /// The same declaration with a region, given by its first base address register, its kind and its size in
    /// bytes.
    ///
    /// # Panics
    ///
    /// The base address register is above 5.
    pub fn region(mut self, register: u8, kind: Kind, size: u64) -> Declaration {
        self.regions[usize::from(register)] = Some((kind, size));
        self
    }

    /// The same declaration with a register. The register's region must be declared before it.
    ///
    /// # Panics
    ///
    /// The register is outside its region, outside the region's first 4096 bytes, or outside 40h to FFh; it
    /// overlaps another register; or it has a bit that is too high, or that is in both `rw` and `w1c`. A
    /// declaration never changes, so this is found when it is first used.
    pub fn register(self, register: Register) -> Declaration {
        let met = self.structures.iter().find(|it| it.meets(register.offset, register.width));
        let structure = met.filter(|_| register.part == Part::Config);
        assert!(structure.is_none(), "{register:x?} meets {structure:x?}");
        self.with(register)
    }

    /// Adds a structure to the end of the capability list, and its registers.
    ///
    /// # Panics
    ///
    /// The structure overlaps another structure or a register.
    pub fn structure(mut self, structure: Structure) -> Declaration {
        let Structure { offset, length, .. } = structure;
        let is_free = !self.structures.iter().any(|it| it.meets(offset, length))
            && !self.registers.iter().any(|it| it.is_touched(Part::Config, offset, length));
        assert!(is_free, "{structure:x?} meets another structure or register");
        self.structures.push(structure);
        structure.registers().fold(self, Declaration::with)
    }

    /// Adds a register, which may belong to a structure.
    fn with(mut self, register: Register) -> Declaration {
        let (first, end, size) = match register.part {
            Part::Config => (0x40, 0x100, 0x100),
            Part::Region(at) => {
                let region = self.regions.get(usize::from(at)).copied().flatten();
                let size = region.map_or(0, |(_, size)| size);
                (0, size.min(REGION_END), size)
            }
        };
        let fits = |end| {
            first <= register.offset
                && register.offset <= end
                && register.width <= end - register.offset
        };
        assert!(
            fits(end) || !fits(size),
            "{register:x?} is outside the first {REGION_END:#x} bytes of its region, and registers can only be in these"
        );
        assert!(fits(end), "{register:x?} is outside its part");
        let bits = register.reset | register.rw | register.w1c;
        assert!(
            bits <= register.all_ones() && register.rw & register.w1c == 0,
            "{register:x?} has wrong bits"
        );
        let other = self.registers.iter().find(|other| other.meets(&register));
        assert!(other.is_none(), "{register:x?} meets {other:x?}");
        self.registers.push(register);
        self
    }

    /// Vendor ID, Device ID, Revision ID, class code, Subsystem Vendor ID, Subsystem ID and interrupt pin.
    pub(crate) fn identity(&self) -> [u64; 7] {
        let (subvendor, subsystem) = self.subsystem;
        [
            self.vendor_id.into(),
            self.device_id.into(),
            self.revision_id.into(),
            self.class_code.into(),
            subvendor.into(),
            subsystem.into(),
            self.interrupt_pin.into(),
        ]
    }

    /// Returns the `[[endpoint]]` table of a board file with this declaration, at a path: its identity, its
    /// regions, and the patterns of its registers.
    pub fn endpoint(&self, at: &str) -> String {
        let (subvendor, subsystem) = self.subsystem;
        let mut text = format!(
            "[[endpoint]]\nat = \"{at}\"\nvendor = {:#06x}\ndevice = {:#06x}\nclass = {:#08x}\nrevision = {:#04x}\n\
             subvendor = {subvendor:#06x}\nsubsystem = {subsystem:#06x}\npin = {}\nbar = [\n",
            self.vendor_id, self.device_id, self.class_code, self.revision_id, self.interrupt_pin
        );
        for (index, region) in self.regions.iter().enumerate() {
            if let Some((kind, size)) = region {
                let head = format!("index = {index}, kind = \"{}\", size = {size:#x}", kind.word());
                let part = Part::Region(index as u8);
                let here: Vec<Register> =
                    self.registers.iter().filter(|it| it.part == part).copied().collect();
                let block = block(&here, 0, 0);
                text += &format!("  {{ {head}{block} }},\n");
            }
        }
        text += "]\nconfig = [";
        let blocks: Vec<String> = self.config_runs().iter().map(|run| config_block(run)).collect();
        text += &blocks.join(",");
        text += "]\n";
        if !self.structures.is_empty() {
            text += "capability = [\n";
            for it in &self.structures {
                let registers: Vec<Register> = it.registers().collect();
                let block = block(&registers, it.offset + 2, it.offset + it.length);
                text += &format!("  {{ id = {:#04x}, off = {:#x}{block} }},\n", it.id, it.offset);
            }
            text += "]\n";
        }
        text
    }

    /// The registers of configuration space that belong to no structure, by their offsets: in one run, or in more where
    /// structures are between them.
    fn config_runs(&self) -> Vec<Vec<Register>> {
        let is_own = |it: &&Register| {
            let within = |structure: &Structure| structure.meets(it.offset, it.width);
            it.part == Part::Config && !self.structures.iter().any(within)
        };
        let mut own: Vec<Register> = self.registers.iter().filter(is_own).copied().collect();
        own.sort_by_key(Register::place);
        let mut runs: Vec<Vec<Register>> = Vec::new();
        for it in own {
            let last = runs.last_mut().filter(|run| {
                let from = run[0].offset;
                !self.structures.iter().any(|other| other.meets(from, it.offset - from))
            });
            match last {
                Some(run) => run.push(it),
                None => runs.push(vec![it]),
            }
        }
        runs
    }
}

fn config_block(run: &[Register]) -> String {
    let first = run[0].offset;
    format!(" {{ off = {first:#x}{} }} ", block(run, first, first))
}

/// The length of a block from an offset on, at least up to `end`, and its patterns that aren't all zeros.
fn block(registers: &[Register], first: u64, end: u64) -> String {
    let end = registers.iter().map(|it| it.offset + it.width).max().unwrap_or(end).max(end);
    if end == first {
        return String::new();
    }
    let mut text = format!(", block = {}", end - first);
    for (name, bits) in PATTERNS {
        let mut cells = vec![0; (end - first) as usize];
        for it in registers {
            let at = (it.offset - first) as usize;
            let width = it.width as usize;
            cells[at..at + width].copy_from_slice(&bits(it).to_le_bytes()[..width]);
        }
        if cells.iter().any(|&cell| cell != 0) {
            text += &format!(", {name} = \"{}\"", in_hex(period(&cells)));
        }
    }
    text
}

/// The shortest prefix that, repeated, yields the bytes. It is what comes before the longest suffix that is
/// also a prefix.
fn period(cells: &[u8]) -> &[u8] {
    // for each prefix, the length of its longest suffix that is shorter and also a prefix
    let mut ends = vec![0; cells.len()];
    for at in 1..cells.len() {
        let mut length: usize = ends[at - 1];
        while length > 0 && cells[at] != cells[length] {
            length = ends[length - 1];
        }
        ends[at] = length + usize::from(cells[at] == cells[length]);
    }
    let end = ends.last().copied().unwrap_or(0);
    &cells[..cells.len() - end]
}

fn in_hex(bytes: &[u8]) -> String {
    bytes.iter().fold(String::new(), |mut text, byte| {
        let _ = write!(text, "{byte:02x}");
        text
    })
}

#[cfg(test)]
mod tests {
    use super::period;

    /// The same by definition, for all sequences of up to 9 bytes with two values.
    #[test]
    fn periods_are_the_shortest() {
        for (length, bits) in
            (1..10).flat_map(|length| (0..1 << length).map(move |bits| (length, bits)))
        {
            let cells: Vec<u8> = (0..length).map(|at| (bits >> at & 1) as u8).collect();
            let repeats = |&count: &usize| (0..length).all(|at| cells[at] == cells[at % count]);
            let shortest = (1..=length).find(repeats).unwrap();
            assert_eq!(period(&cells), &cells[..shortest]);
        }
    }
}

//! The structures of a capability list that a device declares.

use crate::declared::Register;
use crate::place::Part;

/// How many registers a structure has at most.
const MOST: usize = 8;

/// A structure of a device's capability list (PCI Local Bus 3.0, 6.7): its Capability ID, its offset in configuration space, the
/// number of its bytes with the two of its header, and its registers by name. [`Declaration::structure`] adds it to a
/// declaration.
///
/// ```
/// use pciguest::{Declaration, Kind, Register, Structure};
///
/// const MSIX: Structure = Structure::msix(0x40, 2, (1, 0), (1, 0x800));
/// const CONTROL: Register = MSIX.named("control");
/// const NOTIFY: Structure =
///     Structure::vendor(0x50, 20).with("multiplier", Register::in_config(16, 4).reset(4));
/// let device = Declaration::new(0x1af4, 0x1042, 0x010000)
///     .region(1, Kind::Mem32, 0x1000)
///     .structure(MSIX)
///     .structure(NOTIFY);
/// assert_eq!(CONTROL, Register::in_config(0x42, 2).reset(1).rw(0xc000));
/// assert!(device.endpoint("1.0").contains("id = 0x11, off = 0x40, block = 10"));
/// ```
///
/// [`Declaration::structure`]: crate::Declaration::structure
#[derive(Clone, Copy, Debug, PartialEq, Eq)]
pub struct Structure {
    pub(crate) id: u8,
    pub(crate) offset: u64,
    pub(crate) length: u64,
    registers: [Option<(&'static str, Register)>; MOST],
}

impl Structure {
    /// A structure with no register, at a multiple of 4 from 40h on.
    ///
    /// # Panics
    ///
    /// It isn't at such an offset, or extends past FFh.
    pub const fn new(id: u8, offset: u64, length: u64) -> Structure {
        assert!(offset % 4 == 0 && offset >= 0x40, "a structure is at a multiple of 4 from 40h on");
        assert!(length > 2 && length <= 0x100 - offset, "a structure ends within FFh");
        Structure { id, offset, length, registers: [None; MOST] }
    }

    /// A structure of the vendor's own (Capability ID 09h). Its register `length`, at offset 2, has the length.
    pub const fn vendor(offset: u64, length: u64) -> Structure {
        Structure::new(0x09, offset, length).with("length", Register::in_config(2, 1).reset(length))
    }

    /// Power Management (Capability ID 01h) of version 1.1: its driver chooses a state by bits 0 and 1 of `control`, and
    /// clears bit 15 by writing a one. The other register is `capabilities`.
    pub const fn power(offset: u64) -> Structure {
        Structure::new(0x01, offset, 8)
            .with("capabilities", Register::in_config(2, 2).reset(2))
            .with("control", Register::in_config(4, 2).rw(0x0103).w1c(0x8000))
    }

    /// MSI (Capability ID 05h) with an address of 64 bits, for 1, 2, 4, 8, 16 or 32 vectors, with mask and pending bits for each
    /// of them, or without. Its registers are `control`, `address`, `data`, `mask` and `pending`.
    ///
    /// # Panics
    ///
    /// There can't be so many vectors.
    pub const fn msi(offset: u64, vectors: u32, has_masks: bool) -> Structure {
        assert!(vectors.is_power_of_two() && vectors <= 32, "MSI has 1, 2, 4, 8, 16 or 32 vectors");
        let control = (vectors.trailing_zeros() as u64) << 1 | 0x80 | (has_masks as u64) << 8;
        let length = if has_masks { 24 } else { 14 };
        let plain = Structure::new(0x05, offset, length)
            .with("control", Register::in_config(2, 2).reset(control).rw(0x0071))
            .with("address", Register::in_config(4, 8).rw(u64::MAX - 3))
            .with("data", Register::in_config(12, 2).rw(0xffff));
        if !has_masks {
            return plain;
        }
        plain
            .with("mask", Register::in_config(16, 4).rw(u64::MAX >> (64 - vectors)))
            .with("pending", Register::in_config(20, 4))
    }

    /// MSI-X (Capability ID 11h) with 1 to 2048 vectors. `table` and `pending` are the base address register and the offset of
    /// the table and of the pending bits, whose registers the device declares. The registers of the structure are `control`,
    /// `table` and `pending`.
    ///
    /// # Panics
    ///
    /// There can't be so many vectors, or no such register or offset.
    pub const fn msix(
        offset: u64, vectors: u32, table: (u8, u32), pending: (u8, u32),
    ) -> Structure {
        assert!(vectors >= 1 && vectors <= 2048, "MSI-X has 1 to 2048 vectors");
        let control = Register::in_config(2, 2).reset(vectors as u64 - 1).rw(0xc000);
        Structure::new(0x11, offset, 12)
            .with("control", control)
            .with("table", Register::in_config(4, 4).reset(in_region(table)))
            .with("pending", Register::in_config(8, 4).reset(in_region(pending)))
    }

    /// The same with a register more, which has a name, at an offset from the beginning of the structure.
    ///
    /// # Panics
    ///
    /// The register isn't one of configuration space, or is in the header or past the end, or there are 8 already.
    pub const fn with(self, name: &'static str, register: Register) -> Structure {
        let Structure { id, offset, length, mut registers } = self;
        assert!(matches!(register.part, Part::Config), "a structure is in configuration space");
        let ends_within = register.offset >= 2 && register.offset + register.width <= length;
        assert!(ends_within, "a register of a structure is after its header and before its end");
        let mut count = 0;
        while registers[count].is_some() {
            count += 1;
        }
        registers[count] = Some((name, Register { offset: offset + register.offset, ..register }));
        Structure { id, offset, length, registers }
    }

    /// The register of a name, at its place in configuration space.
    ///
    /// # Panics
    ///
    /// The structure has no register of this name.
    pub const fn named(&self, name: &str) -> Register {
        let mut at = 0;
        while at < MOST {
            if let Some((other, register)) = self.registers[at] {
                if is_same(other, name) {
                    return register;
                }
            }
            at += 1;
        }
        panic!("the structure has no register of this name")
    }

    /// Its registers.
    pub(crate) fn registers(&self) -> impl Iterator<Item = Register> + '_ {
        self.registers.iter().flatten().map(|&(_, register)| register)
    }

    /// Whether it has one of some bytes of configuration space.
    pub(crate) fn meets(&self, offset: u64, width: u64) -> bool {
        self.offset < offset + width && offset < self.offset + self.length
    }
}

/// What MSI-X has of a place in a region.
const fn in_region((bar, offset): (u8, u32)) -> u64 {
    assert!(bar <= 5 && offset % 8 == 0, "a table is at a multiple of 8 of a region");
    offset as u64 | bar as u64
}

/// Whether two texts are the same, also where a constant asks.
const fn is_same(one: &str, other: &str) -> bool {
    let (one, other) = (one.as_bytes(), other.as_bytes());
    let mut at = 0;
    while at < one.len() && at < other.len() && one[at] == other[at] {
        at += 1;
    }
    at == one.len() && at == other.len()
}

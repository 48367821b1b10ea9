//! Where an image stops fitting a guest, and which field that is, according to `docs/image-format.md`.

use crate::prelude::*;
use core::fmt;

/// Where an image stops fitting a guest that refuses it with 906 or 908:
/// [`Machine::image_fault`](crate::Machine::image_fault).
#[derive(Clone, Debug, PartialEq, Eq)]
pub struct ImageFault {
    /// The slot whose part of the image contains the byte, or `None` if the byte is before the slots.
    pub slot: Option<u64>,
    /// The offset in the image of the first byte that doesn't fit.
    pub offset: usize,
    /// The field that contains the byte, such as `the size of bar0`.
    pub field: String,
}

impl fmt::Display for ImageFault {
    fn fmt(&self, f: &mut fmt::Formatter<'_>) -> fmt::Result {
        match self.slot {
            Some(slot) => write!(f, "slot {slot}: {}", self.field),
            None => f.write_str(&self.field),
        }
    }
}

/// The fields of a function that come before its regions: their keys in a board file, and their sizes in bytes.
pub(crate) const IDENTITY: [(&str, usize); 10] = [
    ("vendor", 2),
    ("device", 2),
    ("revision", 1),
    ("class", 3),
    ("subvendor", 2),
    ("subsystem", 2),
    ("pin", 1),
    ("min_gnt", 1),
    ("max_lat", 1),
    ("status", 2),
];

/// The number of bytes in a function's header, except its base address registers, whose values an
/// image contains.
pub(crate) const HEADER: usize = 0x0f + 4 + 4;

impl ImageFault {
    /// The fault at a byte of an image, if there is such a byte.
    pub(crate) fn at(image: &[u8], slot: u64, offset: usize) -> Option<ImageFault> {
        let mut fields = Fields { image, at: 0, offset };
        let field = fields.image().err().filter(|_| offset < image.len())?;
        Some(ImageFault { slot: (slot < 32).then_some(slot), offset, field })
    }
}

/// The fields of an image, in order, up to the one that contains a byte; that one is returned as an error.
struct Fields<'a> {
    image: &'a [u8],
    at: usize,
    offset: usize,
}

impl Fields<'_> {
    /// The number in the next field.
    fn number(&mut self, width: usize, name: impl FnOnce() -> String) -> Result<u64, String> {
        let bytes = match self.image.get(self.at..self.at + width) {
            Some(bytes) if self.at + width <= self.offset => bytes,
            _ => return Err(name()),
        };
        self.at += width;
        let number = bytes.iter().rev();
        Ok(number.fold(0, |all, &byte| all << 8 | u64::from(byte)))
    }

    fn image(&mut self) -> Result<(), String> {
        for name in ["the format's name", "the version", "CONFIG_ADDRESS"] {
            self.number(4, || name.to_owned())?;
        }
        for _ in 0..32 {
            if self.number(1, || "whether it is filled".to_owned())? != 0 {
                self.function()?;
            }
        }
        Ok(())
    }

    fn function(&mut self) -> Result<(), String> {
        for (key, width) in IDENTITY {
            self.number(width, || key.to_owned())?;
        }
        let mut values = HEADER as u64;
        for _ in 0..self.number(1, || "how many regions there are".to_owned())? {
            let index = self.number(1, || "the register of a region".to_owned())?;
            let kind = self.number(1, || format!("the kind of bar{index}"))?;
            self.number(8, || format!("the size of bar{index}"))?;
            let count = self.number(2, || format!("the block of bar{index}"))?;
            self.cells(0, count, &format!("bar{index}"))?;
            values += count + if kind < 3 { 4 } else { 8 };
        }
        for _ in 0..self.number(1, || "how many blocks there are".to_owned())? {
            let first = self.number(1, || "the offset of a block".to_owned())?;
            let count = self.number(1, || format!("the size of the block at {first:#x}"))?;
            self.cells(first, count, "configuration space")?;
            values += count;
        }
        self.values(values)
    }

    /// The declaration of register bytes.
    fn cells(&mut self, first: u64, count: u64, of: &str) -> Result<(), String> {
        for offset in first..first + count {
            for pattern in ["reset", "rw", "w1c"] {
                self.number(1, || format!("{pattern} of byte {offset:#x} of {of}"))?;
            }
        }
        Ok(())
    }

    /// The values of registers, which may differ.
    fn values(&mut self, count: u64) -> Result<(), String> {
        for _ in 0..count {
            self.number(1, || "a value".to_owned())?;
        }
        Ok(())
    }
}

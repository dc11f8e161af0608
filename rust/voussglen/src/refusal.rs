//! Refusals by number; `include/voussglen.h` has the same table.

use std::{error, fmt};

pub(crate) const ACCEPTED: u8 = 0;
pub(crate) const REVISION_EXHAUSTED: u8 = 20;

/// Why a question was refused, and where.
#[derive(Clone, Copy, Debug, PartialEq, Eq)]
pub struct Refusal {
    /// 1 to 20.
    pub number: u8,
    pub place: Place,
}

/// The place of a refusal.
#[derive(Clone, Copy, Debug, PartialEq, Eq)]
pub enum Place {
    /// 18 and 19 have none.
    Nowhere,
    /// 1 to 8, 10, 11: where the field starts in the file; its length where 3 is given at the end.
    Offset(usize),
    /// 9, 12 to 17: a device, and the index of a config byte, a capability or a slot.
    Index { device: u8, index: usize },
    /// 20.
    Device(u8),
}

/// "given exactly when", from 1 on.
const GIVEN_WHEN: [&str; 20] = [
    "header or body of a field is cut",
    "unknown tag, wrong length, byte outside its set, or automatic address not zero",
    "field out of order or repeated, or the file ends with no aperture",
    "one more than a limit",
    "device above 31 or declared twice, or slot above 5 or used twice in the function",
    "vendor 0xffff",
    "size below 16, not a power of two, or above 4 GiB",
    "not start < end, or end above 4 GiB",
    "config byte not at 0x0c, 0x0d, 0x3c or in 0x40 to 0xff outside every capability",
    "capability body above 253 bytes",
    "effect empty, starts before 2, ends after its capability, overlaps an earlier one there, \
     or covers a byte with mask not zero",
    "effect id repeated in the function",
    "a capability would end after 0x100",
    "fixed address not a multiple of size",
    "fixed range outside the aperture or past 64 bits",
    "fixed range overlaps one placed before",
    "no free place for an automatic BAR",
    "offset 0x100 or more, width not 1, 2, 4 (lookup: or 8), or offset not a multiple of width",
    "access touches an effect but isn't inside it, or its direction isn't allowed",
    "revision counter at its largest",
];

impl Refusal {
    /// What the number says.
    pub fn words(&self) -> &'static str {
        let words = usize::from(self.number).checked_sub(1).and_then(|at| GIVEN_WHEN.get(at));
        words.copied().unwrap_or("no refusal")
    }
}

impl fmt::Display for Refusal {
    fn fmt(&self, to: &mut fmt::Formatter<'_>) -> fmt::Result {
        write!(to, "refused {}", self.number)?;
        match self.place {
            Place::Nowhere => {}
            Place::Offset(offset) => write!(to, " at byte {offset} of the file")?,
            Place::Index { device, index } => write!(to, " at device {device}, index {index}")?,
            Place::Device(device) => write!(to, " at device {device}")?,
        }
        write!(to, ": {}", self.words())
    }
}

impl error::Error for Refusal {}

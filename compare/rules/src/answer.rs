//! What the answers are made of.

use crate::data::{Aperture, Effect};

/// What a write to a BAR's register means.
#[derive(Clone, Copy, Debug, PartialEq, Eq)]
pub enum BarWrite {
    Probe,
    Relocate(u32),
}

/// An access inside an effect.
#[derive(Clone, Debug, PartialEq, Eq)]
pub struct Touched {
    pub capability: u8,
    pub effect: u16,
    pub region: (u8, u8),
    /// From the capability's start.
    pub offset: u8,
    /// From the region's own start.
    pub region_offset: u8,
    pub body: Vec<u8>,
}

#[derive(Clone, Debug, PartialEq, Eq)]
pub enum Touch {
    Untouched,
    Inside(Touched),
    /// 19.
    Refused,
}

/// Why capabilities have no layout: 12 or 13, and the capability's index.
#[derive(Clone, Copy, Debug, PartialEq, Eq)]
pub struct LayoutRefusal {
    pub number: u8,
    pub index: usize,
}

/// Why BARs have no place: 14 to 17, and whose BAR.
#[derive(Clone, Copy, Debug, PartialEq, Eq)]
pub struct PlaceRefusal {
    pub number: u8,
    pub device: u8,
    pub slot: u8,
}

/// What a byte is inside a capability; `Outside` everywhere else.
#[derive(Clone, Copy, Debug, PartialEq, Eq)]
pub enum Mode {
    Outside,
    Constant,
    Stored,
    Effect,
}

/// The power-on image and the write masks.
#[derive(Clone, Debug, PartialEq, Eq)]
pub struct Image {
    pub bytes: [u8; 256],
    pub masks: [u8; 256],
}

/// The answer to one step.
#[derive(Clone, Debug, PartialEq, Eq)]
pub enum Answer {
    /// 18, 19 or 20.
    Refused(u8),
    Value(u32),
    Inside(Touched),
    /// Stored where the mask allows, or dropped.
    Done,
    /// Written to a device that is not declared.
    Dropped,
    /// `Done`, `Dropped`, `Probing`, `Moved` or `Stayed`: the root of the Rust does not say which.
    Written,
    Probing {
        slot: u8,
    },
    Moved {
        slot: u8,
        address: u32,
    },
    Kept {
        slot: u8,
        candidate: u32,
    },
    /// `Kept` on a bus, with the address where the BAR lies still.
    Stayed {
        slot: u8,
        address: u32,
    },
    /// 20 after a reset that did everything else.
    ResetAtLargest {
        device: u8,
    },
    Hit {
        device: u8,
        slot: u8,
        offset: u64,
    },
    Miss,
}

/// What can be seen of a function after its last step.
#[derive(Clone, Debug, PartialEq, Eq)]
pub struct End {
    /// Every byte as a read shows it; 0 where an effect answers.
    pub shown: [u8; 256],
    /// The committed addresses by slot. All none after steps on a bus: the root of the Rust does not tell.
    pub addresses: [Option<u64>; 6],
    pub revision: u64,
    /// Command bits 1, 2 and 10.
    pub command: [bool; 3],
}

/// A BAR as a bus keeps it.
#[derive(Clone, Copy, Debug, PartialEq, Eq)]
pub struct KeptBar {
    pub size: u64,
    /// Where it was placed; a reset brings it back.
    pub planned: u64,
    pub address: u64,
    pub probing: bool,
}

/// All that a bus keeps of a function.
#[derive(Clone, Debug, PartialEq, Eq)]
pub struct Kept {
    pub device: u8,
    pub live: [u8; 256],
    pub power_on: [u8; 256],
    pub masks: [u8; 256],
    pub bars: [Option<KeptBar>; 6],
    /// Id, offset and length of body.
    pub capabilities: Vec<(u8, u16, u8)>,
    /// Each with the index of its capability.
    pub effects: Vec<(u8, Effect)>,
    pub revision: u64,
}

/// How a bus is after a step: the functions that changed in it, and what a lookup around one of its BARs finds.
#[derive(Clone, Debug, PartialEq, Eq)]
pub struct After {
    pub changed: Vec<Kept>,
    pub found: Option<Answer>,
}

/// Where the lookup after step `step` is: the BARs take turns, then the places around each. `bars` by device and slot.
pub fn turn(step: usize, bars: &[(u64, u64)]) -> Option<(u64, u64)> {
    let (address, size) = bars.get(step.checked_rem(bars.len())?)?;
    let end = address + size;
    Some([(*address, 1), (end - 8, 8), (end - 4, 8), (end, 1)][step / bars.len() % 4])
}

/// An answer for each step, and how it ended.
#[derive(Clone, Debug, PartialEq, Eq)]
pub struct Story {
    pub answers: Vec<Answer>,
    pub ends: Vec<End>,
    /// First the start, then after each step. None from a side that does not tell: the Rust, and on one function.
    pub after: Option<Vec<After>>,
}

/// Where a file is refused.
#[derive(Clone, Copy, Debug, PartialEq, Eq)]
pub enum FilePlace {
    /// Of a field in the file.
    Offset(usize),
    /// A config byte, a capability or a slot of a device.
    Index { device: u8, index: usize },
}

/// 1 to 17.
#[derive(Clone, Copy, Debug, PartialEq, Eq)]
pub struct FileRefusal {
    pub number: u8,
    pub place: FilePlace,
}

/// The bus that a file starts, its functions by device.
#[derive(Clone, Debug, PartialEq, Eq)]
pub struct Started {
    pub aperture: Aperture,
    pub functions: Vec<Kept>,
}

//! axdevice 0.8.5, its files unchanged, asked over plain numbers and bytes.

extern crate alloc;
// The files name these two crates; what they take from them stands in `stand_ins`.
extern crate self as ax_sync;
extern crate self as axdevice_base;

mod ask;
pub mod beyond;
mod pci;
mod stand_ins;
pub mod timed;

pub use ask::Oracle;
pub use stand_ins::{AccessWidth, DeviceId, DeviceNodeId, ResourceRequest, SpinLock};

use pci::address::ConfigOffset;

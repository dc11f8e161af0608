//! The Rust for a clock: each call goes to its root as it is.

use std::hint::black_box;

use rules::{Aperture, Card};

use crate::{
    AccessWidth, ConfigOffset, ask,
    pci::{PciBdf, root::PciRootState},
};

pub struct Root(PciRootState);

/// Where an access goes, made before the clock runs.
#[derive(Clone, Copy)]
pub struct At {
    bdf: PciBdf,
    offset: ConfigOffset,
    width: AccessWidth,
}

impl At {
    pub fn new(device: u8, offset: u16, width: AccessWidth) -> Self {
        Self { bdf: ask::bdf(device).expect("a device"), offset: ConfigOffset::new(offset).expect("an offset"), width }
    }
}

impl Root {
    /// From declarations in memory: the Rust reads no files.
    pub fn new(aperture: Aperture, cards: &[Card]) -> Self {
        Self(ask::start(aperture, cards).expect("declarations that are accepted"))
    }

    pub fn read(&self, at: At) -> bool {
        black_box(self.0.prepare_read_config(at.bdf, at.offset, at.width)).is_ok()
    }

    pub fn write(&self, at: At, value: u64) -> bool {
        black_box(self.0.prepare_write_config(at.bdf, at.offset, at.width, value)).is_ok()
    }

    pub fn lookup(&self, address: u64, width: AccessWidth) -> bool {
        black_box(self.0.resolve_bar(address, width)).is_some()
    }

    pub fn reset(&self) -> bool {
        black_box(self.0.reset()).is_ok()
    }
}

//! A BAR's register.

use rules::{BarNow, BarWrite};

/// The library's numbers are wider; one that is no dword is no answer, and so a difference.
pub fn dword(number: u64) -> Option<u32> {
    u32::try_from(number).ok()
}

pub fn shown(bar: BarNow) -> Option<u32> {
    dword(library::shown(bar.size, bar.address.into(), bar.probing)?)
}

pub fn write(bar: BarNow, lane: u8, width: u8, value: u64) -> Option<BarWrite> {
    let asked = library::bar_asks(bar.size, bar.address.into(), bar.probing, lane.into(), width.into(), value)?;
    Some(if asked.probe { BarWrite::Probe } else { BarWrite::Relocate(dword(asked.address)?) })
}

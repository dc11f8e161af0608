//! Refusal 7, and a BAR's register.

use rules::{BarNow, BarWrite};

use super::access::value_bytes;

const FOUR_GIB: u64 = 0x1_0000_0000;

pub fn size_ok(size: u64) -> bool {
    size >= 16 && size.count_ones() == 1 && size <= FOUR_GIB
}

/// 2^32 minus size.
pub fn size_mask(size: u64) -> u32 {
    (FOUR_GIB - size) as u32
}

/// The committed address with low four bits zero.
pub fn committed(bar: BarNow) -> u32 {
    bar.address / 16 * 16
}

pub fn shown(bar: BarNow) -> u32 {
    if bar.probing { size_mask(bar.size) } else { committed(bar) }
}

/// A write merges its bytes into the committed dword, also while probing.
fn merged(bar: BarNow, lane: u8, width: u8, value: u64) -> u32 {
    let mut bytes = committed(bar).to_le_bytes();
    for (at, byte) in value_bytes(value, width).into_iter().enumerate() {
        bytes[usize::from(lane) + at] = byte;
    }
    u32::from_le_bytes(bytes)
}

pub fn write(bar: BarNow, lane: u8, width: u8, value: u64) -> BarWrite {
    match merged(bar, lane, width, value) {
        0xffff_ffff => BarWrite::Probe,
        dword => BarWrite::Relocate(dword / 16 * 16),
    }
}

//! Refusal 18, and numbers in bytes.

pub fn check(offset: u64, width: u64) -> bool {
    offset < 0x100 && [1, 2, 4].contains(&width) && offset.is_multiple_of(width)
}

/// The number that `width` bytes from `offset` spell.
pub fn read(bytes: &[u8], offset: u16, width: u8) -> u32 {
    let bytes = &bytes[offset.into()..][..width.into()];
    bytes.iter().rev().fold(0, |number, byte| number * 256 + u32::from(*byte))
}

/// The bytes of the value, those beyond the width left out.
pub fn value_bytes(value: u64, width: u8) -> Vec<u8> {
    value.to_le_bytes()[..width.into()].to_vec()
}

/// Stores value bits where the mask is 1.
pub fn store(live: &mut [u8; 256], masks: &[u8; 256], offset: u16, width: u8, value: u64) {
    for (at, byte) in value_bytes(value, width).into_iter().enumerate() {
        let at = usize::from(offset) + at;
        live[at] = (live[at] & !masks[at]) | (byte & masks[at]);
    }
}

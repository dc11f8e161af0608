//! Inputs of the access check.

use rules::Question;

use crate::duel::{Checked, Duel};

/// Every offset of 16 bits with every width of the Rust: all that it can be asked.
pub fn check(duel: &mut Duel) -> Checked {
    for offset in 0..=0xffff {
        for width in [1, 2, 4, 8] {
            duel.put(&Question::Check { offset, width })?;
        }
    }
    // Beyond the Rust's types, for the sides that can be asked.
    for offset in (0..0x110).chain([0x1_0000, 0x1_0004, u32::MAX]) {
        for width in (0..=17).chain([0x100, 0x101, 0x104, u32::MAX]) {
            duel.put(&Question::Check { offset, width })?;
        }
    }
    Ok(())
}

/// Every aligned access.
pub fn accesses() -> impl Iterator<Item = (u16, u8)> {
    [1, 2, 4].into_iter().flat_map(|width: u8| (0..0x100).step_by(width.into()).map(move |offset| (offset, width)))
}

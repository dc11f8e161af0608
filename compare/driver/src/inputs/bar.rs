//! Inputs of a BAR's rules.

use rules::{BarNow, Question, Random};

use crate::duel::{Checked, Duel};

/// 16 bytes to 4 GiB.
pub fn sizes() -> impl Iterator<Item = u64> {
    (4..=32).map(|bit| 1 << bit)
}

/// Where a merge or a mask could go wrong.
pub const ADDRESSES: [u32; 12] = [
    0,
    0x10,
    0x8000_1000,
    0x8000_0000,
    0x7fff_fff0,
    0x00ff_ff00,
    0xff00_0000,
    0xffff_0000,
    0xffff_f000,
    0xffff_ff00,
    0xffff_fff0,
    0x1234_5670,
];

/// Around each power of two, and all short ones.
pub fn size_ok(duel: &mut Duel) -> Checked {
    for size in 0..=0x2_0000 {
        duel.listed(|| Question::SizeOk { size })?;
    }
    for bit in 0..64 {
        for other in 0..64 {
            for less in 0..3 {
                duel.listed(|| Question::SizeOk {
                    size: (1_u64 << bit | 1 << other).wrapping_add(1).wrapping_sub(less),
                })?;
            }
        }
    }
    Ok(())
}

pub fn random_size(random: &mut Random) -> Question {
    let size = match random.below(4) {
        0 => random.u64(),
        1 => random.u64() >> random.below(64),
        2 => 1 << random.below(64),
        _ => (1_u64 << random.below(64)) ^ (1 << random.below(64)),
    };
    Question::SizeOk { size }
}

pub fn size_mask(duel: &mut Duel) -> Checked {
    sizes().try_for_each(|size| duel.put(&Question::SizeMask { size }))
}

pub fn shown(duel: &mut Duel) -> Checked {
    for size in sizes() {
        for address in ADDRESSES {
            for probing in [false, true] {
                duel.listed(|| Question::Shown { bar: BarNow { size, address, probing } })?;
            }
        }
    }
    Ok(())
}

pub fn random_bar(random: &mut Random) -> BarNow {
    let size = 1 << (4 + random.below(29));
    let address = if random.once_in(4) { random.pick(&ADDRESSES) } else { random.u64() as u32 };
    BarNow { size, address, probing: random.once_in(2) }
}

pub fn random_shown(random: &mut Random) -> Question {
    Question::Shown { bar: random_bar(random) }
}

/// Every byte and every word at each lane, and dwords around all ones.
pub fn write(duel: &mut Duel) -> Checked {
    for address in ADDRESSES {
        for probing in [false, true] {
            let bar = BarNow { size: 0x1000, address, probing };
            for value in 0..=0xff {
                for lane in 0..4 {
                    duel.listed(|| Question::BarWrite { bar, lane, width: 1, value })?;
                }
            }
            for value in 0..=0xffff {
                for lane in [0, 2] {
                    duel.listed(|| Question::BarWrite { bar, lane, width: 2, value })?;
                }
            }
            for value in 0..=0xff {
                for value in [value, 0xffff_ff00 + value, value << 32 | 0xffff_ffff, value << 24 | 0xff_ffff] {
                    duel.listed(|| Question::BarWrite { bar, lane: 0, width: 4, value })?;
                }
            }
        }
    }
    Ok(())
}

pub fn random_write(random: &mut Random) -> Question {
    let width = random.pick(&[1, 2, 4]);
    let lane = random.below(4) as u8 / width * width;
    Question::BarWrite { bar: random_bar(random), lane, width, value: random_value(random) }
}

/// Eight bytes, often edgy, whatever the width: what lies beyond it must not count.
pub fn random_value(random: &mut Random) -> u64 {
    match random.below(4) {
        0 => u64::MAX,
        1 => random.u64(),
        _ => u64::from_le_bytes(std::array::from_fn(|_| random.edgy_byte())),
    }
}

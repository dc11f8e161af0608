//! Inputs of the capability rules.

use rules::{Capability, Effect, Question, Random};

use super::{
    MOST_CAPABILITIES, MOST_EFFECTS,
    access::accesses,
    declared::{ends, plain, random_capabilities, random_effect, random_fitting, random_length},
};
use crate::duel::{Checked, Duel};

pub fn body_ok(duel: &mut Duel) -> Checked {
    (0..=0x1_0001).try_for_each(|length| duel.put(&Question::BodyOk { length }))
}

/// One effect anywhere over bodies at their limits; then two in a short body under every mask.
pub fn effects(duel: &mut Duel) -> Checked {
    let one = |offset, length| Effect { id: 1, offset, length, access: 3 };
    for body in [0, 1, 2, 3, 8, 251, 252, 253] {
        for offset in 0..=0xff {
            for length in 0..=0xff {
                duel.listed(|| Question::FirstBadEffect { mask: vec![0; body], effects: vec![one(offset, length)] })?;
            }
        }
    }
    for bits in 0..32 {
        let mask: Vec<u8> = (0..5).map(|bit| (bits >> bit & 1) * 0x80).collect();
        for (a, b) in pairs(9).flat_map(|a| pairs(9).map(move |b| (a, b))) {
            let effects = || vec![one(a.0, a.1), one(b.0, b.1)];
            duel.listed(|| Question::FirstBadEffect { mask: mask.clone(), effects: effects() })?;
        }
    }
    Ok(())
}

fn pairs(below: u8) -> impl Iterator<Item = (u8, u8)> {
    (0..below).flat_map(move |a| (0..below).map(move |b| (a, b)))
}

pub fn random_effects(random: &mut Random) -> Question {
    let length = random_length(random, 253);
    let thick = random.once_in(4);
    let mask = (0..length).map(|_| if thick || random.once_in(8) { random.edgy_byte() } else { 0 }).collect();
    let count = random.below(MOST_EFFECTS as u64 + 1);
    let effects = (0..count).map(|_| random_effect(random, length)).collect();
    Question::FirstBadEffect { mask, effects }
}

/// Every pair of body lengths; triples that end around 0x100; the largest counts; repeated ids.
pub fn layout(duel: &mut Duel) -> Checked {
    for a in 0..=253 {
        duel.put(&Question::Layout { capabilities: vec![plain(a)] })?;
        for b in 0..=253 {
            duel.listed(|| Question::Layout { capabilities: vec![plain(a), plain(b)] })?;
        }
    }
    for (a, b) in (0..64).flat_map(|a| (0..64).map(move |b| (a, b))) {
        let two = ends(&[plain(a), plain(b)]);
        for c in (0..4).map(|more| 0x100 - two + more - 4) {
            duel.listed(|| Question::Layout { capabilities: vec![plain(a), plain(b), plain(c)] })?;
        }
    }
    for count in 0..=MOST_CAPABILITIES as usize {
        for length in 0..16 {
            duel.put(&Question::Layout { capabilities: vec![plain(length); count] })?;
        }
    }
    // Two effects, in one capability or in two, ids equal or not, before and after one that does not fit.
    let with = |length, effects: &[Effect]| Capability { effects: effects.to_vec(), ..plain(length) };
    for (a, b) in pairs(3) {
        let first = Effect { id: a.into(), offset: 2, length: 1, access: 1 };
        let second = Effect { id: b.into(), offset: 3, length: 1, access: 2 };
        for length in [2, 100, 189, 190, 191, 253] {
            for order in [
                vec![with(length, &[first, second])],
                vec![with(length, &[first]), with(2, &[second])],
                vec![with(2, &[first]), with(length, &[second])],
                vec![plain(length), with(2, &[first, second]), plain(length)],
            ] {
                duel.put(&Question::Layout { capabilities: order })?;
            }
        }
    }
    Ok(())
}

pub fn random_layout(random: &mut Random) -> Question {
    Question::Layout { capabilities: random_capabilities(random) }
}

/// One effect of each place and length in a body of six, under every access; a neighbour follows.
pub fn touch(duel: &mut Duel) -> Checked {
    for (offset, length) in pairs(9).filter(|(offset, length)| *offset >= 2 && *length > 0 && offset + length <= 8) {
        for access in 1..=3 {
            let first = Capability { effects: vec![Effect { id: 7, offset, length, access }], ..plain(6) };
            let second = Capability { effects: vec![Effect { id: 8, offset: 2, length: 1, access: 3 }], ..plain(1) };
            for (at, width) in accesses() {
                for write in [false, true] {
                    duel.listed(|| {
                        let capabilities = vec![first.clone(), second.clone()];
                        Question::EffectFor { capabilities, offset: at, width, write }
                    })?;
                }
            }
        }
    }
    Ok(())
}

/// Mostly around an effect, else anywhere.
pub fn random_touch(random: &mut Random) -> Question {
    let capabilities = random_fitting(random);
    let width = random.pick(&[1, 2, 4]);
    let offset = match random_effect_place(random, &capabilities) {
        Some((start, length)) if !random.once_in(8) => (start + random.below(length + 6)).saturating_sub(3).min(0xff),
        _ => random.below(0x100),
    };
    let offset = offset as u16 / width * width;
    Question::EffectFor { capabilities, offset, width: width as u8, write: random.once_in(2) }
}

/// Where one of the effects starts in config space, and its length.
fn random_effect_place(random: &mut Random, capabilities: &[Capability]) -> Option<(u64, u64)> {
    let at = random.below(capabilities.len().max(1) as u64) as usize;
    let it = capabilities.get(at).filter(|it| !it.effects.is_empty())?;
    let effect = random.pick(&it.effects);
    let start = ends(&capabilities[..at]).next_multiple_of(4) as u64;
    Some((start + u64::from(effect.offset), effect.length.into()))
}

pub fn modes(duel: &mut Duel) -> Checked {
    for length in 0..=190 {
        duel.put(&Question::Modes { capabilities: vec![plain(length)] })?;
    }
    for (offset, length) in pairs(9).filter(|(offset, length)| *offset >= 2 && *length > 0 && offset + length <= 8) {
        let effects = vec![Effect { id: 7, offset, length, access: 3 }];
        duel.put(&Question::Modes { capabilities: vec![Capability { effects, ..plain(6) }, plain(0)] })?;
    }
    Ok(())
}

pub fn random_modes(random: &mut Random) -> Question {
    Question::Modes { capabilities: random_fitting(random) }
}

/// Every lone body over an image that counts; indexes past the last and other image lengths, beyond the Rust.
pub fn view(duel: &mut Duel) -> Checked {
    for length in 0..=190 {
        for index in 0..3 {
            for bytes in [0, 0x42, 0xff, 0x100, 0x101] {
                let image = (0..bytes).map(|byte: u64| byte as u8).collect();
                duel.put(&Question::View { capabilities: vec![plain(length)], index, image })?;
            }
        }
    }
    Ok(())
}

pub fn random_view(random: &mut Random) -> Question {
    let capabilities = random_fitting(random);
    let past = random.below(16) / 15;
    let index = random.below(capabilities.len() as u64 + past + u64::from(capabilities.is_empty())) as usize;
    let length = if random.once_in(16) { random.below(0x200) } else { 0x100 };
    Question::View { capabilities, index, image: (0..length).map(|_| random.byte()).collect() }
}

//! Random capabilities that can be declared, for all rules that take some.

use rules::{Capability, Effect, Random};

use super::{MOST_CAPABILITIES, MOST_EFFECTS};

/// Zero bytes and no effects.
pub fn plain(length: usize) -> Capability {
    Capability { id: 0x09, body: vec![0; length], mask: vec![0; length], effects: vec![] }
}

/// Often short, often near the body's ends.
pub fn random_effect(random: &mut Random, body: usize) -> Effect {
    let offset = match random.below(8) {
        0 => random.byte(),
        1 => random.below(4) as u8,
        2 => (body + 2).saturating_sub(random.below(4) as usize) as u8,
        _ => 2 + random.below(body.clamp(1, 253) as u64) as u8,
    };
    let left = (body + 2).saturating_sub(offset.into()) as u64;
    let length = match random.below(8) {
        0 => random.byte(),
        1 => left as u8,
        2 => (left as u8).wrapping_add(1),
        _ => random.below(u64::min(left + 1, 9)) as u8,
    };
    let id = if random.once_in(8) { random.below(4) as u16 } else { random.u64() as u16 };
    Effect { id, offset, length, access: 1 + random.below(3) as u8 }
}

/// A length up to `most`, short ones as often as long ones.
pub fn random_length(random: &mut Random, most: u64) -> usize {
    let bound = [4, 12, 40, most + 1][random.below(4) as usize];
    random.below(bound.min(most + 1)) as usize
}

/// Capabilities that 10 and 11 let through; they need not fit, and effect ids may repeat.
pub fn random_capabilities(random: &mut Random) -> Vec<Capability> {
    let count = match random.below(4) {
        0 => random.below(3),
        1 => random.below(7),
        _ => random.below(MOST_CAPABILITIES + 1),
    };
    // Mostly what fits, sometimes a little more.
    let fair = 192_u64.checked_div(count).unwrap_or(0);
    let bound = if random.once_in(6) { 2 * fair } else { fair }.clamp(3, 253);
    let mut out: Vec<Capability> = Vec::new();
    let mut effects = 0;
    for _ in 0..count {
        let mut it = plain(random.below(bound - 1) as usize);
        it.id = random.byte();
        for at in 0..it.body.len() {
            it.body[at] = random.byte();
            it.mask[at] = random.edgy_byte();
        }
        for _ in 0..random.below(4) {
            let effect = random_effect(random, it.body.len());
            effects += usize::from(effects < MOST_EFFECTS && add(&mut it, effect));
        }
        out.push(it);
    }
    // The last one to the end of config space, or one byte more.
    if let Some(last) = out.last_mut().filter(|_| random.once_in(3)) {
        *last = plain(0);
        let used = ends(&out);
        if used <= 0x100 {
            *out.last_mut().expect("one") = plain((0x100 - used + random.below(2) as usize).min(253));
        }
    }
    if !random.once_in(6) {
        different_ids(&mut out);
    }
    out
}

/// Where the last capability ends, each at the next multiple of 4.
pub fn ends(capabilities: &[Capability]) -> usize {
    capabilities.iter().fold(0x40, |end: usize, it| end.next_multiple_of(4) + 2 + it.body.len())
}

/// Adds the effect if there is room for it, and clears its masks; true if it did.
fn add(capability: &mut Capability, effect: Effect) -> bool {
    let (start, end) = (usize::from(effect.offset), usize::from(effect.offset) + usize::from(effect.length));
    let apart = |other: &Effect| {
        let (a, b) = (usize::from(other.offset), usize::from(other.offset) + usize::from(other.length));
        b <= start || end <= a
    };
    let fits = start >= 2 && start < end && end <= capability.body.len() + 2;
    if !fits || !capability.effects.iter().all(apart) {
        return false;
    }
    capability.mask[start - 2..end - 2].fill(0);
    capability.effects.push(effect);
    true
}

fn different_ids(capabilities: &mut [Capability]) {
    for (id, effect) in capabilities.iter_mut().flat_map(|it| &mut it.effects).enumerate() {
        effect.id = effect.id / 64 * 64 + id as u16;
    }
}

/// Capabilities that fit, with different effect ids.
pub fn random_fitting(random: &mut Random) -> Vec<Capability> {
    let mut out = random_capabilities(random);
    different_ids(&mut out);
    while ends(&out) > 0x100 {
        out.pop();
    }
    out
}

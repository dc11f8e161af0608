//! Refusals 10 to 13 and 19; layout, byte modes and views.

use rules::{Capability, Effect, LayoutRefusal, Mode, Touch, Touched};

/// A capability and its offset.
pub type Placed = (Capability, usize);

pub fn body_ok(length: usize) -> bool {
    length <= 253
}

/// Empty, starts before 2, ends after its capability, overlaps an earlier one there, or covers a byte with mask not zero.
fn effect_bad(mask: &[u8], earlier: &[Effect], effect: &Effect) -> bool {
    effect.length == 0
        || effect.offset < 2
        || bytes_of(effect).end > 2 + mask.len()
        || earlier.iter().any(|other| bytes_of(other).any(|byte| bytes_of(effect).contains(&byte)))
        || bytes_of(effect).any(|byte| mask[byte - 2] != 0)
}

/// The bytes of an effect, from the capability's start.
fn bytes_of(effect: &Effect) -> std::ops::Range<usize> {
    let start = usize::from(effect.offset);
    start..start + usize::from(effect.length)
}

pub fn first_bad_effect(mask: &[u8], effects: &[Effect]) -> Option<usize> {
    (0..effects.len()).find(|&at| effect_bad(mask, &effects[..at], &effects[at]))
}

/// None of 2, 10 and 11: such a capability can be declared.
pub fn held(capabilities: &[Capability]) -> bool {
    capabilities.iter().all(|capability| {
        capability.body.len() == capability.mask.len()
            && body_ok(capability.body.len())
            && capability.effects.iter().all(|effect| (1..=3).contains(&effect.access))
            && first_bad_effect(&capability.mask, &capability.effects).is_none()
    })
}

/// From 0x40, each at the next multiple of 4 after the one before.
pub fn layout(capabilities: &[Capability]) -> Result<Vec<u8>, LayoutRefusal> {
    let mut offsets = Vec::new();
    let mut ids = Vec::new();
    let mut free = 0x40;
    for (index, capability) in capabilities.iter().enumerate() {
        for effect in &capability.effects {
            if ids.contains(&effect.id) {
                return Err(LayoutRefusal { number: 12, index });
            }
            ids.push(effect.id);
        }
        let start = usize::next_multiple_of(free, 4);
        free = start + 2 + capability.body.len();
        if free > 0x100 {
            return Err(LayoutRefusal { number: 13, index });
        }
        offsets.push(start as u8);
    }
    Ok(offsets)
}

pub fn placed(capabilities: &[Capability]) -> Option<Vec<Placed>> {
    if !held(capabilities) {
        return None;
    }
    let offsets = layout(capabilities).ok()?;
    Some(capabilities.iter().cloned().zip(offsets.into_iter().map(usize::from)).collect())
}

/// For each byte of config space, the effect that owns it and the index of its capability.
pub type Owners = [Option<(usize, Effect)>; 256];

pub fn owners(placed: &[Placed]) -> Owners {
    let mut owners = [None; 256];
    for (index, (capability, start)) in placed.iter().enumerate() {
        for effect in &capability.effects {
            bytes_of(effect).for_each(|byte| owners[start + byte] = Some((index, *effect)));
        }
    }
    owners
}

/// 19: touches an effect but isn't inside it, or its direction isn't allowed.
pub fn touch(placed: &[Placed], owners: &Owners, live: &[u8; 256], offset: u16, width: u8, write: bool) -> Touch {
    let (before, owners) = owners.split_at(offset.into());
    let owners = &owners[..width.into()];
    if owners.iter().all(Option::is_none) {
        return Touch::Untouched;
    }
    let Some((index, effect)) = owners[0] else { return Touch::Refused };
    let direction = if write { 2 } else { 1 };
    if owners.iter().any(|owner| *owner != owners[0]) || effect.access & direction == 0 {
        return Touch::Refused;
    }
    let (capability, start) = &placed[index];
    Touch::Inside(Touched {
        capability: capability.id,
        effect: effect.id,
        region: (effect.offset, effect.length),
        offset: (usize::from(offset) - start) as u8,
        region_offset: before.iter().rev().take_while(|owner| **owner == owners[0]).count() as u8,
        body: body_in(live, capability, *start),
    })
}

fn body_in(image: &[u8], capability: &Capability, start: usize) -> Vec<u8> {
    image[start + 2..][..capability.body.len()].to_vec()
}

pub fn modes(placed: &[Placed]) -> [Mode; 256] {
    let mut modes = [Mode::Outside; 256];
    for (capability, start) in placed {
        modes[*start] = Mode::Constant;
        modes[start + 1] = Mode::Constant;
        for (at, mask) in capability.mask.iter().enumerate() {
            modes[start + 2 + at] = if *mask == 0 { Mode::Constant } else { Mode::Stored };
        }
        for byte in capability.effects.iter().flat_map(bytes_of) {
            modes[start + byte] = Mode::Effect;
        }
    }
    modes
}

/// An index past the last, or an image that isn't 256 bytes long, is answered by none.
pub fn view(placed: &[Placed], index: usize, image: &[u8]) -> Option<Vec<u8>> {
    let (capability, start) = placed.get(index)?;
    (image.len() == 256).then(|| body_in(image, capability, *start))
}

//! Declared capabilities as numbers, and what is asked of them.

use library::{DeclaredNumbers, Placed, PlacedEffect, SPACE, Snapshot, ViewCopy};
use rules::{Capability, Effect, LayoutRefusal, Mode, Touch, Touched};

fn numbers(effect: &Effect, capability: usize) -> PlacedEffect {
    let Effect { id, offset, length, access } = *effect;
    PlacedEffect { id, capability: capability as u8, offset, length, access }
}

/// None past a limit.
fn declared(capabilities: &[Capability]) -> Option<DeclaredNumbers> {
    let mut out = DeclaredNumbers { count: capabilities.len(), ..DeclaredNumbers::default() };
    for (index, capability) in capabilities.iter().enumerate() {
        *out.ids.get_mut(index)? = capability.id;
        out.lengths[index] = u8::try_from(capability.body.len()).ok()?;
        for effect in &capability.effects {
            *out.effects.get_mut(out.effect_count)? = numbers(effect, index);
            out.effect_count += 1;
        }
    }
    Some(out)
}

/// One after the other, each beside those before it.
pub fn first_bad_effect(mask: &[u8], effects: &[Effect]) -> Option<Option<usize>> {
    let mut so_far = DeclaredNumbers { count: 1, ..DeclaredNumbers::default() };
    so_far.lengths[0] = u8::try_from(mask.len()).ok()?;
    for (index, effect) in effects.iter().enumerate() {
        let effect = numbers(effect, 0);
        if !super::passes(library::effect(so_far, mask, effect)?, 11)? {
            return Some(Some(index));
        }
        *so_far.effects.get_mut(index)? = effect;
        so_far.effect_count += 1;
    }
    Some(None)
}

pub fn layout(capabilities: &[Capability]) -> Option<Result<Vec<u8>, LayoutRefusal>> {
    let out = library::layout(declared(capabilities)?)?;
    Some(match out.refusal {
        0 => Ok(out.placed.capabilities.get(..out.placed.count)?.iter().map(|it| it.offset.0 as u8).collect()),
        number => Err(LayoutRefusal { number, index: out.index }),
    })
}

/// None if they are refused.
pub fn placed(capabilities: &[Capability]) -> Option<Placed> {
    let out = library::layout(declared(capabilities)?)?;
    (out.refusal == 0).then_some(out.placed)
}

/// What `part` gives for each capability, each at its place in config space.
pub fn spread(placed: &Placed, capabilities: &[Capability], part: fn(&Capability) -> &[u8]) -> [u8; SPACE] {
    let mut out = [0; SPACE];
    for (it, capability) in placed.capabilities.iter().zip(capabilities) {
        let start = usize::from(it.offset.0) + 2;
        // A place outside is a difference elsewhere; here it must not end the run.
        if let Some(place) = out.get_mut(start..start + part(capability).len()) {
            place.copy_from_slice(part(capability));
        }
    }
    out
}

pub fn bytes(body: &Snapshot) -> Option<Vec<u8>> {
    Some(body.bytes.get(..body.length.into())?.to_vec())
}

/// 18 is no question of this rule.
pub fn touch(placed: Placed, image: &[u8], offset: u16, width: u8, write: bool) -> Option<Touch> {
    let out = library::touch(placed, offset.into(), width.into(), write)?;
    match (out.refusal, out.inside) {
        (0, false) => Some(Touch::Untouched),
        (0, true) => {
            let body = library::snapshot(placed, image, out.region.capability.into())?;
            Some(Touch::Inside(touched(out.capability_id, out.region, out.offset, out.region_offset, &body)?))
        }
        (19, _) => Some(Touch::Refused),
        _ => None,
    }
}

pub fn touched(
    capability: u8,
    region: PlacedEffect,
    offset: u16,
    region_offset: u16,
    body: &Snapshot,
) -> Option<Touched> {
    Some(Touched {
        capability,
        effect: region.id,
        region: (region.offset, region.length),
        offset: u8::try_from(offset).ok()?,
        region_offset: u8::try_from(region_offset).ok()?,
        body: bytes(body)?,
    })
}

pub fn modes(capabilities: &[Capability]) -> Option<[Mode; SPACE]> {
    let placed = placed(capabilities)?;
    let mask = spread(&placed, capabilities, |it| &it.mask);
    let mut out = [Mode::Outside; SPACE];
    for (offset, mode) in out.iter_mut().enumerate() {
        *mode = match library::mode(placed, &mask, offset)? {
            0 => Mode::Outside,
            1 => Mode::Constant,
            2 => Mode::Stored,
            3 => Mode::Effect,
            _ => return None,
        };
    }
    Some(out)
}

/// An absent view has no bytes.
fn shown(view: &ViewCopy) -> Option<Option<Vec<u8>>> {
    let body = bytes(&view.body)?;
    if view.found { Some(Some(body)) } else { body.is_empty().then_some(None) }
}

/// The image is asked for as the live one and as the power-on one, each time beside a whole one; both have to answer alike.
pub fn view(capabilities: &[Capability], index: usize, image: &[u8]) -> Option<Option<Vec<u8>>> {
    let placed = placed(capabilities)?;
    let whole = [0; SPACE];
    let live = library::view(placed, index, image, &whole, true)?;
    let power = library::view(placed, index, &whole, image, false)?;
    let view = shown(&live)?;
    (view == shown(&power)?).then_some(view)
}

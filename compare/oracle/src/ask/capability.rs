//! capability.rs: bodies, effects, layout, byte modes and views.

use rules::{Capability, Effect, LayoutRefusal, Mode};

use crate::{
    ConfigOffset,
    pci::{
        PciCapabilityEffectRegion, PciCapabilityId, PciCapabilityLayout, PciCapabilitySpec, PciError,
        capability::{PciCapabilityByteMode, PciCapabilityEffectAccess, PciConfigEffectId, layout_capabilities},
    },
};

pub(super) fn body_ok(length: usize) -> bool {
    let zeros = vec![0; length];
    PciCapabilitySpec::new(PciCapabilityId::new(0), zeros.clone(), zeros).is_ok()
}

/// Outer None: a direction that the Rust does not have. Inner None: an empty effect, refused here already.
fn region(effect: &Effect) -> Option<Option<PciCapabilityEffectRegion>> {
    let access = match effect.access {
        1 => PciCapabilityEffectAccess::Read,
        2 => PciCapabilityEffectAccess::Write,
        3 => PciCapabilityEffectAccess::ReadWrite,
        _ => return None,
    };
    let id = PciConfigEffectId::new(effect.id);
    Some(PciCapabilityEffectRegion::new(id, effect.offset, effect.length, access).ok())
}

pub(super) fn first_bad_effect(mask: &[u8], effects: &[Effect]) -> Option<Option<usize>> {
    let mut spec = PciCapabilitySpec::new(PciCapabilityId::new(0), vec![0; mask.len()], mask).ok()?;
    let regions: Vec<_> = effects.iter().map(region).collect::<Option<_>>()?;
    for (index, region) in regions.into_iter().enumerate() {
        let Some(region) = region else { return Some(Some(index)) };
        let Ok(more) = spec.with_effect(region) else { return Some(Some(index)) };
        spec = more;
    }
    Some(None)
}

/// None if 10 or 11 refuses one of them: the Rust cannot hold such a capability.
pub(super) fn specs(capabilities: &[Capability]) -> Option<Vec<PciCapabilitySpec>> {
    let spec = |capability: &Capability| {
        let id = PciCapabilityId::new(capability.id);
        let spec = PciCapabilitySpec::new(id, &capability.body[..], &capability.mask[..]).ok()?;
        capability.effects.iter().try_fold(spec, |spec, effect| spec.with_effect(region(effect)??).ok())
    };
    capabilities.iter().map(spec).collect()
}

/// The Rust gives no index: the shortest refused prefix ends in the one at fault.
pub(super) fn layout(capabilities: &[Capability]) -> Option<Result<Vec<u8>, LayoutRefusal>> {
    let specs = specs(capabilities)?;
    let Err(error) = layout_capabilities(&specs) else {
        return Some(Ok(offsets(&layout_capabilities(&specs).ok()?)));
    };
    let index = (0..specs.len()).find(|&last| layout_capabilities(&specs[..=last]).is_err())?;
    Some(Err(LayoutRefusal { number: number(&error), index }))
}

fn offsets(layouts: &[PciCapabilityLayout]) -> Vec<u8> {
    layouts.iter().map(|layout| layout.offset().value() as u8).collect()
}

/// The Rust tells its refusals apart by text.
fn number(error: &PciError) -> u8 {
    match error {
        PciError::InvalidCapability { detail } if detail.contains("duplicated") => 12,
        PciError::InvalidCapability { detail } if detail.contains("exceed conventional config space") => 13,
        other => panic!("a refusal of layout that document 01 does not have: {other}"),
    }
}

pub(super) fn layouts(capabilities: &[Capability]) -> Option<Vec<PciCapabilityLayout>> {
    layout_capabilities(&specs(capabilities)?).ok()
}

pub(super) fn modes(capabilities: &[Capability]) -> Option<[Mode; 256]> {
    let layouts = layouts(capabilities)?;
    let mode = |offset: usize| {
        let offset = ConfigOffset::new(offset as u16).expect("below 256");
        match layouts.iter().find_map(|layout| layout.byte_mode(offset)) {
            None => Mode::Outside,
            Some(PciCapabilityByteMode::Constant) => Mode::Constant,
            Some(PciCapabilityByteMode::StoredMasked) => Mode::Stored,
            Some(PciCapabilityByteMode::EffectOnly) => Mode::Effect,
        }
    };
    Some(core::array::from_fn(mode))
}

/// Asked only where the Rust does not panic: an index that exists, an image of 256 bytes.
pub(super) fn view(capabilities: &[Capability], index: usize, image: &[u8]) -> Option<Option<Vec<u8>>> {
    if image.len() != 256 {
        return None;
    }
    let layouts = layouts(capabilities)?;
    Some(Some(layouts.get(index)?.snapshot(image).bytes().to_vec()))
}

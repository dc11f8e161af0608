//! Declaration files, and the bus that each starts.

use rules::{Aperture, Effect, FilePlace, FileRefusal, Kept, KeptBar, Started};
use voussglen::{
    Bus, Place,
    raw::{self, BarState, FunctionState, PlacedCapability, PlacedEffect},
};

/// Refused, the library leaves the empty bus in whatever it was lent; one file in 16 shows it.
pub fn started(bytes: &[u8]) -> Option<Result<Started, FileRefusal>> {
    match Bus::from_declaration(bytes) {
        Ok(bus) => Some(Ok(Started { aperture: aperture(bus.raw()), functions: kept(bus.raw())? })),
        Err(refusal) if !bytes.len().is_multiple_of(16) || refused_is_empty(bytes) => {
            let place = match refusal.place {
                Place::Offset(offset) => FilePlace::Offset(offset),
                Place::Index { device, index } => FilePlace::Index { device, index },
                Place::Nowhere | Place::Device(_) => return None,
            };
            Some(Err(FileRefusal { number: refusal.number, place }))
        }
        Err(_) => None,
    }
}

/// Starts the file in a bus that is not empty.
fn refused_is_empty(bytes: &[u8]) -> bool {
    let mut bus = full();
    // SAFETY: the bus is ours alone, and the file is a slice.
    unsafe { raw::vg_start(&mut bus, bytes.as_ptr(), bytes.len()) };
    bus == EMPTY
}

const NO_BAR: BarState = BarState { plan: raw::Plan { slot: 0, size: 0, address: 0 }, address: 0, probing: false };
const NO_EFFECT: PlacedEffect = PlacedEffect { id: 0, capability: 0, offset: 0, length: 0, access: 0 };
const NO_CAPABILITY: PlacedCapability = PlacedCapability { id: 0, offset: 0, length: 0 };
const NO_FUNCTION: FunctionState = FunctionState {
    live: [0; raw::CONFIG_SPACE],
    power_on: [0; raw::CONFIG_SPACE],
    mask: [0; raw::CONFIG_SPACE],
    bars: [NO_BAR; raw::SLOTS],
    placed: raw::Placed {
        capabilities: [NO_CAPABILITY; raw::CAPABILITIES],
        count: 0,
        effects: [NO_EFFECT; raw::EFFECTS],
        effect_count: 0,
    },
    revision: 0,
};
const EMPTY: raw::Bus = raw::Bus {
    aperture: raw::Aperture { start: 0, end: 0 },
    devices: [0; raw::FUNCTIONS],
    functions: [NO_FUNCTION; raw::FUNCTIONS],
    count: 0,
};

/// A bus in which nothing is zero but what lies deep inside.
fn full() -> raw::Bus {
    let function = FunctionState {
        live: [1; raw::CONFIG_SPACE],
        power_on: [2; raw::CONFIG_SPACE],
        mask: [3; raw::CONFIG_SPACE],
        revision: 4,
        bars: [BarState { plan: raw::Plan { slot: 5, size: 16, address: 32 }, address: 48, probing: true }; raw::SLOTS],
        ..NO_FUNCTION
    };
    let aperture = raw::Aperture { start: 1, end: 2 };
    raw::Bus { aperture, devices: [9; raw::FUNCTIONS], functions: [function; raw::FUNCTIONS], count: raw::FUNCTIONS }
}

pub fn aperture(bus: &raw::Bus) -> Aperture {
    Aperture { start: bus.aperture.start, end: bus.aperture.end }
}

/// All functions; none if something lies past the last.
pub fn kept(bus: &raw::Bus) -> Option<Vec<Kept>> {
    let blank = bus.functions.get(bus.count..)?.iter().all(|it| *it == NO_FUNCTION)
        && bus.devices[bus.count..].iter().all(|it| *it == 0);
    if !blank {
        return None;
    }
    bus.devices.iter().zip(&bus.functions).take(bus.count).map(|(device, it)| kept_of(*device, it)).collect()
}

pub fn kept_of(device: u8, it: &FunctionState) -> Option<Kept> {
    let (capabilities, no_capabilities) = it.placed.capabilities.split_at_checked(it.placed.count)?;
    let (effects, no_effects) = it.placed.effects.split_at_checked(it.placed.effect_count)?;
    let blank = no_capabilities.iter().all(|it| *it == NO_CAPABILITY) && no_effects.iter().all(|it| *it == NO_EFFECT);
    let effect = |it: &PlacedEffect| {
        (it.capability, Effect { id: it.id, offset: it.offset, length: it.length, access: it.access })
    };
    blank.then_some(())?;
    Some(Kept {
        device,
        live: it.live,
        power_on: it.power_on,
        masks: it.mask,
        bars: bars(it)?,
        capabilities: capabilities.iter().map(|it| (it.id, it.offset, it.length)).collect(),
        effects: effects.iter().map(effect).collect(),
        revision: it.revision,
    })
}

/// By slot; none if one has another slot's number, or has no size and yet an address.
fn bars(it: &FunctionState) -> Option<[Option<KeptBar>; raw::SLOTS]> {
    let mut out = [None; raw::SLOTS];
    for (slot, bar) in it.bars.iter().enumerate() {
        if bar.plan.size == 0 {
            let blank = BarState { plan: raw::Plan { slot: bar.plan.slot, ..NO_BAR.plan }, ..NO_BAR };
            (*bar == blank).then_some(())?;
            continue;
        }
        (usize::from(bar.plan.slot) == slot).then_some(())?;
        let (size, planned) = (bar.plan.size, bar.plan.address);
        out[slot] = Some(KeptBar { size, planned, address: bar.address, probing: bar.probing });
    }
    Some(out)
}

//! Steps on a bus that starts from a declaration file.

use rules::{After, Answer, Aperture, BusOp, Card, End, Request, Story, Touched, Wish, turn};
use voussglen::{Bus, Effect, Place, Read, Refusal, Written, raw};

use super::{file, register::dword};

/// The cards in their order, each BAR fixed where it lies.
fn declaration(aperture: Aperture, cards: &[Card]) -> Vec<u8> {
    let wishes = |card: &Card| {
        let bars = card.function.bars.iter();
        bars.map(|bar| Wish {
            device: card.device,
            slot: bar.slot,
            size: bar.size,
            request: Request::Fixed(bar.address.into()),
        })
        .collect()
    };
    let functions: Vec<_> = cards.iter().map(|card| (card.device, &card.function, wishes(card))).collect();
    rules::fields(aperture, &functions).concat()
}

/// A revision to start from is set in the struct: no history is that long.
fn start(aperture: Aperture, cards: &[Card]) -> Option<Bus> {
    let bus = Bus::from_declaration(&declaration(aperture, cards)).ok()?;
    let mut raw = *bus.raw();
    for card in cards {
        let at = index(&raw, card.device)?;
        raw.functions[at].revision = card.revision;
    }
    Some(Bus::from_raw(raw))
}

fn index(bus: &raw::Bus, device: u8) -> Option<usize> {
    bus.devices.get(..bus.count)?.iter().position(|it| *it == device)
}

pub fn story(aperture: Aperture, cards: &[Card], ops: &[BusOp]) -> Option<Story> {
    let mut bus = start(aperture, cards)?;
    (file::aperture(bus.raw()) == aperture).then_some(())?;
    let mut after = vec![After { changed: file::kept(bus.raw())?, found: found(&bus, 0)? }];
    let mut answers = Vec::new();
    for op in ops {
        let before = *bus.raw();
        answers.push(step(&mut bus, *op)?);
        after.push(After { changed: changed(&before, bus.raw())?, found: found(&bus, after.len())? });
    }
    let ends = cards.iter().map(|card| end(&bus, card.device)).collect::<Option<_>>()?;
    Some(Story { answers, ends, after: Some(after) })
}

/// The functions that are not as before; none if anything else is not.
fn changed(before: &raw::Bus, now: &raw::Bus) -> Option<Vec<rules::Kept>> {
    let (rest, same) = ((now.aperture, now.devices, now.count), (before.aperture, before.devices, before.count));
    (rest == same && now.functions[now.count..] == before.functions[now.count..]).then_some(())?;
    let differ = (0..now.count).filter(|&at| now.functions[at] != before.functions[at]);
    differ.map(|at| file::kept_of(now.devices[at], &now.functions[at])).collect()
}

/// The lookup after so many steps. Outer none: no answer.
fn found(bus: &Bus, count: usize) -> Option<Option<Answer>> {
    let bars = bus.raw().functions.iter().flat_map(|it| &it.bars).filter(|bar| bar.plan.size != 0);
    let bars: Vec<_> = bars.map(|bar| (bar.address, bar.plan.size)).collect();
    match turn(count, &bars) {
        Some((address, width)) => lookup(bus, address, width).map(Some),
        None => Some(None),
    }
}

fn step(bus: &mut Bus, op: BusOp) -> Option<Answer> {
    match op {
        BusOp::Read { device, offset, width } => read(bus, device, offset, width),
        BusOp::Write { device, offset, width, value } => write(bus, device, offset, width, value),
        BusOp::Lookup { address, width } => lookup(bus, address, width),
        BusOp::Reset => match bus.reset() {
            Ok(()) => Some(Answer::Done),
            Err(Refusal { number: 20, place: Place::Device(device) }) => Some(Answer::ResetAtLargest { device }),
            Err(_) => None,
        },
    }
}

fn read(bus: &Bus, device: u64, offset: u64, width: u64) -> Option<Answer> {
    match bus.read(device as usize, offset as usize, width as usize) {
        Ok(Read::Value(value)) => Some(Answer::Value(dword(value)?)),
        Ok(Read::Effect(effect)) => inside(effect),
        Err(refusal) => refused(refusal, device),
    }
}

fn write(bus: &mut Bus, device: u64, offset: u64, width: u64, value: u64) -> Option<Answer> {
    Some(match bus.write(device as usize, offset as usize, width as usize, value) {
        Ok(Written::Stored) => Answer::Done,
        Ok(Written::Dropped) => Answer::Dropped,
        Ok(Written::Probing { slot }) => Answer::Probing { slot: u8::try_from(slot).ok()? },
        Ok(Written::Moved { slot, address }) => {
            Answer::Moved { slot: u8::try_from(slot).ok()?, address: dword(address)? }
        }
        Ok(Written::Kept { slot, address }) => {
            Answer::Stayed { slot: u8::try_from(slot).ok()?, address: dword(address)? }
        }
        Ok(Written::Effect(effect)) => inside(effect)?,
        Err(refusal) => refused(refusal, device)?,
    })
}

fn lookup(bus: &Bus, address: u64, width: u64) -> Option<Answer> {
    Some(match bus.lookup(address, width as usize) {
        Ok(Some(hit)) => Answer::Hit { device: hit.device, slot: u8::try_from(hit.slot).ok()?, offset: hit.offset },
        Ok(None) => Answer::Miss,
        Err(refusal) => refused(refusal, 0)?,
    })
}

fn inside(effect: Effect) -> Option<Answer> {
    Some(Answer::Inside(Touched {
        capability: effect.capability_id,
        effect: effect.region.id,
        region: (effect.region.offset, effect.region.length),
        offset: u8::try_from(effect.offset).ok()?,
        region_offset: u8::try_from(effect.region_offset).ok()?,
        body: effect.body,
    }))
}

/// 20 is at the device that was asked, 18 and 19 are nowhere.
fn refused(refusal: Refusal, device: u64) -> Option<Answer> {
    let place = match refusal.number {
        20 => Place::Device(u8::try_from(device).ok()?),
        _ => Place::Nowhere,
    };
    (refusal.place == place).then_some(Answer::Refused(refusal.number))
}

/// As far as the root of the Rust shows it.
fn end(bus: &Bus, device: u8) -> Option<End> {
    let mut shown = [0; raw::CONFIG_SPACE];
    for (dword, bytes) in shown.chunks_mut(4).enumerate() {
        if let Ok(Read::Value(value)) = bus.read(device.into(), 4 * dword, 4) {
            bytes.copy_from_slice(&u32::try_from(value).ok()?.to_le_bytes());
            continue;
        }
        for (lane, byte) in bytes.iter_mut().enumerate() {
            if let Ok(Read::Value(value)) = bus.read(device.into(), 4 * dword + lane, 1) {
                *byte = u8::try_from(value).ok()?;
            }
        }
    }
    let state = &bus.raw().functions[index(bus.raw(), device)?];
    let command = u16::from_le_bytes([state.live[4], state.live[5]]);
    Some(End {
        shown,
        addresses: [None; raw::SLOTS],
        revision: state.revision,
        command: [1, 2, 10].map(|bit| command >> bit & 1 == 1),
    })
}

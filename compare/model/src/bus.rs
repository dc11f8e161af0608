//! Dispatch, acceptance of a relocation, memory lookup and reset over all functions.

use std::collections::BTreeMap;

use rules::{After, Answer, Aperture, BarNow, BusOp, Card, End, Kept, turn};

use super::{
    access::{check, read},
    function::{State, command},
    placement::{Range, aperture_ok, inside, meets, range},
};

pub struct Bus {
    aperture: Aperture,
    functions: BTreeMap<u8, State>,
    /// As it was last told.
    told: Vec<Kept>,
}

impl Bus {
    /// None if the file or the placement would be refused.
    pub fn new(aperture: Aperture, cards: &[Card]) -> Option<Self> {
        let mut functions = BTreeMap::new();
        for card in cards {
            functions.insert(card.device, State::new(&card.function, card.revision)?);
        }
        let bus = Self { aperture, functions, told: vec![] };
        let devices = bus.functions.len() == cards.len() && cards.iter().all(|card| card.device <= 31);
        let free = bus.functions.iter().all(|(device, state)| {
            (0..6).all(|slot| state.bars[slot].is_none_or(|bar| accepted(aperture, &bus.others(*device, slot), bar)))
        });
        (aperture_ok(aperture) && devices && free).then_some(bus)
    }

    /// The committed ranges of all BARs but one.
    fn others(&self, device: u8, slot: usize) -> Vec<Range> {
        let all = self.functions.iter().flat_map(|(id, state)| (0..6).map(move |at| ((*id, at), state.bars[at])));
        all.filter(|(place, _)| *place != (device, slot))
            .filter_map(|(_, bar)| bar.map(|bar| range(bar.address.into(), bar.size)))
            .collect()
    }

    /// How it is before the first step.
    pub fn start(&mut self) -> After {
        self.told = self.kept();
        After { changed: self.told.clone(), found: self.found(0) }
    }

    /// One step, and how the bus is after it, which is after `count` steps.
    pub fn told(&mut self, op: BusOp, count: usize) -> (Answer, After) {
        let answer = self.step(op);
        let now = self.kept();
        let changed = now.iter().filter(|it| !self.told.contains(it)).cloned().collect();
        self.told = now;
        (answer, After { changed, found: self.found(count) })
    }

    fn kept(&self) -> Vec<Kept> {
        self.functions.iter().map(|(device, state)| state.kept(*device)).collect()
    }

    /// The lookup after so many steps.
    fn found(&self, count: usize) -> Option<Answer> {
        let bars = self.functions.values().flat_map(|state| state.bars.iter().flatten());
        let bars: Vec<_> = bars.map(|bar| (u64::from(bar.address), bar.size)).collect();
        turn(count, &bars).map(|(address, width)| self.lookup(address, width))
    }

    fn step(&mut self, op: BusOp) -> Answer {
        match op {
            BusOp::Read { device, offset, width } => self.read(device, offset, width),
            BusOp::Write { device, offset, width, value } => self.write(device, offset, width, value),
            BusOp::Lookup { address, width } => self.lookup(address, width),
            BusOp::Reset => self.reset(),
        }
    }

    /// An undeclared device reads all ones of the width; 18 comes first.
    fn read(&self, device: u64, offset: u64, width: u64) -> Answer {
        if !check(offset, width) {
            return Answer::Refused(18);
        }
        match declared(device).and_then(|device| self.functions.get(&device)) {
            Some(state) => state.read(offset as u16, width as u8),
            None => Answer::Value(read(&[0xff; 4], 0, width as u8)),
        }
    }

    fn write(&mut self, device: u64, offset: u64, width: u64, value: u64) -> Answer {
        if !check(offset, width) {
            return Answer::Refused(18);
        }
        let Some(device) = declared(device) else { return Answer::Dropped };
        // Outside the registers this is no slot, and nobody asks.
        let slot = offset.wrapping_sub(0x10) as usize / 4;
        let (aperture, others) = (self.aperture, self.others(device, slot));
        let accept = |bar: BarNow, address| accepted(aperture, &others, BarNow { address, ..bar });
        let Some(state) = self.functions.get_mut(&device) else { return Answer::Dropped };
        match state.write(offset as u16, width as u8, value, accept) {
            Answer::Kept { slot, .. } => {
                let bar = state.bars[usize::from(slot)].expect("a BAR that was kept");
                Answer::Stayed { slot, address: bar.address }
            }
            answer => answer,
        }
    }

    fn lookup(&self, address: u64, width: u64) -> Answer {
        if ![1, 2, 4, 8].contains(&width) {
            return Answer::Refused(18);
        }
        let access = range(address, width);
        for (device, state) in self.functions.iter().filter(|(_, state)| command(&state.live)[0]) {
            for (slot, bar) in state.bars.iter().enumerate() {
                let Some(bar) = bar else { continue };
                let range = range(bar.address.into(), bar.size);
                if range.0 <= access.0 && access.1 <= range.1 {
                    return Answer::Hit { device: *device, slot: slot as u8, offset: address - u64::from(bar.address) };
                }
            }
        }
        Answer::Miss
    }

    /// 20 names the lowest device whose revision stays.
    fn reset(&mut self) -> Answer {
        let mut stays = self.functions.iter_mut().filter_map(|(device, state)| (!state.reset()).then_some(*device));
        let lowest = stays.next();
        stays.for_each(drop);
        lowest.map_or(Answer::Done, |device| Answer::ResetAtLargest { device })
    }

    /// In the order of the cards, as far as the root of the Rust shows them.
    pub fn ends(&self, cards: &[Card]) -> Vec<End> {
        let end = |card: &Card| End { addresses: [None; 6], ..self.functions[&card.device].end() };
        cards.iter().map(end).collect()
    }
}

/// None above 31: no function is there.
fn declared(device: u64) -> Option<u8> {
    (device <= 31).then_some(device as u8)
}

/// A multiple of size, in the aperture, and meeting no other BAR's committed range.
fn accepted(aperture: Aperture, others: &[Range], bar: BarNow) -> bool {
    let range = range(bar.address.into(), bar.size);
    u64::from(bar.address).is_multiple_of(bar.size)
        && inside(range, aperture)
        && others.iter().all(|other| !meets(range, *other))
}

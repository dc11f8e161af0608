//! Inputs of steps on a whole bus.

use rules::{Aperture, Bar, BusOp, Card, Function, Question, Random};

use super::{
    MOST_FUNCTIONS,
    bar::random_value,
    function::{bare, random_access, random_body},
    placement::random_aperture,
};
use crate::duel::{Checked, Duel};

const BASE: u64 = 0x8000_0000;
const APERTURE: Aperture = Aperture { start: BASE, end: BASE + 0x80 };

pub fn steps(duel: &mut Duel) -> Checked {
    moves(duel)?;
    byte_while_probing(duel)?;
    lookups_in_four_gib(duel)?;
    long_ones(duel)
}

/// Histories so long that a slow change would show; shorter where the lists are thinned.
fn long_ones(duel: &mut Duel) -> Checked {
    let mut random = Random::new(1);
    let (count, steps) = if duel.every == 1 { (4, 100_000) } else { (1, 2_000) };
    for _ in 0..count {
        duel.put(&random_history(&mut random, MOST_FUNCTIONS, steps, Wild::Tame))?;
    }
    Ok(())
}

fn card(device: u8, bars: Vec<Bar>) -> Card {
    Card { device, revision: 0, function: Function { bars, ..bare() } }
}

/// Three BARs side by side on two functions.
fn cards() -> Vec<Card> {
    let bar = |slot, size, at| Bar { slot, size, address: BASE as u32 + at };
    vec![card(7, vec![bar(0, 32, 0x20)]), card(2, vec![bar(3, 16, 0x40), bar(1, 16, 0)])]
}

/// Reads the register, looks everywhere around the aperture, and resets.
fn look(device: u64, offset: u64) -> Vec<BusOp> {
    let lookups = (0..0x90).step_by(8).map(|at| BusOp::Lookup { address: BASE - 8 + at, width: 4 });
    let read = BusOp::Read { device, offset, width: 4 };
    [read].into_iter().chain(lookups).chain([BusOp::Reset, read]).collect()
}

/// Every place that a BAR can be asked to, decoding or not; no slot and no device too.
fn moves(duel: &mut Duel) -> Checked {
    for (device, slot) in [(7, 0), (2, 3), (2, 1), (2, 0), (4, 0)] {
        let offset = 0x10 + 4 * slot;
        for to in (0..0x100).map(|at| BASE - 0x40 + at).chain([0, 0xffff_fff0, 0xffff_ffff]) {
            for command in [0, 2] {
                let mut ops = vec![
                    BusOp::Write { device, offset: 4, width: 2, value: command },
                    BusOp::Write { device, offset, width: 4, value: to },
                ];
                ops.extend(look(device, offset));
                duel.listed(|| Question::Bus { aperture: APERTURE, cards: cards(), ops })?;
            }
        }
    }
    Ok(())
}

/// Every byte into the lowest lane of a BAR that probes.
fn byte_while_probing(duel: &mut Duel) -> Checked {
    for (device, slot) in [(7, 0), (2, 3), (2, 1)] {
        let offset = 0x10 + 4 * slot;
        for value in 0..=0xff {
            let mut ops = vec![
                BusOp::Write { device, offset: 4, width: 2, value: 2 },
                BusOp::Write { device, offset, width: 4, value: 0xffff_ffff },
                BusOp::Write { device, offset, width: 1, value },
            ];
            ops.extend(look(device, offset));
            duel.listed(|| Question::Bus { aperture: APERTURE, cards: cards(), ops })?;
        }
    }
    Ok(())
}

/// A 4 GiB BAR meets everything and is found everywhere.
fn lookups_in_four_gib(duel: &mut Duel) -> Checked {
    let whole = Aperture { start: 0, end: 1 << 32 };
    let on = BusOp::Write { device: 0, offset: 4, width: 1, value: 2 };
    for address in [0, 1, 0xffff_fff8, 0xffff_fffc, 0xffff_fffd, 0xffff_ffff, 1 << 32, u64::MAX] {
        for width in [1, 2, 4, 8] {
            let cards = vec![card(0, vec![Bar { slot: 0, size: 1 << 32, address: 0 }])];
            duel.put(&Question::Bus { aperture: whole, cards, ops: vec![on, BusOp::Lookup { address, width }] })?;
        }
    }
    Ok(())
}

/// Whether a history has what the Rust cannot be asked.
#[derive(Clone, Copy, PartialEq, Eq)]
enum Wild {
    Tame,
    /// Resets of revisions at their largest.
    Largest,
    /// Devices, offsets and widths beyond its types.
    Numbers,
}

const STEPS: u64 = 24;

pub fn random_steps(random: &mut Random) -> Question {
    let most = if random.once_in(8) { MOST_FUNCTIONS } else { 3 };
    let wild = match random.below(16) {
        0 => Wild::Largest,
        1 => Wild::Numbers,
        _ => Wild::Tame,
    };
    let count = 1 + random.below(most);
    random_history(random, count, STEPS, wild)
}

fn random_history(random: &mut Random, count: u64, steps: u64, wild: Wild) -> Question {
    let (aperture, unit) = random_aperture(random);
    let mut cards: Vec<Card> = Vec::new();
    let mut free = aperture.start;
    for _ in 0..count {
        let device = random.below(32) as u8;
        if cards.iter().any(|other| other.device == device) {
            continue;
        }
        let mut bars = Vec::new();
        for slot in (0..6).rev().filter(|_| random.once_in(3)).collect::<Vec<u8>>() {
            let size = 1 << (unit + random.below(3)).min(32);
            let address = free.next_multiple_of(size) + random.below(3) * size;
            if address + size <= aperture.end {
                bars.push(Bar { slot, size, address: address as u32 });
                free = address + size;
            }
        }
        let revision = if wild == Wild::Largest { u64::MAX - random.below(4) } else { 0 };
        cards.push(Card { device, revision, function: random_body(random, bars) });
    }
    let op = |_| {
        let op = random_op(random, aperture, unit, &cards);
        if wild == Wild::Numbers { random_wild(random, op) } else { op }
    };
    let ops = (0..steps).map(op).collect();
    Question::Bus { aperture, cards, ops }
}

/// Now and then a number beyond the Rust's types, often one that is good in its low bits.
fn random_wild(random: &mut Random, op: BusOp) -> BusOp {
    let far = |random: &mut Random, number: u64, bits: u64| match random.below(16) {
        0 => number.wrapping_add(1 << random.pick(&[bits, 32, 63])),
        1 => random.u64(),
        2 => random.below(40),
        _ => number,
    };
    match op {
        BusOp::Read { device, offset, width } => BusOp::Read {
            device: far(random, device, 8),
            offset: far(random, offset, 16),
            width: far(random, width, 8),
        },
        BusOp::Write { device, offset, width, value } => BusOp::Write {
            device: far(random, device, 8),
            offset: far(random, offset, 16),
            width: far(random, width, 8),
            value,
        },
        BusOp::Lookup { address, width } => {
            BusOp::Lookup { address: far(random, address, 32), width: far(random, width, 8) }
        }
        BusOp::Reset => BusOp::Reset,
    }
}

fn random_op(random: &mut Random, aperture: Aperture, unit: u64, cards: &[Card]) -> BusOp {
    let card = &cards[random.below(cards.len() as u64) as usize];
    let device = if random.once_in(16) { random.below(32) } else { card.device.into() };
    let (offset, width) = random_access(random);
    let (offset, width) = (u64::from(offset), u64::from(width));
    // A place near the BARs, mostly a multiple of their unit.
    let near =
        aperture.start.wrapping_add(random.below(aperture.end - aperture.start + (2 << unit))).wrapping_sub(1 << unit);
    let near = if random.once_in(4) { near } else { near >> unit << unit };
    let bars = &card.function.bars;
    let bar = bars.get(random.below(bars.len().max(1) as u64) as usize);
    match (random.below(16), bar) {
        (0, _) => BusOp::Reset,
        (1..=3, _) => BusOp::Read { device, offset, width },
        // Around both ends of a BAR where it was placed.
        (4 | 5, Some(bar)) => {
            let edge = u64::from(bar.address) + random.pick(&[0, bar.size]);
            BusOp::Lookup {
                address: edge.wrapping_add(random.below(16)).wrapping_sub(8),
                width: random.pick(&[1, 2, 4, 8]),
            }
        }
        (6, _) => BusOp::Lookup { address: near.wrapping_add(random.below(16)), width: random.pick(&[1, 2, 4, 8]) },
        (7 | 8, _) => BusOp::Write { device, offset: 4, width: 2, value: random_value(random) | 2 },
        (9..=12, Some(bar)) => random_bar_write(random, device, bar.slot, near),
        _ => BusOp::Write { device, offset, width, value: random_value(random) },
    }
}

/// All ones, or that part of an address that the lanes take.
fn random_bar_write(random: &mut Random, device: u64, slot: u8, address: u64) -> BusOp {
    let width = random.pick(&[1, 2, 4, 4]);
    let lane = random.below(4) / width * width;
    let value = if random.once_in(4) { u64::MAX } else { address >> (8 * lane) };
    BusOp::Write { device, offset: 0x10 + 4 * u64::from(slot) + lane, width, value }
}

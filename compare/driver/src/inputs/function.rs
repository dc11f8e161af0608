//! Inputs of the power-on image and of steps on one function.

use rules::{Bar, ConfigByte, Function, Identity, Intx, Now, Op, Question, Random};

use super::{
    MOST_CONFIG_BYTES,
    access::accesses,
    bar::{ADDRESSES, random_bar, random_value, sizes},
    declared::{ends, plain, random_fitting},
};
use crate::duel::{Checked, Duel};

const IDENTITY: Identity = Identity {
    vendor: 0x1af4,
    device_id: 0x1042,
    subsystem_vendor: 0x1234,
    subsystem_id: 0x5678,
    revision: 1,
    base_class: 2,
    subclass: 3,
    interface: 4,
};

pub fn bare() -> Function {
    Function { identity: IDENTITY, intx: None, bars: vec![], config_bytes: vec![], capabilities: vec![] }
}

/// Each part of a function alone: slots, sizes, pins, lines, config bytes, capabilities.
pub fn power_on(duel: &mut Duel) -> Checked {
    duel.put(&Question::PowerOn { function: bare() })?;
    for size in sizes() {
        for address in ADDRESSES {
            for slot in 0..6 {
                let bars = vec![Bar { slot, size, address }];
                duel.listed(|| Question::PowerOn { function: Function { bars, ..bare() } })?;
            }
        }
    }
    for line in 0..=0xff {
        for pin in 0..=5 {
            let intx = Some(Intx { pin, line });
            duel.listed(|| Question::PowerOn { function: Function { intx, ..bare() } })?;
            // A config byte wins over the line.
            let config_bytes = vec![ConfigByte { offset: 0x3c, value: !line, mask: pin }];
            duel.listed(|| Question::PowerOn { function: Function { intx, config_bytes, ..bare() } })?;
        }
    }
    for offset in 0..=0xff {
        for (first, second) in [(0, 0xff), (0xff, 0), (0x5a, 0xa5)] {
            let byte = |value, mask| ConfigByte { offset, value, mask };
            let config_bytes = vec![byte(first, second), byte(second, first)];
            for length in [0, 60, 190] {
                let function =
                    Function { config_bytes: config_bytes.clone(), capabilities: vec![plain(length)], ..bare() };
                duel.listed(|| Question::PowerOn { function })?;
            }
            duel.listed(|| Question::PowerOn { function: Function { config_bytes, ..bare() } })?;
        }
    }
    Ok(())
}

pub fn random_function(random: &mut Random) -> Function {
    let mut bars: Vec<Bar> = Vec::new();
    for slot in 0..6 {
        if random.once_in(3) {
            let bar = random_bar(random);
            // As placement leaves it: a multiple of size.
            let address = (u64::from(bar.address) / bar.size * bar.size) as u32;
            bars.insert(random.below(bars.len() as u64 + 1) as usize, Bar { slot, size: bar.size, address });
        }
    }
    random_body(random, bars)
}

/// Everything but the BARs.
pub fn random_body(random: &mut Random, bars: Vec<Bar>) -> Function {
    let word = random.u64();
    let identity = Identity {
        vendor: (word % 0xffff) as u16,
        device_id: (word >> 16) as u16,
        subsystem_vendor: (word >> 32) as u16,
        subsystem_id: (word >> 48) as u16,
        revision: random.byte(),
        base_class: random.byte(),
        subclass: random.byte(),
        interface: random.byte(),
    };
    let intx = random.once_in(2).then(|| Intx { pin: 1 + random.below(4) as u8, line: random.byte() });
    let capabilities = if random.once_in(3) { vec![] } else { random_fitting(random) };
    let end = ends(&capabilities);
    let count = random.below(MOST_CONFIG_BYTES + 1) >> random.below(6);
    let config_bytes = (0..count).map(|_| random_config_byte(random, end as u64)).collect();
    Function { identity, intx, bars, config_bytes, capabilities }
}

/// Where 9 allows one: in the header, or after the capabilities.
fn random_config_byte(random: &mut Random, end: u64) -> ConfigByte {
    let offset = match random.below(2) {
        0 if end < 0x100 => end + random.below(0x100 - end),
        _ => random.pick(&[0x0c, 0x0d, 0x3c]),
    };
    ConfigByte { offset: offset as u8, value: random.byte(), mask: random.edgy_byte() }
}

/// Every offset alone, and after a good one, beside capabilities of some lengths.
pub fn config_bytes(duel: &mut Duel) -> Checked {
    for lengths in [vec![], vec![0], vec![1, 5], vec![60, 0, 3], vec![190]] {
        for offset in 0..=0xff {
            let capabilities: Vec<_> = lengths.iter().map(|length| plain(*length)).collect();
            let byte = |offset| ConfigByte { offset, value: 1, mask: 0 };
            for config_bytes in [vec![byte(offset)], vec![byte(0x3c), byte(offset)]] {
                let function = Function { config_bytes, capabilities: capabilities.clone(), ..bare() };
                duel.listed(|| Question::FirstBadByte { function })?;
            }
        }
    }
    Ok(())
}

/// Mostly good ones, then one anywhere, then good ones again.
pub fn random_config_bytes(random: &mut Random) -> Question {
    let mut function = random_body(random, vec![]);
    if let Some(last) = (function.config_bytes.len() as u64).checked_sub(1) {
        let at = random.below(last + 1) as usize;
        function.config_bytes[at].offset = random.byte();
    }
    Question::FirstBadByte { function }
}

pub fn random_power_on(random: &mut Random) -> Question {
    Question::PowerOn { function: random_function(random) }
}

fn now(bar: &Bar, address: u32, probing: bool) -> Now {
    Now { slot: bar.slot, address, probing }
}

/// One write of all ones and of zeros at every access, and what follows it; each end of the revision.
pub fn steps(duel: &mut Duel) -> Checked {
    let bars =
        vec![Bar { slot: 0, size: 0x1000, address: 0x8000_1000 }, Bar { slot: 5, size: 16, address: 0xffff_fff0 }];
    let config_bytes = vec![ConfigByte { offset: 0x3c, value: 0x0b, mask: 0xf0 }];
    let function = Function { bars, config_bytes, capabilities: vec![plain(3), plain(0)], ..bare() };
    for (offset, width) in accesses() {
        for value in [u64::MAX, 0, 0x0123_4567_89ab_cdef] {
            for accept in [false, true] {
                for (revision, probing) in [(0, false), (0, true), (u64::MAX - 1, false), (u64::MAX, false)] {
                    let now: Vec<Now> = if probing {
                        function.bars.iter().map(|bar| now(bar, bar.address, true)).collect()
                    } else {
                        vec![]
                    };
                    let write = Op::Write { offset, width, value, accept };
                    let read = Op::Read { offset, width };
                    for ops in [
                        vec![write, read],
                        vec![write, write, read, Op::Reset, read],
                        vec![Op::Reset, write, Op::Reset],
                    ] {
                        duel.listed(|| Question::Function {
                            function: function.clone(),
                            now: now.clone(),
                            revision,
                            ops,
                        })?;
                    }
                }
            }
        }
    }
    // Accesses that 18 refuses change nothing.
    for offset in (0..0x110).chain([0xffff]) {
        for width in [1, 2, 4, 8] {
            let ops = vec![Op::Write { offset, width, value: u64::MAX, accept: true }, Op::Read { offset, width }];
            duel.listed(|| Question::Function { function: function.clone(), now: vec![], revision: 0, ops })?;
        }
    }
    Ok(())
}

/// An access, often where something happens: command, BAR registers, capabilities.
pub fn random_access(random: &mut Random) -> (u16, u8) {
    let width = random.pick(&[1, 2, 4]);
    let offset = match random.below(8) {
        0 | 1 => 0x04 + random.below(4),
        2..=4 => 0x10 + random.below(0x18),
        5 => random.below(0x40),
        _ => 0x40 + random.below(0xc0),
    };
    if random.once_in(64) {
        return (random.below(0x120) as u16, random.pick(&[1, 2, 4, 8]));
    }
    (offset as u16 / width * width, width as u8)
}

pub fn random_steps(random: &mut Random) -> Question {
    let function = random_function(random);
    let revision = if random.once_in(3) { u64::MAX - random.below(4) } else { random.below(2) };
    let count = 1 + random.below(24);
    let op = |_| {
        let (offset, width) = random_access(random);
        match random.below(16) {
            0 => Op::Reset,
            1..=6 => Op::Read { offset, width },
            _ => Op::Write { offset, width, value: random_value(random), accept: random.once_in(2) },
        }
    };
    let ops = (0..count).map(op).collect();
    let moved = function.bars.clone().into_iter().filter(|_| random.once_in(3)).collect::<Vec<_>>();
    let now = moved.iter().map(|bar| now(bar, (random.below(1 << 32) / bar.size * bar.size) as u32, random.once_in(2)));
    let now = now.collect();
    Question::Function { function, now, revision, ops }
}

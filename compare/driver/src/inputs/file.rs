//! Declaration files: good ones, each cut and changed at every byte.

use rules::{Aperture, Function, Question, Random, Request, Wish, fields};

use super::{
    MOST_CAPABILITIES, MOST_CONFIG_BYTES, MOST_EFFECTS, MOST_FUNCTIONS,
    declared::{plain, random_capabilities},
    function::{bare, random_body},
    placement::{random_aperture, random_fixed},
};
use crate::duel::{Checked, Duel};

fn put(duel: &mut Duel, bytes: &[u8]) -> Checked {
    duel.put(&Question::File { bytes: bytes.to_vec() })
}

const APERTURE: Aperture = Aperture { start: 0x8000_0000, end: 0x8001_0000 };

/// Every file of one byte and of two, every header, and every limit with one more than it.
pub fn short(duel: &mut Duel) -> Checked {
    put(duel, &[])?;
    for first in 0..=0xff {
        put(duel, &[first])?;
        for second in 0..=0xff {
            duel.listed(|| Question::File { bytes: vec![first, second] })?;
        }
    }
    let aperture = fields(APERTURE, &[]).concat();
    put(duel, &aperture)?;
    for tag in 0..=9 {
        for length in 0..=0x400_u16 {
            for rest in [0, usize::from(length) - usize::from(length > 0), length.into(), usize::from(length) + 1] {
                let field = [&[tag][..], &length.to_le_bytes(), &vec![0; rest]].concat();
                duel.listed(|| Question::File { bytes: field.clone() })?;
                duel.listed(|| Question::File { bytes: [&aperture[..], &field].concat() })?;
            }
        }
    }
    for file in limits().into_iter().chain(two_causes()) {
        put(duel, &file)?;
    }
    Ok(())
}

/// Fields with two causes of refusal, of which the first in order decides.
fn two_causes() -> Vec<Vec<u8>> {
    let absent = Function { identity: rules::Identity { vendor: 0xffff, ..bare().identity }, ..bare() };
    let wish = |slot, size| Wish { device: 3, slot, size, request: Request::Auto };
    vec![
        file(&[(32, &absent, vec![])]),
        file(&[(3, &bare(), vec![]), (3, &absent, vec![])]),
        file(&[(3, &bare(), vec![wish(6, 8)])]),
        file(&[(3, &bare(), vec![wish(0, 16), wish(0, 8)])]),
    ]
}

/// At each limit of document 01 and one past it.
fn limits() -> Vec<Vec<u8>> {
    let byte = rules::ConfigByte { offset: 0xff, value: 1, mask: 2 };
    let effect = |id| rules::Effect { id, offset: 2, length: 1, access: 3 };
    let mut out = Vec::new();
    for more in 0..=1 {
        let functions = MOST_FUNCTIONS + more;
        let all = vec![bare(); functions as usize];
        out.push(file(&all.iter().enumerate().map(|(at, it)| (31 - at as u8, it, vec![])).collect::<Vec<_>>()));
        let bytes = Function { config_bytes: vec![byte; (MOST_CONFIG_BYTES + more) as usize], ..bare() };
        let capabilities = Function { capabilities: vec![plain(0); (MOST_CAPABILITIES + more) as usize], ..bare() };
        let count = MOST_EFFECTS as u16 + more as u16;
        let effects = (0..count).map(|at| rules::Effect { offset: 2 + at as u8, ..effect(at) }).collect();
        let effects = vec![rules::Capability { effects, ..plain(40) }];
        let effects = Function { capabilities: effects, ..bare() };
        // As many over several capabilities.
        let three = |first: u16| (first..count.min(first + 3)).map(move |id| (id, 2 + (id - first) as u8));
        let three = |first| three(first).map(|(id, offset)| rules::Effect { offset, ..effect(id) }).collect();
        let spread = (0..count).step_by(3).map(|first| rules::Capability { effects: three(first), ..plain(3) });
        let spread = Function { capabilities: spread.collect(), ..bare() };
        for function in [&bytes, &capabilities, &effects, &spread] {
            out.push(file(&[(3, function, vec![])]));
        }
        let wish = |slot| Wish { device: 3, slot, size: 16, request: Request::Auto };
        out.push(file(&[(3, &bare(), (0..6 + more as u8).map(wish).collect())]));
        out.push(file(&[(3, &bare(), (0..6 + more as u8).map(|slot| wish(slot % 6)).collect())]));
    }
    out
}

fn file(functions: &[(u8, &Function, Vec<Wish>)]) -> Vec<u8> {
    fields(APERTURE, functions).concat()
}

/// A file that is mostly good: whole, cut before every byte, changed at every byte, its fields moved about.
pub fn random_family(random: &mut Random, duel: &mut Duel) -> Checked {
    let fields = random_fields(random);
    let bytes = fields.concat();
    put(duel, &bytes)?;
    for length in 0..bytes.len() {
        put(duel, &bytes[..length])?;
    }
    let mut changed = bytes.clone();
    for at in 0..bytes.len() {
        changed[at] = random_other(random, bytes[at]);
        put(duel, &changed)?;
        changed[at] = bytes[at];
    }
    for _ in 0..2 * fields.len() {
        let moved = random_moved(random, &fields).concat();
        put(duel, &moved)?;
    }
    Ok(())
}

/// A near or a far byte, not the same.
fn random_other(random: &mut Random, byte: u8) -> u8 {
    let other = match random.below(6) {
        0 => byte.wrapping_add(1),
        1 => byte.wrapping_sub(1),
        2 => random.pick(&[0, 1, 2, 3, 4, 5, 6, 7, 8, 31, 32, 0x40, 0x80, 0xff]),
        3 => random.byte(),
        _ => byte ^ 1 << random.below(8),
    };
    if other == byte { !byte } else { other }
}

/// One field dropped, doubled, moved, or two of them exchanged.
fn random_moved(random: &mut Random, fields: &[Vec<u8>]) -> Vec<Vec<u8>> {
    let mut out = fields.to_vec();
    let mut any = |out: &[Vec<u8>]| random.below(out.len() as u64) as usize;
    let (from, to) = (any(&out), any(&out));
    match any(&out) % 4 {
        0 => drop(out.remove(from)),
        1 => out.insert(to, fields[from].clone()),
        2 => {
            let field = out.remove(from);
            out.insert(to.min(out.len()), field);
        }
        _ => out.swap(from, to),
    }
    out
}

/// Up to eight functions; mostly all is good, sometimes one of 9 and 12 to 17 has cause.
fn random_fields(random: &mut Random) -> Vec<Vec<u8>> {
    let (aperture, unit) = random_aperture(random);
    let most = if random.once_in(8) { MOST_FUNCTIONS } else { 2 };
    let mut functions: Vec<(u8, Function, Vec<Wish>)> = Vec::new();
    for _ in 0..1 + random.below(most) {
        let device = random.below(32) as u8;
        if functions.iter().any(|(other, ..)| *other == device) {
            continue;
        }
        let mut function = random_body(random, vec![]);
        if random.once_in(4) {
            // One byte from 6.
            function.identity.vendor = random.pick(&[0xff00, 0x00ff]) | u16::from(random.byte() & 0x7e);
        }
        if random.once_in(2) {
            // Short files, so that there are more of them.
            function.capabilities.truncate(2);
            function.config_bytes.truncate(2);
        }
        if random.once_in(16) {
            function.capabilities = random_capabilities(random);
        }
        if random.once_in(8) {
            // Ids that repeat.
            function.capabilities.iter_mut().flat_map(|it| &mut it.effects).for_each(|it| it.id %= 4);
        }
        if random.once_in(16)
            && let Some(byte) = function.config_bytes.last_mut()
        {
            byte.offset = random.byte();
        }
        let wishes = random_wishes(random, aperture, unit, device);
        functions.push((device, function, wishes));
    }
    let functions: Vec<_> =
        functions.iter().map(|(device, function, wishes)| (*device, function, wishes.clone())).collect();
    fields(aperture, &functions)
}

fn random_wishes(random: &mut Random, aperture: Aperture, unit: u64, device: u8) -> Vec<Wish> {
    let mut out = Vec::new();
    for slot in 0..6 {
        if random.once_in(3) {
            let size = 1 << (unit + random.below(3)).min(32);
            let request = if random.once_in(3) { random_fixed(random, aperture, size) } else { Request::Auto };
            out.insert(random.below(out.len() as u64 + 1) as usize, Wish { device, slot, size, request });
        }
    }
    out
}

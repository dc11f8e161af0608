//! Inputs of placement.

use rules::{Aperture, Question, Random, Request, Wish};

use super::{MOST_FUNCTIONS, bar::sizes};
use crate::duel::{Checked, Duel};

const FOUR_GIB: u64 = 1 << 32;

fn wish(device: u8, slot: u8, size: u64, request: Request) -> Wish {
    Wish { device, slot, size, request }
}

/// Every two or three BARs of 16 to 64 bytes in short apertures; then the limits.
pub fn place(duel: &mut Duel) -> Checked {
    two_short_ones(duel)?;
    three_automatic_ones(duel)?;
    alone_at_the_limits(duel)
}

fn requests() -> impl Iterator<Item = Request> {
    (0..14).map(|at| Request::Fixed(0x8000_0000 - 24 + 8 * at)).chain([Request::Auto])
}

fn two_short_ones(duel: &mut Duel) -> Checked {
    for (start, end) in [(0, 64), (0, 48), (16, 80), (8, 72), (0, 16), (0, 33), (1, 65), (32, 96)] {
        let aperture = Aperture { start: 0x8000_0000 + start, end: 0x8000_0000 + end };
        for first in [16, 32, 64] {
            for second in [16, 32, 64] {
                for a in requests() {
                    for b in requests() {
                        duel.listed(|| {
                            let wishes = vec![wish(3, 1, first, a), wish(3, 0, second, b)];
                            Question::Place { aperture, wishes }
                        })?;
                        duel.listed(|| {
                            let wishes = vec![wish(5, 0, first, a), wish(2, 4, second, b)];
                            Question::Place { aperture, wishes }
                        })?;
                    }
                }
            }
        }
    }
    Ok(())
}

fn three_automatic_ones(duel: &mut Duel) -> Checked {
    let few = [16, 32, 64, 128];
    for end in (16..=256).step_by(16) {
        for start in [0, 8, 16, 48] {
            for (a, b) in few.into_iter().flat_map(|a| few.map(|b| (a, b))) {
                for c in few {
                    duel.listed(|| {
                        let auto = Request::Auto;
                        let wishes = vec![wish(9, 0, a, auto), wish(1, 5, b, auto), wish(1, 2, c, auto)];
                        Question::Place { aperture: Aperture { start, end: start + end }, wishes }
                    })?;
                }
            }
        }
    }
    Ok(())
}

/// Each size where it just fits and where it just does not: both ends of 4 GiB, ranges that touch, 64 bits.
fn alone_at_the_limits(duel: &mut Duel) -> Checked {
    for size in sizes() {
        for (start, end) in [
            (0, FOUR_GIB),
            (0, size),
            (0, FOUR_GIB - 1),
            (FOUR_GIB - size, FOUR_GIB),
            (1, FOUR_GIB),
            ((FOUR_GIB - size).saturating_sub(1), FOUR_GIB - 1),
            ((FOUR_GIB - size).saturating_sub(16), FOUR_GIB),
        ] {
            let aperture = Aperture { start, end };
            let next = start.wrapping_add(size);
            let fixed =
                [0, start, next, end - 1, end.wrapping_sub(size), size, FOUR_GIB, u64::MAX, 0_u64.wrapping_sub(size)];
            for request in fixed.into_iter().map(Request::Fixed).chain([Request::Auto]) {
                duel.put(&Question::Place { aperture, wishes: vec![wish(31, 5, size, request)] })?;
                // A neighbour that touches, and a 4 GiB BAR that meets everything.
                let touching = wish(0, 0, size, Request::Fixed(next));
                duel.put(&Question::Place { aperture, wishes: vec![wish(31, 5, size, request), touching] })?;
                let whole = wish(0, 0, FOUR_GIB, Request::Fixed(0));
                duel.put(&Question::Place { aperture, wishes: vec![wish(31, 5, size, request), whole] })?;
                let whole = wish(0, 0, FOUR_GIB, Request::Auto);
                duel.put(&Question::Place { aperture, wishes: vec![wish(31, 5, size, request), whole] })?;
            }
        }
    }
    Ok(())
}

/// An aperture, and the bit that BARs in it are counted by.
pub fn random_aperture(random: &mut Random) -> (Aperture, u64) {
    let unit = 4 + random.below(24);
    let most = FOUR_GIB >> unit;
    let length = 1 + random.below(most.min(64));
    let start = match random.below(4) {
        0 => 0,
        1 => most - length,
        _ => random.below(most - length + 1),
    };
    let mut aperture = Aperture { start: start << unit, end: (start + length) << unit };
    if random.once_in(4) {
        aperture.start += random.below(1 << unit);
    }
    if random.once_in(4) {
        aperture.end -= random.below((aperture.end - aperture.start).min(1 << unit));
    }
    (aperture, unit)
}

pub fn random_place(random: &mut Random) -> Question {
    let (aperture, unit) = random_aperture(random);
    let functions = 1 + random.below(MOST_FUNCTIONS);
    let (fixed_in, free_in) = (random.pick(&[1, 2, 4, 16]), random.pick(&[2, 3, 6]));
    let mut wishes: Vec<Wish> = Vec::new();
    for _ in 0..functions {
        let device = random.below(32) as u8;
        for slot in 0..6 {
            if !random.once_in(free_in) || wishes.iter().any(|other| (other.device, other.slot) == (device, slot)) {
                continue;
            }
            let size = 1 << (unit + random.below(4)).min(32);
            let request = if random.once_in(fixed_in) { random_fixed(random, aperture, size) } else { Request::Auto };
            wishes.push(wish(device, slot, size, request));
        }
    }
    // The order of declaration must not matter.
    for at in 1..wishes.len() {
        let other = random.below(at as u64 + 1) as usize;
        wishes.swap(at, other);
    }
    Question::Place { aperture, wishes }
}

/// Mostly a multiple of size in the aperture.
pub fn random_fixed(random: &mut Random, aperture: Aperture, size: u64) -> Request {
    let inside = aperture.start + random.below(aperture.end - aperture.start);
    // The multiple above, if it still fits.
    let above = inside.next_multiple_of(size);
    let fits = if above + size <= aperture.end { above } else { aperture.start.next_multiple_of(size) };
    Request::Fixed(match random.below(40) {
        0 => inside,
        1 => random.u64(),
        2 => random.u64() / size * size,
        3 => (aperture.start / size * size).wrapping_sub(size),
        4 => aperture.end / size * size,
        _ => fits,
    })
}

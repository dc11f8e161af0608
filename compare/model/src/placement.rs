//! Refusals 14 to 17. Numbers are wide, so that nothing goes past 64 bits unseen.

use rules::{Aperture, PlaceRefusal, Request, Wish};

use super::bar::size_ok;

/// From the first number up to and without the second.
pub type Range = (u128, u128);

pub fn range(address: u64, size: u64) -> Range {
    (address.into(), u128::from(address) + u128::from(size))
}

pub fn meets(a: Range, b: Range) -> bool {
    a.0 < b.1 && b.0 < a.1
}

pub fn inside(range: Range, aperture: Aperture) -> bool {
    u128::from(aperture.start) <= range.0 && range.1 <= u128::from(aperture.end)
}

pub fn aperture_ok(aperture: Aperture) -> bool {
    aperture.start < aperture.end && aperture.end <= 0x1_0000_0000
}

/// None of 5, 7 and 8.
pub fn declarable(aperture: Aperture, wishes: &[Wish]) -> bool {
    let place = |wish: &Wish| (wish.device, wish.slot);
    aperture_ok(aperture)
        && wishes.iter().all(|wish| wish.device <= 31 && wish.slot <= 5 && size_ok(wish.size))
        && (0..wishes.len()).all(|at| wishes[..at].iter().all(|other| place(other) != place(&wishes[at])))
}

pub fn place(aperture: Aperture, wishes: &[Wish]) -> Result<Vec<u64>, PlaceRefusal> {
    let mut addresses = vec![0; wishes.len()];
    let mut taken: Vec<Range> = Vec::new();
    for at in in_order(wishes) {
        let wish = wishes[at];
        let refused = |number| PlaceRefusal { number, device: wish.device, slot: wish.slot };
        let address = match wish.request {
            Request::Fixed(address) => fixed(aperture, &taken, wish.size, address).map_err(refused)?,
            Request::Auto => lowest(aperture, &taken, wish.size).ok_or(refused(17))?,
        };
        addresses[at] = address;
        taken.push(range(address, wish.size));
    }
    Ok(addresses)
}

/// Fixed BARs first, by device then slot; automatic ones by size descending, then device, then slot.
fn in_order(wishes: &[Wish]) -> Vec<usize> {
    let mut order: Vec<usize> = (0..wishes.len()).collect();
    order.sort_by_key(|&at| {
        let wish = wishes[at];
        let automatic = wish.request == Request::Auto;
        let smaller_later = if automatic { u64::MAX - wish.size } else { 0 };
        (automatic, smaller_later, wish.device, wish.slot)
    });
    order
}

fn fixed(aperture: Aperture, taken: &[Range], size: u64, address: u64) -> Result<u64, u8> {
    let range = range(address, size);
    if !address.is_multiple_of(size) {
        return Err(14);
    }
    if !inside(range, aperture) {
        return Err(15);
    }
    if taken.iter().any(|other| meets(range, *other)) {
        return Err(16);
    }
    Ok(address)
}

/// The lowest free multiple is the first from the aperture's start or the first after something placed:
/// from any other, one size lower would be free too.
fn lowest(aperture: Aperture, taken: &[Range], size: u64) -> Option<u64> {
    let starts = taken.iter().map(|other| other.1 as u64).chain([aperture.start]);
    let multiples = starts.map(|start| start.next_multiple_of(size));
    let free = |address: &u64| {
        let range = range(*address, size);
        inside(range, aperture) && taken.iter().all(|other| !meets(range, *other))
    };
    multiples.filter(free).min()
}

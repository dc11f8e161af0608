//! Wishes as the library's arrays.

use library::{FUNCTIONS, KEYS, PlaceNumbers, SLOTS};
use rules::{Aperture, PlaceRefusal, Request, Wish};

/// The devices in ascending order, each once.
fn devices(wishes: &[Wish]) -> Vec<u8> {
    let mut devices: Vec<u8> = wishes.iter().map(|wish| wish.device).collect();
    devices.sort_unstable();
    devices.dedup();
    devices
}

/// The place of a wish in the arrays.
fn key(devices: &[u8], wish: &Wish) -> Option<usize> {
    let function = devices.binary_search(&wish.device).ok()?;
    let slot = usize::from(wish.slot);
    (function < FUNCTIONS && slot < SLOTS).then_some(function * SLOTS + slot)
}

pub fn place(aperture: Aperture, wishes: &[Wish]) -> Option<Result<Vec<u64>, PlaceRefusal>> {
    let devices = devices(wishes);
    let mut request = PlaceNumbers {
        start: aperture.start,
        end: aperture.end,
        count: devices.len(),
        devices: [0; FUNCTIONS],
        sizes: [0; KEYS],
        fixed: [false; KEYS],
        addresses: [0; KEYS],
    };
    request.devices.get_mut(..devices.len())?.copy_from_slice(&devices);
    let keys: Vec<usize> = wishes.iter().map(|wish| key(&devices, wish)).collect::<Option<_>>()?;
    for (wish, &key) in wishes.iter().zip(&keys) {
        request.sizes[key] = wish.size;
        if let Request::Fixed(address) = wish.request {
            request.fixed[key] = true;
            request.addresses[key] = address;
        }
    }
    let out = library::place(request)?;
    Some(match out.refusal {
        0 => Ok(keys.iter().map(|&key| out.addresses[key]).collect()),
        number => Err(PlaceRefusal { number, device: out.device, slot: out.slot }),
    })
}

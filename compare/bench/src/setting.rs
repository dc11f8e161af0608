//! The bus that is timed: 8 functions, each with 6 BARs of 4 KiB and 8 capabilities.

use rules::{Aperture, Bar, Capability, Card, Effect, Function, Identity, Request, Wish, fields};

pub const APERTURE: Aperture = Aperture { start: 0x8000_0000, end: 0x8010_0000 };
pub const SIZE: u64 = 0x1000;
const FUNCTIONS: u8 = 8;
const SLOTS: u8 = 6;

/// The device that is read and written; one in the middle.
pub const DEVICE: u8 = 3;
/// A byte that is stored whole, in the body of the first capability.
pub const STORED: u16 = 0x42;
/// A byte of an effect, in the body of the second.
pub const EFFECT: u16 = 0x4e;
/// Where no BAR lies, and one that no BAR of this size can have.
pub const FREE: u64 = APERTURE.start + 0x80 * SIZE;
pub const MISALIGNED: u64 = APERTURE.start + 16;

/// Where placement puts the BAR, all being of one size.
pub fn address(device: u8, slot: u8) -> u64 {
    APERTURE.start + SIZE * u64::from(device * SLOTS + slot)
}

fn capability(index: u16) -> Capability {
    let effects = match index {
        1 => vec![Effect { id: 1, offset: 2, length: 4, access: 3 }],
        _ => vec![],
    };
    let mask = if index == 0 { vec![0xff; 8] } else { vec![0; 8] };
    Capability { id: 9, body: vec![index as u8; 8], mask, effects }
}

pub fn cards() -> Vec<Card> {
    let identity = Identity { vendor: 0x1af4, device_id: 0x1042, ..Identity::default() };
    let card = |device| {
        let bar = |slot| Bar { slot, size: SIZE, address: address(device, slot) as u32 };
        let (bars, capabilities) = ((0..SLOTS).map(bar).collect(), (0..8).map(capability).collect());
        Card { device, revision: 0, function: Function { identity, bars, capabilities, ..Function::default() } }
    };
    (0..FUNCTIONS).map(card).collect()
}

pub fn wishes() -> Vec<Wish> {
    let wish = |device, slot| Wish { device, slot, size: SIZE, request: Request::Auto };
    (0..FUNCTIONS).flat_map(|device| (0..SLOTS).map(move |slot| wish(device, slot))).collect()
}

/// The same as a file, its BARs placed automatically.
pub fn file() -> Vec<u8> {
    let cards = cards();
    let mine = |device| wishes().into_iter().filter(|wish| wish.device == device).collect();
    let functions: Vec<_> = cards.iter().map(|card| (card.device, &card.function, mine(card.device))).collect();
    fields(APERTURE, &functions).concat()
}

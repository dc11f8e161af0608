//! The power-on image, in the order of document 01's section.

use rules::{Function, Image};

use super::{
    bar::{committed, size_ok},
    capability::{Placed, placed},
};

/// A function that the file's checks let through; its capabilities with their offsets.
pub fn declarable(function: &Function) -> Option<Vec<Placed>> {
    let placed = placed(&function.capabilities)?;
    let slots: Vec<u8> = function.bars.iter().map(|bar| bar.slot).collect();
    let ok = function.identity.vendor != 0xffff
        && function.intx.is_none_or(|intx| (1..=4).contains(&intx.pin))
        && function.bars.iter().all(|bar| bar.slot <= 5 && size_ok(bar.size))
        && (0..slots.len()).all(|at| !slots[..at].contains(&slots[at]))
        && first_bad_byte(function, &placed).is_none();
    ok.then_some(placed)
}

/// 9: none of 0x0c, 0x0d and 0x3c, and below 0x40 or in a capability.
pub fn first_bad_byte(function: &Function, placed: &[Placed]) -> Option<usize> {
    let inside = |offset: usize| {
        placed.iter().any(|(capability, start)| (*start..start + 2 + capability.body.len()).contains(&offset))
    };
    function.config_bytes.iter().position(|byte| match byte.offset {
        0x0c | 0x0d | 0x3c => false,
        offset => offset < 0x40 || inside(offset.into()),
    })
}

pub fn power_on(function: &Function, placed: &[Placed]) -> Image {
    let mut image = Image { bytes: [0; 256], masks: [0; 256] };
    header(&mut image, function);
    for byte in &function.config_bytes {
        let at = usize::from(byte.offset);
        image.bytes[at] = byte.value;
        image.masks[at] = byte.mask;
    }
    for bar in &function.bars {
        let now = rules::BarNow { size: bar.size, address: bar.address, probing: false };
        put(&mut image.bytes, 0x10 + 4 * usize::from(bar.slot), &committed(now).to_le_bytes());
    }
    chain(&mut image, placed);
    image
}

fn put(bytes: &mut [u8; 256], at: usize, what: &[u8]) {
    bytes[at..at + what.len()].copy_from_slice(what);
}

fn header(image: &mut Image, function: &Function) {
    let it = function.identity;
    put(&mut image.bytes, 0x00, &it.vendor.to_le_bytes());
    put(&mut image.bytes, 0x02, &it.device_id.to_le_bytes());
    put(&mut image.bytes, 0x08, &[it.revision, it.interface, it.subclass, it.base_class]);
    put(&mut image.bytes, 0x2c, &it.subsystem_vendor.to_le_bytes());
    put(&mut image.bytes, 0x2e, &it.subsystem_id.to_le_bytes());
    if let Some(intx) = function.intx {
        put(&mut image.bytes, 0x3c, &[intx.line, intx.pin]);
    }
    put(&mut image.masks, 0x04, &[0x06, 0x04]);
}

fn chain(image: &mut Image, placed: &[Placed]) {
    let Some((_, first)) = placed.first() else { return };
    image.bytes[0x06] = 0x10;
    image.bytes[0x34] = *first as u8;
    for (index, (capability, start)) in placed.iter().enumerate() {
        let next = placed.get(index + 1).map_or(0, |(_, offset)| *offset as u8);
        put(&mut image.bytes, *start, &[capability.id, next]);
        put(&mut image.bytes, start + 2, &capability.body);
        put(&mut image.masks, start + 2, &capability.mask);
    }
}

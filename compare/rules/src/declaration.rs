//! Declarations as the fields of a file.

use crate::data::{Aperture, Capability, Effect, Function, Request, Wish};

fn field(tag: u8, parts: &[&[u8]]) -> Vec<u8> {
    let body = parts.concat();
    // A body that is too long for its length shows as a difference.
    [&[tag][..], &(body.len() as u16).to_le_bytes(), &body].concat()
}

/// The fields of a file in the order of the table; a function's BARs are its wishes.
pub fn fields(aperture: Aperture, functions: &[(u8, &Function, Vec<Wish>)]) -> Vec<Vec<u8>> {
    let mut out = vec![field(1, &[&aperture.start.to_le_bytes(), &aperture.end.to_le_bytes()])];
    for (device, function, wishes) in functions {
        out.push(head(*device, function));
        out.extend(function.intx.map(|intx| field(3, &[&[intx.pin, intx.line]])));
        out.extend(wishes.iter().map(bar));
        out.extend(function.config_bytes.iter().map(|byte| field(5, &[&[byte.offset, byte.value, byte.mask]])));
        out.extend(function.capabilities.iter().flat_map(capability));
    }
    out
}

fn head(device: u8, function: &Function) -> Vec<u8> {
    let it = function.identity;
    let words = [it.vendor, it.device_id, it.subsystem_vendor, it.subsystem_id].map(u16::to_le_bytes);
    field(2, &[&[device], words.as_flattened(), &[it.revision, it.base_class, it.subclass, it.interface]])
}

fn bar(wish: &Wish) -> Vec<u8> {
    let (kind, address) = match wish.request {
        Request::Auto => (0, 0),
        Request::Fixed(address) => (1, address),
    };
    field(4, &[&[wish.slot, kind], &wish.size.to_le_bytes(), &address.to_le_bytes()])
}

fn capability(it: &Capability) -> Vec<Vec<u8>> {
    let head = field(6, &[&[it.id], &it.body, &it.mask]);
    let effect = |it: &Effect| field(7, &[&it.id.to_le_bytes(), &[it.offset, it.length, it.access]]);
    [head].into_iter().chain(it.effects.iter().map(effect)).collect()
}

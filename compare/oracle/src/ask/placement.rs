//! placement.rs: addresses for all BARs, or whose has none.

use alloc::collections::BTreeMap;

use rules::{Aperture, PlaceRefusal, Request, Wish};

use crate::{
    DeviceNodeId, ResourceRequest,
    pci::{
        FOUR_GIB, PciBarIndex, PciEndpointIdentity, PciError, PciFunctionSpec, PciMemoryBar, function::PciClass,
        resolve_bar_addresses,
    },
};

type Addresses = BTreeMap<(DeviceNodeId, PciBarIndex), u64>;

pub(super) fn place(aperture: Aperture, wishes: &[Wish]) -> Option<Result<Vec<u64>, PlaceRefusal>> {
    // 8 comes before placement, which does not look.
    if aperture.start >= aperture.end || aperture.end > FOUR_GIB {
        return None;
    }
    Some(match resolve(aperture, wishes)? {
        Ok(addresses) => Ok(wishes.iter().map(|wish| addresses[&key(wish)]).collect()),
        Err(error) => Err(refusal(aperture, wishes, &error)?),
    })
}

fn key(wish: &Wish) -> (DeviceNodeId, PciBarIndex) {
    (DeviceNodeId(wish.device), PciBarIndex::new(wish.slot).expect("a slot that was declared"))
}

/// None if 5 or 7 refuses a wish: the Rust cannot hold such a function.
fn resolve(aperture: Aperture, wishes: &[Wish]) -> Option<Result<Addresses, PciError>> {
    let mut functions = BTreeMap::new();
    for wish in wishes {
        if wish.device > 31 {
            return None;
        }
        let id = DeviceNodeId(wish.device);
        let function = functions.remove(&id).unwrap_or_else(|| blank(&id));
        functions.insert(id, function.with_bar(bar(wish)?).ok()?);
    }
    Some(resolve_bar_addresses(&(aperture.start..aperture.end), &functions))
}

fn blank(id: &DeviceNodeId) -> PciFunctionSpec {
    PciFunctionSpec::new(id.clone(), PciEndpointIdentity::new(0, 0, PciClass::new(0, 0, 0)))
}

fn bar(wish: &Wish) -> Option<PciMemoryBar> {
    let request = match wish.request {
        Request::Auto => ResourceRequest::Auto,
        Request::Fixed(address) => ResourceRequest::Fixed(address),
    };
    let index = PciBarIndex::new(wish.slot).ok()?;
    Some(PciMemoryBar::new(index, wish.size).ok()?.with_address(request))
}

fn refusal(aperture: Aperture, wishes: &[Wish], error: &PciError) -> Option<PlaceRefusal> {
    let named = |number, function: &String, bar: &PciBarIndex| {
        let device = function.parse().expect("a device number");
        Some(PlaceRefusal { number, device, slot: bar.value() })
    };
    match error {
        PciError::BarConflict { function, bar, .. } => named(16, function, bar),
        PciError::BarApertureExhausted { function, bar, .. } => named(17, function, bar),
        PciError::InvalidBar { bar, detail } => {
            let number = if detail.contains("not aligned") { 14 } else { 15 };
            let device = device_at_fault(aperture, wishes)?;
            Some(PlaceRefusal { number, device, slot: bar.value() })
        }
        other => panic!("a refusal of placement that document 01 does not have: {other}"),
    }
}

/// 14 and 15 do not name the device: the shortest refused list of fixed BARs ends in it.
fn device_at_fault(aperture: Aperture, wishes: &[Wish]) -> Option<u8> {
    let mut fixed: Vec<Wish> = wishes.iter().copied().filter(|wish| wish.request != Request::Auto).collect();
    fixed.sort_by_key(|wish| (wish.device, wish.slot));
    let last = (0..fixed.len()).find(|&last| matches!(resolve(aperture, &fixed[..=last]), Some(Err(_))))?;
    Some(fixed[last].device)
}

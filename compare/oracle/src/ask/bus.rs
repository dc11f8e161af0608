//! root.rs and topology.rs: steps on a whole bus, each function bound to an endpoint.

use alloc::sync::Arc;

use rules::{Answer, Aperture, BusOp, Card, End, Story, Touched};

use super::{capability, function};
use crate::{
    AccessWidth, ConfigOffset, DeviceId, DeviceNodeId, ResourceRequest,
    pci::{
        EndpointRouteToken, PciBarIndex, PciBdf, PciConfigReadEffect, PciError, PciFunctionSpec, PciIntxRequirement,
        PciMemoryBar,
        address::PciSegment,
        root::{PciConfigReadOutcome, PciConfigWriteOutcome, PciRootState},
        runtime,
        topology::PciTopologyBuilder,
    },
};

pub(super) fn story(aperture: Aperture, cards: &[Card], ops: &[BusOp]) -> Option<Story> {
    let root = start(aperture, cards)?;
    let answers = ops.iter().map(|op| step(&root, *op)).collect::<Option<_>>()?;
    root.unbind_all_routes();
    let ends = cards.iter().map(|card| end(&root, card.device)).collect::<Option<_>>()?;
    Some(Story { answers, ends, after: None })
}

pub(crate) fn start(aperture: Aperture, cards: &[Card]) -> Option<PciRootState> {
    let mut topology = PciTopologyBuilder::new();
    for card in cards {
        function::declarable(&card.function)?;
        let id = DeviceNodeId(card.device);
        topology.add_function(spec(&id, card)?).ok()?;
        if let Some(route) = function::intx(&card.function)? {
            topology.set_intx_route(&id, route).ok()?;
        }
    }
    let topology = topology.resolve(aperture.start..aperture.end).ok()?;
    // The root makes its functions by device; so the revisions go in that order.
    let mut by_device: Vec<&Card> = cards.iter().collect();
    by_device.sort_by_key(|card| card.device);
    runtime::start_at(by_device.iter().map(|card| card.revision));
    let root = PciRootState::new(Arc::new(topology));
    for card in cards {
        let token = EndpointRouteToken(DeviceId(card.device));
        root.reserve_endpoint_binding(&DeviceNodeId(card.device)).ok()?.commit(token).ok()?;
    }
    Some(root)
}

fn spec(id: &DeviceNodeId, card: &Card) -> Option<PciFunctionSpec> {
    let it = &card.function;
    let mut spec =
        PciFunctionSpec::new(id.clone(), function::identity(it)).with_bdf(ResourceRequest::Fixed(bdf(card.device)?));
    for bar in &it.bars {
        let index = PciBarIndex::new(bar.slot).ok()?;
        let address = ResourceRequest::Fixed(bar.address.into());
        spec = spec.with_bar(PciMemoryBar::new(index, bar.size).ok()?.with_address(address)).ok()?;
    }
    for capability in capability::specs(&it.capabilities)? {
        spec = spec.with_capability(capability);
    }
    if it.intx.is_some() {
        spec = spec.with_intx(PciIntxRequirement).ok()?;
    }
    // The Rust's constructor has other rules for offsets than document 01's 9.
    spec.config_bytes = function::config_bytes(it);
    Some(spec)
}

/// None above 31: the Rust has no such address.
pub(crate) fn bdf(device: u8) -> Option<PciBdf> {
    PciBdf::new(PciSegment::new(0), 0, device, 0).ok()
}

fn width_of(bytes: u64) -> Option<AccessWidth> {
    AccessWidth::of(u32::try_from(bytes).ok()?)
}

fn step(root: &PciRootState, op: BusOp) -> Option<Answer> {
    match op {
        BusOp::Read { device, offset, width } => {
            read(root, bdf(u8::try_from(device).ok()?)?, u16::try_from(offset).ok()?, width_of(width)?)
        }
        BusOp::Write { device, offset, width, value } => {
            write(root, bdf(u8::try_from(device).ok()?)?, u16::try_from(offset).ok()?, width_of(width)?, value)
        }
        BusOp::Lookup { address, width } => Some(match root.resolve_bar(address, width_of(width)?) {
            None => Answer::Miss,
            Some(route) => {
                Answer::Hit { device: route.bdf().device(), slot: route.bar().value(), offset: route.offset() }
            }
        }),
        // With a revision at its largest the root does nothing at all: not compared.
        BusOp::Reset => root.reset().ok().map(|()| Answer::Done),
    }
}

fn read(root: &PciRootState, bdf: PciBdf, offset: u16, width: AccessWidth) -> Option<Answer> {
    let Ok(offset) = ConfigOffset::new(offset) else { return Some(Answer::Refused(18)) };
    Some(match root.prepare_read_config(bdf, offset, width) {
        // What an endpoint would add to the status is not document 01's.
        Ok(PciConfigReadOutcome::Value(value) | PciConfigReadOutcome::DynamicStatus { value, .. }) => {
            Answer::Value(value as u32)
        }
        Ok(PciConfigReadOutcome::Effect { effect, .. }) => Answer::Inside(touched(root, bdf, &effect)),
        Err(error) => refused(&error),
    })
}

fn write(root: &PciRootState, bdf: PciBdf, offset: u16, width: AccessWidth, value: u64) -> Option<Answer> {
    let Ok(offset) = ConfigOffset::new(offset) else { return Some(Answer::Refused(18)) };
    Some(match root.prepare_write_config(bdf, offset, width, value) {
        Ok(PciConfigWriteOutcome::Complete | PciConfigWriteOutcome::CommandChanged { .. }) => Answer::Written,
        Ok(PciConfigWriteOutcome::Effect { effect, .. }) => Answer::Inside(touched(root, bdf, &effect.read)),
        Err(error) => refused(&error),
    })
}

/// The root hands on the effect's id; the region is the one declared under it, and its offset is subtracted here.
fn touched(root: &PciRootState, bdf: PciBdf, effect: &PciConfigReadEffect) -> Touched {
    let function = root.topology().functions().find(|function| function.bdf() == bdf).expect("bound");
    let region = function
        .capabilities()
        .flat_map(|capability| capability.effects())
        .find(|region| region.effect() == effect.effect)
        .expect("declared");
    Touched {
        capability: effect.capability.value(),
        effect: effect.effect.value(),
        region: (region.offset(), region.length()),
        offset: effect.offset,
        region_offset: effect.offset - region.offset(),
        body: effect.body.bytes().to_vec(),
    }
}

/// 18 and 19 are one error in the Rust, told apart by text.
fn refused(error: &PciError) -> Answer {
    Answer::Refused(match error {
        PciError::InvalidConfigAccess { detail, .. } if detail.contains("capability effect") => 19,
        PciError::InvalidConfigAccess { .. } => 18,
        PciError::CommandRevisionExhausted => 20,
        other => panic!("a refusal of an access that document 01 does not have: {other}"),
    })
}

/// Without bindings an effect does not answer, so its bytes show as 0; the root does not tell addresses.
fn end(root: &PciRootState, device: u8) -> Option<End> {
    let bdf = bdf(device)?;
    let read = |offset, width| root.read_config(bdf, ConfigOffset::new(offset as u16)?, width);
    let mut shown = [0; 256];
    for (dword, bytes) in shown.chunks_mut(4).enumerate() {
        if let Ok(value) = read(4 * dword, AccessWidth::Dword) {
            bytes.copy_from_slice(&(value as u32).to_le_bytes());
            continue;
        }
        for (lane, byte) in bytes.iter_mut().enumerate() {
            *byte = read(4 * dword + lane, AccessWidth::Byte).unwrap_or(0) as u8;
        }
    }
    let command = root.reserve_endpoint_binding(&DeviceNodeId(device)).ok()?.command();
    Some(End {
        shown,
        addresses: [None; 6],
        revision: command.revision().0,
        command: [command.memory_space_enable, command.bus_master_enable(), command.interrupt_disable()],
    })
}

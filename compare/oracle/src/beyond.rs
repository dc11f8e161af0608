//! What the Rust says where document 01 asks nothing of it, or asks it otherwise; each in its own words.

use alloc::{collections::BTreeMap, sync::Arc};
use std::panic::{AssertUnwindSafe, catch_unwind};

use crate::{
    AccessWidth, ConfigOffset, DeviceId, DeviceNodeId, ResourceRequest,
    pci::{
        EndpointRouteToken, PciBarIndex, PciBdf, PciCapabilityEffectRegion, PciCapabilityId, PciCapabilitySpec,
        PciEndpointIdentity, PciError, PciFunctionSpec, PciIntxRequirement, PciMemoryBar, PciResult, ResolvedPciIntx,
        address::PciSegment,
        capability::{PciCapabilityEffectAccess, PciConfigEffectId, layout_capabilities},
        function::PciClass,
        intx::PciIntxPin,
        resolve_bar_addresses,
        root::{PciConfigReadOutcome, PciRootState},
        runtime,
        topology::PciTopologyBuilder,
    },
};

fn function(id: u8, vendor: u16) -> PciFunctionSpec {
    let identity = PciEndpointIdentity::new(vendor, 0, PciClass::new(0, 0, 0));
    PciFunctionSpec::new(DeviceNodeId(id), identity).with_bdf(ResourceRequest::Fixed(PciBdf::bus_zero(id)))
}

fn bar(slot: u8, size: u64) -> PciMemoryBar {
    PciMemoryBar::new(PciBarIndex::new(slot).expect("a slot"), size).expect("a size")
}

fn offset(value: u16) -> ConfigOffset {
    ConfigOffset::new(value).expect("below 256")
}

/// A capability of one byte, an effect on it.
fn with_effect(id: u16) -> PciCapabilitySpec {
    let region = PciCapabilityEffectRegion::new(PciConfigEffectId::new(id), 2, 1, PciCapabilityEffectAccess::ReadWrite);
    let spec = PciCapabilitySpec::new(PciCapabilityId::new(9), vec![0], vec![0]).expect("a body");
    spec.with_effect(region.expect("a region")).expect("an effect")
}

fn root_of(functions: Vec<PciFunctionSpec>) -> PciResult<PciRootState> {
    let mut topology = PciTopologyBuilder::new();
    for function in functions {
        topology.add_function(function)?;
    }
    Ok(PciRootState::new(Arc::new(topology.resolve(0x8000_0000..0x8000_0010)?)))
}

/// The name of the error alone.
fn name(error: &PciError) -> String {
    format!("{error}").split([' ', '{']).next().unwrap_or_default().to_string()
}

fn outcome<T>(result: PciResult<T>, fine: &str) -> String {
    result.map_or_else(|error| name(&error), |_| fine.into())
}

/// Command 2 at revision 2^64 - 2, so that the counter is at its largest; then a reset of the bus.
pub fn reset_at_largest() -> String {
    runtime::start_at([u64::MAX - 1]);
    let root = root_of(vec![function(0, 1)]).expect("a bus");
    let bdf = PciBdf::bus_zero(0);
    root.write_config(bdf, offset(4), AccessWidth::Word, 2).expect("a write");
    let reset = root.reset();
    let command = root.read_config(bdf, offset(4), AccessWidth::Word).expect("a read");
    format!("{}, command {command}", outcome(reset, "reset"))
}

/// A vendor 0xffff, and a BAR with no room.
pub fn absent_vendor_without_room() -> String {
    let function = function(0, 0xffff).with_bar(bar(0, 32)).expect("a free slot");
    outcome(root_of(vec![function]), "accepted")
}

/// Where the constructor lets a config byte be, and a second one at one offset.
pub fn config_byte_offsets() -> String {
    let allowed = |at: u16| function(0, 1).with_platform_config_byte(offset(at), 0, 0).is_ok();
    let header: Vec<u16> = (0..0x40).filter(|at| allowed(*at)).collect();
    let rest = (0x40..0x100).all(allowed);
    let once = function(0, 1).with_platform_config_byte(offset(0x40), 0, 0).expect("one");
    let twice = once.with_platform_config_byte(offset(0x40), 0, 0);
    format!("{header:x?} and from 40 {rest}; twice {}", outcome(twice, "allowed"))
}

/// One more of everything than document 01 allows.
pub fn beyond_the_limits() -> String {
    let mut many = function(0, 1);
    for id in 0..33 {
        many = many.with_capability(with_effect(id));
    }
    for at in 0..33 {
        many = many.with_platform_config_byte(offset(0xd0 + at), 0, 0).expect("a config byte");
    }
    let functions = (1..9).map(|device| function(device, 1)).chain([many]).collect();
    outcome(root_of(functions), "accepted")
}

/// Two automatic BARs, the first node on device 1 and the second on device 0.
pub fn order_of_functions() -> String {
    let node = |id, device| {
        let function = function(id, 1).with_bdf(ResourceRequest::Fixed(PciBdf::bus_zero(device)));
        (DeviceNodeId(id), function.with_bar(bar(0, 16)).expect("a free slot"))
    };
    let placed = resolve_bar_addresses(&(0..32), &BTreeMap::from([node(0, 1), node(1, 0)])).expect("room");
    let slot = PciBarIndex::new(0).expect("slot 0");
    format!("device 1 at {:#x}, device 0 at {:#x}", placed[&(DeviceNodeId(0), slot)], placed[&(DeviceNodeId(1), slot)])
}

/// A read of an effect with no endpoint bound.
pub fn effect_without_endpoint() -> String {
    let root = root_of(vec![function(0, 1).with_capability(with_effect(0))]).expect("a bus");
    outcome(root.read_config(PciBdf::bus_zero(0), offset(0x42), AccessWidth::Byte), "answered")
}

/// A read of the status with a bound endpoint that has INTx.
pub fn status_with_intx() -> String {
    let mut topology = PciTopologyBuilder::new();
    let id = DeviceNodeId(0);
    topology.add_function(function(0, 1).with_intx(PciIntxRequirement).expect("one")).expect("a function");
    topology.set_intx_route(&id, ResolvedPciIntx { pin: PciIntxPin(1), line: 0 }).expect("a route");
    let root = PciRootState::new(Arc::new(topology.resolve(0..16).expect("a topology")));
    let reservation = root.reserve_endpoint_binding(&id).expect("free");
    reservation.commit(EndpointRouteToken(DeviceId(0))).expect("bound");
    match root.prepare_read_config(PciBdf::bus_zero(0), offset(6), AccessWidth::Word) {
        Ok(PciConfigReadOutcome::DynamicStatus { value, interrupt_status_mask, .. }) => {
            format!("value {value:#x}, to be asked for bits {interrupt_status_mask:#x}")
        }
        _ => "a plain value".into(),
    }
}

pub fn device_32() -> String {
    outcome(PciBdf::new(PciSegment::new(0), 0, 32, 0), "an address")
}

/// A view of a body of one byte in images of 0x42 and 0x43 bytes.
pub fn short_images() -> String {
    let layouts = layout_capabilities(&[with_effect(0)]).expect("a layout");
    let view = |length: usize| {
        let image = vec![7; length];
        // The panic is the finding; its message is not wanted.
        let hook = std::panic::take_hook();
        std::panic::set_hook(Box::new(|_| {}));
        let view = catch_unwind(AssertUnwindSafe(|| layouts[0].snapshot(&image).bytes().to_vec()));
        std::panic::set_hook(hook);
        view.map_or("a panic".into(), |body| format!("{body:?}"))
    };
    format!("{}, {}", view(0x42), view(0x43))
}

/// How many accesses of 1 to 8 bytes, aligned or not, get the errors "multiple effects" and "crosses a boundary",
/// over every two effects in a body of six.
pub fn unreachable_errors() -> String {
    let regions: Vec<PciCapabilityEffectRegion> = (2..8)
        .flat_map(|start| (1..=8 - start).map(move |length| (start, length)))
        .filter_map(|(start, length)| {
            let id = PciConfigEffectId::new(u16::from(start) * 16 + u16::from(length));
            PciCapabilityEffectRegion::new(id, start, length, PciCapabilityEffectAccess::ReadWrite).ok()
        })
        .collect();
    let (mut asked, mut met) = (0, 0);
    for (first, second) in regions.iter().flat_map(|first| regions.iter().map(move |second| (first, second))) {
        let spec = PciCapabilitySpec::new(PciCapabilityId::new(9), vec![0; 6], vec![0; 6]).expect("a body");
        let Ok(spec) = spec.with_effect(*first).and_then(|spec| spec.with_effect(*second)) else { continue };
        let layouts = layout_capabilities(&[spec]).expect("a layout");
        for (at, size) in (0x38..0x50).flat_map(|at| (1..=8).map(move |size| (at, size))) {
            let answer = layouts[0].effect_for_access(at, size, false, AccessWidth::Dword);
            asked += 1;
            met += u32::from(matches!(answer, Err(PciError::InvalidConfigAccess { detail, .. })
                if detail.contains("multiple") || detail.contains("boundary")));
        }
    }
    format!("{met} of {asked}")
}

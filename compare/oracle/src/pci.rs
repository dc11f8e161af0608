//! Stands for src/pci/mod.rs of axdevice, which could not be had: the names that its files expect.

// The files themselves, each by its full path.
include!(concat!(env!("OUT_DIR"), "/files.rs"));
pub(crate) mod intx;
pub(crate) mod runtime;

use crate::DeviceNodeId;
use alloc::collections::BTreeMap;
use core::ops::Range;

pub(crate) use address::{ConfigOffset, PciBarIndex, PciBdf};
pub(crate) use bar::PciMemoryBar;
pub(crate) use capability::{
    PciCapabilityEffectRegion, PciCapabilityId, PciCapabilityLayout, PciCapabilitySnapshot, PciCapabilitySpec,
};
pub(crate) use error::{PciError, PciResult};
pub(crate) use function::{PciEndpointIdentity, PciFunctionSpec};
pub(crate) use intx::{PciIntxRequirement, ResolvedPciIntx};
pub(crate) use runtime::{EndpointRouteToken, PciCommandState, PciConfigReadEffect, PciConfigWriteEffect};
pub(crate) use topology::ResolvedPciTopology;

pub(crate) const FOUR_GIB: u64 = 1 << 32;

/// Opens to this crate what placement.rs opens to its parent only.
pub(crate) fn resolve_bar_addresses(
    aperture: &Range<u64>,
    functions: &BTreeMap<DeviceNodeId, PciFunctionSpec>,
) -> PciResult<BTreeMap<(DeviceNodeId, PciBarIndex), u64>> {
    placement::resolve_bar_addresses(aperture, functions)
}

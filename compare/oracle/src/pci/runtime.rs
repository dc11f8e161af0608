//! Stand-ins for runtime.rs: the command snapshot, and the route to an endpoint that is always there.

use std::{cell::RefCell, collections::VecDeque};

use super::{
    PciError, PciResult,
    capability::{PciCapabilityId, PciCapabilitySnapshot, PciConfigEffectId},
};
use crate::{AccessWidth, DeviceId};

thread_local! {
    /// Where the next functions start; 0 when empty. The counter's end is out of reach otherwise.
    static STARTS: RefCell<VecDeque<u64>> = const { RefCell::new(VecDeque::new()) };
}

/// Lets the next functions start at these revisions, in this order.
pub(crate) fn start_at(revisions: impl IntoIterator<Item = u64>) {
    STARTS.with_borrow_mut(|starts| {
        starts.clear();
        starts.extend(revisions);
    });
}

/// 64 bits from 0, as document 01 has it.
#[derive(Clone, Copy, Debug, Eq, PartialEq)]
pub(crate) struct PciCommandRevision(pub(crate) u64);

impl PciCommandRevision {
    pub(crate) fn initial() -> Self {
        Self(STARTS.with_borrow_mut(|starts| starts.pop_front().unwrap_or(0)))
    }

    pub(crate) fn next(self) -> PciResult<Self> {
        self.0.checked_add(1).map(Self).ok_or(PciError::CommandRevisionExhausted)
    }
}

#[derive(Clone, Copy, Debug, Eq, PartialEq)]
pub(crate) struct PciCommandState {
    pub(crate) memory_space_enable: bool,
    bus_master_enable: bool,
    interrupt_disable: bool,
    revision: PciCommandRevision,
}

impl PciCommandState {
    pub(crate) const fn new(memory: bool, master: bool, interrupt_disable: bool, revision: PciCommandRevision) -> Self {
        Self { memory_space_enable: memory, bus_master_enable: master, interrupt_disable, revision }
    }

    pub(crate) const fn bus_master_enable(self) -> bool {
        self.bus_master_enable
    }

    pub(crate) const fn interrupt_disable(self) -> bool {
        self.interrupt_disable
    }

    pub(crate) const fn revision(self) -> PciCommandRevision {
        self.revision
    }
}

/// An endpoint that is bound and admitted.
#[derive(Clone, Debug, Eq, PartialEq)]
pub(crate) struct EndpointRouteToken(pub(crate) DeviceId);

impl EndpointRouteToken {
    pub(crate) fn snapshot_if_admitted(&self) -> Option<Self> {
        Some(self.clone())
    }

    pub(crate) fn device_id(&self) -> DeviceId {
        self.0
    }

    pub(crate) fn binding_generation(&self) -> u64 {
        0
    }
}

pub(crate) struct PciConfigReadEffect {
    pub(crate) capability: PciCapabilityId,
    pub(crate) effect: PciConfigEffectId,
    pub(crate) offset: u8,
    pub(crate) body: PciCapabilitySnapshot,
}

impl PciConfigReadEffect {
    pub(crate) fn new(
        capability: PciCapabilityId,
        effect: PciConfigEffectId,
        offset: u8,
        _: AccessWidth,
        body: PciCapabilitySnapshot,
        _: PciCommandState,
    ) -> Self {
        Self { capability, effect, offset, body }
    }
}

pub(crate) struct PciConfigWriteEffect {
    pub(crate) read: PciConfigReadEffect,
}

impl PciConfigWriteEffect {
    pub(crate) fn new(read: PciConfigReadEffect, _: u64) -> Self {
        Self { read }
    }
}
